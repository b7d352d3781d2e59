//! Stand-in for lol_html's rewriter: a type that `base/mod.rs` names and nothing here uses.

pub(crate) struct AsciiCompatibleEncoding;
