//! Stand-in: the tests that `mod.rs` names were not published with it.
