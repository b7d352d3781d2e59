//! Stand-in for lol_html's dispatcher: what it hands to a machine that waits for attributes.

use crate::base::Bytes;
use crate::parser::AttributeBuffer;

pub(crate) struct AuxStartTagInfo<'i> {
    pub input: &'i Bytes<'i>,
    pub attr_buffer: &'i AttributeBuffer,
    pub self_closing: bool,
}
