//! Stand-in for lol_html's tokenizer: where an attribute's name and value lie in the tag's bytes.

use crate::base::Range;

#[derive(Clone, Copy)]
pub(crate) struct AttributeOutline {
    pub name: Range,
    pub value: Range,
}

pub(crate) type AttributeBuffer = Vec<AttributeOutline>;
