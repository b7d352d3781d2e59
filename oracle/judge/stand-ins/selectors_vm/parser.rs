//! Stand-in: the types that `ast.rs` names for selectors parsed from text. None is ever made: sheets take their place.

use selectors::parser::{SelectorImpl, SelectorList};

#[derive(Clone, Debug)]
pub(crate) struct SelectorImplDescriptor;

#[derive(Clone, Debug)]
pub struct CssString(Box<str>);

impl CssString {
    pub fn to_boxed_slice(&self) -> Box<str> {
        self.0.clone()
    }
}

impl SelectorImpl for SelectorImplDescriptor {
    type Text = CssString;
}

pub struct Selector(pub(crate) SelectorList<SelectorImplDescriptor>);
