//! Stand-in: selector text is not read here, so there is nothing to go wrong in it.

pub enum SelectorError {}
