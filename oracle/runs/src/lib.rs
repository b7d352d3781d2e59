//! What the comparisons share: who answers, what is counted, and the vectors' files.

pub mod arguments;
pub mod figures;
pub mod hex;
pub mod json;
pub mod library;
pub mod side;

pub use crate::figures::Figures;
pub use crate::json::Json;
pub use crate::side::Side;
