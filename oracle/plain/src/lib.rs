//! Document 01 in plain Rust, written from the document and its readings. Nothing is compiled and nothing is fast.

pub mod damage;
pub mod fault;
pub mod generator;
pub mod machine;
pub mod model;
pub mod program;
pub mod random;
pub mod rules;
pub mod sheet;
mod show;
pub mod shrink;
pub mod trace;

pub use crate::fault::Fault;
pub use crate::generator::{Case, Family};
pub use crate::machine::{Answer, Machine, Outlined};
pub use crate::model::Model;
pub use crate::sheet::{Refusal, Sheet};
pub use crate::trace::Record;
