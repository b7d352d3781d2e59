//! The Rust as the judge: lol_html's own machine behind the calls of document 01.

include!(concat!(env!("OUT_DIR"), "/modules.rs"));

mod driver;
mod guarded;
mod parser;
mod rewriter;
mod transform_stream;

pub use crate::driver::{Block, Instruction, Judge, Prepared, compiled, nth_holds, same_name};
pub use crate::guarded::Guarded;
