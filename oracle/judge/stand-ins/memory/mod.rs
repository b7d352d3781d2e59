//! Stand-in: the two files of this module that the machine uses.

mod limited_vec;
mod limiter;

pub(crate) use self::limited_vec::LimitedVec;
pub(crate) use self::limiter::{MemoryLimitExceededError, SharedMemoryLimiter};
