//! The reference, written from the rule paper alone and sharing no code with the program that it judges.

pub mod arbiter;
pub mod arbiter_refusals;
pub mod calls;
pub mod log;
pub mod model;
pub mod refusals;
pub mod replay;
