//! What the tools share: the notation for runs, random logs and random calls, the five conditions, how a program is held
//! against what it must print, and how a difference is made small.

pub mod arbiter_generator;
pub mod conditions;
pub mod generator;
pub mod holding;
pub mod notation;
pub mod printed;
pub mod programs;
pub mod progress;
pub mod random;
pub mod random_logs;
pub mod rows;
pub mod words;
pub mod written;
