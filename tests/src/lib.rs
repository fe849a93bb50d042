//! The host tests of the OSEK reference: independent Rust implementations of document 01 and everything that compares them
//! with the proved static library. README.md says how to run them.

pub mod by_hand;
pub mod cases;
pub mod compare;
pub mod coverage;
pub mod draw;
pub mod fast;
pub mod guard;
pub mod listing;
pub mod oil;
pub mod plain;
pub mod salvage;
pub mod shrink;
pub mod sights;
pub mod stack;
#[cfg(feature = "linked")]
pub mod subject;
pub mod triggered;
pub mod verdict;
