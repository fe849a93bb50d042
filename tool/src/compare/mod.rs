//! A simulator of one's own beside the reference: run on a case ([`simulator`]), the difference told ([`difference`])
//! and made small ([`reduce`]).

pub mod difference;
pub mod jobs;
pub mod library;
pub mod reduce;
pub mod simulator;
