//! Traces drawn by the library, as request A1 says: a start value, a weight for each event code, a limit for each sort of argument.

use crate::reference;
use crate::words::{Sort, EVENTS};

/// Who draws, for reports.
pub const BY: &str = "osek_draw, which is proved (request A1)";

/// What is drawn, beside the start value.
#[derive(Clone, PartialEq, Eq, Debug)]
pub struct Setting {
    /// By event code.
    pub weights: [u16; EVENTS.len()],
    /// Of bodies, resources, tables and delays: arguments lie below.
    pub limits: [u16; LIMITS.len()],
}

/// The sorts that have a limit, in the order of A1, with the names of their limits. A mask is drawn whole.
pub const LIMITS: [(Sort, &str); 4] =
    [(Sort::Body, "bodies"), (Sort::Resource, "resources"), (Sort::Table, "tables"), (Sort::Delay, "delays")];

/// The trace of so many events; none where the draw is refused.
pub fn trace(start: u32, setting: &Setting, events: usize) -> Option<Vec<u8>> {
    reference::draw(start, &setting.weights, &setting.limits, events as u32).ok()
}
