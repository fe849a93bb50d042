//! The pictures of a run: who is in which state when, at which time.

pub mod html;
pub mod svg;
pub mod trace_events;
pub mod vcd;

use crate::history::History;

/// The length of a tick in pictures that have a time, in nanoseconds.
const TICK: u64 = 1_000_000;

/// When each step happens, then the end. The n-th tick is at n times its length; the events between two ticks are
/// spread evenly.
pub fn times(history: &History) -> Vec<u64> {
    let steps = &history.steps;
    let mut times = Vec::with_capacity(steps.len() + 1);
    let mut first = 0;
    let mut tick = 0;
    while first < steps.len() {
        tick = steps[first].tick;
        let together = steps[first..].iter().take_while(|step| step.tick == tick).count() as u64;
        // Before the first tick the fresh start takes the first place.
        let shift = u64::from(tick == 0);
        let places = together + shift;
        times.extend((0..together).map(|place| u64::from(tick) * TICK + (place + shift) * TICK / places));
        first += together as usize;
    }
    times.push((u64::from(tick) + 1) * TICK);
    times
}
