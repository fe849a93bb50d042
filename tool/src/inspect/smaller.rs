//! A shorter trace on which a unit differs in the same way, found by replaying on the unit.

use std::cell::RefCell;
use std::time::{Duration, Instant};

use osek_tests::cases::Case;
use osek_tests::shrink::shrink;

use super::finding::Finding;
use super::signals;
use crate::layout;

/// How long a difference is made smaller.
const TIME: Duration = Duration::from_secs(60);

/// Of a trace with at most so many events pairs are left out, too.
const PAIRS_MAX: usize = 40;

/// The finding on the shortest trace that was found; only one of the same group counts, so that what is told is what was found.
pub fn smallest(played: &Case, first: Finding, found: impl FnMut(&[u8]) -> Option<Finding>) -> Finding {
    let clock = Instant::now();
    let group = first.group.clone();
    let (best, found) = (RefCell::new(first), RefCell::new(found));
    let differs = |case: &Case| {
        if clock.elapsed() > TIME || signals::caught() {
            return false;
        }
        let finding = found.borrow_mut()(&case.trace).filter(|finding| finding.group == group);
        let is_found = finding.is_some();
        if let Some(finding) = finding {
            *best.borrow_mut() = finding;
        }
        is_found
    };
    let mut small = shrink(played, differs);
    // A body that begins and ends needs both events to go.
    while let Some(smaller) = without_a_pair(&small).into_iter().find(|case| differs(case)) {
        small = shrink(&smaller, differs);
    }
    drop(small);
    best.into_inner()
}

/// The case without two of its events, however far apart.
fn without_a_pair(case: &Case) -> Vec<Case> {
    let events = layout::trace(&case.trace).events;
    let mut fewer = Vec::new();
    if events.len() <= PAIRS_MAX {
        for first in 0..events.len() {
            for second in first + 1..events.len() {
                let kept = events.iter().enumerate().filter(|(at, _)| *at != first && *at != second);
                let trace = kept.flat_map(|(_, event)| case.trace[event.offset..event.end].to_vec()).collect();
                fewer.push(Case { trace, ..case.clone() });
            }
        }
    }
    fewer
}
