//! Makes the trace of a differing case as short as it can while the difference stays.

use crate::cases::Case;
use crate::fast;

/// The trace's events as byte strings; from the first one that can't be read on, single bytes.
fn pieces(trace: &[u8]) -> Vec<Vec<u8>> {
    let mut pieces = Vec::new();
    let mut at = 0;
    while let Ok((_, next)) = fast::read_event(trace, at) {
        pieces.push(trace[at..next].to_vec());
        at = next;
    }
    pieces.extend(trace[at..].iter().map(|byte| vec![*byte]));
    pieces
}

/// A case that differs as `case` does, and of whose trace no single event can be left out.
pub fn shrink(case: &Case, differs: impl Fn(&Case) -> bool) -> Case {
    let with = |pieces: &[Vec<u8>]| Case { trace: pieces.concat(), ..case.clone() };
    with(&fewest(pieces(&case.trace), |pieces| differs(&with(pieces))))
}

/// Some of `all`, in order, that `differ` as all do, and of which none can be left out.
pub fn fewest<T: Clone>(all: Vec<T>, differ: impl Fn(&[T]) -> bool) -> Vec<T> {
    let mut best = all;
    let mut size = best.len().div_ceil(2);
    while size > 0 {
        let mut removed = false;
        // From the end: what comes after the difference goes first.
        let mut end = best.len();
        while end > 0 {
            let start = end.saturating_sub(size);
            let mut fewer = best.clone();
            fewer.drain(start..end);
            if differ(&fewer) {
                best = fewer;
                removed = true;
            }
            end = start;
        }
        // Single ones are tried until none can go.
        if size > 1 || !removed {
            size /= 2;
        }
    }
    best
}

#[cfg(test)]
mod tests {
    use super::*;

    #[test]
    fn only_the_events_that_matter_remain() {
        let trace = [6, 6, 1, 5, 6, 2, 6, 7, 200, 1, 6, 6].to_vec();
        let case = Case { config: vec![], trace, out_len: 0, fill: 0 };
        let shrunk = shrink(&case, |case| {
            let pieces = pieces(&case.trace);
            let at = pieces.iter().position(|piece| *piece == [1, 5]);
            at.is_some_and(|at| pieces[at..].contains(&vec![7, 200, 1]))
        });
        assert_eq!(shrunk.trace, [1, 5, 7, 200, 1]);
    }
}
