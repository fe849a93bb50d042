//! Cases dealt out to several simulators at once, each in a thread of its own.

use std::ops::Range;
use std::sync::atomic::{AtomicU64, Ordering};
use std::sync::{Mutex, PoisonError};
use std::thread;

use osek_tests::cases::Case;

use super::difference::Expected;
use super::simulator::Simulator;
use crate::failure::Failure;
use crate::progress::Progress;

/// What came of the cases.
pub struct Dealt {
    /// Those that differ, in order, each with the sort of its difference: the first, or all. No later one counts,
    /// however many run at once.
    pub different: Vec<(u64, String)>,
    /// Of the cases before it, or of all, those that the reference accepts.
    pub accepted: u64,
}

/// Compares cases up to the first difference, or through all.
pub fn compare(
    numbers: Range<u64>,
    jobs: u64,
    keep_going: bool,
    draw: impl Fn(u64) -> Case + Sync,
    simulator: impl Fn() -> Result<Simulator, Failure> + Sync,
) -> Result<Dealt, Failure> {
    let next = AtomicU64::new(numbers.start);
    let first = AtomicU64::new(u64::MAX);
    let different = Mutex::new(Vec::new());
    let accepted = AtomicU64::new(0);
    let progress = Mutex::new(Progress::new(numbers.end - numbers.start));
    let work = || -> Result<(), Failure> {
        let simulator = simulator()?;
        loop {
            let number = next.fetch_add(1, Ordering::Relaxed);
            if number >= numbers.end.min(first.load(Ordering::Relaxed)) {
                return Ok(());
            }
            let case = draw(number);
            let expected = Expected::of(&case);
            let is_accepted = expected.outcome.is_ok();
            if is_accepted || simulator.takes_refused() {
                if let Some(difference) = expected.difference(&simulator.run(&case)?) {
                    if !keep_going {
                        first.fetch_min(number, Ordering::Relaxed);
                    }
                    different.lock().unwrap_or_else(PoisonError::into_inner).push((number, difference.sort));
                }
            }
            accepted.fetch_add(u64::from(is_accepted), Ordering::Relaxed);
            if let Ok(mut progress) = progress.lock() {
                progress.at(number - numbers.start + 1);
            }
        }
    };
    thread::scope(|scope| {
        let threads: Vec<_> = (0..jobs).map(|_| scope.spawn(work)).collect();
        threads
            .into_iter()
            .try_for_each(|thread| thread.join().unwrap_or_else(|panic| std::panic::resume_unwind(panic)))
    })?;
    let mut different = different.into_inner().unwrap_or_else(PoisonError::into_inner);
    different.sort();
    if !keep_going {
        different.truncate(1);
    }
    Ok(Dealt { different, accepted: accepted.into_inner() })
}
