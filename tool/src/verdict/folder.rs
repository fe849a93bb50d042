//! A folder of units, by the names of its files, and the verdicts on all of them at once.

use std::collections::BTreeSet;
use std::fs;
use std::path::Path;
use std::sync::atomic::{AtomicUsize, Ordering};
use std::sync::mpsc;
use std::thread;

use super::{Outcome, Unit};
use crate::failure::{self, Failure};
use crate::progress::Progress;

pub const CONFIG: &str = ".config.bin";
pub const TRACE: &str = ".trace.bin";
pub const RECORD: &str = ".record.bin";
/// The configuration of the units that have none of their own.
pub const COMMON: &str = "config.bin";

/// The units of a folder, in the order of their names.
pub fn units(folder: &str) -> Result<Vec<Unit>, Failure> {
    let path = Path::new(folder);
    let unreadable =
        |error: std::io::Error| Failure::Input(format!("{folder} can't be read: {}", failure::reason(&error)));
    let mut names = BTreeSet::new();
    for entry in fs::read_dir(path).map_err(unreadable)? {
        let file = entry.map_err(unreadable)?.file_name();
        let file = file.to_string_lossy();
        names.extend([CONFIG, TRACE, RECORD].iter().find_map(|end| file.strip_suffix(end)).map(String::from));
    }
    if names.is_empty() {
        return Err(Failure::Input(format!("{folder} holds no units: NAME{CONFIG}, NAME{TRACE}, NAME{RECORD}")));
    }
    let file = |name: String| path.join(name).display().to_string();
    let common = path.join(COMMON).exists();
    let unit = |name: String| {
        let own = file(format!("{name}{CONFIG}"));
        let config = if common && !Path::new(&own).exists() { file(COMMON.into()) } else { own };
        let (trace, record) = (file(format!("{name}{TRACE}")), file(format!("{name}{RECORD}")));
        Unit { name, inputs: vec![config, trace], record }
    };
    Ok(names.into_iter().map(unit).collect())
}

/// Judges the units, so many at once; the outcomes are in the units' order.
pub fn judge(units: &[Unit], jobs: usize) -> Vec<Outcome> {
    let next = AtomicUsize::new(0);
    let (sender, receiver) = mpsc::channel();
    let mut outcomes: Vec<Option<Outcome>> = vec![None; units.len()];
    thread::scope(|scope| {
        for _ in 0..jobs.min(units.len()) {
            let (sender, next) = (sender.clone(), &next);
            scope.spawn(move || {
                while let Some((index, unit)) = take(units, next) {
                    // The receiver lives until all have ended.
                    let _ = sender.send((index, unit.judge()));
                }
            });
        }
        drop(sender);
        let mut progress = Progress::new(units.len() as u64);
        for (done, (index, outcome)) in receiver.iter().enumerate() {
            outcomes[index] = Some(outcome);
            progress.at(done as u64 + 1);
        }
    });
    outcomes.into_iter().map(|outcome| outcome.expect("every unit is judged")).collect()
}

fn take<'a>(units: &'a [Unit], next: &AtomicUsize) -> Option<(usize, &'a Unit)> {
    let index = next.fetch_add(1, Ordering::Relaxed);
    units.get(index).map(|unit| (index, unit))
}
