//! Listings worked by hand, shown by every implementation.

use crate::cases::{push_number, Case};
use crate::compare::{check, others};
use crate::fast::{read_number, OUTPUT_MAX};
use crate::guard::GuardedRun;
use crate::listing::listing;

/// What every implementation gives, as a listing.
pub fn shown(config: &[u8], trace: &[u8]) -> String {
    let case = Case { config: config.to_vec(), trace: trace.to_vec(), out_len: OUTPUT_MAX, fill: 77 };
    match check(&case, &others(), &mut GuardedRun::default()) {
        Ok((result, out)) => listing(config, trace, result, &out),
        Err(difference) => panic!("{difference}"),
    }
}

/// Every implementation gives these rows, and nothing else below the header.
#[track_caller]
pub fn assert_rows(config: &[u8], trace: &[u8], rows: &str) {
    let rows: String = rows.lines().map(|row| format!("{}\n", row.trim())).collect();
    assert_eq!(shown(config, trace), format!("step event status runner level begun\n{rows}"));
}

#[track_caller]
pub fn assert_refused(config: &[u8], trace: &[u8], code: u32, place: usize) {
    assert_eq!(shown(config, trace), format!("refused {code} {place}\n"));
}

/// A number's bytes.
pub fn number(value: u32) -> Vec<u8> {
    let mut bytes = Vec::new();
    push_number(&mut bytes, value);
    bytes
}

/// The same configuration in version 3, with these deadlines of its bodies.
pub fn with_deadlines(config: &[u8], deadlines: &[u32]) -> Vec<u8> {
    assert_eq!(deadlines.len(), usize::from(config[1]), "a deadline for each body");
    let mut bytes = vec![3, config[1]];
    let mut at = 2;
    for deadline in deadlines {
        let body = at;
        for _ in ["kind", "priority", "autostart"] {
            at = read_number(config, at).expect("the body is whole").1;
        }
        bytes.extend(&config[body..at]);
        push_number(&mut bytes, *deadline);
    }
    bytes.extend(&config[at..]);
    bytes
}

/// A trace and its rows, written side by side.
#[derive(Default)]
pub struct Script {
    trace: Vec<u8>,
    rows: Vec<String>,
}

impl Script {
    /// An event and what it gives: status, runner, level, begun mark.
    pub fn event(&mut self, event: &[u8], status: u8, runner: &str, level: u8, begun: u8) {
        self.rows.push(format!("{} {} {status} {runner} {level} {begun}", self.rows.len(), event[0]));
        self.trace.extend(event);
    }

    /// Ticks at which nobody begins and the runner stays.
    pub fn ticks(&mut self, count: usize, runner: &str, level: u8) {
        for _ in 0..count {
            self.event(&[6], 0, runner, level, 0);
        }
    }

    /// What a body lost, after all events.
    pub fn lost(&mut self, body: u8, count: u16) {
        self.rows.push(format!("lost {body} {count}"));
    }

    #[track_caller]
    pub fn assert(&self, config: &[u8]) {
        assert_rows(config, &self.trace, &self.rows.join("\n"));
    }
}
