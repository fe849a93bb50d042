//! What traces have shown of a configuration: statuses of events and situations, and which of them it can never show.

use osek_tests::cases::Case;
use osek_tests::coverage::{self, Coverage, STATUSES};
use osek_tests::fast::{self, OUTPUT_MAX};
use osek_tests::{sights, subject};

use crate::words;

/// One thing that traces may show.
pub struct Row {
    pub what: String,
    pub times: u64,
    /// Why this configuration can never show it.
    pub never: Option<&'static str>,
}

/// The traces of one configuration.
pub struct Shown {
    bytes: Vec<u8>,
    config: fast::Config,
    coverage: Coverage,
}

impl Shown {
    /// Of an accepted configuration.
    pub fn of(config: &[u8]) -> Option<Shown> {
        let read = fast::read_config(config).ok()?;
        Some(Shown { bytes: config.to_vec(), config: read, coverage: Coverage::default() })
    }

    /// Adds a trace; false if it is refused.
    pub fn add(&mut self, trace: &[u8]) -> bool {
        let case = Case { config: self.bytes.clone(), trace: trace.to_vec(), out_len: OUTPUT_MAX, fill: 0 };
        let mut out = vec![0; OUTPUT_MAX];
        let result = subject::run(&case.config, &case.trace, &mut out);
        let accepted = result >> 32 == 0;
        if accepted {
            self.coverage.add(&case, result, &out);
        }
        accepted
    }

    pub fn events(&self) -> u64 {
        self.coverage.events
    }

    /// Every status of every event.
    pub fn statuses(&self) -> Vec<Row> {
        let of_event = |(code, name, statuses): &(u8, &'static str, &'static [u8])| {
            let (code, name) = (*code, *name);
            statuses.iter().map(move |status| (code, name, *status)).collect::<Vec<_>>()
        };
        let row = |(code, name, status): (u8, &str, u8)| Row {
            what: format!("{name}: {}", words::status_words(status)),
            times: self.coverage.count(name, status),
            never: coverage::never_given(&self.config, code, status),
        };
        STATUSES.iter().flat_map(of_event).map(row).collect()
    }

    /// Every situation.
    pub fn situations(&self) -> Vec<Row> {
        let row = |sight: &'static str| Row {
            what: sight.into(),
            times: self.coverage.seen(sight),
            never: sights::never(&self.config, sight),
        };
        sights::sights().map(row).collect()
    }
}

/// How many were shown, of how many that can be.
pub fn counts(rows: &[Row]) -> (usize, usize) {
    let shown = rows.iter().filter(|row| row.times > 0).count();
    (shown, rows.iter().filter(|row| row.never.is_none()).count())
}

/// What was not shown and can be; what can never be, with its reason.
pub fn gaps(rows: &[Row]) -> (Vec<&Row>, Vec<&Row>) {
    rows.iter().filter(|row| row.times == 0).partition(|row| row.never.is_none())
}
