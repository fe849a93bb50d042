//! What a set of runs has shown: every refusal of the run, every status of every event, every body begun at once, every
//! resource held at once, and what [`sights`] lists.

use std::collections::BTreeMap;
use std::fmt;

use crate::cases::Case;
use crate::fast::{self, BODIES_MAX, IDLE, RESOURCES_MAX};
use crate::sights::{sights, Watch};

/// The run's refusals.
pub const REFUSALS: [u32; 17] = [1, 2, 3, 4, 5, 6, 7, 8, 9, 10, 13, 14, 20, 21, 22, 23, 30];

/// Event codes with their names and the statuses the documents give them.
pub const STATUSES: [(u8, &str, &[u8]); 12] = [
    (1, "Activate", &[0, 2, 3, 4]),
    (2, "Finish", &[0, 2, 6]),
    (3, "Chain", &[0, 2, 3, 6, 4]),
    (4, "Get", &[0, 2, 3, 33, 1]),
    (5, "Release", &[0, 2, 3, 5]),
    (6, "Tick", &[0]),
    (7, "Line", &[0, 3, 4]),
    (8, "Start", &[0, 2, 3, 8, 7]),
    (9, "Stop", &[0, 2, 3, 5]),
    (10, "Wait", &[0, 2, 1, 6]),
    (11, "Set", &[0, 2, 3, 1, 7]),
    (12, "Clear", &[0, 2, 1]),
];

#[derive(Clone, Default)]
pub struct Coverage {
    pub cases: u64,
    pub accepted: u64,
    /// Accepted cases of each version.
    pub versions: [u64; fast::VERSION_MAX as usize],
    pub events: u64,
    refusals: [u64; 31],
    /// By event and place of the status in its row of [`STATUSES`].
    statuses: [[u64; 5]; STATUSES.len()],
    /// By event: how often a body began.
    begun: [u64; STATUSES.len()],
    idle: u64,
    /// Losses in all accepted runs, and the greatest one.
    losses: u64,
    greatest_loss: u16,
    exact_output: u64,
    longest_trace: usize,
    /// The most bodies that had begun at once, and the most resources held at once.
    most_begun: usize,
    most_held: usize,
    /// How often each of [`sights`] was seen.
    sights: BTreeMap<&'static str, u64>,
}

/// Why a configuration can never give a status for an event; none where nothing speaks against it.
pub fn never_given(config: &fast::Config, code: u8, status: u8) -> Option<&'static str> {
    let bodies = || 0..config.bodies() as u32;
    let resources = || 0..config.resources() as u32;
    let isr = bodies().any(|body| config.is_isr(body));
    let extended = bodies().any(|body| config.is_extended(body));
    let others = bodies().any(|body| !config.is_extended(body) && !config.is_timed(body));
    let task = bodies().any(|body| config.is_osek_task(body));
    let stranger = |body: u32| !config.is_timed(body) && resources().any(|resource| !config.is_user(body, resource));
    let wanted: &[(bool, &'static str)] = match (code, status) {
        (1, 0 | 4) | (3, 0) => &[(task, "no task")],
        (3, 4) => &[(bodies().filter(|body| config.is_osek_task(*body)).count() > 1, "fewer than two tasks")],
        (2 | 3, 6) | (4, 0 | 1) | (5, 0 | 5) => &[(config.resources() > 0, "no resource")],
        (4, 33) => &[(bodies().any(stranger), "every body is a user of every resource")],
        (7, 0 | 4) => &[(isr, "no ISR")],
        (8, 0 | 8 | 7) | (9, 0 | 5) => &[(config.tables() > 0, "no table")],
        (10 | 11, 0) | (11, 7) | (12, 0) => &[(extended, "no extended task")],
        (10, 6) => &[(extended, "no extended task"), (config.resources() > 0, "no resource")],
        (10 | 12, 1) => &[(others, "every body is an extended task")],
        (11, 1) => {
            &[(bodies().any(|body| config.is_task(body) && !config.is_extended(body)), "every task is extended")]
        }
        _ => &[],
    };
    wanted.iter().find(|(met, _)| !met).map(|(_, reason)| *reason)
}

impl Coverage {
    /// Counts a case and the answer to it.
    pub fn add(&mut self, case: &Case, result: u64, out: &[u8]) {
        self.cases += 1;
        let refusal = (result >> 32) as usize;
        self.refusals[refusal] += 1;
        if refusal != 0 {
            return;
        }
        self.accepted += 1;
        self.longest_trace = self.longest_trace.max(case.trace.len());
        let events = result as usize;
        self.events += events as u64;
        let config = fast::read_config(&case.config).expect("the run accepted the configuration");
        self.versions[config.version() as usize - 1] += 1;
        let mut watch = Watch::of(&config);
        let mut at = 0;
        for answer in out.chunks_exact(4).take(events) {
            let row = usize::from(case.trace[at]) - 1;
            let (event, next) = fast::read_event(&case.trace, at).expect("the run accepted the trace");
            at = next;
            watch.step(event, answer[0], |sight| *self.sights.entry(sight).or_default() += 1);
            self.most_begun = self.most_begun.max(watch.kernel.begun_bodies());
            self.most_held = self.most_held.max(watch.kernel.held_resources());
            let place = STATUSES[row].2.iter().position(|status| *status == answer[0]);
            self.statuses[row][place.expect("the event has this status")] += 1;
            self.begun[row] += u64::from(answer[3]);
            self.idle += u64::from(answer[1] == IDLE);
        }
        let bodies = usize::from(case.config[1]);
        for loss in out[4 * events..4 * events + 2 * bodies].chunks_exact(2) {
            let loss = u16::from_le_bytes([loss[0], loss[1]]);
            self.losses += u64::from(loss);
            self.greatest_loss = self.greatest_loss.max(loss);
        }
        self.exact_output += u64::from(case.out_len == 4 * events + 2 * bodies);
    }

    pub fn merge(&mut self, other: &Coverage) {
        self.cases += other.cases;
        self.accepted += other.accepted;
        for (mine, others) in self.versions.iter_mut().zip(other.versions) {
            *mine += others;
        }
        self.events += other.events;
        for (mine, others) in self.refusals.iter_mut().zip(other.refusals) {
            *mine += others;
        }
        for (mine, others) in self.statuses.iter_mut().flatten().zip(other.statuses.iter().flatten()) {
            *mine += others;
        }
        for (mine, others) in self.begun.iter_mut().zip(other.begun) {
            *mine += others;
        }
        self.idle += other.idle;
        self.losses += other.losses;
        self.greatest_loss = self.greatest_loss.max(other.greatest_loss);
        self.exact_output += other.exact_output;
        self.longest_trace = self.longest_trace.max(other.longest_trace);
        self.most_begun = self.most_begun.max(other.most_begun);
        self.most_held = self.most_held.max(other.most_held);
        for (sight, count) in &other.sights {
            *self.sights.entry(sight).or_default() += count;
        }
    }

    /// How often a case was refused so.
    pub fn refused(&self, refusal: u32) -> u64 {
        self.refusals[refusal as usize]
    }

    /// How often one of [`sights`] was seen.
    pub fn seen(&self, sight: &str) -> u64 {
        self.sights.get(sight).copied().unwrap_or(0)
    }

    /// How often an event gave a status.
    pub fn count(&self, event: &str, status: u8) -> u64 {
        let seen = STATUSES.iter().zip(&self.statuses).filter(|((_, name, _), _)| *name == event);
        let of_status = |((_, _, statuses), counts): (&(u8, &str, &[u8]), &[u64; 5])| {
            statuses.iter().zip(counts).filter(|(other, _)| **other == status).map(|(_, count)| *count).sum::<u64>()
        };
        seen.map(of_status).sum()
    }

    /// What has not occurred and should have; empty if nothing is missing.
    pub fn missing(&self) -> Vec<String> {
        let mut missing = Vec::new();
        for refusal in REFUSALS {
            if self.refusals[refusal as usize] == 0 {
                missing.push(format!("refusal {refusal}"));
            }
        }
        for ((_, name, statuses), counts) in STATUSES.iter().zip(&self.statuses) {
            for (status, count) in statuses.iter().zip(counts) {
                if *count == 0 {
                    missing.push(format!("status {status} of {name}"));
                }
            }
        }
        missing.extend(sights().filter(|sight| self.seen(sight) == 0).map(|sight| sight.to_string()));
        if self.most_begun < BODIES_MAX {
            missing.push(format!("more than {} bodies begun at once", self.most_begun));
        }
        if self.most_held < RESOURCES_MAX {
            missing.push(format!("more than {} resources held at once", self.most_held));
        }
        missing
    }

    /// Calls that succeed, in percent of all events that can fail.
    pub fn success_percent(&self) -> u64 {
        let fallible = STATUSES.iter().zip(&self.statuses).filter(|((_, _, statuses), _)| statuses.len() > 1);
        let (mut done, mut all) = (0, 0);
        for (_, counts) in fallible {
            done += counts[0];
            all += counts.iter().sum::<u64>();
        }
        100 * done / all.max(1)
    }
}

impl fmt::Display for Coverage {
    fn fmt(&self, f: &mut fmt::Formatter) -> fmt::Result {
        let [first, second, third] = self.versions;
        writeln!(
            f,
            "{} cases, {} accepted ({first} of version 1, {second} of 2, {third} of 3), {} events",
            self.cases, self.accepted, self.events
        )?;
        write!(f, "refusals")?;
        for refusal in REFUSALS {
            write!(f, "  {refusal}: {}", self.refusals[refusal as usize])?;
        }
        writeln!(f)?;
        for (row, (_, name, statuses)) in STATUSES.iter().enumerate() {
            write!(f, "{name:<9}")?;
            for (status, count) in statuses.iter().zip(self.statuses[row]) {
                write!(f, "  {status}: {count}")?;
            }
            writeln!(f, "  begun: {}", self.begun[row])?;
        }
        for sight in sights() {
            writeln!(f, "{sight}: {}", self.seen(sight))?;
        }
        writeln!(
            f,
            "calls that succeed: {} %, events that leave nobody running: {} %, lost activations: {} (greatest {})",
            self.success_percent(),
            100 * self.idle / self.events.max(1),
            self.losses,
            self.greatest_loss
        )?;
        writeln!(
            f,
            "longest accepted trace: {} bytes, outputs of exactly the needed length: {}",
            self.longest_trace, self.exact_output
        )?;
        write!(f, "most bodies begun at once: {}, most resources held at once: {}", self.most_begun, self.most_held)
    }
}

#[cfg(test)]
mod tests {
    use super::*;
    use crate::fast::{Cells, OUTPUT_MAX};
    use crate::sights;

    /// What a configuration is said never to show is shown by none of its drawn runs, and is said of every sight at times.
    #[test]
    fn what_can_never_be_shown_is_not() {
        let mut barred = BTreeMap::<&str, u64>::new();
        for case in (0..6_000).map(|number| crate::cases::case(5, number)) {
            let mut out = vec![0; OUTPUT_MAX];
            let events = fast::run::<Cells>(&case.config, &case.trace, &mut out);
            let Ok(config) = fast::read_config(&case.config) else { continue };
            for sight in sights::sights().filter(|sight| sights::never(&config, sight).is_some()) {
                *barred.entry(sight).or_default() += 1;
            }
            if events >> 32 != 0 {
                continue;
            }
            let mut watch = Watch::of(&config);
            let mut at = 0;
            for answer in out.chunks_exact(4).take(events as usize) {
                let code = case.trace[at];
                let (event, next) = fast::read_event(&case.trace, at).expect("the run accepted the trace");
                at = next;
                assert_eq!(never_given(&config, code, answer[0]), None, "status {} of {code}", answer[0]);
                watch.step(event, answer[0], |sight| assert_eq!(sights::never(&config, sight), None, "{sight}"));
            }
        }
        let free: Vec<&str> = sights::sights().filter(|sight| !barred.contains_key(sight)).collect();
        assert_eq!(free, Vec::<&str>::new());
    }
}
