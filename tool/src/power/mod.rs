//! What a draw can find: planted faults in a model of a unit, and how many traces show each.

pub mod model;

use osek_tests::fast;
use osek_tests::listing::{DOCUMENT_CONFIG, DOCUMENT_TRACE};

use crate::inspect::plan::Plan;
use crate::layout;
use crate::reference::{self, Run, ANSWER_SIZE};
use model::{Fault, Model, FAULTS};

/// What the traces found of one fault.
pub struct Found {
    pub fault: &'static Fault,
    /// Traces with an answer that differs, and those in which losses alone do.
    pub by_answers: usize,
    pub by_losses: usize,
    /// Events that were played up to each find, from the one before it, in order of size.
    pub events: Vec<u64>,
    /// A unit with this fault passes the listing of document 01.
    pub passes_listing: bool,
}

impl Found {
    pub fn median(&self) -> Option<u64> {
        self.events.get(self.events.len() / 2).copied()
    }
}

/// What so many traces of a plan find.
pub struct Power {
    pub traces: u64,
    pub events: u64,
    pub found: Vec<Found>,
}

/// Where a faulty unit differs.
enum Differs {
    At(usize),
    Losses,
    Nowhere,
}

pub fn power(config: &[u8], plan: &Plan, traces: u64, mut progress: impl FnMut(u64)) -> Power {
    let drawn: Vec<Vec<u8>> = (0..traces).map(|number| plan.source(number).trace(config)).collect();
    let right: Vec<Run> = drawn.iter().map(|trace| run(config, trace)).collect();
    let mut done = 0;
    let found = FAULTS.iter().map(|fault| {
        let found = search(config, &drawn, &right, fault);
        done += 1;
        progress(done);
        found
    });
    Power { traces, events: right.iter().map(|run| run.answers.len() as u64).sum(), found: found.collect() }
}

fn run(config: &[u8], trace: &[u8]) -> Run {
    match reference::run(config, trace) {
        Ok(run) => run,
        Err(refused) => unreachable!("a drawn trace is refused: {}", refused.line()),
    }
}

fn search(config: &[u8], drawn: &[Vec<u8>], right: &[Run], fault: &'static Fault) -> Found {
    let passes_listing = !matches!(
        differs(&DOCUMENT_CONFIG, &DOCUMENT_TRACE, &run(&DOCUMENT_CONFIG, &DOCUMENT_TRACE), fault),
        Differs::At(_)
    );
    let mut found = Found { fault, by_answers: 0, by_losses: 0, events: Vec::new(), passes_listing };
    let mut played = 0;
    for (trace, right) in drawn.iter().zip(right) {
        match differs(config, trace, right, fault) {
            Differs::At(event) => {
                found.by_answers += 1;
                found.events.push(played + event as u64 + 1);
                played = 0;
            }
            Differs::Losses => {
                found.by_losses += 1;
                found.events.push(played + right.answers.len() as u64);
                played = 0;
            }
            Differs::Nowhere => played += right.answers.len() as u64,
        }
    }
    found.events.sort_unstable();
    found
}

fn differs(config: &[u8], trace: &[u8], right: &Run, fault: &Fault) -> Differs {
    let objects = layout::config(config).objects;
    let mut model = Model::fresh(&objects, fault.name);
    let mut at = 0;
    for (event, answer) in right.answers.iter().enumerate() {
        let Ok((call, next)) = fast::read_event(trace, at) else { unreachable!("the trace is accepted") };
        at = next;
        let given = model.step(call);
        debug_assert_eq!(given.len(), ANSWER_SIZE);
        if Run::of(&given, 1).answers[0] != *answer {
            return Differs::At(event);
        }
    }
    if model.losses() == right.losses {
        Differs::Nowhere
    } else {
        Differs::Losses
    }
}

#[cfg(test)]
mod tests {
    use super::*;
    use osek_tests::cases;

    #[test]
    fn without_a_fault_the_model_is_the_reference() {
        let none = Fault { name: "", what: "" };
        let mut played = 0;
        for case in (0..1_500).map(|number| cases::case(11, number)) {
            let Ok(right) = reference::run(&case.config, &case.trace) else { continue };
            let same = matches!(differs(&case.config, &case.trace, &right, &none), Differs::Nowhere);
            assert!(same, "{:?}", case);
            played += right.answers.len();
        }
        assert!(played > 50_000, "{played}");
    }

    /// Every fault of the catalogue shows on some drawn case: none is a name alone.
    #[test]
    fn every_fault_shows() {
        let mut left: Vec<&Fault> = FAULTS.iter().collect();
        for case in (0..4_000).map(|number| cases::case(12, number)) {
            let Ok(right) = reference::run(&case.config, &case.trace) else { continue };
            left.retain(|fault| matches!(differs(&case.config, &case.trace, &right, fault), Differs::Nowhere));
        }
        let names: Vec<&str> = left.iter().map(|fault| fault.name).collect();
        assert_eq!(names, Vec::<&str>::new());
    }
}
