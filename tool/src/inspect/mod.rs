//! The inspection: traces are drawn ([`plan`]), played on a unit, judged ([`verdict`]), and a report is filed ([`report`]).

pub mod draw;
pub mod finding;
pub mod plan;
pub mod report;
pub mod setting;
pub mod signals;
mod smaller;
pub mod verdict;

use std::time::{Duration, Instant, SystemTime};

use osek_tests::cases::Case;
use osek_tests::fast::OUTPUT_MAX;

use crate::coverage::Shown;
use crate::failure::Failure;
use crate::input::Config;
use crate::progress::Progress;
use crate::unit::{Unit, Way};
use crate::words;
use finding::Finding;
use plan::{Plan, Source};

/// What is asked for.
pub struct Order {
    pub config: Config,
    pub command: String,
    pub plan: Plan,
    pub seed_given: bool,
    pub traces: u64,
    pub way: Way,
    pub timeout: Duration,
    pub keep_going: bool,
    pub shrink: bool,
}

/// A trace that was played.
pub struct Trace {
    pub number: u64,
    pub source: Source,
    pub bytes: usize,
    pub events: usize,
    /// The place of its difference among all of them.
    pub difference: Option<usize>,
}

/// A trace on which the unit differs: as it was played, and what was found.
pub struct Difference {
    pub number: u64,
    pub played: Case,
    /// On the smallest trace that was tried, the one played if none smaller differs.
    pub finding: Finding,
}

/// What came of it.
pub struct Inspection {
    pub order: Order,
    pub unit: String,
    pub begun: SystemTime,
    pub took: Duration,
    /// Of that, playing traces once each.
    playing: Duration,
    pub traces: Vec<Trace>,
    pub differences: Vec<Difference>,
    pub shown: Shown,
    pub interrupted: bool,
}

impl Inspection {
    pub fn events(&self) -> u64 {
        self.shown.events()
    }

    pub fn events_a_second(&self) -> u64 {
        (self.events() as f64 / self.playing.as_secs_f64().max(0.001)) as u64
    }
}

/// Plays what is asked for, up to the first difference or to the end.
pub fn inspect(order: Order) -> Result<Inspection, Failure> {
    signals::watch();
    let config = order.config.source.bytes.clone();
    let shown = Shown::of(&config).expect("the configuration is accepted");
    let mut unit = Unit::start(&order.command, &[], order.timeout)?;
    let clock = Instant::now();
    let mut progress = Progress::new(order.traces);
    let mut inspection = Inspection {
        unit: unit.name().to_string(),
        begun: SystemTime::now(),
        took: Duration::ZERO,
        playing: Duration::ZERO,
        traces: Vec::new(),
        differences: Vec::new(),
        shown,
        interrupted: false,
        order,
    };
    for number in 0..inspection.order.traces {
        if signals::caught() {
            inspection.interrupted = true;
            break;
        }
        let source = inspection.order.plan.source(number);
        let trace = source.trace(&config);
        let (difference, playing) = one(&mut unit, &inspection.order, number, &config, &trace);
        inspection.playing += playing;
        let before = inspection.events();
        inspection.shown.add(&trace);
        let events = (inspection.events() - before) as usize;
        let place = difference.is_some().then_some(inspection.differences.len());
        inspection.traces.push(Trace { number, source, bytes: trace.len(), events, difference: place });
        inspection.differences.extend(difference);
        inspection.took = clock.elapsed();
        let rate = words::grouped(inspection.events_a_second());
        progress.at_with(number + 1, &format!("{rate} events a second"));
        if place.is_some() && !inspection.order.keep_going {
            break;
        }
    }
    Ok(inspection)
}

/// Plays one trace: its difference, made small where that is asked for, and the time of playing it once.
fn one(unit: &mut Unit, order: &Order, number: u64, config: &[u8], trace: &[u8]) -> (Option<Difference>, Duration) {
    let names = &order.config.names;
    let mut found = |trace: &[u8]| Finding::of(names, config, trace, unit.play(config, trace, order.way));
    let clock = Instant::now();
    let first = found(trace);
    let playing = clock.elapsed();
    let difference = first.map(|first| {
        let played = Case { config: config.to_vec(), trace: trace.to_vec(), out_len: OUTPUT_MAX, fill: 0 };
        let finding = if order.shrink { smaller::smallest(&played, first, found) } else { first };
        Difference { number, played, finding }
    });
    (difference, playing)
}
