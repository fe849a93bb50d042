//! The report of an inspection: what it says ([`Report`]), and its four forms.

mod date;
pub mod html;
pub mod json;
pub mod junit;
pub mod text;

use super::finding::Finding;
use super::plan::{Kinds, Source};
use super::{draw, setting, verdict, Difference, Inspection};
use crate::coverage::Row;
use crate::history::History;
use crate::layout;
use crate::names::Names;
use crate::reference::Answer;
use crate::text::dump;
use crate::timeline::svg;
use crate::unit::{self, Way};
use crate::why::{self, Why};
use crate::words::{self, counted, grouped};

/// How an inspection ended.
#[derive(Clone, Copy, PartialEq, Eq, Debug)]
pub enum Result {
    Pass,
    Differs,
    /// Before its end, with no difference so far.
    Interrupted,
}

impl Result {
    pub fn word(self) -> &'static str {
        match self {
            Result::Pass => "pass",
            Result::Differs => "differs",
            Result::Interrupted => "interrupted",
        }
    }
}

/// An inspection, put into words.
pub struct Report {
    pub inspection: Inspection,
    pub result: Result,
    /// The verdict in a sentence.
    pub sentence: String,
    /// Names and values of what was inspected, with what, how.
    pub facts: Vec<(&'static str, String)>,
    pub statuses: Vec<Row>,
    pub situations: Vec<Row>,
    /// What differs, and the places of the differences that do so.
    pub groups: Vec<(String, Vec<usize>)>,
}

/// The library's version, as its header has it.
fn library_version() -> &'static str {
    const HEADER: &str = include_str!("../../../../include/osek.h");
    HEADER.split("#define OSEK_VERSION \"").nth(1).and_then(|rest| rest.split('"').next()).unwrap_or("unknown")
}

/// Said in every report.
pub const LOSSES_APART: &str =
    "The verdict of request A14 does not look at losses: a unit that miscounts them alone passes it. They were \
compared besides.";

impl Report {
    pub fn of(inspection: Inspection) -> Report {
        let result = match (inspection.differences.is_empty(), inspection.interrupted) {
            (false, _) => Result::Differs,
            (true, true) => Result::Interrupted,
            (true, false) => Result::Pass,
        };
        let mut groups: Vec<(String, Vec<usize>)> = Vec::new();
        for (place, difference) in inspection.differences.iter().enumerate() {
            let group = &difference.finding.group;
            match groups.iter_mut().find(|(known, _)| known == group) {
                Some((_, places)) => places.push(place),
                None => groups.push((group.clone(), vec![place])),
            }
        }
        Report {
            result,
            sentence: sentence(&inspection, result, groups.len()),
            facts: facts(&inspection),
            statuses: inspection.shown.statuses(),
            situations: inspection.shown.situations(),
            groups,
            inspection,
        }
    }

    fn names(&self) -> &Names {
        &self.inspection.order.config.names
    }

    /// The configuration in text form, and its bytes.
    fn config_text(&self) -> String {
        dump::config(&self.inspection.order.config.source.bytes, self.names())
    }

    /// How a difference came about: which trace, and what was made of it.
    fn origin(&self, difference: &Difference) -> String {
        let source = &self.inspection.traces[difference.number as usize].source;
        let (played, small) = (difference.played.trace.len(), difference.finding.trace.len());
        let smaller = match played == small {
            true => String::new(),
            false => format!("; made smaller from {} to {small}", counted(played, "byte")),
        };
        format!("trace {}, {}{smaller}", difference.number, source.words())
    }

    /// Rows around the event at which a difference shows.
    fn rows(&self, difference: &Difference) -> Vec<ListingRow> {
        let finding = &difference.finding;
        let events = layout::trace(&finding.trace).events;
        let last = events.len().saturating_sub(1);
        let at = finding.event.unwrap_or(last);
        let shown = at.saturating_sub(ROWS_BEFORE)..events.len().min(at + ROWS_AFTER + 1);
        shown
            .map(|step| ListingRow {
                step,
                event: self.names().event(&events[step]),
                expected: self.answer(finding.expected.answers.get(step).copied()),
                given: self.answer(finding.given(step)),
                differs: finding.given(step) != finding.expected.answers.get(step).copied(),
            })
            .collect()
    }

    fn answer(&self, answer: Option<Answer>) -> String {
        let Some(Answer { status, runner, level, begun }) = answer else { return "none".into() };
        let runner = runner.map_or_else(|| "-".into(), |body| self.names().body(body.into()));
        let begins = if begun == 0 { "" } else { ", begins" };
        format!("{}, {runner} at {level}{begins}", words::status_words(status))
    }

    fn history(&self, difference: &Difference) -> Option<History> {
        let config = &self.inspection.order.config.source.bytes;
        let Finding { trace, expected, .. } = &difference.finding;
        History::of_bytes(config, trace, self.names(), expected).ok()
    }

    /// Why the reference answers as it does where a difference shows.
    fn why(&self, difference: &Difference) -> String {
        let Some(history) = self.history(difference) else { return String::new() };
        match (difference.finding.event, difference.finding.loser) {
            (Some(event), _) => Why::of(&history, event).lines_with_place(),
            (None, Some(body)) => why::lost_by(&history, body),
            (None, None) => String::new(),
        }
    }

    /// The picture of a difference, up to the event at which it shows: who runs when by the reference.
    fn picture(&self, difference: &Difference) -> Option<String> {
        let history = self.history(difference)?;
        let end = difference.finding.event.map_or(history.steps.len(), |event| event + 1);
        Some(svg::write(&history, &difference.finding.told, end.saturating_sub(PICTURE_BEFORE)..end))
    }
}

/// So many events are listed before and after a difference.
const ROWS_BEFORE: usize = 12;
const ROWS_AFTER: usize = 2;
/// So many are drawn up to it.
const PICTURE_BEFORE: usize = 40;

pub struct ListingRow {
    pub step: usize,
    pub event: String,
    pub expected: String,
    pub given: String,
    pub differs: bool,
}

fn sentence(inspection: &Inspection, result: Result, groups: usize) -> String {
    let played = counted(inspection.traces.len(), "trace");
    let events = grouped(inspection.events());
    match result {
        Result::Pass => format!("pass: no difference in {played}, {events} events"),
        Result::Interrupted => format!(
            "interrupted after {} of {}: no difference in {events} events so far",
            grouped(inspection.traces.len() as u64),
            counted(inspection.order.traces as usize, "trace")
        ),
        Result::Differs => {
            let (differing, rest) = (inspection.differences.len(), if groups == 1 { "" } else { "s" });
            let interrupted = if inspection.interrupted { ", interrupted" } else { "" };
            format!("differs: {differing} of {played}, {events} events, in {groups} group{rest}{interrupted}")
        }
    }
}

fn facts(inspection: &Inspection) -> Vec<(&'static str, String)> {
    let order = &inspection.order;
    let plan = &order.plan;
    let count = |guided: bool| inspection.traces.iter().filter(|trace| trace.source.is_guided() == guided).count();
    let seed_from = if order.seed_given { "given" } else { "from the system's entropy" };
    let mut facts = vec![
        ("unit", inspection.unit.clone()),
        ("command", order.command.clone()),
        ("date", date::utc(inspection.begun)),
        (
            "duration",
            format!(
                "{:.1} s, {} events a second",
                inspection.took.as_secs_f64(),
                grouped(inspection.events_a_second())
            ),
        ),
        ("tool", format!("osek {}", env!("CARGO_PKG_VERSION"))),
        ("library", format!("libosek {}", library_version())),
        ("protocol", format!("version {}", unit::PROTOCOL)),
        (
            "configuration",
            format!("{}, {}", order.config.source.file, counted(order.config.source.bytes.len(), "byte")),
        ),
        (
            "played",
            match order.way {
                Way::LockStep => "in lock-step: each event is sent when the one before is answered".into(),
                Way::Whole => "whole traces at once: the unit could look ahead".into(),
            },
        ),
        ("seed", format!("{}, {seed_from}", plan.seed)),
    ];
    if plan.kinds != Kinds::Guided {
        facts.push(("drawn traces", format!("{} by {}", grouped(count(false) as u64), draw::BY)));
        facts.push(("weights", setting::weights_words(&plan.setting)));
        facts.push(("limits", setting::limits_words(&plan.setting, plan.delays_given)));
    }
    if plan.kinds != Kinds::Drawn {
        let guided = "by a draw that looks at the state, which is not proved";
        facts.push(("guided traces", format!("{} {guided}", grouped(count(true) as u64))));
    }
    facts.push(("judged", format!("by {}; the fresh start and the losses besides", verdict::BY)));
    facts
}

/// How a trace was drawn, for a list of all of them: kind, start value or seed.
fn drawn_from(source: &Source) -> (&'static str, u64) {
    match source {
        Source::Drawn { start, .. } => ("drawn", (*start).into()),
        Source::Guided { seed, .. } => ("guided", *seed),
    }
}

/// Text for XML and HTML.
fn escaped(text: &str) -> String {
    text.replace('&', "&amp;").replace('<', "&lt;").replace('>', "&gt;").replace('"', "&quot;")
}
