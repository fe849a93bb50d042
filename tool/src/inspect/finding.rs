//! How a unit differs from the reference on one trace: judged, told with names, grouped by what differs.

use super::verdict::{verdict, Verdict};
use crate::layout;
use crate::names::Names;
use crate::reference::{self, Answer, Run, ANSWER_SIZE, LOSS_SIZE};
use crate::unit::{self, Broken, Played, Point};
use crate::words;

#[derive(Clone)]
pub struct Finding {
    pub trace: Vec<u8>,
    /// What differs, without numbers and names: `Release: runner, level`.
    pub group: String,
    /// The difference in a sentence.
    pub told: String,
    /// The event at which it shows; none for the fresh start, the losses and the reset.
    pub event: Option<usize>,
    /// The body whose losses alone differ.
    pub loser: Option<usize>,
    /// Four bytes an event, as far as the unit answered.
    pub given: Vec<u8>,
    pub expected: Run,
}

impl Finding {
    /// None where the unit gave what the reference gives.
    pub fn of(names: &Names, config: &[u8], trace: &[u8], played: Played) -> Option<Finding> {
        let Ok(expected) = reference::run(config, trace) else { unreachable!("units get accepted cases alone") };
        let judge = Judge { names, config, trace, expected: &expected };
        let (given, found) = match played {
            Played::Answered { fresh, answers, losses } => {
                let found = judge.fresh(&fresh).or_else(|| judge.answers(&answers)).or_else(|| judge.losses(&losses));
                (answers, found)
            }
            Played::Broken { answers, broken } => {
                let found = judge.answers_before(&answers).or_else(|| Some(judge.broken(&broken)));
                (answers, found)
            }
            Played::Refused(refused) => {
                let told = format!("the unit refuses the case: {}", refused.line().trim_end());
                (Vec::new(), Some(Found { group: "refusal".into(), told, event: None, loser: None }))
            }
        };
        let Found { group, told, event, loser } = found?;
        Some(Finding { trace: trace.to_vec(), group, told, event, loser, given, expected })
    }

    pub fn given(&self, event: usize) -> Option<Answer> {
        let bytes = self.given.get(ANSWER_SIZE * event..ANSWER_SIZE * (event + 1))?;
        Run::of(bytes, 1).answers.first().copied()
    }
}

struct Found {
    group: String,
    told: String,
    event: Option<usize>,
    loser: Option<usize>,
}

struct Judge<'a> {
    names: &'a Names,
    config: &'a [u8],
    trace: &'a [u8],
    expected: &'a Run,
}

impl Judge<'_> {
    fn fresh(&self, given: &[u8; ANSWER_SIZE]) -> Option<Found> {
        let expected = unit::fresh_answer(self.config)?;
        let answer = |bytes: &[u8]| Run::of(bytes, 1).answers[0];
        let fields = self.fields(answer(&expected), answer(given));
        (expected != *given).then(|| Found {
            group: "the fresh start".into(),
            told: format!("the fresh start: {}", told(&fields)),
            event: None,
            loser: None,
        })
    }

    /// By the verdict alone.
    fn answers(&self, given: &[u8]) -> Option<Found> {
        match verdict(self.config, self.trace, given) {
            Verdict::Pass => None,
            Verdict::Event(event) => Some(self.at(event, given)),
        }
    }

    /// Answers that differ before the unit broke off.
    fn answers_before(&self, given: &[u8]) -> Option<Found> {
        match verdict(self.config, self.trace, given) {
            Verdict::Event(event) if ANSWER_SIZE * event < given.len() => Some(self.at(event, given)),
            _ => None,
        }
    }

    fn at(&self, event: usize, given: &[u8]) -> Found {
        let answers = Run::of(given, given.len() / ANSWER_SIZE).answers;
        let (word, words) = self.event(event);
        match answers.get(event) {
            None => Found {
                group: format!("{word}: no answer"),
                told: format!("{words}: no answer"),
                event: Some(event),
                loser: None,
            },
            Some(given) => {
                let fields = self.fields(self.expected.answers[event], *given);
                let which: Vec<&str> = fields.iter().map(|(field, ..)| *field).collect();
                let group = format!("{word}: {}", which.join(", "));
                Found { group, told: format!("{words}: {}", told(&fields)), event: Some(event), loser: None }
            }
        }
    }

    /// The verdict does not look at losses.
    fn losses(&self, given: &[u8]) -> Option<Found> {
        let given: Vec<u16> =
            given.chunks_exact(LOSS_SIZE).map(|loss| u16::from_le_bytes([loss[0], loss[1]])).collect();
        let body = self.expected.losses.iter().zip(&given).position(|(expected, given)| expected != given)?;
        let kind = layout::config(self.config).objects.bodies[body].kind;
        let kind = words::kind(kind).map_or("body", |kind| kind.name);
        let told = format!(
            "losses of {}: {} expected, {} given; every answer is right",
            self.names.body(body as u32),
            self.expected.losses[body],
            given[body]
        );
        Some(Found { group: format!("losses of a body of kind {kind}"), told, event: None, loser: Some(body) })
    }

    fn broken(&self, broken: &Broken) -> Found {
        let Point::Event(event) = broken.at else {
            return Found {
                group: broken.to_string(),
                told: format!("the unit was {broken}"),
                event: None,
                loser: None,
            };
        };
        let (word, words) = self.event(event);
        let how = broken.how.word();
        Found {
            group: format!("{word}: {how}"),
            told: format!("{words}: the unit was {broken}"),
            event: Some(event),
            loser: None,
        }
    }

    /// The event's name; with its number and arguments.
    fn event(&self, event: usize) -> (&'static str, String) {
        let at = &layout::trace(self.trace).events[event];
        (at.word.name, format!("event {event} {}", self.names.event(at)))
    }

    fn fields(&self, expected: Answer, given: Answer) -> Vec<(&'static str, String, String)> {
        let runner = |body: Option<u8>| body.map_or_else(|| "-".into(), |body| self.names.body(body.into()));
        let fields = [
            ("status", words::status_words(expected.status), words::status_words(given.status)),
            ("runner", runner(expected.runner), runner(given.runner)),
            ("level", expected.level.to_string(), given.level.to_string()),
            ("begun", expected.begun.to_string(), given.begun.to_string()),
        ];
        fields.into_iter().filter(|(_, expected, given)| expected != given).collect()
    }
}

fn told(fields: &[(&str, String, String)]) -> String {
    let one = |(name, expected, given): &(&str, String, String)| format!("{name} {expected} expected, {given} given");
    fields.iter().map(one).collect::<Vec<_>>().join("; ")
}
