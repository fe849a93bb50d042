//! `osek check`: what a unit or a simulator recorded, against the reference.

use super::Command;
use crate::compare::difference::{fields, result_words};
use crate::failure::{Ending, Failure};
use crate::history::History;
use crate::input::{self, Pair};
use crate::layout;
use crate::options::{Accepts, Options};
use crate::output;
use crate::record::{Record, Recorded};
use crate::reference::{self, Answer, Refused, Run, Verdict};
use crate::why::{self, Why};
use crate::words::{self, counted, grouped, Part};

pub const COMMAND: Command = Command {
    name: "check",
    brief: "CONFIG TRACE RECORD",
    usage: &["CONFIG TRACE RECORD", "LOGGER RECORD"],
    summary: "a record of a unit against the reference",
    details: "\
Compares RECORD with what the reference answers to the trace. It is a listing as the bench program prints it, or the
answers in bytes, four for each event, with or without the losses behind them. Every event whose answer differs or is
missing is told, and every body whose losses differ; of the first difference also the states around it and the rule
that decides. The exit status is 1 if anything differs.
",
    accepts: Accepts { flags: &[], values: &[], files: &["CONFIG", "TRACE", "RECORD"], optional: 1 },
    run,
};

fn run(options: &Options) -> Result<Ending, Failure> {
    let (record_file, inputs) = options.files.split_last().expect("two files are needed");
    let pair = input::read_pair(inputs)?;
    let bytes = input::read_bytes(record_file, Part::Trace)?;
    let outcome = reference::run(&pair.config.source.bytes, &pair.trace.bytes);
    let events = layout::trace(&pair.trace.bytes).events.len();
    let bodies = outcome.as_ref().map_or(0, |run| run.losses.len());
    let record = Record::of(&bytes, events, bodies)
        .map_err(|why| Failure::Input(format!("{record_file}{}", words::visible(&why))))?;
    let differences = match (&outcome, &record) {
        (Ok(run), Record::Run { answers, losses }) => of_runs(&pair, run, answers, losses.as_deref())?,
        (Err(refused), Record::Refused(recorded)) if refused == recorded => Vec::new(),
        (outcome, record) => {
            let expected = outcome.as_ref().map_or_else(|refused| refused.result(), |run| run.answers.len() as u64);
            vec![format!("{} expected, {} recorded\n", result_words(expected), record_words(record))]
        }
    };
    let Some(first) = differences.first() else {
        output::print(format!("equal: {}\n", equal(&outcome, &record)))?;
        return Ok(Ending::Done);
    };
    let count = if differences.len() == 1 {
        "1 difference".into()
    } else {
        format!("{} differences", grouped(differences.len() as u64))
    };
    let more = if differences.len() > 1 { "the others:\n" } else { "" };
    output::print(format!("{count}; the first:\n{first}{more}{}", differences[1..].concat()))?;
    Ok(Ending::Refused)
}

fn record_words(record: &Record) -> String {
    match record {
        Record::Refused(Refused { code, place }) => format!("refusal {code} at place {place}"),
        Record::Run { answers, .. } => counted(answers.len(), "answer"),
    }
}

fn equal(outcome: &Result<Run, Refused>, record: &Record) -> String {
    match (outcome, record) {
        (Ok(run), Record::Run { losses: Some(_), .. }) => {
            format!("{} and the losses", counted(run.answers.len(), "answer"))
        }
        (Ok(run), _) => format!("{}; the record has no losses", counted(run.answers.len(), "answer")),
        (Err(refused), _) => refused.line().trim_end().into(),
    }
}

/// The first event whose answer differs or is missing, by the proved verdict on the answers; none if all pass. An answer
/// that the record leaves out ends what is judged, and answers beyond the events are left aside.
fn first_by_verdict(pair: &Pair, events: usize, recorded: &[Option<Recorded>]) -> Option<usize> {
    let answers = recorded.iter().take(events).map_while(|recorded| recorded.map(|recorded| recorded.answer));
    let bytes = Run { answers: answers.collect(), losses: Vec::new() }.output();
    match reference::verdict(&pair.config.source.bytes, &pair.trace.bytes, &bytes) {
        Verdict::Fails(step) => Some(step),
        Verdict::Pass | Verdict::Refused(_) => None,
    }
}

/// Every difference, each with its line end; the first with its reasons.
fn of_runs(
    pair: &Pair,
    run: &Run,
    recorded: &[Option<Recorded>],
    losses: Option<&[u16]>,
) -> Result<Vec<String>, Failure> {
    let history = History::of(pair, run)?;
    let names = &pair.config.names;
    let differs = |(step, expected): (usize, &Answer)| {
        recorded.get(step).copied().flatten().is_none_or(|recorded| recorded.answer != *expected)
    };
    if run.answers.iter().enumerate().position(differs) != first_by_verdict(pair, run.answers.len(), recorded) {
        return Err(Failure::Output("the library's verdict and its run differ: nothing is said of the record".into()));
    }
    let mut told = Vec::new();
    let mut tell = |words: String, reasons: &dyn Fn() -> String| {
        let reasons = if told.is_empty() { reasons() } else { String::new() };
        told.push(format!("{words}\n{reasons}"));
    };
    for (step, expected) in run.answers.iter().enumerate() {
        let why = || Why::of(&history, step).lines();
        let event = format!("{} ({})", why::event(&history, step), why::place(&history, step));
        let code = history.steps[step].event.word.code;
        match recorded.get(step).copied().flatten() {
            None => tell(format!("{event}: no answer recorded"), &why),
            Some(Recorded { code: Some(other), .. }) if other != code => {
                tell(format!("{event}: the record has event code {other} here"), &why);
            }
            Some(Recorded { answer, .. }) if answer != *expected => {
                tell(format!("{event}: {}", fields(names, *expected, answer, "recorded").join("; ")), &why);
            }
            Some(_) => {}
        }
    }
    if let Some(more) = recorded.len().checked_sub(run.answers.len()).filter(|more| *more > 0) {
        let events = counted(run.answers.len(), "event");
        tell(format!("{} more recorded than the trace has events, {events}", counted(more, "answer")), &String::new);
    }
    for (body, expected) in run.losses.iter().enumerate() {
        if let Some(other) = losses.and_then(|losses| losses.get(body)).filter(|other| *other != expected) {
            let words = format!("losses of {}: {expected} expected, {other} recorded", names.body(body as u32));
            tell(words, &|| why::lost_by(&history, body));
        }
    }
    Ok(told)
}
