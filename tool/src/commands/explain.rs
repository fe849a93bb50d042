//! `osek explain`: a refusal, or why the events of an accepted run have their answers, in sentences.

use std::fmt::Write;

use super::Command;
use crate::failure::{Ending, Failure};
use crate::history::History;
use crate::input;
use crate::options::{Accepts, Options};
use crate::reference::{self, Answer};
use crate::why::{self, Why};
use crate::words::{self, counted};
use crate::{explain, output};

pub const COMMAND: Command = Command {
    name: "explain",
    brief: "CONFIG TRACE",
    usage: &["CONFIG TRACE [--event N | --all]", "LOGGER [..]"],
    summary: "a refusal as a sentence; why who runs",
    details: "\
Says why a run is refused: the field or event, its offset (and its line, in a text), its value, what was allowed, and
the bytes around the place, marked. Of an accepted run it says which events got a status other than 0, which lost an
activation or a line and at which a deadline was missed, each with its line in a text, its tick, the reason, and the
bodies that are not suspended with their current priorities and resources.

  --event N   this event of an accepted run alone: the states before and after, what it does, and the rule by which
              the one that runs was chosen
  --all       so of every event
",
    accepts: Accepts { flags: &["--all"], values: &["--event"], files: &["CONFIG", "TRACE"], optional: 1 },
    run,
};

fn run(options: &Options) -> Result<Ending, Failure> {
    if options.flag("--all") && options.value("--event").is_some() {
        return Err(options.wrong("--event and --all exclude each other"));
    }
    let pair = input::read_pair(&options.files)?;
    let run = match reference::run(&pair.config.source.bytes, &pair.trace.bytes) {
        Ok(run) => run,
        Err(refused) => {
            output::print(explain::refusal(&pair, refused))?;
            return Ok(Ending::Refused);
        }
    };
    let history = History::of(&pair, &run)?;
    let told = if options.flag("--all") {
        (0..history.steps.len()).map(|step| in_full(&history, step)).collect()
    } else if options.value("--event").is_some() {
        let Some(last) = history.steps.len().checked_sub(1) else {
            return Err(options.wrong("--event: the trace has no event"));
        };
        in_full(&history, options.number("--event", 0, 0, last as u64)? as usize)
    } else {
        notable(&history)
    };
    output::print(told)?;
    Ok(Ending::Done)
}

/// The events that were refused, lost something or missed a deadline.
fn notable(history: &History) -> String {
    let (mut refused, mut lost, mut missed) = (0, 0, 0);
    let mut told = String::new();
    for step in 0..history.steps.len() {
        let (losses, misses) = (why::losses(history, step), why::misses(history, step));
        lost += losses.len();
        missed += misses.len();
        let event = format!("{} ({})", why::event(history, step), why::place(history, step));
        let status = history.steps[step].answer.status;
        if let Some(check) = why::failed_check(history, step) {
            refused += 1;
            let _ =
                writeln!(told, "{event}{}: status {}: {check}", running(history, step), words::status_words(status));
        } else if !losses.is_empty() || !misses.is_empty() {
            let said: Vec<String> = misses.into_iter().chain(losses.into_iter().map(|(_, words)| words)).collect();
            let _ = writeln!(told, "{event}{}: {}", running(history, step), said.join("; "));
        } else {
            continue;
        }
        let _ = writeln!(told, "  {}", why::states(history, history.before(step)));
    }
    let losses = if lost == 1 { "1 loss".into() } else { format!("{} losses", words::grouped(lost as u64)) };
    let has_deadlines = (0..history.objects.bodies.len()).any(|body| history.has_deadline(body));
    let misses = if has_deadlines { format!(", {}", words::misses(missed)) } else { String::new() };
    let refused = words::grouped(refused);
    format!(
        "accepted: {}, {refused} with a status other than 0, {losses}{misses}\n{told}",
        counted(history.steps.len(), "event")
    )
}

/// ` while radio runs at 7`.
fn running(history: &History, step: usize) -> String {
    let before = history.before(step);
    match before.runner {
        Some(body) => format!(" while {} runs at {}", history.names.body(body.into()), before.level),
        None => " while nobody runs".into(),
    }
}

fn in_full(history: &History, step: usize) -> String {
    let why = Why::of(history, step);
    let Answer { status, .. } = history.steps[step].answer;
    format!("{} ({}): status {}\n{}", why.event, why.place, words::status_words(status), why.lines())
}
