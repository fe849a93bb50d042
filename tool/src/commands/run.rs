//! `osek run`: the listing, as numbers, in words, as JSON or as CSV.

use std::fmt::Write;

use super::Command;
use crate::failure::{Ending, Failure};
use crate::input::{self, InputFault, Pair};
use crate::layout::{self, Event};
use crate::options::{Accepts, Options};
use crate::reference::{self, Answer, Refused, Run};
use crate::words::{self, Part};
use crate::{json, output};

pub const COMMAND: Command = Command {
    name: "run",
    brief: "CONFIG TRACE",
    usage: &["CONFIG TRACE [--names | --json | --csv [--losses]]", "LOGGER [..]"],
    summary: "the listing of a run",
    details: "\
Runs a trace over a configuration and prints the listing: per event its index, code, status, the running body (- when
idle), the level and the begun mark, then `lost BODY COUNT` for every body that lost activations or (from version 2
on) lines. A refused run prints `refused CODE PLACE` alone; `osek explain` says it in a sentence. 40 and 41: CONFIG or
TRACE can't be read.

  --names    the same in words: names, OSEK's status names, ticks with equal answers in one line
  --json     one object: `events` and `bodies`, or `refused`
  --csv      a row for each event, with a header
  --losses   with --csv: a row for each body instead, with its losses
",
    accepts: Accepts {
        flags: &["--names", "--json", "--csv", "--losses"],
        values: &[],
        files: &["CONFIG", "TRACE"],
        optional: 1,
    },
    run,
};

/// A pair with its events and what the library says of it.
struct Listing {
    pair: Pair,
    events: Vec<Event>,
    outcome: Result<Run, Refused>,
}

fn run(options: &Options) -> Result<Ending, Failure> {
    let shapes = ["--names", "--json", "--csv"].iter().filter(|flag| options.flag(flag)).count();
    if shapes > 1 {
        return Err(options.wrong("--names, --json and --csv exclude each other"));
    }
    if options.flag("--losses") && !options.flag("--csv") {
        return Err(options.wrong("--losses goes with --csv"));
    }
    let pair = match input::read_pair(&options.files) {
        Ok(pair) => pair,
        Err(InputFault::Unreadable(part, message)) => return unreadable(part, &message, options),
        Err(fault) => return Err(fault.into()),
    };
    let outcome = reference::run(&pair.config.source.bytes, &pair.trace.bytes);
    let events = layout::trace(&pair.trace.bytes).events;
    let listing = Listing { pair, events, outcome };
    output::print(listing.shown(options))?;
    Ok(if listing.outcome.is_ok() { Ending::Done } else { Ending::Refused })
}

/// As the bench program, with the reason on standard error.
fn unreadable(part: Part, message: &str, options: &Options) -> Result<Ending, Failure> {
    let refused = Refused { code: words::unreadable(part), place: 0 };
    output::complain(&format!("osek: {message}\n"));
    output::print(if options.flag("--json") { refused.json() } else { refused.line() })?;
    Ok(Ending::Refused)
}

impl Listing {
    fn shown(&self, options: &Options) -> String {
        let run = match &self.outcome {
            Err(refused) if options.flag("--json") => return refused.json(),
            Err(refused) if options.flag("--names") => {
                let meaning = words::refusal(refused.code).map_or("", |word| word.meaning);
                let files = options.files.join(" ");
                return format!("{}: {meaning}\nosek explain {files} says where and why\n", refused.line().trim_end());
            }
            Err(refused) => return refused.line(),
            Ok(run) => run,
        };
        if options.flag("--names") {
            self.named(run)
        } else if options.flag("--json") {
            self.json(run)
        } else if options.flag("--losses") {
            self.csv_losses(run)
        } else if options.flag("--csv") {
            self.csv(run)
        } else {
            reference::listing(&self.pair.config.source.bytes, &self.pair.trace.bytes, &self.outcome)
        }
    }

    fn runner(&self, answer: &Answer) -> String {
        answer.runner.map_or_else(|| "-".into(), |body| self.pair.config.names.body(body.into()))
    }

    fn steps<'a>(&'a self, run: &'a Run) -> impl Iterator<Item = (usize, &'a Event, &'a Answer)> {
        self.events.iter().zip(&run.answers).enumerate().map(|(step, (event, answer))| (step, event, answer))
    }

    fn named(&self, run: &Run) -> String {
        let names = &self.pair.config.names;
        let header = ["step", "event", "status", "runner", "level", "begun"].map(String::from);
        let mut rows = vec![header];
        let mut first = 0;
        while first < run.answers.len() {
            let (event, answer) = (&self.events[first], &run.answers[first]);
            let end = first + self.same(run, first);
            let (step, event) = if end == first + 1 {
                (first.to_string(), names.event(event))
            } else {
                (format!("{first}-{}", end - 1), format!("{} x{}", names.event(event), end - first))
            };
            let begun = if answer.begun == 1 { "begins" } else { "" };
            rows.push([
                step,
                event,
                words::status_words(answer.status),
                self.runner(answer),
                answer.level.to_string(),
                begun.into(),
            ]);
            first = end;
        }
        let mut text = aligned(&rows);
        for (body, count) in run.losses.iter().enumerate().filter(|(_, count)| **count > 0) {
            let _ = writeln!(text, "lost {} {count}", names.body(body as u32));
        }
        text
    }

    /// How many events from this one on are the same, with the same answer; only ticks are taken together.
    fn same(&self, run: &Run, first: usize) -> usize {
        let word = self.events[first].word;
        if !word.is_tick() {
            return 1;
        }
        let like = |step: &usize| self.events[*step].word == word && run.answers[*step] == run.answers[first];
        (first..run.answers.len()).take_while(like).count()
    }

    fn json(&self, run: &Run) -> String {
        let names = &self.pair.config.names;
        let events: Vec<String> = self
            .steps(run)
            .map(|(step, event, answer)| {
                let arguments: Vec<String> = event.arguments.iter().map(|number| number.value.to_string()).collect();
                json::object(&[
                    ("step", step.to_string()),
                    ("offset", event.offset.to_string()),
                    ("code", event.word.code.to_string()),
                    ("arguments", format!("[{}]", arguments.join(", "))),
                    ("event", json::string(&names.event(event))),
                    ("status", answer.status.to_string()),
                    ("status_name", words::status(answer.status).map_or_else(|| "null".into(), json::string)),
                    ("runner", answer.runner.map_or_else(|| "null".into(), |body| body.to_string())),
                    (
                        "runner_name",
                        answer.runner.map_or_else(|| "null".into(), |_| json::string(&self.runner(answer))),
                    ),
                    ("level", answer.level.to_string()),
                    ("begun", answer.begun.to_string()),
                ])
            })
            .collect();
        let lost: Vec<String> = run
            .losses
            .iter()
            .enumerate()
            .map(|(body, count)| {
                let name = json::string(&names.body(body as u32));
                json::object(&[("body", body.to_string()), ("name", name), ("lost", count.to_string())])
            })
            .collect();
        format!("{{\"events\": {},\n\"bodies\": {}}}\n", json::lines(&events), json::lines(&lost))
    }

    fn csv(&self, run: &Run) -> String {
        let names = &self.pair.config.names;
        let mut text =
            String::from("step,code,event,argument1,argument2,status,status_name,runner,runner_name,level,begun\n");
        for (step, event, answer) in self.steps(run) {
            let arguments = names.arguments(event);
            let argument = |index: usize| arguments.get(index).map_or("", String::as_str);
            let runner = answer.runner.map_or_else(String::new, |body| body.to_string());
            let runner_name = answer.runner.map_or_else(String::new, |_| self.runner(answer));
            let Answer { status, level, begun, .. } = answer;
            let _ = writeln!(
                text,
                "{step},{},{},{},{},{status},{},{runner},{runner_name},{level},{begun}",
                event.word.code,
                event.word.name,
                argument(0),
                argument(1),
                words::status(*status).unwrap_or_default(),
            );
        }
        text
    }

    fn csv_losses(&self, run: &Run) -> String {
        let mut text = String::from("body,name,lost\n");
        for (body, count) in run.losses.iter().enumerate() {
            let _ = writeln!(text, "{body},{},{count}", self.pair.config.names.body(body as u32));
        }
        text
    }
}

/// Columns as wide as their widest cell; numbers to the right.
fn aligned(rows: &[[String; 6]]) -> String {
    let width = |column: usize| rows.iter().map(|row| row[column].chars().count()).max().unwrap_or(0);
    let widths: Vec<usize> = (0..6).map(width).collect();
    let mut text = String::new();
    for row in rows {
        let cells: Vec<String> = row
            .iter()
            .enumerate()
            .map(|(column, cell)| {
                let width = widths[column];
                if column == 0 || column == 4 {
                    format!("{cell:>width$}")
                } else {
                    format!("{cell:<width$}")
                }
            })
            .collect();
        let _ = writeln!(text, "{}", cells.join("  ").trim_end());
    }
    text
}
