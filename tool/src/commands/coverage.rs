//! `osek coverage`: which statuses and situations traces show, and which the configuration never can.

use std::fmt::Write;

use super::Command;
use crate::coverage::{counts, Row, Shown};
use crate::failure::{Ending, Failure};
use crate::input;
use crate::options::{Accepts, Options};
use crate::output;
use crate::words::{counted, grouped};

/// As many files as a command line has room for.
const TRACES: [&str; 4_097] = {
    let mut files = ["TRACE"; 4_097];
    files[0] = "CONFIG";
    files
};

pub const COMMAND: Command = Command {
    name: "coverage",
    brief: "CONFIG TRACE..",
    usage: &["CONFIG TRACE.."],
    summary: "what traces show of a configuration",
    details: "\
Says how often the traces show each status of each event and each of the situations that the tests look for, what they
do not show, and what this configuration can never show, with the reason.
",
    accepts: Accepts { flags: &[], values: &[], files: &TRACES, optional: TRACES.len() - 2 },
    run,
};

fn run(options: &Options) -> Result<Ending, Failure> {
    let config = input::read_config(&options.files[0])?;
    let refused = |file: &str| Failure::Input(format!("{file} is refused: osek explain says why"));
    let mut shown = Shown::of(&config.source.bytes).ok_or_else(|| refused(&options.files[0]))?;
    for file in &options.files[1..] {
        let trace = input::read_trace(file, &config.names)?;
        if !shown.add(&trace.bytes) {
            return Err(refused(file));
        }
    }
    let traces = counted(options.files.len() - 1, "trace");
    let mut text = format!("{traces}, {}\n", counted(shown.events() as usize, "event"));
    for (name, rows) in [("statuses", shown.statuses()), ("situations", shown.situations())] {
        let (seen, possible) = counts(&rows);
        let _ = writeln!(text, "\n{name}: {seen} of {possible} that this configuration can show");
        rows.iter().for_each(|row| line(&mut text, row));
    }
    output::print(text)?;
    Ok(Ending::Done)
}

fn line(text: &mut String, row: &Row) {
    let times = match (row.times, row.never) {
        (0, Some(reason)) => format!("never: {reason}"),
        (0, None) => "not shown".into(),
        (times, _) => grouped(times),
    };
    let _ = writeln!(text, "  {:<84} {times}", row.what);
}
