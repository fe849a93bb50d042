//! `osek salvage`: what can be kept of a damaged trace, and what was dropped.

use std::fmt::Write;

use super::Command;
use crate::failure::{Ending, Failure};
use crate::input;
use crate::options::{Accepts, Options};
use crate::reference::Salvaged;
use crate::words::{counted, grouped, refusal, Part};
use crate::{json, output, reference};

pub const COMMAND: Command = Command {
    name: "salvage",
    brief: "TRACE -o EVENTS",
    usage: &["TRACE -o EVENTS [--dropped FILE] [--json]"],
    summary: "what can be kept of a damaged trace",
    details: "\
Reads a damaged trace event by event; where none can be read one byte is dropped, and the next is tried. EVENTS gets
the kept events. Each dropped stretch is told: how long it is, where it stands, why no event could be read there, and
its bytes. It is told on standard output, or on standard error where standard output takes the events. TRACE is taken
for bytes, whatever they are. A refusal is told on standard error, and nothing is written.

  -o EVENTS        the kept events; - for standard output
  --dropped FILE   the list of stretches as the library gives it: for each its offset and its length, as numbers
  --json           one object on standard output: `bytes`, `kept` and `dropped`; -o may be left out
",
    accepts: Accepts { flags: &["--json"], values: &["-o", "--dropped"], files: &["the trace"], optional: 0 },
    run,
};

fn run(options: &Options) -> Result<Ending, Failure> {
    let (events, dropped, as_json) = (options.value("-o"), options.value("--dropped"), options.flag("--json"));
    if events.is_none() && !as_json {
        return Err(options.wrong("-o is missing"));
    }
    let on_stdout = [events, dropped].iter().filter(|name| **name == Some("-")).count();
    if on_stdout + usize::from(as_json) > 1 {
        return Err(options.wrong("of -o, --dropped and --json one alone can have standard output"));
    }
    for out in [events, dropped].into_iter().flatten() {
        output::not_over(out, &options.files)?;
    }
    let trace = input::read_bytes(&options.files[0], Part::Trace)?;
    let salvaged = match reference::salvage(&trace) {
        Ok(salvaged) => salvaged,
        Err(refused) => {
            let meaning = refusal(refused.code).map_or("", |word| word.meaning);
            output::complain(&format!("{}: {meaning}\n", refused.line().trim_end()));
            return Ok(Ending::Refused);
        }
    };
    events.map(|file| output::write(file, &salvaged.events)).transpose()?;
    dropped.map(|file| output::write(file, &salvaged.list)).transpose()?;
    if as_json {
        output::print(in_json(&trace, &salvaged))?;
    } else if on_stdout > 0 {
        output::complain(&told(&trace, &salvaged));
    } else {
        output::print(told(&trace, &salvaged))?;
    }
    Ok(Ending::Done)
}

/// So many bytes stand in a line.
const BYTES_IN_LINE: usize = 16;

/// Why no event could be read at this offset.
fn why(trace: &[u8], offset: usize) -> &'static str {
    let refused = reference::trace_refusal(&trace[offset..]).and_then(|refused| refusal(refused.code));
    refused.map_or("", |word| word.meaning)
}

fn hex(bytes: &[u8]) -> String {
    bytes.iter().map(|byte| format!("{byte:02x}")).collect::<Vec<_>>().join(" ")
}

/// What was kept and what was dropped.
fn told(trace: &[u8], salvaged: &Salvaged) -> String {
    let kept = grouped(salvaged.events.len() as u64);
    let mut text = format!("kept {kept} of {}\n", counted(trace.len(), "byte"));
    for &(offset, length) in &salvaged.stretches {
        let (bytes, why) = (counted(length, "byte"), why(trace, offset));
        let _ = writeln!(text, "dropped {bytes} at {}: {why}", grouped(offset as u64));
        for line in trace[offset..offset + length].chunks(BYTES_IN_LINE) {
            let _ = writeln!(text, "  {}", hex(line));
        }
    }
    text
}

fn in_json(trace: &[u8], salvaged: &Salvaged) -> String {
    let stretch = |&(offset, length): &(usize, usize)| {
        json::object(&[
            ("offset", offset.to_string()),
            ("length", length.to_string()),
            ("bytes", json::string(&hex(&trace[offset..offset + length]))),
            ("why", json::string(why(trace, offset))),
        ])
    };
    let dropped: Vec<String> = salvaged.stretches.iter().map(stretch).collect();
    let (bytes, kept) = (trace.len(), salvaged.events.len());
    format!("{{\"bytes\": {bytes}, \"kept\": {kept}, \"dropped\": {}}}\n", json::lines(&dropped))
}
