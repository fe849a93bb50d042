//! `osek misses`: which tasks miss their deadlines, and when.

use std::fmt::Write;

use super::Command;
use crate::failure::{Ending, Failure};
use crate::input::{self, Pair};
use crate::layout::{self, Objects};
use crate::options::{Accepts, Options};
use crate::reference::{self, Miss, Misses};
use crate::words::{self, grouped};
use crate::{explain, json, output};

pub const COMMAND: Command = Command {
    name: "misses",
    brief: "CONFIG TRACE",
    usage: &["CONFIG TRACE [--json]", "LOGGER [..]"],
    summary: "which tasks miss their deadlines, and when",
    details: "\
Lists the deadlines that tasks miss, in order of time, then of body: the first 64, and the count of all. A task with a
deadline of D ticks that becomes ready after k ticks of the trace, the present one included, misses it at tick k + D if
it has not ended before. Deadlines are written in version 3 of a configuration (docs/TEXT.md: `deadline D`). Refused,
`refused CODE PLACE` is printed, as by `osek run`, and the refusal is explained on standard error.

  --json     one object: `count` and `first`, or `refused`
",
    accepts: Accepts { flags: &["--json"], values: &[], files: &["CONFIG", "TRACE"], optional: 1 },
    run,
};

fn run(options: &Options) -> Result<Ending, Failure> {
    let pair = input::read_pair(&options.files)?;
    match reference::misses(&pair.config.source.bytes, &pair.trace.bytes) {
        Ok(misses) => {
            let listing = Listing { objects: layout::config(&pair.config.source.bytes).objects, pair, misses };
            output::print(if options.flag("--json") { listing.json() } else { listing.words() })?;
            Ok(Ending::Done)
        }
        Err(refused) => {
            output::complain(&explain::refusal(&pair, refused));
            output::print(if options.flag("--json") { refused.json() } else { refused.line() })?;
            Ok(Ending::Refused)
        }
    }
}

/// A pair with what the library says of it.
struct Listing {
    pair: Pair,
    objects: Objects,
    misses: Misses,
}

impl Listing {
    fn deadline(&self, miss: &Miss) -> u32 {
        self.objects.bodies[miss.task as usize].deadline
    }

    fn name(&self, miss: &Miss) -> String {
        self.pair.config.names.body(miss.task)
    }

    fn words(&self) -> String {
        let Misses { count, first } = &self.misses;
        let mut text = String::new();
        for miss in first {
            let what = words::missed(miss.tick, self.deadline(miss));
            let _ = writeln!(text, "tick {}: {} {what}", grouped(miss.tick.into()), self.name(miss));
        }
        text.push_str(&match count {
            0 if self.objects.bodies.iter().all(|body| body.deadline == 0) => "no task has a deadline\n".into(),
            0 => "no deadline is missed\n".into(),
            _ if *count == first.len() => format!("{}\n", words::misses(*count)),
            _ => format!("{}, of which these are the first {}\n", words::misses(*count), first.len()),
        });
        text
    }

    fn json(&self) -> String {
        let misses = self.misses.first.iter().map(|miss| {
            json::object(&[
                ("tick", miss.tick.to_string()),
                ("task", miss.task.to_string()),
                ("name", json::string(&self.name(miss))),
                ("deadline", self.deadline(miss).to_string()),
            ])
        });
        let first: Vec<String> = misses.collect();
        format!("{{\"count\": {},\n\"first\": {}}}\n", self.misses.count, json::lines(&first))
    }
}
