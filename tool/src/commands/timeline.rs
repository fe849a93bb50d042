//! `osek timeline`: who runs when, for GTKWave, for the eye, for Perfetto.

use super::Command;
use crate::failure::{Ending, Failure};
use crate::history::History;
use crate::input;
use crate::options::{Accepts, Options};
use crate::reference;
use crate::timeline::{html, svg, trace_events, vcd};
use crate::{explain, output, words};

pub const COMMAND: Command = Command {
    name: "timeline",
    brief: "CONFIG TRACE",
    usage: &["CONFIG TRACE [--html OUT] [--svg OUT [--from N] [--to N]] [--vcd OUT] [--json OUT]", "LOGGER [..]"],
    summary: "who runs when: a page, SVG, VCD or trace events",
    details: "\
Draws an accepted run: for each body whether it is suspended, ready, running, preempted or waiting, who holds which
resource, the event bits, the runner, the level, the statuses, and the losses at the event at which they happen. At
least one output is needed; OUT may be - for standard output.

  --html OUT   a page for a browser, to zoom, to search and to step through, with the listing and the reasons beside
               the lanes; it needs nothing from a network
  --svg OUT    a picture: a column for each event, ticks that change nothing taken together; of a run with very many
               events the first ones
  --from N     with --svg: the first event that is drawn
  --to N       with --svg: the last one
  --vcd OUT    a value change dump, for GTKWave; a tick is 1 ms, and the events between two ticks are spread evenly. A
               save file is written beside it: gtkwave run.vcd run.gtkw opens on the whole run
  --json OUT   trace events, for Perfetto and chrome://tracing; times as in the dump

A refused run is explained on standard error, and nothing is written.
",
    accepts: Accepts {
        flags: &[],
        values: &["--html", "--svg", "--from", "--to", "--vcd", "--json"],
        files: &["CONFIG", "TRACE"],
        optional: 1,
    },
    run,
};

const OUTPUTS: [&str; 4] = ["--html", "--svg", "--vcd", "--json"];

fn run(options: &Options) -> Result<Ending, Failure> {
    let outputs = OUTPUTS.map(|name| options.value(name));
    if outputs.iter().all(Option::is_none) {
        return Err(options.wrong(&format!("{} is missing", words::either(&OUTPUTS))));
    }
    if outputs.iter().filter(|name| **name == Some("-")).count() > 1 {
        return Err(options.wrong("only one output can be standard output"));
    }
    let partly = ["--from", "--to"].into_iter().find(|name| options.value(name).is_some());
    if let Some(partly) = partly.filter(|_| options.value("--svg").is_none()) {
        return Err(options.wrong(&format!("{partly} goes with --svg")));
    }
    outputs.iter().flatten().try_for_each(|out| output::not_over(out, &options.files))?;
    let pair = input::read_pair(&options.files)?;
    let run = match reference::run(&pair.config.source.bytes, &pair.trace.bytes) {
        Ok(run) => run,
        Err(refused) => {
            output::complain(&explain::refusal(&pair, refused));
            return Ok(Ending::Refused);
        }
    };
    let title = options.files.join(", ");
    let history = History::of(&pair, &run)?;
    let last = history.steps.len().saturating_sub(1) as u64;
    let from = options.number("--from", 0, 0, last)?;
    let to = options.number("--to", last, from, last)?;
    let [html_name, svg_name, vcd_name, json_name] = outputs;
    if let Some(name) = html_name {
        output::write(name, html::write(&history, &title))?;
    }
    if let Some(name) = svg_name {
        let end = if history.steps.is_empty() { 0 } else { to as usize + 1 };
        output::write(name, svg::write(&history, &title, from as usize..end))?;
    }
    if let Some(name) = vcd_name {
        output::write(name, vcd::write(&history))?;
        if name.ends_with(".vcd") {
            output::write(&beside(name), vcd::save_file(&history, name))?;
        }
    }
    if let Some(name) = json_name {
        output::write(name, trace_events::write(&history))?;
    }
    Ok(Ending::Done)
}

/// The save file of a dump: run.gtkw for run.vcd.
fn beside(dump: &str) -> String {
    format!("{}.gtkw", dump.strip_suffix(".vcd").unwrap_or(dump))
}
