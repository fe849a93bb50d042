//! `osek power`: what a draw finds of planted faults, so that an inspector knows what a pass is worth.

use std::fmt::Write;

use super::{inspect, Command};
use crate::failure::{Ending, Failure};
use crate::input;
use crate::json::{lines, object, string};
use crate::options::{Accepts, Options};
use crate::output;
use crate::power::{power, Found, Power};
use crate::progress::Progress;
use crate::words::{counted, grouped};

pub const COMMAND: Command = Command {
    name: "power",
    brief: "CONFIG",
    usage: &["CONFIG [--traces N] [--seed S] [--kind KIND] [--events N] [--weights LIST] [--limits LIST] [--json]"],
    summary: "what a draw over a configuration finds of planted faults",
    details: "\
Plays drawn traces on a model of a unit with one planted fault at a time, and says of each fault how many of the traces
find it, after how many events (the median, from one find to the next), and whether a unit with it passes the listing
of document 01. So weights and lengths can be chosen by what they find, and a pass is worth what it would have found.

  --traces N        how many, 1 to 100000; 200 if not given
  --seed S          from the system's entropy if not given
  --kind KIND, --events N, --weights LIST, --limits LIST
                    as for osek inspect
  --json            one object
",
    accepts: Accepts {
        flags: &["--json"],
        values: &["--traces", "--seed", "--kind", "--events", "--weights", "--limits"],
        files: &["CONFIG"],
        optional: 0,
    },
    run,
};

fn run(options: &Options) -> Result<Ending, Failure> {
    let config = input::read_config(&options.files[0])?;
    let plan = inspect::plan(options, &config)?;
    let traces = options.number("--traces", 200, 1, 100_000)?;
    let mut progress = Progress::new(crate::power::model::FAULTS.len() as u64);
    let found = power(&config.source.bytes, &plan, traces, |done| progress.at(done));
    drop(progress);
    output::print(if options.flag("--json") { json(&found, plan.seed) } else { text(&found, plan.seed) })?;
    Ok(Ending::Done)
}

fn text(power: &Power, seed: u64) -> String {
    let Power { traces, events, found } = power;
    let unfound = found.iter().filter(|one| one.events.is_empty()).count();
    let mut text = format!(
        "{}, {} of seed {seed}: {} of {} found\n\n",
        counted(*traces as usize, "trace"),
        counted(*events as usize, "event"),
        found.len() - unfound,
        counted(found.len(), "fault")
    );
    let name = found.iter().map(|one| one.fault.name.len()).max().unwrap_or(0);
    let _ = writeln!(text, "{:<name$}  listing  traces   events  the fault", "");
    for one in found {
        let listing = if one.passes_listing { "passes" } else { "fails" };
        let events = one.median().map_or_else(|| "-".into(), grouped);
        let traces = one.by_answers + one.by_losses;
        let Found { fault, .. } = one;
        let apart = if one.by_answers == 0 && one.by_losses > 0 { " (by losses alone)" } else { "" };
        let _ = writeln!(text, "{:<name$}  {listing:<7}  {traces:>6}  {events:>7}  {}{apart}", fault.name, fault.what);
    }
    text
}

fn json(power: &Power, seed: u64) -> String {
    let one = |found: &Found| {
        object(&[
            ("name", string(found.fault.name)),
            ("what", string(found.fault.what)),
            ("passes_listing", found.passes_listing.to_string()),
            ("traces_by_answers", found.by_answers.to_string()),
            ("traces_by_losses_alone", found.by_losses.to_string()),
            ("median_events", found.median().map_or_else(|| "null".into(), |events| events.to_string())),
        ])
    };
    let faults: Vec<String> = power.found.iter().map(one).collect();
    let numbers = format!("\"traces\": {}, \"events\": {}, \"seed\": {seed}", power.traces, power.events);
    format!("{{{numbers},\n\"faults\": {}}}\n", lines(&faults))
}
