//! `osek inspect`: fresh traces drawn, played on a unit and judged, and a report.

use std::path::Path;
use std::time::Duration;

use super::Command;
use crate::failure::{self, Ending, Failure};
use crate::input;
use crate::inspect::plan::{self, Kinds, Plan};
use crate::inspect::report::{html, json, junit, text, Report, Result as Verdict};
use crate::inspect::{self, setting, Order};
use crate::layout;
use crate::options::{Accepts, Options};
use crate::output;
use crate::reference;
use crate::text::dump;
use crate::unit::Way;

pub const COMMAND: Command = Command {
    name: "inspect",
    brief: "CONFIG --unit 'COMMAND'",
    usage: &["CONFIG --unit 'COMMAND' [--traces N] [--seed S] [--keep-going] [--shrink] [-o DIR] .."],
    summary: "fresh traces drawn, played on a unit, judged, and a report",
    details: "\
Draws traces over CONFIG, plays each on a unit and compares its answers, fresh start and losses with the reference, up
to the first difference. The unit is a process that speaks the protocol of docs/UNIT.md. Every second trace is drawn
from a start value, weights and limits alone; the others by a draw that looks at the state, which is not proved. The
report goes to standard output and to DIR: report.txt, report.json, report.xml (JUnit) and report.html; a difference
beside it.

  --unit 'COMMAND'  a command line for sh
  --traces N        how many, 1 to 1000000; 200 if not given
  --seed S          draws the same traces again; from the system's entropy if not given, and told in the report
  --kind KIND       drawn, guided or both; both if not given
  --events N        of every drawn trace, 1 to 900; 40, 150, 400 or 900 if not given
  --weights LIST    of events, by name, 0 to 65535: tick=8,line=6; the others stay as they are
  --limits LIST     of arguments: bodies, resources, tables, delays, 1 to 65535; one above the configuration's counts
                    if not given, of delays 4, two periods or 65535
  --whole           sends the whole trace at once: faster, but the unit could look ahead
  --timeout T       seconds of silence, 1 to 3600; 10 if not given
  --keep-going      does not stop at the first difference; differences are grouped by what differs
  --shrink          makes a difference small, by replaying on the unit
  -o DIR            the folder of the report, written over; `inspection` if not given
",
    accepts: Accepts {
        flags: &["--whole", "--keep-going", "--shrink"],
        values: &["--unit", "--traces", "--seed", "--kind", "--events", "--weights", "--limits", "--timeout", "-o"],
        files: &["CONFIG"],
        optional: 0,
    },
    run,
};

fn run(options: &Options) -> Result<Ending, Failure> {
    let folder = options.value("-o").unwrap_or("inspection");
    let order = order(options)?;
    std::fs::create_dir_all(folder).map_err(|error| Failure::write(folder, &error))?;
    let report = Report::of(inspect::inspect(order)?);
    let folder = Path::new(folder);
    let said = text::write(&report);
    output::write_in(folder, "report.txt", &said)?;
    output::write_in(folder, "report.json", json::write(&report))?;
    output::write_in(folder, "report.xml", junit::write(&report))?;
    output::write_in(folder, "report.html", html::write(&report))?;
    write_differences(folder, &report)?;
    output::print(said)?;
    Ok(match report.result {
        Verdict::Pass => Ending::Done,
        Verdict::Differs => Ending::Refused,
        Verdict::Interrupted => Ending::Interrupted,
    })
}

fn order(options: &Options) -> Result<Order, Failure> {
    let command = options.required("--unit")?.to_string();
    let config = input::read_config(&options.files[0])?;
    Ok(Order {
        command,
        plan: plan(options, &config)?,
        seed_given: options.value("--seed").is_some(),
        traces: options.number("--traces", 200, 1, 1_000_000)?,
        way: if options.flag("--whole") { Way::Whole } else { Way::LockStep },
        timeout: Duration::from_secs(options.number("--timeout", 10, 1, 3_600)?),
        keep_going: options.flag("--keep-going"),
        shrink: options.flag("--shrink"),
        config,
    })
}

/// The plan that the options of a draw ask for, over an accepted configuration.
pub fn plan(options: &Options, config: &input::Config) -> Result<Plan, Failure> {
    let bytes = &config.source.bytes;
    if let Some(refused) = reference::config_refusal(bytes) {
        return Err(Failure::Input(format!("{} is refused: {}", config.source.file, refused.line().trim_end())));
    }
    let seed = match options.value("--seed") {
        Some(_) => options.number("--seed", 0, 0, u64::MAX)?,
        None => {
            let unreadable =
                |error| Failure::Input(format!("the system's entropy can't be read: {}", failure::reason(&error)));
            plan::entropy().map_err(unreadable)?
        }
    };
    let mut plan = Plan::of(&layout::config(bytes).objects, seed);
    plan.kinds = match options.value("--kind") {
        None | Some("both") => Kinds::Both,
        Some("drawn") => Kinds::Drawn,
        Some("guided") => Kinds::Guided,
        Some(other) => return Err(options.wrong(&format!("--kind takes drawn, guided or both, not {other}"))),
    };
    if options.value("--events").is_some() {
        plan.events = Some(options.number("--events", 0, 1, 900)? as usize);
    }
    let wrong = |what: String| options.wrong(&what);
    if let Some(list) = options.value("--weights") {
        setting::weights(&mut plan.setting, list).map_err(wrong)?;
    }
    if let Some(list) = options.value("--limits") {
        plan.delays_given = setting::limits(&mut plan.setting, list).map_err(wrong)?;
    }
    Ok(plan)
}

/// The first difference of each group, as files for `osek compare --unit`.
fn write_differences(folder: &Path, report: &Report) -> Result<(), Failure> {
    let config = &report.inspection.order.config;
    for (number, (_, places)) in report.groups.iter().enumerate() {
        let finding = &report.inspection.differences[places[0]].finding;
        let folder = folder.join(format!("difference-{}", number + 1));
        std::fs::create_dir_all(&folder).map_err(|error| Failure::write(&folder.display().to_string(), &error))?;
        output::write_in(&folder, "config.bin", &config.source.bytes)?;
        output::write_in(&folder, "trace.bin", &finding.trace)?;
        let texts = [dump::config(&config.source.bytes, &config.names), dump::trace(&finding.trace, &config.names)];
        output::write_in(&folder, "case.txt", format!("# {}\n{}", finding.told, texts.join("\n")))?;
        let outcome = Ok(finding.expected.clone());
        output::write_in(&folder, "expected", reference::listing(&config.source.bytes, &finding.trace, &outcome))?;
        output::write_in(&folder, "given", &finding.given)?;
    }
    Ok(())
}
