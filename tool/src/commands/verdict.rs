//! `osek verdict`: whether units under test answered right, one of them or a folder.

use std::path::Path;

use super::Command;
use crate::failure::{Ending, Failure};
use crate::options::{Accepts, Options};
use crate::output;
use crate::verdict::report::{Counts, Report};
use crate::verdict::{folder, Unit};
use crate::words::counted;

/// More threads than this are asked for by mistake.
const JOBS_MAX: u64 = 1_024;

pub const COMMAND: Command = Command {
    name: "verdict",
    brief: "DIR",
    usage: &["DIR [--jobs N] [--json FILE] [--junit FILE]", "CONFIG TRACE RECORD [..]", "LOGGER RECORD [..]"],
    summary: "whether units under test answered right",
    details: "\
Judges the answers that units recorded, four bytes for each event without the losses, and prints a line for each:
`pass`, the first event that differs or has no answer, or why nothing can be judged. DIR holds three files for each
unit: NAME.config.bin, NAME.trace.bin and NAME.record.bin; a unit without the first has config.bin of the folder.
RECORD is taken for bytes, whatever they are.

  --jobs N       so many units at once, 1 to 1024; as many as there are processors if not given
  --json FILE    one object: `units` and `summary`
  --junit FILE   JUnit XML: a difference is a failure, a unit that can't be judged an error
A FILE of - is standard output, in place of the lines.

The exit status is 1 if any unit differs or is refused, and 4 if a file of any can't be read.
",
    accepts: Accepts {
        flags: &[],
        values: &["--jobs", "--json", "--junit"],
        files: &["DIR", "TRACE", "RECORD"],
        optional: 2,
    },
    run,
};

fn run(options: &Options) -> Result<Ending, Failure> {
    let processors = std::thread::available_parallelism().map_or(1, |number| number.get() as u64);
    let jobs = options.number("--jobs", processors, 1, JOBS_MAX)?;
    let files = [options.value("--json"), options.value("--junit")];
    if files == [Some("-"), Some("-")] {
        return Err(options.wrong("standard output takes either --json or --junit"));
    }
    let units = units(options)?;
    let outcomes = folder::judge(&units, jobs as usize);
    let report = Report { title: &options.files[0], units: &units, outcomes: &outcomes };
    for (file, text) in files.iter().zip([report.json(), report.junit()]) {
        file.map(|file| output::write(file, text)).transpose()?;
    }
    if !files.contains(&Some("-")) {
        output::print(report.lines())?;
    }
    let Counts { differ, refused, unreadable, .. } = report.counts();
    match (unreadable, differ + refused) {
        (0, 0) => Ok(Ending::Done),
        (0, _) => Ok(Ending::Refused),
        (unreadable, _) => Err(Failure::Input(format!("{} can't be read", counted(unreadable, "unit")))),
    }
}

/// Those of a folder, or the one that the files are.
fn units(options: &Options) -> Result<Vec<Unit>, Failure> {
    match &options.files[..] {
        [folder] => folder::units(folder),
        [inputs @ .., record] => {
            let name = Path::new(record).file_name().map_or_else(|| record.into(), |name| name.to_string_lossy());
            let name = name.strip_suffix(folder::RECORD).unwrap_or(&name).to_string();
            Ok(vec![Unit { name, inputs: inputs.to_vec(), record: record.clone() }])
        }
        [] => Err(options.wrong("DIR is missing")),
    }
}
