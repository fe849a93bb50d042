//! `osek cases`: drawn and damaged cases as files, each with the listing that the library gives.

use std::fmt::Write;

use super::Command;
use crate::choice::{self, Choice};
use crate::failure::{Ending, Failure};
use crate::options::{Accepts, Options};
use crate::output;
use crate::progress::Progress;
use crate::reference::{self, Refused};

/// More files than this are asked for by mistake.
const COUNT_MAX: u64 = 1_000_000;

pub const COMMAND: Command = Command {
    name: "cases",
    brief: "--count N -o DIR",
    usage: &["[--seed S] [--first K] --count N -o DIR"],
    summary: "drawn and damaged cases as files",
    details: "\
Writes N drawn cases to the new or empty folder DIR: NNNN.config.bin, NNNN.trace.bin and NNNN.expected, the listing.
About six cases of ten are whole; the others have a damaged configuration, a damaged trace or both. index.csv says of
each how long its files are and whether it is accepted. A case depends on the seed and its number alone, and is the
same that the tests draw.

  --seed S    which cases, 0 to 18446744073709551615; 1 if not given
  --first K   the number of the first case; 0 if not given
  --count N   how many, 1 to 1000000
",
    accepts: Accepts {
        flags: &[choice::ACCEPTED],
        values: &["--seed", "--first", "--count", choice::CLASS, choice::VERSIONS_OPTION, "-o"],
        files: &[],
        optional: 0,
    },
    run,
};

fn run(options: &Options) -> Result<Ending, Failure> {
    let seed = options.number("--seed", 1, 0, u64::MAX)?;
    let first = options.number("--first", 0, 0, u64::MAX - COUNT_MAX)?;
    options.required("--count")?;
    let count = options.number("--count", 0, 1, COUNT_MAX)?;
    let choice = Choice::of(options)?;
    let folder = output::new_folder(options.required("-o")?)?;
    let digits = (first + count - 1).to_string().len().max(4);
    let mut index = String::from("case,config_bytes,trace_bytes,events,refusal,place\n");
    let mut progress = Progress::new(count);
    for (done, (number, case)) in (1..=count).zip(choice.cases(seed, first)) {
        let outcome = reference::run(&case.config, &case.trace);
        let name = format!("{number:0digits$}");
        output::write_in(folder, &format!("{name}.config.bin"), &case.config)?;
        output::write_in(folder, &format!("{name}.trace.bin"), &case.trace)?;
        let listing = reference::listing(&case.config, &case.trace, &outcome);
        output::write_in(folder, &format!("{name}.expected"), listing)?;
        let result = match outcome {
            Ok(run) => format!("{},,", run.answers.len()),
            Err(Refused { code, place }) => format!(",{code},{place}"),
        };
        let _ = writeln!(index, "{name},{},{},{result}", case.config.len(), case.trace.len());
        progress.at(done);
    }
    output::write_in(folder, "index.csv", index)?;
    Ok(Ending::Done)
}
