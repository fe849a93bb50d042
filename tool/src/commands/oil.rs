//! `osek oil`: from an OIL text to a configuration, in bytes or in the text form with its names.

use super::Command;
use crate::failure::{Ending, Failure};
use crate::input;
use crate::oil;
use crate::options::{Accepts, Options};
use crate::output;
use crate::text::dump;
use crate::words::Part;

pub const COMMAND: Command = Command {
    name: "oil",
    brief: "FILE -o CONFIG",
    usage: &["FILE -o CONFIG [--text] [--subset]"],
    summary: "from an OIL text to a configuration",
    details: "\
Writes the configuration that the OIL text in FILE describes to CONFIG (- for standard output): TASK, ISR and RESOURCE
objects with PRIORITY, AUTOSTART and RESOURCE attributes. A text that is refused is shown on standard error with the
word at fault and what may stand there, and nothing is written. An OIL file may also stand wherever a CONFIG may.

  --text     the text form, with the names of the OIL text; so too if the name of CONFIG ends in .txt
  --subset   leaves out first what this subset does not know: CPU around the objects, OS, APPMODE and other objects,
             SCHEDULE = FULL, ACTIVATION = 1, CATEGORY = 2, other attributes, parameters in braces, descriptions.
             Each is listed on standard error. SCHEDULE = NON and the like change the meaning, and are refused. This
             filter is not proved: read what it lists.
",
    accepts: Accepts { flags: &["--text", "--subset"], values: &["-o"], files: &["FILE"], optional: 0 },
    run,
};

fn run(options: &Options) -> Result<Ending, Failure> {
    let out = options.required("-o")?;
    let file = &options.files[0];
    output::not_over(out, &options.files)?;
    let mut text = input::read_bytes(file, Part::Config)?;
    if options.flag("--subset") {
        match oil::subset(file, &text) {
            Ok(subset) => {
                subset.left_out.iter().for_each(|line| output::complain(&format!("{line}\n")));
                text = subset.text;
            }
            Err(why) => {
                output::complain(&format!("{why}\n"));
                return Ok(Ending::Refused);
            }
        }
    }
    match oil::read(file, &text) {
        Ok((config, names)) => {
            if options.flag("--text") || out.ends_with(".txt") {
                output::write(out, dump::config(&config, &names))?;
            } else {
                output::write(out, config)?;
            }
            Ok(Ending::Done)
        }
        Err(refused) => {
            output::complain(&format!("{}\n", refused.message));
            Ok(Ending::Refused)
        }
    }
}
