//! The commands, one a file, and the table of them.

mod asm;
mod cases;
mod check;
mod compare;
mod coverage;
mod draw;
mod dump;
mod explain;
mod inspect;
mod misses;
mod oil;
mod power;
mod run;
mod salvage;
mod timeline;
mod verdict;
mod wait;

use std::fmt::Write;

use crate::choice;
use crate::failure::{Ending, Failure, EXIT_STATUSES};
use crate::options::{Accepts, Options};

pub struct Command {
    pub name: &'static str,
    /// What follows the name on a command line: in short, and in full.
    brief: &'static str,
    usage: &'static [&'static str],
    /// One line for the overview.
    summary: &'static str,
    details: &'static str,
    pub accepts: Accepts,
    pub run: fn(&Options) -> Result<Ending, Failure>,
}

pub const COMMANDS: [&Command; 17] = [
    &run::COMMAND,
    &explain::COMMAND,
    &check::COMMAND,
    &timeline::COMMAND,
    &wait::COMMAND,
    &misses::COMMAND,
    &asm::COMMAND,
    &oil::COMMAND,
    &dump::COMMAND,
    &salvage::COMMAND,
    &draw::COMMAND,
    &verdict::COMMAND,
    &cases::COMMAND,
    &compare::COMMAND,
    &inspect::COMMAND,
    &coverage::COMMAND,
    &power::COMMAND,
];

pub const INPUTS: &str = "\
CONFIG and TRACE are files of bytes or of the text form, told apart by their content, - for standard input; a CONFIG may
be OIL, too. LOGGER is one text that holds both, with a line `trace` between. docs/TEXT.md has the text form. Files over
16 MiB (16,777,216 bytes) are not read.
";

impl Command {
    /// What follows the name on a command line.
    pub fn usage(&self) -> &'static [&'static str] {
        self.usage
    }

    /// What it does, and its options.
    pub fn details(&self) -> String {
        let choice = if self.accepts.values.contains(&choice::CLASS) { choice::DETAILS } else { "" };
        format!("{}{choice}", self.details)
    }

    pub fn help(&self) -> String {
        let usage: Vec<String> = self.usage.iter().map(|usage| format!("osek {} {usage}", self.name)).collect();
        let inputs = if self.accepts.files.contains(&"TRACE") { format!("{INPUTS}\n") } else { String::new() };
        format!("usage: {}\n\n{}\n{inputs}{EXIT_STATUSES}", usage.join("\n       "), self.details())
    }
}

pub fn find(name: &str) -> Result<&'static Command, Failure> {
    let found = COMMANDS.iter().find(|command| command.name == name);
    found.copied().ok_or_else(|| Failure::Usage(format!("unknown command {name}\n\n{}", overview())))
}

/// What `osek --help` says.
pub fn overview() -> String {
    let mut text = String::from("usage: osek COMMAND ..\n\nThe bench tool over the proved OSEK reference.\n\n");
    for Command { name, brief, summary, .. } in COMMANDS {
        let _ = writeln!(text, "  {:<28}{summary}", format!("{name} {brief}"));
    }
    text.push_str("\nosek COMMAND --help says more of each.\n\n");
    text.push_str(INPUTS);
    text.push('\n');
    text.push_str(EXIT_STATUSES);
    text
}
