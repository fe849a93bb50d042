//! `osek asm`: from the text form to bytes.

use super::Command;
use crate::failure::{Ending, Failure};
use crate::input::{self, Content, Holds};
use crate::options::{Accepts, Options};
use crate::output;
use crate::words::Part;

pub const COMMAND: Command = Command {
    name: "asm",
    brief: "FILE -o OUT",
    usage: &["FILE -o OUT [--config CONFIG]"],
    summary: "from the text form to bytes",
    details: "\
Writes the bytes of the configuration or the trace in FILE to OUT (- for standard output). A text that holds both
gives two files, OUT.config.bin and OUT.trace.bin. What the text says is written, in range or not: `osek explain`
judges it. A file of bytes is copied.

  --config CONFIG   names in a trace alone come from this configuration
",
    accepts: Accepts { flags: &[], values: &["-o", "--config"], files: &["FILE"], optional: 0 },
    run,
};

fn run(options: &Options) -> Result<Ending, Failure> {
    let out = options.required("-o")?;
    let config = options.value("--config").map(input::read_config).transpose()?;
    let file = &options.files[0];
    output::not_over(out, &options.files)?;
    let text = match input::read(file, Part::Config)? {
        Content::Bytes(bytes) => {
            if let Some(why) = input::no_text_because(&bytes).filter(|_| !bytes.is_empty()) {
                return Err(Failure::Input(format!("{file} can't be read as a text: {why}")));
            }
            output::write(out, bytes)?;
            return Ok(Ending::Done);
        }
        oil @ Content::Oil(_) => {
            output::write(out, input::config_of(file, oil)?.source.bytes)?;
            return Ok(Ending::Done);
        }
        Content::Text(text) => text,
    };
    match input::assemble(file, &text, None, config.as_ref().map(|config| &config.names))? {
        Holds { config: Some(config), trace: Some(trace) } => {
            if out == "-" {
                return Err(options.wrong(&format!("{file} gives two files, which -o - can't take")));
            }
            output::write(&format!("{out}.config.bin"), config.source.bytes)?;
            output::write(&format!("{out}.trace.bin"), trace.bytes)?;
        }
        Holds { config, trace } => {
            let part = config.map(|config| config.source).or(trace);
            output::write(out, part.map(|part| part.bytes).unwrap_or_default())?;
        }
    }
    Ok(Ending::Done)
}
