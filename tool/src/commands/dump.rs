//! `osek dump`: from bytes to the text form, with the offset and the meaning of each number.

use super::Command;
use crate::failure::{Ending, Failure};
use crate::input::{self, Config, Content};
use crate::options::{Accepts, Options};
use crate::text::dump;
use crate::words::Part;
use crate::{output, reference};

pub const COMMAND: Command = Command {
    name: "dump",
    brief: "FILE",
    usage: &["FILE [--as config|trace] [--config CONFIG]"],
    summary: "from bytes to the text form, with offsets",
    details: "\
Prints a configuration or a trace in the text form, with the offset, the bytes and the meaning of each number as
comments. `osek asm` makes the same bytes of it again. A text is shown likewise, with its own names.

  --as config|trace   what FILE holds; otherwise a file of bytes is taken for the one that the library accepts, or else
                      for the one that can be read further
  --config CONFIG     names in a trace come from this configuration
",
    accepts: Accepts { flags: &[], values: &["--as", "--config"], files: &["FILE"], optional: 0 },
    run,
};

fn run(options: &Options) -> Result<Ending, Failure> {
    let wanted = match options.value("--as") {
        None => None,
        Some("config") => Some(Part::Config),
        Some("trace") => Some(Part::Trace),
        Some(other) => return Err(options.wrong(&format!("--as takes config or trace, not {other}"))),
    };
    let names = options.value("--config").map(input::read_config).transpose()?.map(|config| config.names);
    let file = &options.files[0];
    let shown = match input::read(file, Part::Config)? {
        Content::Bytes(bytes) => match wanted.unwrap_or_else(|| likely(&bytes)) {
            Part::Config => config_text(Config::of_bytes(file, bytes)),
            Part::Trace => dump::trace(&bytes, &names.unwrap_or_default()),
        },
        oil @ Content::Oil(_) => config_text(input::config_of(file, oil)?),
        Content::Text(text) => {
            let holds = input::assemble(file, &text, wanted, names.as_ref())?;
            let own = holds.config.as_ref().map(|config| config.names.clone()).or(names).unwrap_or_default();
            let trace = holds.trace.map(|trace| dump::trace(&trace.bytes, &own));
            [holds.config.map(config_text), trace].into_iter().flatten().collect::<Vec<_>>().join("\n")
        }
    };
    output::print(shown)?;
    Ok(Ending::Done)
}

fn config_text(config: Config) -> String {
    dump::config(&config.source.bytes, &config.names)
}

/// What bytes hold, as far as can be told.
fn likely(bytes: &[u8]) -> Part {
    match (reference::config_refusal(bytes), reference::trace_refusal(bytes)) {
        (None, _) => Part::Config,
        (_, None) => Part::Trace,
        (Some(config), Some(trace)) if trace.place > config.place => Part::Trace,
        _ => Part::Config,
    }
}
