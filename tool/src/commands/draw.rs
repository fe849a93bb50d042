//! `osek draw`: a drawn trace, and what it was drawn from, so that it can be drawn again.

use std::fs::File;
use std::io::Read;

use osek_tests::cases::Random;
use osek_tests::fast::{BODIES_MAX, EXTENDED, RESOURCES_MAX, TABLES_MAX};

use super::Command;
use crate::failure::{self, Ending, Failure};
use crate::layout::{self, Objects};
use crate::options::{Accepts, Options};
use crate::reference::Refused;
use crate::words::{counted, Sort, EVENTS};
use crate::{input, output, reference};

pub const COMMAND: Command = Command {
    name: "draw",
    brief: "--count N -o TRACE",
    usage: &["--count N -o TRACE [--start X | --seed S] [--config CONFIG] [--weights EVENT=W,..] [--limits SORT=L,..]"],
    summary: "a freshly drawn trace",
    details: "\
Draws a trace of N events by the library and writes it to TRACE. Start value, weights and limits are printed: with them
the same trace is drawn again.

  --start X             the start value, 1 to 4294967295
  --seed S              the start value is drawn from this number, 0 to 18446744073709551615, by a generator of another
                        kind (SplitMix64); without --start and --seed it is drawn from the system's entropy
  --config CONFIG       limits are the counts of its bodies, resources and tables, and its longest period for delays;
                        events about what it lacks (resources, tables, extended tasks) have weight 0, the others 1
  --weights EVENT=W,..  weights, 0 to 65535, by the words of the text form: tick=20,activate=3. An event that is not
                        named has weight 0. Without --weights and --config every event has weight 1
  --limits SORT=L,..    limits, 0 to 65535: bodies, resources, tables, delays. One that is not named is that of CONFIG,
                        or else 32, 16, 8 or 65535

Refused are start value 0 (50), weights that are all 0 or a limit 0 (51), and a trace above 8192 bytes (20).
",
    accepts: Accepts {
        flags: &[],
        values: &["--count", "-o", "--start", "--seed", "--config", "--weights", "--limits"],
        files: &[],
        optional: 0,
    },
    run,
};

/// The words of the limits, in the order of the call.
const LIMITS: [&str; 4] = ["bodies", "resources", "tables", "delays"];

fn run(options: &Options) -> Result<Ending, Failure> {
    options.required("--count")?;
    let count = options.number("--count", 0, 0, u64::from(u32::MAX))? as u32;
    let out = options.required("-o")?;
    if out == "-" {
        return Err(options.wrong("standard output takes the words: name a file"));
    }
    let (mut weights, mut limits) = ([1; 12], [BODIES_MAX as u16, RESOURCES_MAX as u16, TABLES_MAX as u16, u16::MAX]);
    if let Some(file) = options.value("--config") {
        let config = input::read_config(file)?.source.bytes;
        if let Some(refused) = reference::config_refusal(&config) {
            return refuse(refused);
        }
        let objects = layout::config(&config).objects;
        (weights, limits) = (weights_of(&objects), limits_of(&objects));
    }
    if let Some(given) = options.value("--weights") {
        weights = [0; 12];
        named(options, "--weights", given, &EVENTS.map(|event| event.word), &mut weights)?;
    }
    if let Some(given) = options.value("--limits") {
        named(options, "--limits", given, &LIMITS, &mut limits)?;
    }
    let start = start(options)?;
    match reference::draw(start, &weights, &limits, count) {
        Err(refused) => refuse(refused),
        Ok(trace) => {
            output::write(out, &trace)?;
            let size = format!("{}, {}", counted(count as usize, "event"), counted(trace.len(), "byte"));
            let weights = list(&EVENTS.map(|event| event.word), &weights);
            output::print(format!("start {start}\nweights {weights}\nlimits {}\n{size}\n", list(&LIMITS, &limits)))?;
            Ok(Ending::Done)
        }
    }
}

/// The refusal as the bench program prints it.
fn refuse(refused: Refused) -> Result<Ending, Failure> {
    output::print(refused.line())?;
    Ok(Ending::Refused)
}

/// 1 for every event that can do something in this configuration.
fn weights_of(objects: &Objects) -> [u16; 12] {
    let extended = objects.bodies.iter().any(|body| body.kind == EXTENDED);
    EVENTS.map(|event| {
        let there = event.arguments.iter().all(|sort| match sort {
            Sort::Body | Sort::Delay => true,
            Sort::Resource => !objects.resources.is_empty(),
            Sort::Table => !objects.tables.is_empty(),
            Sort::Mask => extended,
        });
        u16::from(there)
    })
}

/// Counts, and the longest period; 1 where there is nothing to name.
fn limits_of(objects: &Objects) -> [u16; 4] {
    let period = objects.tables.iter().map(|table| table.period).max().unwrap_or(1);
    [objects.bodies.len(), objects.resources.len(), objects.tables.len(), period as usize].map(|n| n.max(1) as u16)
}

/// `word=7,other=0` into the numbers of these words.
fn named(options: &Options, option: &str, given: &str, known: &[&str], numbers: &mut [u16]) -> Result<(), Failure> {
    for part in given.split(',') {
        let (word, number) = part.split_once('=').unwrap_or((part, ""));
        let at = known.iter().position(|known| *known == word);
        let at = at.ok_or_else(|| options.wrong(&format!("{option}: {word} is none of {}", known.join(", "))))?;
        numbers[at] =
            number.parse().map_err(|_| options.wrong(&format!("{option}: {word} takes 0 to 65535, not {number}")))?;
    }
    Ok(())
}

fn list(words: &[&str], numbers: &[u16]) -> String {
    let parts: Vec<String> = words.iter().zip(numbers).map(|(word, number)| format!("{word}={number}")).collect();
    parts.join(",")
}

/// The start value: given, or drawn from a seed or from the system's entropy. Never by the generator that it starts, whose
/// successive values would begin traces that run into each other.
fn start(options: &Options) -> Result<u32, Failure> {
    match (options.value("--start"), options.value("--seed")) {
        (Some(_), Some(_)) => Err(options.wrong("--start and --seed exclude each other")),
        (Some(_), None) => Ok(options.number("--start", 0, 0, u64::from(u32::MAX))? as u32),
        (None, Some(_)) => {
            let mut random = Random::new(options.number("--seed", 0, 0, u64::MAX)?);
            Ok(not_zero(|| Ok((random.word() >> 32) as u32)).unwrap_or(1))
        }
        (None, None) => {
            let mut bytes = [0; 4];
            let read = |bytes: &mut [u8; 4]| File::open("/dev/urandom").and_then(|mut file| file.read_exact(bytes));
            let drawn = not_zero(|| read(&mut bytes).map(|()| u32::from_ne_bytes(bytes)));
            drawn.map_err(|error| Failure::Input(format!("/dev/urandom can't be read: {}", failure::reason(&error))))
        }
    }
}

/// The first value that is not 0.
fn not_zero(mut draw: impl FnMut() -> std::io::Result<u32>) -> std::io::Result<u32> {
    loop {
        match draw()? {
            0 => {}
            value => return Ok(value),
        }
    }
}
