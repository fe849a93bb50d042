//! A trace from text to bytes; names come from its configuration.

use super::config::resolve;
use super::line::{quoted, Fault, Line};
use super::{Assembled, BYTES, NUMBER};
use crate::names::Names;
use crate::words::{self, EventWord, Sort, EVENTS};

/// The most times that one statement repeats an event.
pub const REPEATED_MAX: u32 = 65_535;

pub fn assemble(lines: Vec<Line>, names: &Names) -> Result<Assembled, Fault> {
    let mut out = Assembled::default();
    for mut line in lines {
        if !out.raw(&mut line)? {
            event(&mut out, &mut line, names)?;
        }
        out.check_length(&line)?;
    }
    Ok(out)
}

fn event(out: &mut Assembled, line: &mut Line, names: &Names) -> Result<(), Fault> {
    let Some(word) = line.peek().and_then(words::event_named) else {
        let events = EVENTS.iter().map(|event| event.word);
        return Err(line.expected(&quoted(&events.chain([NUMBER, BYTES]).collect::<Vec<_>>())));
    };
    let (_, position) = line.take();
    let mut arguments = Vec::new();
    for sort in word.arguments {
        arguments.push(match sort {
            Sort::Delay => line.number("the delay, a number")?,
            Sort::Mask => line.number("the mask, a number")?,
            named => {
                let (reference, at) = line.reference(named.name())?;
                (resolve(names, *named, &reference, at)?, at)
            }
        });
    }
    let times = repeated(line, word)?;
    line.end()?;
    for _ in 0..times {
        out.number(word.code, position);
        for (value, at) in &arguments {
            out.number(*value, *at);
        }
    }
    Ok(())
}

/// How often the event is repeated: once, if the statement does not say.
fn repeated(line: &mut Line, word: &EventWord) -> Result<u32, Fault> {
    if !word.is_tick() || line.peek().is_none() {
        return Ok(1);
    }
    let range = format!("how often, 1 to {REPEATED_MAX}");
    let out_of_range = line.expected(&range);
    let (times, _) = line.number(&range)?;
    if (1..=REPEATED_MAX).contains(&times) {
        Ok(times)
    } else {
        Err(out_of_range)
    }
}
