//! `osek wait`: how many bodies must end before one that waits begins, and which.

use std::fmt::Write;

use super::Command;
use crate::failure::{Ending, Failure};
use crate::input::{self, Pair};
use crate::options::{Accepts, Options};
use crate::reference::{self, Refused};
use crate::words::{counted, refusal, Sort};
use crate::{layout, output};

pub const COMMAND: Command = Command {
    name: "wait",
    brief: "CONFIG TRACE [BODY]",
    usage: &["CONFIG TRACE [BODY]", "LOGGER [BODY]"],
    summary: "how many bodies end before one begins",
    details: "\
Says how long a body waits to begin after the trace: the number of ends (Finish events) until it does, if nothing else
follows, and whose they are, in order. A body waits if it is ready, or a started ISR that is requested again. BODY is a
name or a number; without it all that wait are told, in the order in which they begin. Refused, `refused CODE 0` is
printed: 35 if the configuration has extended or time-triggered tasks, 34 if no body has this number, 31 if it does not
wait, 32 if a resource is held; before these the refusals of a run.
",
    accepts: Accepts { flags: &[], values: &[], files: &["CONFIG", "TRACE", "BODY"], optional: 2 },
    run,
};

fn run(options: &Options) -> Result<Ending, Failure> {
    let (pair, body) = arguments(&options.files)?;
    let told = match body {
        Some(word) => {
            let body = number(&pair, word).ok_or_else(|| options.wrong(&unknown(&pair, word)))?;
            ends(&pair, body).map(|ends| sentence(&pair, body, &ends))
        }
        None => all(&pair),
    };
    match told {
        Ok(text) => {
            output::print(text)?;
            Ok(Ending::Done)
        }
        Err(refused) => {
            output::complain(&format!("osek: {}\n", why(refused.code)));
            output::print(refused.line())?;
            Ok(Ending::Refused)
        }
    }
}

/// The pair, and the word for the body. Of two arguments the second is the body if the first holds a trace, too, and has
/// such a body; otherwise it is the trace.
fn arguments(files: &[String]) -> Result<(Pair, Option<&String>), Failure> {
    if let [logger, word] = files {
        if let Ok(pair) = input::read_pair(std::slice::from_ref(logger)) {
            if number(&pair, word).is_some() {
                return Ok((pair, Some(word)));
            }
        }
    }
    Ok((input::read_pair(&files[..files.len().min(2)])?, files.get(2)))
}

/// A body by its name, or by its number, which need not be one.
fn number(pair: &Pair, word: &str) -> Option<u32> {
    pair.config.names.number(Sort::Body, word).or_else(|| word.parse().ok())
}

fn unknown(pair: &Pair, word: &str) -> String {
    format!("no body is called {word}: {}", pair.config.names.known(Sort::Body))
}

/// Whose ends a body waits for; without their names where the trace leaves no room for them.
struct Ends {
    count: usize,
    bodies: Option<Vec<u32>>,
}

fn ends(pair: &Pair, body: u32) -> Result<Ends, Refused> {
    let (config, trace) = (&pair.config.source.bytes, &pair.trace.bytes);
    let count = reference::wait(config, trace, body)?;
    Ok(Ends { count, bodies: reference::ends(config, trace, count) })
}

/// Every body that waits, the next to begin first.
fn all(pair: &Pair) -> Result<String, Refused> {
    let bodies = layout::config(&pair.config.source.bytes).objects.bodies.len() as u32;
    let mut waiting = Vec::new();
    for body in 0..bodies.max(1) {
        match ends(pair, body) {
            Ok(ends) => waiting.push((body, ends)),
            Err(Refused { code: NOT_WAITING, .. }) => {}
            Err(refused) => return Err(refused),
        }
    }
    waiting.sort_by_key(|(_, ends)| ends.count);
    let mut text = String::new();
    for (body, ends) in &waiting {
        text.push_str(&sentence(pair, *body, ends));
    }
    if waiting.is_empty() {
        text.push_str("nobody waits to begin\n");
    }
    Ok(text)
}

fn sentence(pair: &Pair, body: u32, ends: &Ends) -> String {
    let names = &pair.config.names;
    let mut text = format!("{} waits for {}", names.body(body), counted(ends.count, "end"));
    if let Some(bodies) = &ends.bodies {
        let bodies: Vec<String> = bodies.iter().map(|body| names.body(*body)).collect();
        let _ = write!(text, ": {}", bodies.join(", "));
    }
    text.push('\n');
    text
}

const NOT_WAITING: u32 = 31;

fn why(code: u32) -> &'static str {
    match code {
        NOT_WAITING => "the body does not wait to begin",
        32 => "a resource is held",
        34 => "no body has this number",
        35 => "the configuration has extended or time-triggered tasks",
        code => refusal(code).map_or("the call is refused", |word| word.meaning),
    }
}
