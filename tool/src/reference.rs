//! The proved functions: what the run says of a configuration and a trace, the verdict on recorded answers, what is salvaged
//! of a damaged trace, drawn traces, how long a body waits to begin, and which deadlines are missed.

use osek_tests::fast::{IDLE, MISSES_MAX, MISS_SIZE, OUTPUT_MAX, TRACE_MAX};
use osek_tests::salvage::STRETCHES_MAX;
use osek_tests::{listing, subject, verdict};

use crate::{json, layout, words};

/// The library's version, which its header has.
pub fn version() -> &'static str {
    const HEADER: &str = include_str!("../../include/osek.h");
    let after = HEADER.split_once("#define OSEK_VERSION \"").map_or("", |(_, after)| after);
    after.split('"').next().unwrap_or_default()
}

/// Bytes of an answer and of a loss count in the output.
pub const ANSWER_SIZE: usize = 4;
pub const LOSS_SIZE: usize = 2;

/// What an event gave.
#[derive(Clone, Copy, PartialEq, Eq, Debug)]
pub struct Answer {
    pub status: u8,
    /// The running body, if one runs.
    pub runner: Option<u8>,
    pub level: u8,
    pub begun: u8,
}

impl Answer {
    fn of(bytes: &[u8]) -> Answer {
        Answer { status: bytes[0], runner: (bytes[1] != IDLE).then_some(bytes[1]), level: bytes[2], begun: bytes[3] }
    }
}

/// An accepted run.
#[derive(Clone, PartialEq, Eq, Debug)]
pub struct Run {
    pub answers: Vec<Answer>,
    /// By body.
    pub losses: Vec<u16>,
}

impl Run {
    /// The run that an output of `events` events says.
    pub fn of(output: &[u8], events: usize) -> Run {
        let (answers, losses) = output.split_at(ANSWER_SIZE * events);
        Run {
            answers: answers.chunks_exact(ANSWER_SIZE).map(Answer::of).collect(),
            losses: losses.chunks_exact(LOSS_SIZE).map(|loss| u16::from_le_bytes([loss[0], loss[1]])).collect(),
        }
    }

    pub fn output(&self) -> Vec<u8> {
        let answers = self.answers.iter().flat_map(|a| [a.status, a.runner.unwrap_or(IDLE), a.level, a.begun]);
        answers.chain(self.losses.iter().flat_map(|loss| loss.to_le_bytes())).collect()
    }
}

#[derive(Clone, Copy, PartialEq, Eq, Debug)]
pub struct Refused {
    pub code: u32,
    pub place: u32,
}

impl Refused {
    /// `refused CODE PLACE`, as the bench program prints it.
    pub fn line(self) -> String {
        format!("refused {} {}\n", self.code, self.place)
    }

    /// One object, with the refusal in words.
    pub fn json(self) -> String {
        let Refused { code, place } = self;
        let meaning = words::refusal(code).map_or("", |word| word.meaning);
        let members = [("code", code.to_string()), ("place", place.to_string()), ("meaning", json::string(meaning))];
        format!("{{\"refused\": {}}}\n", json::object(&members))
    }

    pub fn result(self) -> u64 {
        (u64::from(self.code) << 32) + u64::from(self.place)
    }

    /// The refusal in a result, if it is one.
    pub fn of(result: u64) -> Option<Refused> {
        let code = (result >> 32) as u32;
        (code != 0).then_some(Refused { code, place: result as u32 })
    }
}

pub fn run(config: &[u8], trace: &[u8]) -> Result<Run, Refused> {
    let mut out = vec![0; OUTPUT_MAX];
    let result = subject::run(config, trace, &mut out);
    outcome(config, result, &out)
}

/// What a result and an output say.
pub fn outcome(config: &[u8], result: u64, out: &[u8]) -> Result<Run, Refused> {
    match Refused::of(result) {
        Some(refused) => Err(refused),
        None => {
            let events = result as usize;
            // An accepted configuration's second byte is its body count.
            let length = ANSWER_SIZE * events + LOSS_SIZE * usize::from(config[1]);
            Ok(Run::of(&out[..length], events))
        }
    }
}

/// Why the configuration is refused, whatever the trace.
pub fn config_refusal(config: &[u8]) -> Option<Refused> {
    run(config, &[]).err()
}

/// Why the trace is refused over an accepted configuration.
pub fn trace_refusal(trace: &[u8]) -> Option<Refused> {
    const ONE_TASK: [u8; 7] = [1, 1, 0, 1, 1, 0, 0];
    run(&ONE_TASK, trace).err()
}

/// Who runs after the fresh start of an accepted configuration, and at which level: the answer to a Line that names no
/// ISR, which changes nothing.
pub fn fresh_start(config: &[u8]) -> Option<Answer> {
    const LINE_OF_NOBODY: [u8; 6] = [7, 0xff, 0xff, 0xff, 0xff, 0x0f];
    run(config, &LINE_OF_NOBODY).ok()?.answers.first().copied()
}

/// What is said of the answers that a unit recorded.
#[derive(Clone, Copy, PartialEq, Eq, Debug)]
pub enum Verdict {
    Pass,
    /// At this event: its answer differs, or is missing.
    Fails(usize),
    Refused(Refused),
}

pub fn verdict(config: &[u8], trace: &[u8], recorded: &[u8]) -> Verdict {
    let result = subject::verdict(config, trace, recorded);
    match Refused::of(result) {
        _ if result == verdict::PASS => Verdict::Pass,
        Some(refused) => Verdict::Refused(refused),
        None => Verdict::Fails(result as usize),
    }
}

/// What is kept of a damaged trace, and what is dropped.
pub struct Salvaged {
    pub events: Vec<u8>,
    /// The dropped stretches, in bytes, and as offset and length.
    pub list: Vec<u8>,
    pub stretches: Vec<(usize, usize)>,
}

pub fn salvage(trace: &[u8]) -> Result<Salvaged, Refused> {
    let (mut events, mut list) = (vec![0; TRACE_MAX], vec![0; STRETCHES_MAX]);
    let result = subject::salvage(trace, &mut events, &mut list);
    if let Some(refused) = Refused::of(result) {
        return Err(refused);
    }
    events.truncate(result as usize & 0xffff);
    list.truncate(result as usize >> 16);
    let pair = |pair: &[u32]| (pair[0] as usize, pair[1] as usize);
    let stretches = layout::numbers(&list).chunks_exact(2).map(pair).collect();
    Ok(Salvaged { events, list, stretches })
}

/// How many bodies end before this one begins.
pub fn wait(config: &[u8], trace: &[u8], body: u32) -> Result<usize, Refused> {
    let result = subject::wait(config, trace, body);
    Refused::of(result).map_or(Ok(result as usize), Err)
}

/// Whose ends the next `count` Finish events are; none if the trace is then too long.
pub fn ends(config: &[u8], trace: &[u8], count: usize) -> Option<Vec<u32>> {
    const FINISH: u8 = 2;
    let answers = run(config, &[trace, &vec![FINISH; count]].concat()).ok()?.answers;
    let before = answers.len() - count;
    // The runner before each Finish: after the event before it, or after the fresh start.
    let runner = |finish: usize| match finish {
        0 => fresh_start(config)?.runner,
        _ => answers[finish - 1].runner,
    };
    (before..answers.len()).map(|finish| runner(finish).map(u32::from)).collect()
}

/// A missed deadline: the number of its Tick, from 1, and the task.
#[derive(Clone, Copy, PartialEq, Eq, Debug)]
pub struct Miss {
    pub tick: u32,
    pub task: u32,
}

/// How many deadlines are missed, and the first of them.
#[derive(Clone, PartialEq, Eq, Debug)]
pub struct Misses {
    pub count: usize,
    pub first: Vec<Miss>,
}

impl Misses {
    /// Of these misses all are counted, and the first are listed.
    pub fn of(misses: impl Iterator<Item = Miss>) -> Misses {
        let mut first: Vec<Miss> = misses.collect();
        let count = first.len();
        first.truncate(MISSES_MAX);
        Misses { count, first }
    }
}

pub fn misses(config: &[u8], trace: &[u8]) -> Result<Misses, Refused> {
    let mut list = [0; MISSES_MAX * MISS_SIZE];
    let result = subject::misses(config, trace, &mut list);
    if let Some(refused) = Refused::of(result) {
        return Err(refused);
    }
    let miss = |bytes: &[u8]| Miss { tick: u16::from_le_bytes([bytes[0], bytes[1]]).into(), task: bytes[2].into() };
    let count = result as usize;
    Ok(Misses { count, first: list.chunks_exact(MISS_SIZE).take(count).map(miss).collect() })
}

/// A drawn trace.
pub fn draw(start: u32, weights: &[u16; 12], limits: &[u16; 4], count: u32) -> Result<Vec<u8>, Refused> {
    let mut trace = vec![0; TRACE_MAX];
    let result = subject::draw(start, weights, limits, count, &mut trace);
    match Refused::of(result) {
        Some(refused) => Err(refused),
        None => {
            trace.truncate(result as usize);
            Ok(trace)
        }
    }
}

/// The bench program's listing.
pub fn listing(config: &[u8], trace: &[u8], outcome: &Result<Run, Refused>) -> String {
    match outcome {
        Ok(run) => listing::listing(config, trace, run.answers.len() as u64, &run.output()),
        Err(refused) => refused.line(),
    }
}
