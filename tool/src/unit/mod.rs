//! Whatever answers: a unit under test or a simulator, a process that stays and plays one case after the other.
//! docs/UNIT.md has the protocol.
//!
//! [`process`] has the pipes and the time limit; here is what is said over them.

mod process;

use std::fmt;
use std::time::Duration;

use osek_tests::fast::IDLE;

use crate::failure::Failure;
use crate::layout;
use crate::reference::{self, Refused, ANSWER_SIZE, LOSS_SIZE};
pub use process::end_group;
use process::{Process, Stop};

/// The protocol's version.
pub const PROTOCOL: u32 = 1;

/// What a greeting begins with: the protocol and its version. The unit's own name follows, to the end of the line.
const GREETING: &[u8] = b"osek-unit 1 ";
/// The same without the version.
const GREETING_STEM: &[u8] = b"osek-unit ";
const GREETING_MAX: usize = 200;

/// In place of a status: a refusal, its code in the next byte, its place in the four bytes behind the answer.
const REFUSED: u8 = 255;
const REFUSAL_SIZE: usize = 8;

/// How events are sent.
#[derive(Clone, Copy, PartialEq, Eq, Debug)]
pub enum Way {
    /// All of them at once.
    Whole,
    /// Each only when the one before is answered, so that nothing can look ahead.
    LockStep,
}

/// What a case gave.
#[derive(Clone, PartialEq, Eq, Debug)]
pub enum Played {
    Answered {
        fresh: [u8; ANSWER_SIZE],
        /// Four bytes an event.
        answers: Vec<u8>,
        /// Two bytes a body.
        losses: Vec<u8>,
    },
    Refused(Refused),
    /// The case has no end; the answers before that.
    Broken {
        answers: Vec<u8>,
        broken: Broken,
    },
}

/// Where and how a case broke off.
#[derive(Clone, PartialEq, Eq, Debug)]
pub struct Broken {
    pub at: Point,
    pub how: Stop,
}

/// What was awaited.
#[derive(Clone, Copy, PartialEq, Eq, Debug)]
pub enum Point {
    FreshStart,
    Event(usize),
    Losses,
    Greeting,
}

impl fmt::Display for Broken {
    fn fmt(&self, f: &mut fmt::Formatter) -> fmt::Result {
        let how = self.how.word();
        match self.at {
            Point::FreshStart => write!(f, "{how} at the fresh start")?,
            Point::Event(event) => write!(f, "{how} at event {event}")?,
            Point::Losses => write!(f, "{how} at the losses")?,
            Point::Greeting => write!(f, "{how} after the reset")?,
        }
        match &self.how {
            Stop::Ended(why) | Stop::Strange(why) if !why.is_empty() => write!(f, ": {why}"),
            _ => Ok(()),
        }
    }
}

/// A unit: its command, and the process while there is one. After a silence it is started anew.
pub struct Unit {
    arguments: Vec<String>,
    timeout: Duration,
    process: Option<Process>,
    /// As its greeting has it.
    name: String,
}

impl Unit {
    /// Starts a command line for `sh`, which is given these arguments, and waits for its greeting.
    pub fn start(command: &str, arguments: &[&str], timeout: Duration) -> Result<Unit, Failure> {
        let mut unit = Unit::stopped(command, arguments, timeout);
        match unit.awake() {
            Ok(()) => Ok(unit),
            Err(stop) => Err(Failure::Input(format!("the unit does not greet: {}", stop.words(timeout)))),
        }
    }

    /// The same, where the command may know nothing of the protocol: none if it does not greet.
    pub fn greets(command: &str, arguments: &[&str], timeout: Duration) -> Option<Unit> {
        let mut unit = Unit::stopped(command, arguments, timeout);
        unit.awake().is_ok().then_some(unit)
    }

    fn stopped(command: &str, arguments: &[&str], timeout: Duration) -> Unit {
        let line = format!("{command} \"$@\"");
        let arguments = ["-c", &line, "sh"].iter().chain(arguments).map(|word| word.to_string()).collect();
        Unit { arguments, timeout, process: None, name: String::new() }
    }

    #[cfg(test)]
    fn set_timeout(&mut self, timeout: Duration) {
        self.timeout = timeout;
        self.process.iter_mut().for_each(|process| process.timeout = timeout);
    }

    pub fn name(&self) -> &str {
        &self.name
    }

    fn awake(&mut self) -> Result<(), Stop> {
        if self.process.is_none() {
            let mut process = Process::start("sh", &self.arguments, self.timeout)?;
            self.name = greeting(&mut process)?;
            self.process = Some(process);
        }
        Ok(())
    }

    /// Plays a case. In lock-step the trace has to be readable.
    pub fn play(&mut self, config: &[u8], trace: &[u8], way: Way) -> Played {
        let mut answers = Vec::new();
        let played = self.awake().map_err(|how| Broken { at: Point::Greeting, how }).and_then(|()| {
            let process = self.process.as_mut().expect("it is awake");
            let played = Case { process, config, trace, answers: &mut answers }.play(way)?;
            greeting(process).map(|_| played).map_err(|how| Broken { at: Point::Greeting, how })
        });
        played.unwrap_or_else(|broken| {
            self.process = None;
            Played::Broken { answers, broken }
        })
    }
}

/// What the reference gives for the fresh start of an accepted configuration; a body that runs then has begun.
pub fn fresh_answer(config: &[u8]) -> Option<[u8; ANSWER_SIZE]> {
    let fresh = reference::fresh_start(config)?;
    Some([0, fresh.runner.unwrap_or(IDLE), fresh.level, u8::from(fresh.runner.is_some())])
}

/// The name in a greeting, which has to come next.
fn greeting(process: &mut Process) -> Result<String, Stop> {
    let line = process.line(GREETING_MAX)?;
    match line.strip_prefix(GREETING) {
        Some(name) => Ok(String::from_utf8_lossy(name).trim_end().to_string()),
        None if line.starts_with(GREETING_STEM) => {
            Err(Stop::Strange("it speaks another version of the protocol than 1".into()))
        }
        None => Err(Stop::Strange("a greeting `osek-unit 1 NAME` is missing".into())),
    }
}

/// One case being played.
struct Case<'a> {
    process: &'a mut Process,
    config: &'a [u8],
    trace: &'a [u8],
    answers: &'a mut Vec<u8>,
}

/// An answer, or a refusal in its place.
enum Reply {
    Answer([u8; ANSWER_SIZE]),
    Refusal(Refused),
}

impl Case<'_> {
    fn play(mut self, way: Way) -> Result<Played, Broken> {
        let events = layout::trace(self.trace).events;
        match way {
            Way::Whole => {
                let blocks: Vec<u8> = [self.config, self.trace, &[]]
                    .iter()
                    .enumerate()
                    .filter(|(at, bytes)| *at != 1 || !bytes.is_empty())
                    .flat_map(|(_, bytes)| block(bytes))
                    .collect();
                self.process.send(&blocks);
            }
            Way::LockStep => self.process.send(&block(self.config)),
        }
        let fresh = match self.reply(Point::FreshStart)? {
            Reply::Answer(fresh) => fresh,
            Reply::Refusal(refused) => return self.refused(refused, way),
        };
        let refused_late = layout::trace(self.trace).broken.is_some();
        for event in 0..events.len().max(usize::from(refused_late)) {
            if way == Way::LockStep {
                let bytes = events.get(event).map_or(&[][..], |event| &self.trace[event.offset..event.end]);
                self.process.send(&block(bytes));
            }
            match self.reply(Point::Event(event))? {
                Reply::Answer(answer) => self.answers.extend(answer),
                Reply::Refusal(refused) => return self.refused(refused, way),
            }
        }
        if way == Way::LockStep {
            self.process.send(&block(&[]));
        }
        let size = LOSS_SIZE * layout::config(self.config).objects.bodies.len();
        let losses = self.process.read(size).map_err(|how| Broken { at: Point::Losses, how })?;
        Ok(Played::Answered { fresh, answers: self.answers.clone(), losses })
    }

    /// The end of a refused case: what it sends is dropped up to the empty block.
    fn refused(&mut self, refused: Refused, way: Way) -> Result<Played, Broken> {
        if way == Way::LockStep {
            self.process.send(&block(&[]));
        }
        Ok(Played::Refused(refused))
    }

    fn reply(&mut self, at: Point) -> Result<Reply, Broken> {
        let broken = |how| Broken { at, how };
        let answer = self.process.array::<ANSWER_SIZE>().map_err(broken)?;
        if answer[0] != REFUSED {
            return Ok(Reply::Answer(answer));
        }
        let place = self.process.array::<{ REFUSAL_SIZE - ANSWER_SIZE }>().map_err(broken)?;
        Ok(Reply::Refusal(Refused { code: answer[1].into(), place: u32::from_le_bytes(place) }))
    }
}

/// Bytes behind their length in four bytes, lowest first.
fn block(bytes: &[u8]) -> Vec<u8> {
    [&(bytes.len() as u32).to_le_bytes()[..], bytes].concat()
}

#[cfg(test)]
mod tests {
    use super::*;
    use osek_tests::listing::{DOCUMENT_CONFIG, DOCUMENT_TRACE};
    use osek_tests::subject::LIBRARY;

    /// The test's faulty unit.
    fn faulty(fault: &str) -> Unit {
        let (tool, library) = (env!("CARGO_MANIFEST_DIR"), LIBRARY.replace(".a", ".so"));
        let modules = format!("PYTHONPATH={tool}/../python OSEK_LIBRARY={library}");
        let command = format!("{modules} python3 -B {tool}/tests/osek/faulty_unit.py {fault}");
        let unit = Unit::start(&command, &[], Duration::from_secs(10));
        let mut unit = unit.unwrap_or_else(|failure| panic!("{fault}: {failure:?}"));
        unit.set_timeout(Duration::from_millis(300));
        unit
    }

    #[test]
    fn a_unit_that_breaks_off_is_told_where() {
        for (fault, answered, told) in [
            ("silent 16", 16, "silent at event 16"),
            ("silent 0", 0, "silent at event 0"),
            ("silent_fresh", 0, "silent at the fresh start"),
            ("silent_losses", 17, "silent at the losses"),
            ("no_reset", 17, "silent after the reset"),
            ("ends 5", 5, "ended at event 5: brown-out"),
        ] {
            for way in [Way::Whole, Way::LockStep] {
                let Played::Broken { answers, broken } = faulty(fault).play(&DOCUMENT_CONFIG, &DOCUMENT_TRACE, way)
                else {
                    panic!("{fault} {way:?} did not break off");
                };
                assert_eq!((answers.len() / ANSWER_SIZE, broken.to_string().as_str()), (answered, told), "{way:?}");
            }
        }
    }

    #[test]
    fn a_unit_is_started_anew_after_a_silence() {
        let mut unit = faulty("silent 5");
        for way in [Way::LockStep, Way::Whole, Way::LockStep] {
            assert!(matches!(unit.play(&DOCUMENT_CONFIG, &DOCUMENT_TRACE, way), Played::Broken { .. }));
            unit.set_timeout(Duration::from_secs(10));
            let Played::Answered { fresh, answers, losses } = unit.play(&DOCUMENT_CONFIG, &DOCUMENT_TRACE[..5], way)
            else {
                panic!("two events are answered");
            };
            assert_eq!((fresh, answers, losses), ([0, 0, 2, 1], vec![0, 0, 2, 0, 0, 0, 5, 0], vec![0; 6]));
            unit.set_timeout(Duration::from_millis(300));
        }
    }
}
