//! Units under test: what the library's verdict on each is, in words.

pub mod folder;
pub mod report;

use osek_tests::fast::IDLE;

use crate::failure::Failure;
use crate::input::{self, Pair};
use crate::layout;
use crate::reference::{self, Refused, Verdict, ANSWER_SIZE};
use crate::words::{self, Part};

/// The files of a unit.
#[derive(Clone, PartialEq, Eq, Debug)]
pub struct Unit {
    pub name: String,
    /// The configuration and the trace, or one text that holds both.
    pub inputs: Vec<String>,
    pub record: String,
}

/// What is said of a unit.
#[derive(Clone, PartialEq, Eq, Debug)]
pub enum Outcome {
    Pass,
    /// The event at which it differs, and how.
    Differs(usize, String),
    Refused(Refused),
    /// A file of it can't be read or understood.
    Unreadable(String),
}

impl Unit {
    pub fn judge(&self) -> Outcome {
        let read = || -> Result<(Pair, Vec<u8>), Failure> {
            let pair = input::read_pair(&self.inputs)?;
            let record = input::read_bytes(&self.record, Part::Trace)?;
            Ok((pair, record))
        };
        match read() {
            Ok((pair, record)) => of_record(&pair, &record),
            Err(Failure::Input(message)) => Outcome::Unreadable(message),
            Err(failure) => Outcome::Unreadable(format!("{failure:?}")),
        }
    }
}

fn of_record(pair: &Pair, record: &[u8]) -> Outcome {
    match reference::verdict(&pair.config.source.bytes, &pair.trace.bytes, record) {
        Verdict::Pass => Outcome::Pass,
        Verdict::Refused(refused) => Outcome::Refused(refused),
        Verdict::Fails(event) => Outcome::Differs(event, difference(pair, record, event)),
    }
}

/// The event, and each of its four bytes that differs.
fn difference(pair: &Pair, record: &[u8], event: usize) -> String {
    let names = &pair.config.names;
    let word = layout::trace(&pair.trace.bytes).events.get(event).map_or_else(String::new, |event| names.event(event));
    let at = ANSWER_SIZE * event;
    let Some(recorded) = record.get(at..at + ANSWER_SIZE) else { return format!("{word}: no answer recorded") };
    let run =
        reference::run(&pair.config.source.bytes, &pair.trace.bytes).expect("a trace that was judged is accepted");
    let expected = &run.output()[at..at + ANSWER_SIZE];
    let runner = |body: u8| match body {
        IDLE => "-".into(),
        body if usize::from(body) < names.bodies.len() => names.body(body.into()),
        body => body.to_string(),
    };
    let number = |byte: u8| byte.to_string();
    let shown: [(&str, &dyn Fn(u8) -> String, &dyn Fn(u8) -> String); ANSWER_SIZE] = [
        ("status", &words::status_words, &number),
        ("runner", &runner, &runner),
        ("level", &number, &number),
        ("begun", &number, &number),
    ];
    let fields: Vec<String> = shown
        .iter()
        .zip(expected.iter().zip(recorded))
        .filter(|(_, (expected, recorded))| expected != recorded)
        .map(|((name, of_expected, of_recorded), (expected, recorded))| {
            format!("{name} {} expected, {} recorded", of_expected(*expected), of_recorded(*recorded))
        })
        .collect();
    format!("{word}: {}", fields.join("; "))
}

impl Outcome {
    /// What follows a unit's name in its line.
    pub fn words(&self) -> String {
        match self {
            Outcome::Pass => "pass".into(),
            Outcome::Differs(event, how) => format!("differs at {event}: {how}"),
            Outcome::Refused(Refused { code, place }) => {
                let meaning = words::refusal(*code).map_or("", |word| word.meaning);
                format!("refused {code} {place}: {meaning}")
            }
            Outcome::Unreadable(message) => format!("unreadable: {message}"),
        }
    }
}
