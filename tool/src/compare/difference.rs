//! How a simulator's reply differs from the reference, in words.

use osek_tests::cases::Case;
use osek_tests::subject;

use super::simulator::Reply;
use crate::failure::Failure;
use crate::history::History;
use crate::layout::{self, Event};
use crate::names::Names;
use crate::record::{lost, refused, row};
use crate::reference::{self, Answer, Refused, Run, ANSWER_SIZE, LOSS_SIZE};
use crate::why::{self, Why};
use crate::words::{self, counted};

/// A difference in words.
#[derive(Clone, PartialEq, Eq, Debug)]
pub struct Difference {
    pub told: String,
    /// What it is about.
    pub about: About,
    /// What it shares with others of its sort, over all cases.
    pub sort: String,
}

#[derive(Clone, Copy, PartialEq, Eq, Debug)]
pub enum About {
    /// An event's answer.
    Event(usize),
    /// A body's losses.
    Losses(usize),
    /// The reply as a whole.
    Reply,
}

impl Difference {
    fn of_reply(told: String, sort: &str) -> Difference {
        Difference { told, about: About::Reply, sort: sort.into() }
    }
}

/// What the reference says of a case.
pub struct Expected {
    case: Case,
    /// The result and the whole output buffer.
    result: u64,
    buffer: Vec<u8>,
    pub outcome: Result<Run, Refused>,
    events: Vec<Event>,
    names: Names,
}

impl Expected {
    pub fn of(case: &Case) -> Expected {
        Expected::with_names(case, Names::of(&layout::config(&case.config).objects))
    }

    pub fn with_names(case: &Case, names: Names) -> Expected {
        let mut buffer = case.prefilled();
        let result = subject::run(&case.config, &case.trace, &mut buffer);
        Expected {
            case: case.clone(),
            result,
            outcome: reference::outcome(&case.config, result, &buffer),
            buffer,
            events: layout::trace(&case.trace).events,
            names,
        }
    }

    pub fn listing(&self) -> String {
        reference::listing(&self.case.config, &self.case.trace, &self.outcome)
    }

    /// The refusal, 0 for none.
    pub fn refusal(&self) -> u32 {
        Refused::of(self.result).map_or(0, |refused| refused.code)
    }

    /// How the reply differs; none if it does not.
    pub fn difference(&self, reply: &Reply) -> Option<Difference> {
        let difference = match reply {
            Reply::Nothing(why) => {
                let why = words::visible(why);
                let told = format!("{} expected, no answer given: {why}", result_words(self.result));
                Difference::of_reply(told, &format!("no answer: {why}"))
            }
            Reply::Listing(text) if *text == self.listing() => return None,
            Reply::Listing(text) => self.of_listing(text),
            Reply::Output(bytes) => match &self.outcome {
                Ok(run) if run.output() == *bytes => return None,
                _ if shown(bytes).is_some() => {
                    let (expected, said) = (result_words(self.result), shown(bytes).unwrap_or_default());
                    let told = format!("{expected} expected, and neither a listing nor an output given, but: {said}");
                    Difference::of_reply(told, "neither a listing nor an output")
                }
                Ok(run) => self.of_output(run, bytes),
                Err(refused) => {
                    let (line, given) = (refused.line(), counted(bytes.len(), "byte"));
                    let told = format!("a line `{}` expected, {given} of output given", line.trim_end());
                    Difference::of_reply(told, &format!("refusal {} expected, an output given", refused.code))
                }
            },
            Reply::Call(result, buffer) if (*result, buffer) == (self.result, &self.buffer) => return None,
            Reply::Call(result, buffer) => self.of_call(*result, buffer),
        };
        Some(difference)
    }

    /// The history of an accepted run of the case.
    pub fn history(&self, run: &Run) -> Result<History, Failure> {
        History::of_bytes(&self.case.config, &self.case.trace, &self.names, run)
    }

    /// The states around the event, or the losses, with the reasons; lines below what was told.
    pub fn why(&self, about: About, history: impl FnOnce(&Run) -> Result<History, Failure>) -> Result<String, Failure> {
        Ok(match (about, &self.outcome) {
            (About::Event(step), Ok(run)) => Why::of(&history(run)?, step).lines_with_place(),
            (About::Losses(body), Ok(run)) => why::lost_by(&history(run)?, body),
            _ => String::new(),
        })
    }

    /// What was given in the form of what is expected, a listing, as far as it has one.
    pub fn same_form(&self, reply: &Reply) -> Vec<u8> {
        let listed = |outcome: &Result<Run, Refused>| {
            reference::listing(&self.case.config, &self.case.trace, outcome).into_bytes()
        };
        match reply {
            Reply::Listing(text) => text.clone().into_bytes(),
            Reply::Nothing(why) => format!("{why}\n").into_bytes(),
            Reply::Output(bytes) => match &self.outcome {
                Ok(run) if run.output().len() == bytes.len() => listed(&Ok(Run::of(bytes, run.answers.len()))),
                _ => bytes.clone(),
            },
            Reply::Call(result, buffer) => match (Refused::of(*result), &self.outcome) {
                (Some(refused), _) => listed(&Err(refused)),
                (None, Ok(run)) if *result == self.result => {
                    listed(&Ok(Run::of(&buffer[..run.output().len()], run.answers.len())))
                }
                _ => format!("{} and the output\n{}\n", result_words(*result), osek_tests::compare::hex(buffer))
                    .into_bytes(),
            },
        }
    }

    /// By the values that the listing says, where it is one; otherwise by the first line that differs.
    fn of_listing(&self, text: &str) -> Difference {
        match (&self.outcome, self.parsed(text)) {
            (Ok(expected), Some(Ok(given))) if *expected != given => self.of_runs(expected, &given),
            (expected, Some(given)) if *expected != given => {
                let result = match given {
                    Ok(run) => run.answers.len() as u64,
                    Err(refused) => refused.result(),
                };
                self.of_results(result)
            }
            _ => Difference::of_reply(self.of_lines(text), "a line of the listing"),
        }
    }

    fn of_results(&self, given: u64) -> Difference {
        let sort = |result: u64| match Refused::of(result) {
            Some(refused) => format!("refusal {}", refused.code),
            None => "a run".into(),
        };
        let (one, other) = (sort(self.result), sort(given));
        let sort =
            if one == other { format!("{one} at another place") } else { format!("{one} expected, {other} given") };
        Difference::of_reply(format!("{} expected, {} given", result_words(self.result), result_words(given)), &sort)
    }

    /// The first line that differs.
    fn of_lines(&self, text: &str) -> String {
        let listing = self.listing();
        let (mut expected, mut given) = (listing.lines(), text.lines());
        let mut number = 1;
        loop {
            match (expected.next(), given.next().map(words::visible)) {
                (Some(line), Some(other)) if line == other => number += 1,
                (Some(line), Some(other)) => return format!("line {number}: `{line}` expected, `{other}` given"),
                (Some(line), None) => return format!("line {number}: `{line}` expected, the listing ends before it"),
                (None, Some(other)) => return format!("line {number}: the end expected, `{other}` given"),
                (None, None) => return "the listings have the same lines, but not the same line ends".into(),
            }
        }
    }

    /// The run that a listing says, if it is one of these events and bodies.
    fn parsed(&self, text: &str) -> Option<Result<Run, Refused>> {
        let mut lines = text.lines();
        let first = lines.next()?;
        if let Some(refused) = refused(first) {
            return Some(Err(refused));
        }
        let mut run = Run { answers: Vec::new(), losses: vec![0; self.names.bodies.len()] };
        for line in lines {
            if let Some((body, count)) = lost(line) {
                *run.losses.get_mut(body)? = count;
            } else {
                let row = row(line)?;
                let here = row.step == run.answers.len();
                let same = self.events.get(row.step).is_some_and(|event| event.word.code == row.code);
                run.answers.push((here && same).then_some(row.answer)?);
            }
        }
        Some(Ok(run))
    }

    fn of_output(&self, run: &Run, bytes: &[u8]) -> Difference {
        let length = run.output().len();
        if bytes.len() == length {
            return self.of_runs(run, &Run::of(bytes, run.answers.len()));
        }
        let whole = bytes.len().min(length) / ANSWER_SIZE;
        let given = Run::of(bytes, whole.min(run.answers.len())).answers;
        match run.answers.iter().zip(&given).position(|(expected, given)| expected != given) {
            Some(step) => self.of_answers(step, run.answers[step], given[step]),
            None => {
                let (expected, given) = (counted(length, "byte"), counted(bytes.len(), "byte"));
                Difference::of_reply(
                    format!("{expected} of output expected, {given} given"),
                    "the length of the output",
                )
            }
        }
    }

    /// The first answer, or else the number of answers, or else the first loss count, that differs.
    fn of_runs(&self, expected: &Run, given: &Run) -> Difference {
        let answers = expected.answers.iter().zip(&given.answers);
        if let Some((step, (a, b))) = answers.enumerate().find(|(_, (a, b))| a != b) {
            return self.of_answers(step, *a, *b);
        }
        let (all, others) = (expected.answers.len(), given.answers.len());
        if all != others {
            let told = format!("{} expected, {} given", counted(all, "event"), counted(others, "event"));
            return Difference::of_reply(told, "the number of events");
        }
        let losses = expected.losses.iter().zip(&given.losses);
        match losses.enumerate().find(|(_, (a, b))| a != b) {
            Some((body, (a, b))) => Difference {
                told: format!("losses of body {body} {}: {a} expected, {b} given", self.names.body(body as u32)),
                about: About::Losses(body),
                sort: "losses".into(),
            },
            None => Difference::of_reply("nothing differs".into(), "nothing"),
        }
    }

    fn of_call(&self, result: u64, buffer: &[u8]) -> Difference {
        if result != self.result {
            return self.of_results(result);
        }
        match &self.outcome {
            Ok(run) => self.of_buffers(run, buffer),
            Err(_) => {
                let at = first_difference(&self.buffer, buffer);
                let told = format!("{} as expected, but byte {at} of the output was written", result_words(result));
                Difference::of_reply(told, "a refused run writes")
            }
        }
    }

    fn of_buffers(&self, run: &Run, buffer: &[u8]) -> Difference {
        let length = run.answers.len() * ANSWER_SIZE + run.losses.len() * LOSS_SIZE;
        let at = first_difference(&self.buffer, buffer);
        match buffer.get(..length) {
            Some(output) if at < length => self.of_runs(run, &Run::of(output, run.answers.len())),
            _ => {
                let told = format!("byte {at} of the output buffer was written, and the output ends at {length}");
                Difference::of_reply(told, "bytes behind the output")
            }
        }
    }

    fn of_answers(&self, step: usize, expected: Answer, given: Answer) -> Difference {
        let fields = fields(&self.names, expected, given, "given");
        let event = self.events.get(step).map_or_else(String::new, |event| format!(" {}", self.names.event(event)));
        let name = self.events.get(step).map_or("", |event| event.word.name);
        let sort = if expected.status == given.status {
            let names: Vec<&str> = fields.iter().filter_map(|field| field.split(' ').next()).collect();
            format!("{name}: {}", words::listed(&names))
        } else {
            format!("{name}: {}", fields[0])
        };
        Difference { told: format!("event {step}{event}: {}", fields.join("; ")), about: About::Event(step), sort }
    }
}

/// Each field that differs: `level 7 expected, 3 given`.
pub fn fields(names: &Names, expected: Answer, given: Answer, word: &str) -> Vec<String> {
    let runner = |body: Option<u8>| body.map_or_else(|| "-".into(), |body| names.body(body.into()));
    let mut fields = Vec::new();
    let mut compare = |name: &str, expected: String, given: String| {
        if expected != given {
            fields.push(format!("{name} {expected} expected, {given} {word}"));
        }
    };
    compare("status", words::status_words(expected.status), words::status_words(given.status));
    compare("runner", runner(expected.runner), runner(given.runner));
    compare("level", expected.level.to_string(), given.level.to_string());
    compare("begun", expected.begun.to_string(), given.begun.to_string());
    fields
}

fn first_difference(a: &[u8], b: &[u8]) -> usize {
    a.iter().zip(b).take_while(|(a, b)| a == b).count()
}

pub fn result_words(result: u64) -> String {
    match Refused::of(result) {
        Some(Refused { code, place }) => format!("refusal {code} at place {place}"),
        None => counted(result as usize, "event"),
    }
}

/// The first lines of what was printed, if it is a text; answers of an output are no letters.
fn shown(bytes: &[u8]) -> Option<String> {
    const LINES: usize = 3;
    let text = std::str::from_utf8(bytes).ok().filter(|text| text.chars().any(char::is_alphabetic))?;
    if text.chars().any(|sign| sign.is_control() && !matches!(sign, '\n' | '\r' | '\t')) {
        return None;
    }
    let lines: Vec<String> = text.lines().take(LINES).map(|line| format!("`{}`", words::visible(line))).collect();
    let more = if text.lines().count() > LINES { ", .." } else { "" };
    Some(format!("{}{more}", lines.join(", ")))
}

#[cfg(test)]
mod tests {
    use super::*;
    use osek_tests::fast::OUTPUT_MAX;
    use osek_tests::listing::{DOCUMENT_CONFIG, DOCUMENT_LISTING, DOCUMENT_TRACE};

    fn expected() -> Expected {
        let (config, trace) = (DOCUMENT_CONFIG.to_vec(), DOCUMENT_TRACE.to_vec());
        Expected::of(&Case { config, trace, out_len: OUTPUT_MAX, fill: 0 })
    }

    #[track_caller]
    fn assert_told(reply: Reply, told: &str) {
        assert_eq!(expected().difference(&reply).map(|difference| difference.told).as_deref(), Some(told));
    }

    fn listing(from: &str, to: &str) -> Reply {
        Reply::Listing(DOCUMENT_LISTING.replace(from, to))
    }

    #[test]
    fn equal_replies_have_no_difference() {
        let expected = expected();
        let output = expected.outcome.clone().expect("the listing is accepted").output();
        assert_eq!(expected.difference(&Reply::Listing(DOCUMENT_LISTING.into())), None);
        assert_eq!(expected.difference(&Reply::Output(output)), None);
        assert_eq!(expected.difference(&Reply::Call(expected.result, expected.buffer.clone())), None);
    }

    #[test]
    fn a_listing_s_first_difference_is_told() {
        assert_told(
            listing("6 2 6 0 5 0", "6 2 2 0 5 0"),
            "event 6 Finish: status 6 E_OS_RESOURCE expected, 2 E_OS_CALLEVEL given",
        );
        assert_told(
            listing("7 5 0 1 5 1", "7 5 0 - 0 0"),
            "event 7 Release resource0: runner task1 expected, - given; level 5 expected, 0 given; begun 1 expected, 0 \
             given",
        );
        assert_told(listing("lost 0 1", "lost 0 2"), "losses of body 0 task0: 1 expected, 2 given");
        assert_told(listing("lost 0 1\n", ""), "losses of body 0 task0: 1 expected, 0 given");
        assert_told(listing("lost 0 1", "lost 0 one"), "line 19: `lost 0 1` expected, `lost 0 one` given");
        assert_told(listing("15 2 0 - 0 0\n16 2 2 - 0 0\n", ""), "17 events expected, 15 events given");
        assert_told(listing("5 2 0 0 5 0", "5 3 0 0 5 0"), "line 7: `5 2 0 0 5 0` expected, `5 3 0 0 5 0` given");
        assert_told(listing("\n", "\r\n"), "the listings have the same lines, but not the same line ends");
        assert_told(Reply::Listing("refused 23 1\n".into()), "17 events expected, refusal 23 at place 1 given");
    }

    #[test]
    fn an_output_s_first_difference_is_told() {
        let mut output = expected().outcome.expect("the listing is accepted").output();
        output[4 * 3 + 2] = 5;
        assert_told(Reply::Output(output.clone()), "event 3 Line isr2: level 9 expected, 5 given");
        output.truncate(10);
        assert_told(Reply::Output(output), "74 bytes of output expected, 10 bytes given");
    }

    #[test]
    fn a_call_s_difference_is_told() {
        let Expected { result, mut buffer, .. } = expected();
        assert_told(Reply::Call(5 << 32, buffer.clone()), "17 events expected, refusal 5 at place 0 given");
        buffer[80] ^= 1;
        assert_told(Reply::Call(result, buffer), "byte 80 of the output buffer was written, and the output ends at 74");
    }
}
