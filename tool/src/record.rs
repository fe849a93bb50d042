//! What a unit or a simulator recorded: a listing as the bench program prints it, or answers of four bytes.

use crate::reference::{Answer, Refused, Run, ANSWER_SIZE, LOSS_SIZE};
use crate::words::counted;

/// The head of a listing.
const HEADER: &str = "step event status runner level begun";

/// An answer, with the event code beside it in a listing.
#[derive(Clone, Copy, PartialEq, Eq, Debug)]
pub struct Recorded {
    pub code: Option<u32>,
    pub answer: Answer,
}

#[derive(Clone, PartialEq, Eq, Debug)]
pub enum Record {
    Refused(Refused),
    Run {
        /// By event; none where the record leaves it out.
        answers: Vec<Option<Recorded>>,
        /// By body; none where the record has no losses at all.
        losses: Option<Vec<u16>>,
    },
}

impl Record {
    /// Reads a record of a trace with so many events over so many bodies. What is wrong is told with its line.
    pub fn of(bytes: &[u8], events: usize, bodies: usize) -> Result<Record, String> {
        match std::str::from_utf8(bytes) {
            Ok(text) if is_listing(bytes) => listing(text, events, bodies),
            _ => answers(bytes, events, bodies),
        }
    }
}

/// A listing begins with its header or with `refused`; no status has the number of an s or an r.
pub fn is_listing(bytes: &[u8]) -> bool {
    bytes.starts_with(b"step ") || bytes.starts_with(b"refused ")
}

/// Four bytes an event, then the losses or nothing.
fn answers(bytes: &[u8], events: usize, bodies: usize) -> Result<Record, String> {
    let whole = ANSWER_SIZE * events + LOSS_SIZE * bodies;
    if bytes.len() != whole && !bytes.len().is_multiple_of(ANSWER_SIZE) {
        let size = counted(bytes.len(), "byte");
        return Err(format!(
            ": {size} are no listing, and no answers of four bytes each with or without losses behind them"
        ));
    }
    let count = if bytes.len() == whole { events } else { bytes.len() / ANSWER_SIZE };
    let Run { answers, losses } = Run::of(bytes, count);
    let recorded = |answer| Some(Recorded { code: None, answer });
    Ok(Record::Run {
        answers: answers.into_iter().map(recorded).collect(),
        losses: (bytes.len() == whole && bodies > 0).then_some(losses),
    })
}

fn listing(text: &str, events: usize, bodies: usize) -> Result<Record, String> {
    let mut answers: Vec<Option<Recorded>> = Vec::new();
    let mut losses = vec![0; bodies];
    let mut any_lost = false;
    for (number, line) in text.lines().map(str::trim_end).enumerate() {
        let wrong = |what: &str| Err(format!(":{}: {what}: `{line}`", number + 1));
        if let Some(refused) = refused(line) {
            return Ok(Record::Refused(refused));
        } else if line.is_empty() || (number == 0 && line == HEADER) {
            continue;
        } else if let Some((body, count)) = lost(line) {
            let Some(loss) = losses.get_mut(body) else { return wrong("the configuration has no such body") };
            *loss = count;
            any_lost = true;
        } else if let Some(Row { step, code, answer }) = row(line) {
            if step > events {
                return wrong("the trace has no such event");
            }
            if answers.len() <= step {
                answers.resize(step + 1, None);
            }
            if answers[step].is_some() {
                return wrong("an event that was recorded already");
            }
            answers[step] = Some(Recorded { code: Some(code), answer });
        } else {
            return wrong("neither a row of six numbers nor a line `lost BODY COUNT`");
        }
    }
    // Of a listing that breaks off nothing is known of the losses.
    let known = any_lost || answers.len() >= events;
    Ok(Record::Run { answers, losses: known.then_some(losses) })
}

pub struct Row {
    pub step: usize,
    pub code: u32,
    pub answer: Answer,
}

/// A row of a listing.
pub fn row(line: &str) -> Option<Row> {
    let cells: Vec<&str> = line.split(' ').collect();
    let [step, code, status, runner, level, begun] = cells[..] else { return None };
    let runner = if runner == "-" { None } else { Some(runner.parse().ok()?) };
    let answer =
        Answer { status: status.parse().ok()?, runner, level: level.parse().ok()?, begun: begun.parse().ok()? };
    Some(Row { step: step.parse().ok()?, code: code.parse().ok()?, answer })
}

/// A line `lost BODY COUNT`.
pub fn lost(line: &str) -> Option<(usize, u16)> {
    let (body, count) = line.strip_prefix("lost ")?.split_once(' ')?;
    Some((body.parse().ok()?, count.parse().ok()?))
}

/// A line `refused CODE PLACE`.
pub fn refused(line: &str) -> Option<Refused> {
    let (code, place) = line.strip_prefix("refused ")?.split_once(' ')?;
    Some(Refused { code: code.parse().ok()?, place: place.parse().ok()? })
}

#[cfg(test)]
mod tests {
    use super::*;
    use osek_tests::listing::DOCUMENT_LISTING;

    fn run(record: Result<Record, String>) -> (usize, Option<Vec<u16>>) {
        match record {
            Ok(Record::Run { answers, losses }) => (answers.len(), losses),
            other => panic!("{other:?}"),
        }
    }

    #[test]
    fn a_listing_and_answers_of_four_bytes_are_read() {
        assert_eq!(run(Record::of(DOCUMENT_LISTING.as_bytes(), 17, 3)), (17, Some(vec![1, 0, 0])));
        let dos = DOCUMENT_LISTING.replace('\n', "\r\n");
        assert_eq!(Record::of(dos.as_bytes(), 17, 3), Record::of(DOCUMENT_LISTING.as_bytes(), 17, 3));
        assert_eq!(run(Record::of(&[0; 74], 17, 3)), (17, Some(vec![0, 0, 0])));
        assert_eq!(run(Record::of(&[0; 68], 17, 3)), (17, None));
        assert_eq!(run(Record::of(&[0; 8], 17, 3)), (2, None));
        assert_eq!(run(Record::of(b"", 17, 3)), (0, None));
        assert!(Record::of(&[0; 67], 17, 3).is_err_and(|why| why.starts_with(": 67 bytes are no listing")));
    }

    #[test]
    fn a_line_that_can_not_be_read_is_named() {
        let wrong = |from: &str, to: &str| {
            Record::of(DOCUMENT_LISTING.replace(from, to).as_bytes(), 17, 3).expect_err("it can't be read")
        };
        assert_eq!(wrong("lost 0 1", "lost 9 1"), ":19: the configuration has no such body: `lost 9 1`");
        assert!(wrong("3 7 0 2 9 1", "3 7 0 2 9").starts_with(":5: neither a row of six numbers"));
        assert!(wrong("3 7 0 2 9 1", "2 7 0 2 9 1").starts_with(":5: an event that was recorded already"));
    }
}
