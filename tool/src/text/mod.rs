//! The text form of configurations and traces; docs/TEXT.md has its grammar.
//!
//! In order: the words of a line ([`line`]), a configuration ([`config`]) and a trace ([`trace`]) from text to bytes,
//! and back ([`dump`]).

pub mod config;
pub mod dump;
pub mod line;
pub mod trace;

use osek_tests::cases::push_number;

use crate::words::Part;
use line::{Fault, Line, Position};

/// Line that parts the configuration from the trace.
pub const TRACE: &str = "trace";
/// Statements for bytes as they are: a number in its shortest form, and bytes in hex.
pub const NUMBER: &str = "number";
pub const BYTES: &str = "bytes";

/// Longer files are not read, and a text gives no more bytes.
pub const LENGTH_MAX: usize = 16 << 20;

/// Bytes made from a text, with the position in the text of each number.
#[derive(Default)]
pub struct Assembled {
    pub bytes: Vec<u8>,
    marks: Vec<(usize, Position)>,
}

impl Assembled {
    fn number(&mut self, value: u32, position: Position) {
        self.mark(position);
        push_number(&mut self.bytes, value);
    }

    /// What follows was written here.
    fn mark(&mut self, position: Position) {
        if self.marks.last().is_none_or(|(_, last)| *last != position) {
            self.marks.push((self.bytes.len(), position));
        }
    }

    /// Where the number that covers this offset was written.
    pub fn position(&self, offset: usize) -> Option<Position> {
        let after = self.marks.partition_point(|(start, _)| *start <= offset);
        after.checked_sub(1).map(|at| self.marks[at].1)
    }

    /// Takes a statement `number ..` or `bytes ..`; false if the line is neither.
    fn raw(&mut self, line: &mut Line) -> Result<bool, Fault> {
        match line.peek() {
            Some(NUMBER) => {
                line.take();
                let (value, position) = line.number("a number")?;
                self.number(value, position);
            }
            Some(BYTES) => {
                line.take();
                let (first, position) = line.byte()?;
                self.mark(position);
                self.bytes.push(first);
                while line.peek().is_some() {
                    self.bytes.push(line.byte()?.0);
                }
            }
            _ => return Ok(false),
        }
        line.end()?;
        Ok(true)
    }

    fn check_length(&self, line: &Line) -> Result<(), Fault> {
        if self.bytes.len() > LENGTH_MAX {
            return Err(line.whole(format!("the text gives more than {LENGTH_MAX} bytes")));
        }
        Ok(())
    }
}

/// The lines of each part of a text; those without a word are left out.
pub struct Sheet<'a> {
    pub config: Option<Vec<Line<'a>>>,
    pub trace: Option<Vec<Line<'a>>>,
}

impl<'a> Sheet<'a> {
    /// Without a line `trace` the text has one part: the one that is asked for, or else the one to which its first
    /// statement belongs.
    pub fn of(text: &'a str, wanted: Option<Part>) -> Sheet<'a> {
        let mut lines: Vec<Line> = text
            .lines()
            .enumerate()
            .map(|(index, text)| Line::of(index + 1, text))
            .filter(|line| line.peek().is_some())
            .collect();
        if let Some(at) = lines.iter().position(Line::parts) {
            let events = lines.split_off(at + 1);
            lines.pop();
            let config = (!lines.is_empty()).then_some(lines);
            return Sheet { config, trace: Some(events) };
        }
        let is_event = |line: &Line| line.peek().is_some_and(|word| crate::words::event_named(word).is_some());
        let guessed = if lines.first().is_some_and(is_event) { Part::Trace } else { Part::Config };
        match wanted.unwrap_or(guessed) {
            Part::Config => Sheet { config: Some(lines), trace: None },
            Part::Trace => Sheet { config: None, trace: Some(lines) },
        }
    }
}

#[cfg(test)]
mod tests {
    use super::*;
    use crate::layout;
    use crate::names::Names;
    use osek_tests::cases::{self, Random};

    fn config_bytes(text: &str) -> Vec<u8> {
        let lines = Sheet::of(text, Some(Part::Config)).config.expect("a configuration was asked for");
        config::assemble(lines).unwrap_or_else(|fault| panic!("{fault:?} in\n{text}")).0.bytes
    }

    fn trace_bytes(text: &str, names: &Names) -> Vec<u8> {
        let lines = Sheet::of(text, Some(Part::Trace)).trace.expect("a trace was asked for");
        trace::assemble(lines, names).unwrap_or_else(|fault| panic!("{fault:?} in\n{text}")).bytes
    }

    /// The same statements with other spaces, without comments, and with numbers in hex.
    fn laid_out_otherwise(text: &str, random: &mut Random) -> String {
        let space = |random: &mut Random| random.pick(&[" ", "  ", "\t", " \t "]);
        let mut other = String::new();
        for line in text.lines() {
            let line = line.split('#').next().unwrap_or_default();
            let raw = line.starts_with(BYTES);
            for word in line.split_whitespace() {
                other.push_str(space(random));
                match word.parse::<u32>() {
                    Ok(number) if !raw && random.chance(30) => {
                        other.push_str(&format!("{number:#X}").replace('X', "x"))
                    }
                    _ => other.push_str(word),
                }
            }
            other.push_str(random.pick(&["\n", "\r\n", " # a comment: task\n", "\n\n"]));
        }
        // A text does not begin with a blank line or a tab.
        format!("#\n{other}")
    }

    #[test]
    fn what_is_dumped_is_written_back_to_the_same_bytes_and_dumped_to_the_same_text() {
        let mut random = Random::new(7);
        for number in 0..3_000 {
            let case = cases::case(11, number);
            let names = Names::of(&layout::config(&case.config).objects);
            let text = dump::config(&case.config, &names);
            assert_eq!(config_bytes(&text), case.config, "{text}");
            assert_eq!(config_bytes(&laid_out_otherwise(&text, &mut random)), case.config, "{text}");
            let text = dump::trace(&case.trace, &names);
            assert_eq!(trace_bytes(&text, &names), case.trace, "{text}");
            assert_eq!(trace_bytes(&laid_out_otherwise(&text, &mut random), &names), case.trace, "{text}");
        }
    }

    #[test]
    fn every_number_has_its_place_in_the_text() {
        let text = "version 1\ntask a priority 300\nisr b priority 2 autostart 1\nresource r users a b\n\
                    table t period 9\n  at 3 a\nbytes 07 08\n";
        let lines = Sheet::of(text, None).config.expect("it begins with a version");
        let (assembled, names) = config::assemble(lines).expect("the text is right");
        assert_eq!(assembled.bytes, [1, 2, 0, 0xac, 2, 0, 1, 2, 1, 1, 3, 1, 9, 1, 3, 0, 7, 8]);
        assert_eq!(names.bodies, ["a", "b"]);
        let at = |offset| assembled.position(offset).map(|position| (position.line, position.column));
        assert_eq!(at(3), Some((2, 17)));
        assert_eq!(at(4), Some((2, 17)));
        assert_eq!(at(8), Some((3, 28)));
        assert_eq!(at(15), Some((6, 8)));
        assert_eq!(at(17), Some((7, 7)));
    }
}
