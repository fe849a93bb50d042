//! Which number of a configuration or a trace means what, and where it stands. Nothing is judged here: counts and
//! fields are taken as they are, as far as numbers can be read. Whether they are accepted is for the library to say.

use osek_tests::fast::read_number;

use crate::words::{self, EventWord, Sort};

/// A number of a configuration; bodies, resources, tables and entries are named by their numbers.
#[derive(Clone, Copy, PartialEq, Eq, Debug)]
pub enum Field {
    Version,
    BodyCount,
    Kind(usize),
    Priority(usize),
    Autostart(usize),
    Deadline(usize),
    ResourceCount,
    Users(usize),
    TableCount,
    Period(usize),
    EntryCount(usize),
    Offset(usize, usize),
    Task(usize, usize),
}

/// A number where it stands.
#[derive(Clone, Copy, PartialEq, Eq, Debug)]
pub struct Number {
    pub value: u32,
    pub offset: usize,
    pub end: usize,
}

/// Why the reading broke off.
#[derive(Clone, Copy, PartialEq, Eq, Debug)]
pub enum Break {
    /// The input ends where the number that begins at `offset`, or the rest of it, is missing.
    Cut { offset: usize },
    /// The number that begins at `offset` is too large or not in its shortest form: the byte at `place` decides it.
    Malformed { offset: usize, place: usize },
    /// The event code here is unknown.
    UnknownEvent(Number),
}

impl Break {
    /// Where the number begins.
    pub fn offset(self) -> usize {
        match self {
            Break::Cut { offset } | Break::Malformed { offset, .. } => offset,
            Break::UnknownEvent(code) => code.offset,
        }
    }
}

fn number_at(bytes: &[u8], offset: usize) -> Result<Number, Break> {
    match read_number(bytes, offset) {
        Ok((value, end)) => Ok(Number { value, offset, end }),
        Err(refusal) if refusal.place >= bytes.len() => Err(Break::Cut { offset }),
        Err(refusal) => Err(Break::Malformed { offset, place: refusal.place }),
    }
}

/// The numbers of a list, as far as they can be read.
pub fn numbers(bytes: &[u8]) -> Vec<u32> {
    let mut numbers = Vec::new();
    let mut at = 0;
    while let Ok(number) = number_at(bytes, at) {
        numbers.push(number.value);
        at = number.end;
    }
    numbers
}

/// A body's numbers.
#[derive(Clone, Copy, PartialEq, Eq, Debug)]
pub struct Body {
    pub kind: u32,
    pub priority: u32,
    pub autostart: u32,
    /// 0 for none; always 0 in a version that has no deadlines.
    pub deadline: u32,
}

/// An entry of a table, document 01's word for an expiry point.
#[derive(Clone, Copy, PartialEq, Eq, PartialOrd, Ord, Debug)]
pub struct Entry {
    pub offset: u32,
    pub task: u32,
}

#[derive(Clone, PartialEq, Eq, Debug, Default)]
pub struct Table {
    pub period: u32,
    pub entries: Vec<Entry>,
}

/// A configuration's values, as far as whole objects were read.
#[derive(Clone, PartialEq, Eq, Debug, Default)]
pub struct Objects {
    pub version: u32,
    pub bodies: Vec<Body>,
    /// Masks of users.
    pub resources: Vec<u32>,
    pub tables: Vec<Table>,
}

impl Objects {
    /// The numbers of the configuration, in order.
    pub fn numbers(&self) -> Vec<u32> {
        let mut numbers = vec![self.version, self.bodies.len() as u32];
        for Body { kind, priority, autostart, deadline } in &self.bodies {
            numbers.extend([kind, priority, autostart]);
            numbers.extend(words::has_deadlines(self.version).then_some(deadline));
        }
        numbers.push(self.resources.len() as u32);
        numbers.extend(&self.resources);
        numbers.push(self.tables.len() as u32);
        for table in &self.tables {
            numbers.extend([table.period, table.entries.len() as u32]);
            numbers.extend(table.entries.iter().flat_map(|entry| [entry.offset, entry.task]));
        }
        numbers
    }
}

/// A configuration, read as far as its numbers can be.
pub struct Config {
    pub numbers: Vec<(Field, Number)>,
    pub objects: Objects,
    /// The offset after the last number.
    pub end: usize,
    /// The field at which the reading broke off, if it did.
    pub broken: Option<(Field, Break)>,
}

struct Reader<'a> {
    bytes: &'a [u8],
    config: Config,
}

impl Reader<'_> {
    fn next(&mut self, field: Field) -> Option<u32> {
        match number_at(self.bytes, self.config.end) {
            Ok(number) => {
                self.config.numbers.push((field, number));
                self.config.end = number.end;
                Some(number.value)
            }
            Err(why) => {
                self.config.broken = Some((field, why));
                None
            }
        }
    }

    fn read(&mut self) -> Option<()> {
        self.config.objects.version = self.next(Field::Version)?;
        for body in 0..self.next(Field::BodyCount)? as usize {
            let kind = self.next(Field::Kind(body))?;
            let priority = self.next(Field::Priority(body))?;
            let autostart = self.next(Field::Autostart(body))?;
            let has_deadline = words::has_deadlines(self.config.objects.version);
            let deadline = if has_deadline { self.next(Field::Deadline(body))? } else { 0 };
            self.config.objects.bodies.push(Body { kind, priority, autostart, deadline });
        }
        for resource in 0..self.next(Field::ResourceCount)? as usize {
            let users = self.next(Field::Users(resource))?;
            self.config.objects.resources.push(users);
        }
        for table in 0..self.next(Field::TableCount)? as usize {
            let period = self.next(Field::Period(table))?;
            self.config.objects.tables.push(Table { period, entries: Vec::new() });
            for entry in 0..self.next(Field::EntryCount(table))? as usize {
                let offset = self.next(Field::Offset(table, entry))?;
                let task = self.next(Field::Task(table, entry))?;
                self.config.objects.tables[table].entries.push(Entry { offset, task });
            }
        }
        Some(())
    }
}

pub fn config(bytes: &[u8]) -> Config {
    let config = Config { numbers: Vec::new(), objects: Objects::default(), end: 0, broken: None };
    let mut reader = Reader { bytes, config };
    reader.read();
    reader.config
}

/// An event where it stands.
#[derive(Clone, PartialEq, Eq, Debug)]
pub struct Event {
    pub word: &'static EventWord,
    pub offset: usize,
    pub end: usize,
    pub arguments: Vec<Number>,
}

/// A number of a trace.
#[derive(Clone, Copy, PartialEq, Eq, Debug)]
pub enum TraceField {
    Code,
    Argument(&'static EventWord, Sort),
}

/// A trace, read as far as its events can be.
pub struct Trace {
    pub events: Vec<Event>,
    /// The offset after the last whole event.
    pub end: usize,
    /// The number at which the reading broke off, if it did.
    pub broken: Option<(TraceField, Break)>,
}

fn event_at(bytes: &[u8], offset: usize) -> Result<Event, (TraceField, Break)> {
    let code = number_at(bytes, offset).map_err(|why| (TraceField::Code, why))?;
    let word = words::event(code.value).ok_or((TraceField::Code, Break::UnknownEvent(code)))?;
    let mut end = code.end;
    let mut arguments = Vec::new();
    for sort in word.arguments {
        let argument = number_at(bytes, end).map_err(|why| (TraceField::Argument(word, *sort), why))?;
        end = argument.end;
        arguments.push(argument);
    }
    Ok(Event { word, offset, end, arguments })
}

pub fn trace(bytes: &[u8]) -> Trace {
    let mut trace = Trace { events: Vec::new(), end: 0, broken: None };
    while trace.end < bytes.len() {
        match event_at(bytes, trace.end) {
            Ok(event) => {
                trace.end = event.end;
                trace.events.push(event);
            }
            Err(broken) => {
                trace.broken = Some(broken);
                break;
            }
        }
    }
    trace
}

#[cfg(test)]
mod tests {
    use super::*;
    use osek_tests::listing::{DOCUMENT_CONFIG, DOCUMENT_TRACE};

    #[test]
    fn numbers_stand_where_the_document_puts_them() {
        let config = config(&DOCUMENT_CONFIG);
        assert_eq!((config.end, config.broken), (20, None));
        assert_eq!(config.numbers[7], (Field::Autostart(1), Number { value: 0, offset: 7, end: 8 }));
        assert_eq!(config.numbers[19], (Field::Task(0, 1), Number { value: 0, offset: 19, end: 20 }));
        let trace = trace(&DOCUMENT_TRACE);
        assert_eq!((trace.events.len(), trace.end, trace.broken), (17, 24, None));
        assert_eq!(trace.events[3].word.name, "Line");
        assert_eq!(trace.events[3].arguments, [Number { value: 2, offset: 7, end: 8 }]);
    }

    #[test]
    fn a_reading_breaks_off_at_the_field_that_is_missing() {
        assert_eq!(config(&DOCUMENT_CONFIG[..6]).broken, Some((Field::Priority(1), Break::Cut { offset: 6 })));
        let (field, why) = trace(&[6, 8, 0, 0x80]).broken.expect("the delay is cut");
        assert_eq!(why, Break::Cut { offset: 3 });
        assert!(matches!(field, TraceField::Argument(word, Sort::Delay) if word.name == "Start"));
        let (_, why) = trace(&[6, 1, 0x80, 0x80, 0]).broken.expect("the body is malformed");
        assert_eq!(why, Break::Malformed { offset: 2, place: 4 });
        assert_eq!(trace(&[6, 77]).broken.map(|(_, why)| why.offset()), Some(1));
    }
}
