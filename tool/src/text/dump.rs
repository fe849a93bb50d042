//! From bytes to text, with the offset, the bytes and the meaning of each number as comments. What is written reads
//! back to the same bytes.

use std::fmt::Write;

use super::config::statement;
use super::trace::REPEATED_MAX;
use super::{BYTES, NUMBER, TRACE};
use crate::fields;
use crate::layout::{self, Break, Field, Number};
use crate::names::Names;
use crate::words::{self, Sort};
use osek_tests::compare::hex;

/// A statement, or none, beside one number or some bytes.
struct Row {
    statement: String,
    offset: usize,
    bytes: Vec<u8>,
    meaning: String,
}

/// How many bytes a row shows, and a statement `bytes` has.
const ROW_BYTES: usize = 16;

/// The statement's column is at most so wide; a longer statement pushes its comment to the right.
const STATEMENT_WIDTH: usize = 56;

fn bytes_row(offset: usize, bytes: &[u8], meaning: &str) -> Row {
    Row { statement: format!("{BYTES} {}", hex(bytes)), offset, bytes: bytes.into(), meaning: meaning.into() }
}

/// Bytes as they are, from `offset` to the end.
fn bytes_rows(bytes: &[u8], offset: usize, meaning: &str) -> Vec<Row> {
    let starts = (offset..bytes.len()).step_by(ROW_BYTES);
    let rows = starts.enumerate().map(|(index, start)| {
        let end = bytes.len().min(start + ROW_BYTES);
        bytes_row(start, &bytes[start..end], if index == 0 { meaning } else { "" })
    });
    rows.collect()
}

/// A configuration as text.
pub fn config(bytes: &[u8], names: &Names) -> String {
    let read = layout::config(bytes);
    let rows = match read.broken {
        None => {
            let mut rows = object_rows(bytes, &read, names);
            rows.extend(bytes_rows(bytes, read.end, "left over after the configuration"));
            rows
        }
        Some((field, why)) => {
            let mut rows: Vec<Row> = read
                .numbers
                .iter()
                .map(|(field, number)| {
                    let statement = format!("{NUMBER} {}", number.value);
                    number_row(bytes, statement, number, fields::meaning(*field, number.value, names))
                })
                .collect();
            let why = format!("{}: {}", fields::name(field, &read.objects, names), break_words(why));
            rows.extend(bytes_rows(bytes, read.end, &why));
            rows
        }
    };
    let mut text = format!("# configuration, {}\n", words::counted(bytes.len(), "byte"));
    write_rows(&mut text, &rows);
    if let Some((field, Break::Cut { offset })) = read.broken.filter(|(_, why)| why.offset() == bytes.len()) {
        let _ = writeln!(
            text,
            "# it ends at offset {offset}, where {} is missing",
            fields::name(field, &read.objects, names)
        );
    }
    text
}

fn number_row(bytes: &[u8], statement: String, number: &Number, meaning: String) -> Row {
    Row { statement, offset: number.offset, bytes: bytes[number.offset..number.end].into(), meaning }
}

/// A row for each number; the first number of an object has its statement.
fn object_rows(bytes: &[u8], read: &layout::Config, names: &Names) -> Vec<Row> {
    let objects = &read.objects;
    let statement = |field: &Field| match *field {
        Field::Version => statement::version(objects.version),
        Field::Kind(body) => statement::body(&names.bodies[body], &objects.bodies[body]),
        Field::Users(resource) => statement::resource(&names.resources[resource], objects.resources[resource], names),
        Field::Period(table) => statement::table(&names.tables[table], objects.tables[table].period),
        Field::Offset(table, entry) => {
            let entry = objects.tables[table].entries[entry];
            statement::entry(entry.offset, &names.body(entry.task))
        }
        _ => String::new(),
    };
    let row = |(field, number): &(Field, Number)| {
        number_row(bytes, statement(field), number, fields::meaning(*field, number.value, names))
    };
    read.numbers.iter().map(row).collect()
}

/// A trace as text.
pub fn trace(bytes: &[u8], names: &Names) -> String {
    let read = layout::trace(bytes);
    let mut rows = Vec::new();
    let mut step = 0;
    while step < read.events.len() {
        let times = repetitions(&read.events[step..]);
        rows.extend(event_rows(bytes, &read.events[step], step, times, names));
        step += times;
    }
    if let Some((_, why)) = read.broken {
        rows.extend(bytes_rows(bytes, read.end, &format!("event {step} can't be read: {}", break_words(why))));
    }
    let mut text = format!("# trace, {}\n{TRACE}\n", words::counted(bytes.len(), "byte"));
    write_rows(&mut text, &rows);
    text
}

/// How many of these events one statement says.
fn repetitions(events: &[layout::Event]) -> usize {
    let first = &events[0];
    if !first.word.is_tick() {
        return 1;
    }
    events.iter().take(REPEATED_MAX as usize).take_while(|event| event.word == first.word).count()
}

fn event_rows(bytes: &[u8], event: &layout::Event, step: usize, times: usize, names: &Names) -> Vec<Row> {
    let name = event.word.name;
    let (statement, meaning) = if times == 1 {
        (names.statement(event), format!("event {step}: {name}"))
    } else {
        (format!("{} {times}", names.statement(event)), format!("events {step} to {}: {name}", step + times - 1))
    };
    let code_end = event.arguments.first().map_or(event.end, |argument| argument.offset);
    let code = Number { value: event.word.code, offset: event.offset, end: code_end };
    let mut rows = vec![number_row(bytes, statement, &code, meaning)];
    for (sort, argument) in event.word.arguments.iter().zip(&event.arguments) {
        let name = names.name(*sort, argument.value);
        let number = argument.value.to_string();
        let value = if *sort == Sort::Mask || name == number { name } else { format!("{number} {name}") };
        rows.push(number_row(bytes, String::new(), argument, format!("{} {value}", sort.name())));
    }
    rows
}

fn break_words(why: Break) -> String {
    match why {
        Break::Cut { offset } => format!("the number at {offset} is cut off"),
        Break::Malformed { offset, .. } => format!("the number at {offset} is too large or not in its shortest form"),
        Break::UnknownEvent(code) => format!("no event has the code {}", code.value),
    }
}

fn write_rows(text: &mut String, rows: &[Row]) {
    let widest = |lengths: &mut dyn Iterator<Item = usize>| lengths.max().unwrap_or(0);
    let statement_width = widest(&mut rows.iter().map(|row| row.statement.len())).min(STATEMENT_WIDTH);
    let offset_width = rows.last().map_or(1, |row| row.offset.to_string().len());
    // The bytes of a statement `bytes` stand in it already.
    let shown = |row: &Row| if row.statement.starts_with(BYTES) { String::new() } else { hex(&row.bytes) };
    let hex_width = widest(&mut rows.iter().map(|row| shown(row).len()));
    for row in rows {
        let Row { statement, offset, meaning, .. } = row;
        let hex = shown(row);
        let line = format!("{statement:<statement_width$}  # {offset:>offset_width$}  {hex:<hex_width$}  {meaning}");
        let _ = writeln!(text, "{}", line.trim_end());
    }
}
