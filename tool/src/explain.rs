//! A refusal as sentences: what stands where, what was allowed, and the bytes around the place.

use std::fmt::Write;

use osek_tests::compare::hex;

use crate::fields;
use crate::input::{self, Pair, Source};
use crate::layout::{self, Break, Field, Objects, TraceField};
use crate::names::Names;
use crate::reference::{self, Refused};
use crate::words::{self, counted, grouped, About, Part};

/// A sentence, and the bytes that it is about.
struct Told {
    sentence: String,
    from: usize,
    to: usize,
}

/// The refusal of a pair, in full.
pub fn refusal(pair: &Pair, refused: Refused) -> String {
    let Refused { code, place } = refused;
    let Some(word) = words::refusal(code) else {
        return refused.line();
    };
    let place = place as usize;
    let mut text = format!("refused {code} {place}: {}\n", word.meaning);
    let (config, trace) = (&pair.config.source, &pair.trace);
    let of = |part: Part| if part == Part::Config { config } else { trace };
    match word.about {
        About::Unread(Part::Config) => tell(&mut text, config, unread_field(&config.bytes, &pair.config.names)),
        About::Unread(Part::Trace) | About::UnknownEvent => tell(&mut text, trace, unread_event(&trace.bytes)),
        About::Range
        | About::PriorityUsed
        | About::EntryOrder
        | About::EntryTotal
        | About::SharedOffset
        | About::MixedTable => {
            tell(&mut text, config, not_allowed(&config.bytes, word.about, place, &pair.config.names));
        }
        About::LeftOver => tell(&mut text, config, left_over(&config.bytes, place)),
        About::TooLong(part) => {
            let Source { file, bytes, .. } = of(part);
            let size = counted(bytes.len(), "byte");
            let whole = if part == Part::Config { "configuration" } else { "trace" };
            _ = if of(part).is_text() {
                writeln!(text, "The {whole} that {file} describes has {size}.")
            } else {
                writeln!(text, "{file} has {size}.")
            };
        }
        About::Output => _ = writeln!(text, "The output needs {}.", counted(place, "byte")),
        About::Unreadable(_) | About::Record => {}
    }
    text + &causes(pair, word.about)
}

/// What may be behind a refusal: a text that is none, or two files in the wrong order.
fn causes(pair: &Pair, about: About) -> String {
    let in_trace = matches!(about, About::Unread(Part::Trace) | About::UnknownEvent | About::TooLong(Part::Trace));
    let source = if in_trace { &pair.trace } else { &pair.config.source };
    let mut text = String::new();
    if let Some(why) = input::no_text_because(&source.bytes).filter(|_| !source.is_text()) {
        let _ = writeln!(text, "{} is read as bytes and not as a text: {why}.", source.file);
    }
    let (config, trace) = (&pair.config.source.bytes, &pair.trace.bytes);
    let other_is_config = reference::config_refusal(trace).is_none();
    if !in_trace && other_is_config && reference::trace_refusal(config).is_none() {
        let (first, second) = (&pair.config.source.file, &pair.trace.file);
        let _ = writeln!(text, "{second} is a configuration and {first} a trace: are they exchanged?");
    }
    text
}

/// A sentence with its file, its line in a text, and its bytes marked among their neighbours.
fn tell(text: &mut String, source: &Source, told: Option<Told>) {
    let Some(Told { sentence, from, to }) = told else { return };
    let _ = match source.position(from) {
        Some(position) => writeln!(text, "{}:{}:{}: {sentence}", source.file, position.line, position.column),
        None => writeln!(text, "{}, offset {from}: {sentence}", source.file),
    };
    marked(text, &source.bytes, from, to);
}

/// The configuration's number that can't be read.
fn unread_field(bytes: &[u8], names: &Names) -> Option<Told> {
    let layout::Config { objects, broken, .. } = layout::config(bytes);
    let (field, why) = broken?;
    Some(unread(bytes, &fields::name(field, &objects, names), why))
}

/// The number of the configuration at `place`, its value, and what was allowed.
fn not_allowed(bytes: &[u8], about: About, place: usize, names: &Names) -> Option<Told> {
    let layout::Config { numbers, objects, .. } = layout::config(bytes);
    let (field, number) = *numbers.iter().find(|(_, number)| number.offset == place)?;
    let usual = fields::allowed(field, &objects, names);
    let allowed = match (about, field) {
        (About::PriorityUsed, _) => match fields::priority_owner(&objects, number.value, names) {
            Some(owner) => format!("{usual}; {owner} has this one already"),
            None => usual,
        },
        (About::EntryOrder, Field::Task(table, entry)) => {
            let (before, this) = neighbours(&objects, table, entry)?;
            let words = |entry: &layout::Entry| format!("offset {}, task {}", entry.offset, names.body(entry.task));
            let rule = "an entry after the one before it, rising by offset, then by task, none twice";
            format!("{rule}; {} does not come after {}", words(this), words(before))
        }
        (About::SharedOffset, Field::Task(table, entry)) => {
            let (before, this) = neighbours(&objects, table, entry)?;
            let timed = if fields::is_time_triggered(&objects, this) { this } else { before };
            let rule = "an offset of its own for each time-triggered task";
            let (one, other) = (names.body(before.task), names.body(this.task));
            format!("{rule}; {one} and {other} share {}, and {} is one", this.offset, names.body(timed.task))
        }
        (About::MixedTable, Field::Task(table, entry)) => mixed(&objects, table, entry, names)?,
        (About::EntryTotal, Field::EntryCount(table)) => fields::entries_left(&objects, table),
        _ => usual,
    };
    let (name, value) = (fields::name(field, &objects, names), fields::value(field, number.value, &objects, names));
    let sentence = format!("{name} {value}. Allowed: {allowed}.");
    Some(Told { sentence, from: number.offset, to: number.end })
}

/// An entry of a table, after the one before it.
fn neighbours(objects: &Objects, table: usize, entry: usize) -> Option<(&layout::Entry, &layout::Entry)> {
    let entries = &objects.tables.get(table)?.entries;
    Some((entries.get(entry.checked_sub(1)?)?, entries.get(entry)?))
}

/// Why an entry of this task may not stand in this table.
fn mixed(objects: &Objects, table: usize, entry: usize, names: &Names) -> Option<String> {
    let timed = |entry: &layout::Entry| fields::is_time_triggered(objects, entry);
    let entries = &objects.tables.get(table)?.entries;
    let this = entries.get(entry)?;
    let name = names.body(this.task);
    let rule = "time-triggered tasks in one table, and nobody else in it";
    if let Some(other) = entries[..entry].iter().find(|other| timed(other) != timed(this)) {
        let (one, not) = if timed(this) { (name, names.body(other.task)) } else { (names.body(other.task), name) };
        return Some(format!("{rule}; {one} is one, and {not} in the same table is not"));
    }
    let first = objects.tables.iter().position(|table| table.entries.iter().any(timed))?;
    Some(format!("{rule}; {name} is one, and {} has such tasks already", fields::table(first, names)))
}

fn left_over(bytes: &[u8], place: usize) -> Option<Told> {
    let left = bytes.len().checked_sub(place)?;
    let follow = if left == 1 { "follows" } else { "follow" };
    let sentence = format!("the configuration is complete here, and {} more {follow}.", counted(left, "byte"));
    Some(Told { sentence, from: place, to: bytes.len() })
}

/// The trace's number that can't be read, or is no event's code.
fn unread_event(bytes: &[u8]) -> Option<Told> {
    let read = layout::trace(bytes);
    let step = read.events.len();
    let (field, why) = read.broken?;
    let name = match field {
        TraceField::Code => format!("the code of event {step}"),
        TraceField::Argument(word, sort) => format!("the {} of event {step} {}", sort.name(), word.name),
    };
    let Break::UnknownEvent(code) = why else {
        return Some(unread(bytes, &name, why));
    };
    let codes = || words::EVENTS.iter().map(|event| event.code);
    let (first, last) = (codes().min().unwrap_or(0), codes().max().unwrap_or(0));
    let sentence = format!("{name} is {}. Allowed: {first} to {last}.", grouped(code.value.into()));
    Some(Told { sentence, from: code.offset, to: code.end })
}

/// A number that can't be read, by the byte that decides it.
fn unread(bytes: &[u8], name: &str, why: Break) -> Told {
    let begin = why.offset().min(bytes.len());
    let (sentence, from) = match why {
        Break::Malformed { place, .. } => {
            let shown = hex(&bytes[begin..=place]);
            let sentence = if bytes[place] == 0 {
                format!("{name} is not in its shortest form: of {shown} the 00 is superfluous.")
            } else {
                format!("{name} is above 4,294,967,295: the fifth byte of {shown} may be at most 0F.")
            };
            (sentence, place)
        }
        _ if begin == bytes.len() => (format!("{name} is missing: the input ends here."), begin),
        _ => (format!("{name} is not complete: the input ends after {}.", hex(&bytes[begin..])), bytes.len()),
    };
    Told { sentence, from, to: from + 1 }
}

/// Bytes in a row of the excerpt.
const ROW: usize = 16;

/// The row of the bytes at the place, with the row before and after, and marks below the number.
fn marked(text: &mut String, bytes: &[u8], place: usize, end: usize) {
    let row = place / ROW;
    let first = row.saturating_sub(1);
    for at in first..=row + 1 {
        let start = at * ROW;
        if start > bytes.len() || (start == bytes.len() && at != row) {
            break;
        }
        let shown = &bytes[start..bytes.len().min(start + ROW)];
        let _ = writeln!(text, "  {}", format!("{start:>6}  {}", hex(shown)).trim_end());
        let marks: String = (start..start + ROW)
            .map(|offset| if (place..end.max(place + 1)).contains(&offset) { "^^ " } else { "   " })
            .collect();
        if !marks.trim().is_empty() {
            let _ = writeln!(text, "          {}", marks.trim_end());
        }
    }
}
