//! Files by content, bytes or the text form, and from them a configuration and a trace.

use std::fs::File;
use std::io::{self, Read};

use crate::failure::{self, Failure};
use crate::layout;
use crate::names::Names;
use crate::oil;
use crate::text::line::{Fault, Position};
use crate::text::{self, Assembled, Sheet, LENGTH_MAX};
use crate::words::{grouped, Part};

/// Why an input is not there.
pub enum InputFault {
    /// The file can't be read.
    Unreadable(Part, String),
    /// The file can be read and is not what it should be.
    Wrong(String),
}

impl From<InputFault> for Failure {
    fn from(fault: InputFault) -> Failure {
        match fault {
            InputFault::Unreadable(_, message) | InputFault::Wrong(message) => Failure::Input(message),
        }
    }
}

pub enum Content {
    Bytes(Vec<u8>),
    Text(String),
    /// A configuration in OIL.
    Oil(Vec<u8>),
}

/// Reads a file.
pub fn read(name: &str, part: Part) -> Result<Content, InputFault> {
    read_bytes(name, part).map(|bytes| {
        if part == Part::Config && oil::is_oil(&bytes) {
            Content::Oil(bytes)
        } else {
            content(bytes)
        }
    })
}

/// Reads a file, whatever it holds, as bytes.
pub fn read_bytes(name: &str, part: Part) -> Result<Vec<u8>, InputFault> {
    let unreadable = |error: std::io::Error| {
        InputFault::Unreadable(part, format!("{name} can't be read: {}", failure::reason(&error)))
    };
    let mut bytes = Vec::new();
    let mut take = |source: &mut dyn Read| source.take(LENGTH_MAX as u64 + 1).read_to_end(&mut bytes);
    let read = if name == STANDARD_INPUT {
        take(&mut io::stdin())
    } else {
        File::open(name).and_then(|mut file| take(&mut file))
    };
    read.map_err(unreadable)?;
    if bytes.len() > LENGTH_MAX {
        return Err(InputFault::Wrong(format!(
            "{name} is longer than {} bytes, and is not read",
            grouped(LENGTH_MAX as u64)
        )));
    }
    Ok(bytes)
}

/// The name of standard input and standard output.
pub const STANDARD_INPUT: &str = "-";

/// Why bytes that look like a text are none; none if they don't look like one.
pub fn no_text_because(bytes: &[u8]) -> Option<String> {
    if bytes.is_empty() {
        return Some("it is empty".into());
    }
    if bytes.starts_with(b"\xff\xfe") || bytes.starts_with(b"\xfe\xff") {
        return Some("it is UTF-16: save it as UTF-8".into());
    }
    let plain = |byte: &&u8| (32..127).contains(*byte) || matches!(**byte, b'\t' | b'\n' | b'\r');
    let (even, odd): (Vec<_>, Vec<_>) = bytes.iter().enumerate().partition(|(at, _)| at % 2 == 0);
    let zeros = |half: &[(usize, &u8)]| 2 * half.iter().filter(|(_, byte)| **byte == 0).count() > half.len();
    if bytes.len() > 8 && zeros(&even) != zeros(&odd) && 5 * bytes.iter().filter(plain).count() > 2 * bytes.len() {
        return Some("it looks like UTF-16: save it as UTF-8".into());
    }
    // A text with a few odd bytes.
    let letters = bytes.iter().filter(|byte| byte.is_ascii_alphabetic()).count();
    if 10 * bytes.iter().filter(plain).count() < 9 * bytes.len() || 2 * letters < bytes.len() {
        return None;
    }
    let valid = std::str::from_utf8(bytes).map_or_else(|error| error.valid_up_to(), str::len);
    let text = String::from_utf8_lossy(&bytes[..valid]);
    let text = text.strip_prefix(BYTE_ORDER_MARK).unwrap_or(&text);
    let place = |before: &str| {
        let column = before.rsplit('\n').next().unwrap_or_default().chars().count() + 1;
        format!("line {}, column {column}", before.matches('\n').count() + 1)
    };
    if text.starts_with(['\n', '\r', '\t']) {
        return Some("its first line is empty or begins with a tab".into());
    }
    if let Some((at, sign)) =
        text.char_indices().find(|(_, sign)| sign.is_control() && !matches!(sign, '\t' | '\n' | '\r'))
    {
        return Some(format!("it has the control character {:02X} at {}", u32::from(sign), place(&text[..at])));
    }
    bytes.get(valid).map(|byte| format!("it is not UTF-8 at {} (byte {byte:02X})", place(text)))
}

/// What UTF-8 files of some editors begin with.
const BYTE_ORDER_MARK: &str = "\u{feff}";

/// A text begins with a sign that is not a control character, and has none but tabs and line ends. No accepted
/// configuration or trace begins so: versions and event codes are below 32.
fn reads_as_text(text: &str) -> bool {
    let text = plain(text);
    text.starts_with(|first: char| !first.is_control())
        && text.chars().all(|sign| !sign.is_control() || matches!(sign, '\t' | '\n' | '\r'))
}

/// Whether a file of these bytes is taken for a text.
pub fn is_text(bytes: &[u8]) -> bool {
    std::str::from_utf8(bytes).is_ok_and(reads_as_text)
}

fn content(bytes: Vec<u8>) -> Content {
    match String::from_utf8(bytes) {
        Ok(text) if reads_as_text(&text) => Content::Text(text),
        Ok(text) => Content::Bytes(text.into_bytes()),
        Err(not_utf8) => Content::Bytes(not_utf8.into_bytes()),
    }
}

/// The text without its byte order mark.
fn plain(text: &str) -> &str {
    text.strip_prefix(BYTE_ORDER_MARK).unwrap_or(text)
}

/// So much of a line is shown before its fault, and in all.
const SHOWN_BEFORE: usize = 80;
const SHOWN: usize = 120;

/// A message at a place, with the line marked there: so many signs stand before the mark, which is so wide.
pub fn marked(place: &str, line: usize, whole: &str, before: usize, width: usize, message: &str) -> String {
    let skipped = before.saturating_sub(SHOWN_BEFORE);
    let shown: String = whole.chars().skip(skipped).take(SHOWN).collect();
    let margin = line.to_string();
    let gap = " ".repeat(margin.len());
    let spaces = " ".repeat(before - skipped);
    let marks = "^".repeat(width.clamp(1, SHOWN - SHOWN_BEFORE));
    format!("{place}: {message}\n  {margin} | {shown}\n  {gap} | {spaces}{marks}")
}

/// A fault of a text as a message: file, line and column, what was expected, and the line with the fault marked.
fn fault_words(file: &str, text: &str, fault: &Fault) -> String {
    let Fault { position: Position { line, column }, width, message } = fault;
    let whole = plain(text).lines().nth(line - 1).unwrap_or_default().trim_end().replace('\t', " ");
    marked(&format!("{file}:{line}:{column}"), *line, &whole, column - 1, *width, message)
}

/// A configuration or a trace: its file, its bytes and, made from a text, where in it each number stands.
pub struct Source {
    pub file: String,
    pub bytes: Vec<u8>,
    assembled: Option<Assembled>,
}

impl Source {
    pub fn of_bytes(file: &str, bytes: Vec<u8>) -> Source {
        Source { file: file.into(), bytes, assembled: None }
    }

    fn of_text(file: &str, assembled: Assembled) -> Source {
        Source { file: file.into(), bytes: assembled.bytes.clone(), assembled: Some(assembled) }
    }

    /// Whether it was made from a text.
    pub fn is_text(&self) -> bool {
        self.assembled.is_some()
    }

    /// Where the text says the number that covers this offset.
    pub fn position(&self, offset: usize) -> Option<Position> {
        self.assembled.as_ref().and_then(|assembled| assembled.position(offset))
    }
}

pub struct Config {
    pub source: Source,
    pub names: Names,
}

impl Config {
    fn of_oil(file: &str, text: &[u8]) -> Result<Config, InputFault> {
        match oil::read(file, text) {
            Ok((bytes, names)) => Ok(Config { source: Source::of_bytes(file, bytes), names }),
            Err(refused) => Err(InputFault::Wrong(refused.message)),
        }
    }

    pub fn of_bytes(file: &str, bytes: Vec<u8>) -> Config {
        let names = Names::of(&layout::config(&bytes).objects);
        Config { source: Source::of_bytes(file, bytes), names }
    }
}

/// What a file holds.
#[derive(Default)]
pub struct Holds {
    pub config: Option<Config>,
    pub trace: Option<Source>,
}

/// What a text holds. Names in its trace are those of its configuration, or else `names`.
pub fn assemble(file: &str, text: &str, wanted: Option<Part>, names: Option<&Names>) -> Result<Holds, InputFault> {
    assemble_sheet(file, text, Sheet::of(plain(text), wanted), names)
}

fn assemble_sheet(file: &str, text: &str, sheet: Sheet, names: Option<&Names>) -> Result<Holds, InputFault> {
    let wrong = |fault: Fault| InputFault::Wrong(fault_words(file, text, &fault));
    let mut holds = Holds::default();
    if let Some(lines) = sheet.config {
        let (assembled, names) = text::config::assemble(lines).map_err(wrong)?;
        holds.config = Some(Config { source: Source::of_text(file, assembled), names });
    }
    if let Some(lines) = sheet.trace {
        let none = Names::default();
        let names = holds.config.as_ref().map(|config| &config.names).or(names).unwrap_or(&none);
        let assembled = text::trace::assemble(lines, names).map_err(wrong)?;
        holds.trace = Some(Source::of_text(file, assembled));
    }
    Ok(holds)
}

/// A configuration from a file of it; a trace in the same file is left aside.
pub fn read_config(file: &str) -> Result<Config, InputFault> {
    config_of(file, read(file, Part::Config)?)
}

/// A configuration from what its file holds.
pub fn config_of(file: &str, content: Content) -> Result<Config, InputFault> {
    let text = match content {
        Content::Bytes(bytes) => return Ok(Config::of_bytes(file, bytes)),
        Content::Oil(text) => return Config::of_oil(file, &text),
        Content::Text(text) => text,
    };
    let sheet = Sheet { trace: None, ..Sheet::of(plain(&text), Some(Part::Config)) };
    if let Some(fault) = trace_in_the_place_of_a_configuration(file, &text) {
        return Err(fault);
    }
    assemble_sheet(file, &text, sheet, None)?.config.ok_or_else(|| no_configuration(file))
}

/// A text whose first statement is an event's, or that begins with the line `trace`.
fn trace_in_the_place_of_a_configuration(file: &str, text: &str) -> Option<InputFault> {
    let guessed = Sheet::of(plain(text), None);
    guessed.config.is_none().then(|| no_configuration(file))
}

fn no_configuration(file: &str) -> InputFault {
    InputFault::Wrong(format!("{file} holds a trace alone, no configuration, which comes first"))
}

fn trace_of(file: &str, content: Content, names: &Names) -> Result<Source, InputFault> {
    let text = match content {
        Content::Bytes(bytes) | Content::Oil(bytes) => return Ok(Source::of_bytes(file, bytes)),
        Content::Text(text) => text,
    };
    let sheet = Sheet::of(plain(&text), Some(Part::Trace));
    if sheet.config.is_some() {
        let message = format!("{file} holds a configuration of its own: give it as the only file, or a trace alone");
        return Err(InputFault::Wrong(message));
    }
    let first = sheet.trace.as_ref().and_then(|lines| lines.first()).and_then(|line| line.peek());
    if first.is_some_and(text::config::begins) {
        return Err(InputFault::Wrong(format!("{file} holds a configuration, no trace, which comes second")));
    }
    let trace = assemble_sheet(file, &text, sheet, Some(names))?.trace;
    Ok(trace.unwrap_or_else(|| Source::of_bytes(file, Vec::new())))
}

/// A trace from a file of it, with the names of a configuration.
pub fn read_trace(file: &str, names: &Names) -> Result<Source, InputFault> {
    trace_of(file, read(file, Part::Trace)?, names)
}

/// A configuration and a trace.
pub struct Pair {
    pub config: Config,
    pub trace: Source,
}

/// From two files, or from one text that holds both.
pub fn read_pair(files: &[String]) -> Result<Pair, InputFault> {
    match files {
        [config_file, trace_file, ..] => {
            // Both are read before either is judged, as the bench program does.
            let (config, trace) = (read(config_file, Part::Config)?, read(trace_file, Part::Trace)?);
            let config = config_of(config_file, config)?;
            let trace = trace_of(trace_file, trace, &config.names)?;
            Ok(Pair { config, trace })
        }
        [file] => both_of(file, read(file, Part::Config)?),
        [] => Err(InputFault::Wrong("no file is named".into())),
    }
}

fn both_of(file: &str, content: Content) -> Result<Pair, InputFault> {
    let text = match content {
        Content::Text(text) => text,
        Content::Oil(_) => {
            return Err(InputFault::Wrong(format!("{file} holds OIL: the trace has to be a second file")));
        }
        Content::Bytes(bytes) => {
            let why = no_text_because(&bytes).map_or_else(String::new, |why| format!(" ({why})"));
            return Err(InputFault::Wrong(format!("{file} holds bytes{why}: the trace has to be a second file")));
        }
    };
    let sheet = Sheet::of(plain(&text), Some(Part::Config));
    if let Some(fault) = trace_in_the_place_of_a_configuration(file, &text) {
        return Err(fault);
    }
    match assemble_sheet(file, &text, sheet, None)? {
        Holds { config: Some(config), trace: Some(trace) } => Ok(Pair { config, trace }),
        _ => {
            let place = "it follows a line `trace`, or is a second file";
            Err(InputFault::Wrong(format!("{file} holds a configuration alone, no trace: {place}")))
        }
    }
}

#[cfg(test)]
mod tests {
    use super::*;

    #[test]
    fn no_accepted_file_is_taken_for_a_text() {
        for first in 0..32 {
            assert!(!is_text(&[first, b'a', b'\n']));
        }
        assert!(!is_text(b""));
        assert!(!is_text(b"version 1\x01"));
        assert!(!is_text(&[b'a', 0xff]));
        assert!(is_text(b"version 1\r\n\ttask"));
        assert!(is_text("# f\u{fc}r\n".as_bytes()));
        assert!(is_text("\u{feff}version 1".as_bytes()));
    }
}
