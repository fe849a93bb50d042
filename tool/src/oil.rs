//! OIL texts beside the proved reading of them: what their names are, what is wrong with one that is refused, and a
//! filter, not proved, that leaves out what the subset does not know.

use osek_tests::fast::{BODIES_MAX, CONFIG_MAX, PRIORITY_MAX, RESOURCES_MAX};
use osek_tests::subject;

use crate::input;
use crate::names::Names;
use crate::reference::Refused;
use crate::text;
use crate::words::{self, Sort};

/// The objects of the subset, each with its attributes.
const OBJECTS: [(&str, &[&str]); 3] =
    [("TASK", &["PRIORITY", "AUTOSTART", "RESOURCE"]), ("ISR", &["PRIORITY", "RESOURCE"]), ("RESOURCE", &[])];

/// Words of OIL 2.5 that the subset does not know.
const OTHERS: [&str; 33] = [
    "OIL_VERSION",
    "IMPLEMENTATION",
    "CPU",
    "OS",
    "APPMODE",
    "COUNTER",
    "ALARM",
    "EVENT",
    "MESSAGE",
    "COM",
    "NM",
    "IPDU",
    "NETWORKMESSAGE",
    "SCHEDULE",
    "ACTIVATION",
    "CATEGORY",
    "RESOURCEPROPERTY",
    "LINKEDRESOURCE",
    "STACKSIZE",
    "STACK",
    "TYPE",
    "STATUS",
    "STARTUPHOOK",
    "ERRORHOOK",
    "SHUTDOWNHOOK",
    "PRETASKHOOK",
    "POSTTASKHOOK",
    "USEGETSERVICEID",
    "USEPARAMETERACCESS",
    "USERESSCHEDULER",
    "MASK",
    "ACCESSOR",
    "SCHEDULETABLE",
];

/// What UTF-8 files of some editors begin with.
const BYTE_ORDER_MARK: &[u8] = b"\xef\xbb\xbf";

/// The text without its byte order mark.
pub fn plain(text: &[u8]) -> &[u8] {
    text.strip_prefix(BYTE_ORDER_MARK).unwrap_or(text)
}

/// Whether a file is meant as OIL: behind spaces and comments it begins with a word of OIL.
pub fn is_oil(bytes: &[u8]) -> bool {
    let known = |word: &str| OBJECTS.iter().any(|(object, _)| *object == word) || OTHERS.contains(&word);
    tokens(plain(bytes)).first().is_some_and(|first| known(&first.word) || first.word == "#include")
}

/// A word, a number, a string or a sign, and where it stands.
#[derive(Clone, Debug)]
struct Token {
    word: String,
    start: usize,
    end: usize,
}

fn is_letter(byte: u8) -> bool {
    byte.is_ascii_alphanumeric() || byte == b'_'
}

/// How long the token at the head of the bytes is, and whether it is a space or a comment.
fn token_length(bytes: &[u8]) -> (usize, bool) {
    let until = |pattern: &[u8], from: usize| {
        let found = bytes[from.min(bytes.len())..].windows(pattern.len()).position(|window| window == pattern);
        found.map_or(bytes.len(), |at| from + at + pattern.len())
    };
    match bytes {
        [b'/', b'/', ..] => (until(b"\n", 2), true),
        [b'/', b'*', ..] => (until(b"*/", 2), true),
        [b'"', ..] => (until(b"\"", 1), false),
        [first, ..] if first.is_ascii_whitespace() => (1, true),
        [b'#', ..] => (1 + bytes[1..].iter().take_while(|byte| is_letter(**byte)).count(), false),
        [first, ..] if is_letter(*first) => (bytes.iter().take_while(|byte| is_letter(**byte)).count(), false),
        _ => (1, false),
    }
}

fn tokens(text: &[u8]) -> Vec<Token> {
    let mut tokens = Vec::new();
    let mut start = 0;
    while start < text.len() {
        let (length, skipped) = token_length(&text[start..]);
        let end = start + length;
        if !skipped {
            tokens.push(Token { word: String::from_utf8_lossy(&text[start..end]).into_owned(), start, end });
        }
        start = end;
    }
    tokens
}

/// An object as its words say it.
struct Object<'t> {
    kind: &'t str,
    name: &'t Token,
    /// Attributes with their values.
    attributes: Vec<(&'t str, &'t Token)>,
}

/// The objects of a text that is OIL but for ranges.
fn objects(tokens: &[Token]) -> Vec<Object<'_>> {
    let mut objects: Vec<Object> = Vec::new();
    let mut inside = false;
    for (index, token) in tokens.iter().enumerate() {
        match (token.word.as_str(), tokens.get(index + 1)) {
            ("{", _) => inside = true,
            ("}", _) => inside = false,
            (kind, Some(name)) if !inside && OBJECTS.iter().any(|(object, _)| *object == kind) => {
                objects.push(Object { kind, name, attributes: Vec::new() });
            }
            ("=", Some(value)) if inside => {
                if let (Some(object), Some(before)) = (objects.last_mut(), index.checked_sub(1)) {
                    object.attributes.push((&tokens[before].word, value));
                }
            }
            _ => {}
        }
    }
    objects
}

/// The names of an accepted text; one that is a word of the text form gets a line at its end.
fn names(text: &[u8]) -> Names {
    let tokens = tokens(text);
    let mut names = Names { given: true, ..Names::default() };
    for object in objects(&tokens) {
        let sort = if object.kind == "RESOURCE" { Sort::Resource } else { Sort::Body };
        let name = &object.name.word;
        names.add(sort, if text::config::is_reserved(name) { format!("{name}_") } else { name.clone() });
    }
    names
}

/// What an OIL text is refused with: the refusal, line and column, and a message that shows them.
pub struct RefusedText {
    pub message: String,
}

/// The configuration of an OIL text and its names.
pub fn read(file: &str, text: &[u8]) -> Result<(Vec<u8>, Names), RefusedText> {
    let text = plain(text);
    let mut config = vec![0; CONFIG_MAX];
    let mut place = [0; 2];
    let result = subject::oil(text, &mut config, &mut place);
    match Refused::of(result) {
        None => {
            config.truncate(result as usize);
            Ok((config, names(text)))
        }
        Some(Refused { code, .. }) => Err(RefusedText { message: complaint(file, text, code, place) }),
    }
}

/// Line and column of a byte, both from 1.
fn position(text: &[u8], at: usize) -> [u64; 2] {
    let before = &text[..at];
    let line = before.iter().filter(|byte| **byte == b'\n').count();
    let start = before.iter().rposition(|byte| *byte == b'\n').map_or(0, |end| end + 1);
    [line as u64 + 1, (at - start) as u64 + 1]
}

/// The byte at a line and column, or the text's end.
fn offset(text: &[u8], [line, column]: [u64; 2]) -> usize {
    let starts = text.iter().enumerate().filter(|(_, byte)| **byte == b'\n').map(|(at, _)| at + 1);
    let start = std::iter::once(0).chain(starts).nth(line as usize - 1).unwrap_or(text.len());
    (start + column as usize - 1).min(text.len())
}

/// What is wrong, as compilers print it: file, line and column, a sentence, and the line with the word at fault marked.
fn complaint(file: &str, text: &[u8], code: u32, place: [u64; 2]) -> String {
    let tokens = tokens(text);
    if place[0] == 0 {
        let what = words::refusal(code).map_or("the configuration is refused", |word| word.meaning);
        return match out_of_range(&tokens, code) {
            Some((Some(token), sentence)) => {
                marked(file, text, position(text, token.start), &token.word, &format!("{sentence} (refusal {code})"))
            }
            Some((None, sentence)) => format!("{file}: {sentence} (refusal {code})"),
            None => format!("{file}: {what} (refusal {code})"),
        };
    }
    let at = offset(text, place);
    let (length, _) = if at < text.len() { token_length(&text[at..]) } else { (0, false) };
    let length = if text[at..].starts_with(b"/*") { 2 } else { length };
    let word = String::from_utf8_lossy(&text[at..at + length]).into_owned();
    let before: Vec<&str> = tokens.iter().filter(|token| token.end <= at).map(|token| token.word.as_str()).collect();
    marked(file, text, place, &word, &format!("{} (refusal {code})", sentence(code, &word, &before)))
}

fn marked(file: &str, text: &[u8], place: [u64; 2], word: &str, message: &str) -> String {
    let [line, column] = place;
    let whole = text.split(|byte| *byte == b'\n').nth(line as usize - 1).unwrap_or_default();
    let (before, rest) = whole.split_at((column as usize - 1).min(whole.len()));
    // One sign for one, so that the marks stand below what they mark.
    let shown = |bytes: &[u8]| -> String {
        let text = String::from_utf8_lossy(bytes);
        text.chars()
            .map(|sign| {
                if sign == '\t' {
                    ' '
                } else if sign.is_control() {
                    '\u{fffd}'
                } else {
                    sign
                }
            })
            .collect()
    };
    let before = shown(before);
    let whole = before.clone() + &shown(rest);
    let (columns, width) = (before.chars().count(), word.chars().count());
    input::marked(&format!("{file}:{line}:{column}"), line as usize, whole.trim_end(), columns, width, message)
}

/// What may stand behind these words of a text that is right so far.
fn expected(before: &[&str]) -> String {
    let last_open = before.iter().rposition(|word| *word == "{");
    let last_closed = before.iter().rposition(|word| *word == "}");
    let inside = last_open.filter(|open| last_closed.is_none_or(|closed| closed < *open));
    let Some(open) = inside else {
        let since = last_closed.map_or(0, |closed| closed + 1);
        return match before[since..] {
            [] if last_closed.is_some() => "`;`".into(),
            [";"] | [] => words::either(&OBJECTS.map(|(object, _)| object)),
            [.., object] if is_object(object) => "a name".into(),
            _ => "`{`".into(),
        };
    };
    let kind = open.checked_sub(2).map_or("", |at| before[at]);
    match before[open + 1..] {
        [.., "PRIORITY", "="] => "a number".into(),
        [.., "AUTOSTART", "="] => "TRUE or FALSE".into(),
        [.., "RESOURCE", "="] => "the name of a resource".into(),
        [.., "=", _] => "`;`".into(),
        [] | [.., ";"] => {
            let known: Vec<&str> = attributes(kind).iter().copied().chain(["`}`"]).collect();
            words::either(&known)
        }
        _ => "`=`".into(),
    }
}

/// Which words of letters are known behind these.
fn known(before: &[&str]) -> String {
    let open = before.iter().rposition(|word| *word == "{");
    let closed = before.iter().rposition(|word| *word == "}");
    let kind = match open {
        Some(open) if open >= 2 && closed.is_none_or(|closed| closed < open) => before[open - 2],
        _ => return format!("known are {}", words::listed(&OBJECTS.map(|(object, _)| object))),
    };
    match attributes(kind) {
        [] => format!("a {kind} has no attributes"),
        known => format!("known are {}", words::listed(known)),
    }
}

fn is_object(word: &str) -> bool {
    OBJECTS.iter().any(|(object, _)| *object == word)
}

fn attributes(kind: &str) -> &'static [&'static str] {
    OBJECTS.iter().find(|(object, _)| *object == kind).map_or(&[], |(_, attributes)| attributes)
}

fn sentence(code: u32, word: &str, before: &[&str]) -> String {
    let expected = expected(before);
    match (code, word) {
        (60, "/*") => "this comment is not closed".into(),
        (60, "#") | (60, "#include") => "no word of OIL has this sign; there is no preprocessor".into(),
        (60, _) => "no word of OIL has this sign".into(),
        (61, "") => format!("the text breaks off here, where {expected} is expected"),
        (61, "}") if expected.ends_with("`}`") => "PRIORITY is missing".into(),
        (61, word)
            if expected.contains("name") && (is_object(word) || word.chars().all(|c| c.is_ascii_uppercase())) =>
        {
            format!("expected {expected}, found {word}, a word of OIL")
        }
        (61, _) => format!("expected {expected}, found {}", words::visible(word)),
        (62, _) => {
            let more = OTHERS.contains(&word);
            let more =
                if more { ": OIL has it, and the subset that is read has not; --subset leaves it out" } else { "" };
            format!("{word} is unknown here; {}{more}", known(before))
        }
        (63, "PRIORITY" | "AUTOSTART") => format!("{word} is given twice"),
        (63, _) => format!("an earlier object is called {word}"),
        _ => format!("no RESOURCE object is called {word}"),
    }
}

/// The object that is refused with 4, 5 or 6, and the word at fault, in the order of the configuration's reader.
fn out_of_range(tokens: &[Token], code: u32) -> Option<(Option<&Token>, String)> {
    let all = objects(tokens);
    let (resources, bodies): (Vec<&Object>, Vec<&Object>) = all.iter().partition(|object| object.kind == "RESOURCE");
    let priority = |body: &Object<'_>| {
        let value = body.attributes.iter().find(|(name, _)| *name == "PRIORITY").map(|(_, value)| *value);
        value.map(|token| (token.start, token.word.trim_start_matches('0').to_string()))
    };
    let token_at = |start: usize| tokens.iter().find(|token| token.start == start);
    if code == 4 && !(1..=BODIES_MAX).contains(&bodies.len()) {
        let sentence = format!("{} TASK and ISR objects; 1 to {BODIES_MAX} are allowed", bodies.len());
        return Some((bodies.get(BODIES_MAX).map(|body| body.name), sentence));
    }
    for (index, body) in bodies.iter().enumerate() {
        let (start, value) = priority(body)?;
        let in_range = value.parse::<u32>().is_ok_and(|value| (1..=PRIORITY_MAX).contains(&value));
        if code == 5 && !in_range {
            let shown = if value.is_empty() { "0" } else { &value };
            let sentence = format!("the priority of {} is {shown}; 1 to {PRIORITY_MAX} are allowed", body.name.word);
            return Some((token_at(start), sentence));
        }
        let owner = bodies[..index].iter().find(|other| priority(other).is_some_and(|(_, other)| other == value));
        if let (6, Some(owner)) = (code, owner) {
            let (name, owner) = (&body.name.word, &owner.name.word);
            return Some((token_at(start), format!("the priority of {name} is {value}, which {owner} has already")));
        }
    }
    if code == 4 {
        let sentence = format!("{} RESOURCE objects; at most {RESOURCES_MAX} are allowed", resources.len());
        return Some((resources.get(RESOURCES_MAX).map(|resource| resource.name), sentence));
    }
    let used = |resource: &&&Object| {
        let names = |(name, value): &(&str, &Token)| *name == "RESOURCE" && value.word == resource.name.word;
        bodies.iter().any(|body| body.attributes.iter().any(names))
    };
    let unused = resources.iter().find(|resource| !used(resource))?;
    Some((Some(unused.name), format!("no TASK or ISR uses the resource {}; at least one has to", unused.name.word)))
}

/// A text with everything that the subset does not know replaced by spaces, and a line for each thing left out.
pub struct Subset {
    pub text: Vec<u8>,
    pub left_out: Vec<String>,
}

/// Values that may be left out because the reference has no other; any other value is refused.
const FIXED: [(&str, &str); 4] =
    [("SCHEDULE", "FULL"), ("ACTIVATION", "1"), ("CATEGORY", "2"), ("RESOURCEPROPERTY", "STANDARD")];

/// Leaves out what the subset does not know. What would change the meaning is not left out, and is told.
pub fn subset(file: &str, text: &[u8]) -> Result<Subset, String> {
    let text = plain(text);
    let mut filter = Filter { file, source: text, tokens: tokens(text), text: text.to_vec(), left_out: Vec::new() };
    filter.objects(0, filter.tokens.len())?;
    Ok(Subset { text: filter.text, left_out: filter.left_out })
}

struct Filter<'t> {
    file: &'t str,
    source: &'t [u8],
    tokens: Vec<Token>,
    text: Vec<u8>,
    left_out: Vec<String>,
}

impl Filter<'_> {
    fn word(&self, at: usize) -> &str {
        self.tokens.get(at).map_or("", |token| &token.word)
    }

    /// The token after the `;` that ends what begins here, braces inside it included.
    fn statement_end(&self, from: usize, end: usize) -> usize {
        let mut depth = 0;
        for at in from..end {
            match self.word(at) {
                "{" => depth += 1,
                "}" if depth == 0 => return at,
                "}" => depth -= 1,
                ";" if depth == 0 => return at + 1,
                _ => {}
            }
        }
        end
    }

    /// The brace that closes the one here.
    fn closing(&self, open: usize, end: usize) -> usize {
        let mut depth = 0;
        for at in open..end {
            match self.word(at) {
                "{" => depth += 1,
                "}" if depth == 1 => return at,
                "}" => depth -= 1,
                _ => {}
            }
        }
        end
    }

    fn blank(&mut self, from: usize, to: usize) {
        let Some(last) = to.checked_sub(1).and_then(|last| self.tokens.get(last)) else { return };
        let (start, end) = (self.tokens[from].start, last.end);
        // Comments inside go too, line ends stay, so that lines and columns do.
        self.text[start..end].iter_mut().filter(|byte| **byte != b'\n').for_each(|byte| *byte = b' ');
    }

    fn leave_out(&mut self, from: usize, to: usize) {
        const SHOWN: usize = 8;
        let words: Vec<&str> = (from..to.min(from + SHOWN)).map(|at| self.word(at)).collect();
        let more = if to > from + SHOWN { " .." } else { "" };
        let [line, column] = position(self.source, self.tokens[from].start);
        let shown = words::visible(&words.join(" "));
        self.left_out.push(format!("{}:{line}:{column}: left out: {shown}{more}", self.file));
        self.blank(from, to);
    }

    fn objects(&mut self, from: usize, end: usize) -> Result<(), String> {
        let mut at = from;
        while at < end {
            let word = self.word(at).to_string();
            let next = self.statement_end(at, end).max(at + 1);
            if word == "CPU" {
                // Its braces hold the objects.
                let open = (at..next).find(|place| self.word(*place) == "{").unwrap_or(next);
                let close = self.closing(open, next);
                self.objects(open + 1, close)?;
                self.leave_out(at, (open + 1).min(end));
                if close < next {
                    self.blank(close, next);
                }
            } else if word == "#include" {
                self.leave_out(at, (at + 2).min(end));
                at += 2;
                continue;
            } else if is_object(&word) && self.word(at + 2) == "{" {
                let close = self.closing(at + 2, next);
                self.attributes(&word, at + 3, close)?;
                self.descriptions(close, next);
            } else {
                self.leave_out(at, next);
            }
            at = next;
        }
        Ok(())
    }

    fn attributes(&mut self, kind: &str, from: usize, end: usize) -> Result<(), String> {
        let mut at = from;
        while at < end {
            let next = self.statement_end(at, end).max(at + 1);
            let (name, value) = (self.word(at).to_string(), self.word(at + 2).to_string());
            if attributes(kind).contains(&name.as_str()) {
                // Parameters in braces behind a value, and descriptions.
                if let Some(open) = (at..next).find(|place| self.word(*place) == "{") {
                    let close = self.closing(open, next);
                    self.leave_out(open, (close + 1).min(next));
                }
                self.descriptions(at, next);
            } else {
                if let Some((_, only)) = FIXED.iter().find(|(fixed, only)| *fixed == name && *only != value) {
                    let [line, column] = position(self.source, self.tokens[at].start);
                    let file = self.file;
                    return Err(format!(
                        "{file}:{line}:{column}: {name} = {value} can't be left out: the reference has {name} = {only} alone"
                    ));
                }
                self.leave_out(at, next);
            }
            at = next;
        }
        Ok(())
    }

    /// `: "some words"` behind a value or a closing brace.
    fn descriptions(&mut self, from: usize, end: usize) {
        if let Some(at) = (from..end).find(|at| self.word(*at) == ":") {
            if self.word(at + 1).starts_with('"') {
                self.leave_out(at, (at + 2).min(end));
            }
        }
    }
}

#[cfg(test)]
mod tests {
    use super::*;

    #[test]
    fn what_is_expected_follows_from_the_words_before() {
        let after = |text: &str| {
            let tokens = tokens(text.as_bytes());
            expected(&tokens.iter().map(|token| token.word.as_str()).collect::<Vec<_>>())
        };
        for (text, next) in [
            ("", "TASK, ISR or RESOURCE"),
            ("TASK", "a name"),
            ("RESOURCE r", "`{`"),
            ("TASK t {", "PRIORITY, AUTOSTART, RESOURCE or `}`"),
            ("TASK t { PRIORITY", "`=`"),
            ("TASK t { PRIORITY =", "a number"),
            ("TASK t { PRIORITY = 3", "`;`"),
            ("TASK t { PRIORITY = 3; AUTOSTART =", "TRUE or FALSE"),
            ("TASK t { PRIORITY = 3; RESOURCE =", "the name of a resource"),
            ("TASK t { PRIORITY = 3; }", "`;`"),
            ("TASK t { PRIORITY = 3; };", "TASK, ISR or RESOURCE"),
            ("TASK t { PRIORITY = 3; }; ISR i {", "PRIORITY, RESOURCE or `}`"),
            ("RESOURCE r {", "`}`"),
        ] {
            assert_eq!(after(text), next, "{text}");
        }
    }

    #[test]
    fn no_accepted_configuration_is_taken_for_oil() {
        for first in 0..9u8 {
            assert!(!is_oil(&[&[first][..], b"TASK"].concat()));
        }
        assert!(is_oil(b"/* x */ // y\n\tTASK a"));
        assert!(is_oil(b"\xef\xbb\xbfOIL_VERSION = \"2.5\";"));
        assert!(!is_oil(b"task a priority 1\n") && !is_oil(b"version 1\n") && !is_oil(b""));
    }
}
