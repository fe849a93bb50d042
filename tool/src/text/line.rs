//! The words of a line, taken from left to right, and what is wrong where.

use crate::words;

/// A place in a text; line and column count from 1, the column in characters.
#[derive(Clone, Copy, PartialEq, Eq, Debug)]
pub struct Position {
    pub line: usize,
    pub column: usize,
}

/// What is wrong with a text.
#[derive(Clone, PartialEq, Eq, Debug)]
pub struct Fault {
    pub position: Position,
    /// How many characters are at fault; 0 at the end of a line.
    pub width: usize,
    pub message: String,
}

struct Word<'a> {
    text: &'a str,
    column: usize,
}

pub struct Line<'a> {
    number: usize,
    words: Vec<Word<'a>>,
    next: usize,
    /// The column after the last character before the comment.
    end: usize,
}

/// Something named, or its number.
#[derive(Clone, PartialEq, Eq, Debug)]
pub enum Reference {
    Name(String),
    Number(u32),
}

impl<'a> Line<'a> {
    pub fn of(number: usize, text: &'a str) -> Line<'a> {
        let text = text.split('#').next().unwrap_or_default();
        let mut words = Vec::new();
        let mut column = 1;
        for piece in text.split_inclusive(char::is_whitespace) {
            let word = piece.trim_end();
            if !word.is_empty() {
                words.push(Word { text: word, column });
            }
            column += piece.chars().count();
        }
        let end = words.last().map_or(1, |word| word.column + word.text.chars().count());
        Line { number, words, next: 0, end }
    }

    /// The line that parts the configuration from the trace.
    pub fn parts(&self) -> bool {
        matches!(self.words[..], [Word { text: super::TRACE, .. }])
    }

    pub fn peek(&self) -> Option<&'a str> {
        self.words.get(self.next).map(|word| word.text)
    }

    pub fn position(&self) -> Position {
        let column = self.words.get(self.next).map_or(self.end, |word| word.column);
        Position { line: self.number, column }
    }

    pub fn take(&mut self) -> (&'a str, Position) {
        let taken = (self.peek().unwrap_or_default(), self.position());
        self.next += 1;
        taken
    }

    /// The next word is not what was expected.
    pub fn expected(&self, what: &str) -> Fault {
        let (width, found) = match self.peek() {
            Some(word) => (word.chars().count(), format!("`{}`", shortened(word))),
            None => (0, "the end of the line".into()),
        };
        Fault { position: self.position(), width, message: format!("expected {what}, found {found}") }
    }

    /// Something else is wrong with the next word.
    pub fn wrong(&self, message: String) -> Fault {
        let width = self.peek().map_or(0, |word| word.chars().count());
        Fault { position: self.position(), width, message }
    }

    /// Something is wrong with the line as a whole.
    pub fn whole(&self, message: String) -> Fault {
        let column = self.words.first().map_or(1, |word| word.column);
        Fault { position: Position { line: self.number, column }, width: self.end - column, message }
    }

    pub fn number(&mut self, what: &str) -> Result<(u32, Position), Fault> {
        let Some(word) = self.peek().filter(|word| word.starts_with(|c: char| c.is_ascii_digit())) else {
            return Err(self.expected(what));
        };
        match number(word) {
            Some(value) => Ok((value, self.take().1)),
            None => Err(self.expected(&format!("{what}: decimal digits or 0x and hex digits, up to 4,294,967,295"))),
        }
    }

    /// Two hex digits.
    pub fn byte(&mut self) -> Result<(u8, Position), Fault> {
        let is_byte = |word: &&str| word.len() == 2 && word.bytes().all(|digit| digit.is_ascii_hexdigit());
        match self.peek().filter(is_byte).and_then(|word| u8::from_str_radix(word, 16).ok()) {
            Some(byte) => Ok((byte, self.take().1)),
            None => Err(self.expected("a byte of two hex digits")),
        }
    }

    /// The word that must stand here.
    pub fn keyword(&mut self, keyword: &str) -> Result<Position, Fault> {
        match self.peek() {
            Some(word) if word == keyword => Ok(self.take().1),
            _ => Err(self.expected(&format!("`{keyword}`"))),
        }
    }

    /// A name that the text gives to something.
    pub fn new_name(&mut self, of: &str) -> Result<(String, Position), Fault> {
        let Some(word) = self.peek().filter(|word| is_name(word)) else {
            return Err(self.expected(&format!("the {of}'s name")));
        };
        if super::config::is_reserved(word) {
            return Err(self.expected(&format!("the {of}'s name and no word of the text form")));
        }
        let (_, position) = self.take();
        Ok((word.into(), position))
    }

    /// A name given elsewhere, or a number.
    pub fn reference(&mut self, to: &str) -> Result<(Reference, Position), Fault> {
        match self.peek() {
            Some(word) if is_name(word) => {
                let (_, position) = self.take();
                Ok((Reference::Name(word.into()), position))
            }
            _ => {
                let (value, position) = self.number(&format!("a {to}: its name or its number"))?;
                Ok((Reference::Number(value), position))
            }
        }
    }

    pub fn end(&self) -> Result<(), Fault> {
        match self.peek() {
            None => Ok(()),
            Some(_) => Err(self.expected("the end of the line")),
        }
    }
}

/// A letter or _, then letters, digits and _.
fn is_name(word: &str) -> bool {
    let mut characters = word.chars();
    characters.next().is_some_and(|first| first.is_ascii_alphabetic() || first == '_')
        && characters.all(|next| next.is_ascii_alphanumeric() || next == '_')
}

fn number(word: &str) -> Option<u32> {
    let (digits, radix) = match word.strip_prefix("0x") {
        Some(digits) => (digits, 16),
        None => (word, 10),
    };
    // A sign, which the standard library would take, is no digit.
    let plain = !digits.is_empty() && digits.chars().all(|digit| digit.is_digit(radix));
    plain.then(|| u32::from_str_radix(digits, radix).ok()).flatten()
}

/// A word as a message shows it.
fn shortened(word: &str) -> String {
    const SHOWN: usize = 40;
    if word.chars().count() <= SHOWN {
        return word.into();
    }
    word.chars().take(SHOWN).chain("..".chars()).collect()
}

/// A choice of words, quoted.
pub fn quoted(choice: &[&str]) -> String {
    words::either(&choice.iter().map(|word| format!("`{word}`")).collect::<Vec<_>>())
}

#[cfg(test)]
mod tests {
    use super::*;

    #[test]
    fn columns_count_characters_and_comments_end_a_line() {
        let mut line = Line::of(3, "  täsk\tx 12# y");
        assert_eq!(line.take(), ("täsk", Position { line: 3, column: 3 }));
        assert_eq!(line.take(), ("x", Position { line: 3, column: 8 }));
        assert_eq!(line.number("a number"), Ok((12, Position { line: 3, column: 10 })));
        let fault = line.expected("more");
        assert_eq!((fault.position.column, fault.width), (12, 0));
        assert_eq!(fault.message, "expected more, found the end of the line");
    }

    #[test]
    fn numbers_are_decimal_or_hex_and_fit_32_bits() {
        assert_eq!(number("4294967295"), Some(u32::MAX));
        assert_eq!(number("0xffFFffff"), Some(u32::MAX));
        assert_eq!(number("007"), Some(7));
        for bad in ["4294967296", "0x", "0x1g", "1a", "0x+1", "99999999999999999999999"] {
            assert_eq!(number(bad), None, "{bad}");
        }
    }
}
