//! Document 02's OIL texts, by a parser of its own: words as they are wanted, objects by descent, names in maps; and drawn texts,
//! from a seed and a number alone.

use std::collections::{BTreeSet, HashMap, HashSet};

use crate::cases::Random;

const UNREADABLE: u64 = 60;
const UNEXPECTED: u64 = 61;
const UNKNOWN: u64 = 62;
const TWICE: u64 = 63;
const NO_RESOURCE: u64 = 64;
const COUNT: u64 = 4;
const FIELD: u64 = 5;
const PRIORITY_USED: u64 = 6;
const TOO_SHORT: u64 = 30;

const WORDS: [&str; 7] = ["TASK", "ISR", "RESOURCE", "PRIORITY", "AUTOSTART", "TRUE", "FALSE"];

/// A refusal and the byte where it is met; none for what concerns no place.
type Refusal = (u64, Option<usize>);

#[derive(Clone, Copy, PartialEq, Eq, Debug)]
enum Token<'a> {
    Letters(&'a str),
    Digits(&'a str),
    Sign(u8),
    End,
}

struct Words<'a> {
    text: &'a [u8],
    at: usize,
}

impl<'a> Words<'a> {
    /// The bytes from `at` on for which `suits` holds.
    fn run(&self, at: usize, suits: impl Fn(u8) -> bool) -> &'a str {
        let rest = &self.text[at..];
        let length = rest.iter().position(|byte| !suits(*byte)).unwrap_or(rest.len());
        std::str::from_utf8(&rest[..length]).expect("the bytes are ASCII")
    }

    /// Past spaces and comments; an unclosed comment is refused where it opens.
    fn skip(&mut self) -> Result<(), Refusal> {
        loop {
            match &self.text[self.at..] {
                [b' ' | b'\t' | b'\n' | 0x0b | 0x0c | b'\r', ..] => self.at += 1,
                [b'/', b'/', rest @ ..] => {
                    self.at += 2 + rest.iter().position(|byte| *byte == b'\n').unwrap_or(rest.len());
                }
                [b'/', b'*', rest @ ..] => match rest.windows(2).position(|pair| pair == b"*/") {
                    Some(length) => self.at += length + 4,
                    None => return Err((UNREADABLE, Some(self.at))),
                },
                _ => return Ok(()),
            }
        }
    }

    /// The next word and where it stands.
    fn next(&mut self) -> Result<(Token<'a>, usize), Refusal> {
        self.skip()?;
        let at = self.at;
        let token = match self.text.get(at) {
            None => Token::End,
            Some(byte) if byte.is_ascii_alphabetic() || *byte == b'_' => {
                Token::Letters(self.run(at, |byte| byte.is_ascii_alphanumeric() || byte == b'_'))
            }
            Some(byte) if byte.is_ascii_digit() => Token::Digits(self.run(at, |byte| byte.is_ascii_digit())),
            Some(byte) if b"{}=;".contains(byte) => Token::Sign(*byte),
            Some(_) => return Err((UNREADABLE, Some(at))),
        };
        self.at += match token {
            Token::Letters(word) | Token::Digits(word) => word.len(),
            Token::Sign(_) => 1,
            Token::End => 0,
        };
        Ok((token, at))
    }

    fn sign(&mut self, sign: u8) -> Result<(), Refusal> {
        match self.next()? {
            (Token::Sign(other), _) if other == sign => Ok(()),
            (_, at) => Err((UNEXPECTED, Some(at))),
        }
    }

    fn name(&mut self) -> Result<(&'a str, usize), Refusal> {
        match self.next()? {
            (Token::Letters(name), at) if !WORDS.contains(&name) => Ok((name, at)),
            (_, at) => Err((UNEXPECTED, Some(at))),
        }
    }
}

/// A number of any length, held at 1,000 where it is above.
fn value(digits: &str) -> u32 {
    digits.bytes().fold(0, |value, digit| (value * 10 + u32::from(digit - b'0')).min(1_000))
}

#[derive(Default)]
struct Body {
    isr: bool,
    priority: u32,
    autostart: bool,
}

#[derive(Default)]
struct System<'a> {
    bodies: Vec<Body>,
    resources: Vec<&'a str>,
    /// Body, name of the resource, place.
    uses: Vec<(usize, &'a str, usize)>,
}

/// The attributes of a body, up to and with the closing brace.
fn body<'a>(words: &mut Words<'a>, system: &mut System<'a>, isr: bool) -> Result<(), Refusal> {
    let number = system.bodies.len();
    let mut given: HashMap<&str, u32> = HashMap::new();
    loop {
        let (token, at) = words.next()?;
        let attribute = match token {
            Token::Sign(b'}') if given.contains_key("PRIORITY") => break,
            Token::Letters(word @ ("PRIORITY" | "RESOURCE")) => word,
            Token::Letters(word @ "AUTOSTART") if !isr => word,
            Token::Letters(_) => return Err((UNKNOWN, Some(at))),
            _ => return Err((UNEXPECTED, Some(at))),
        };
        if attribute != "RESOURCE" && given.contains_key(attribute) {
            return Err((TWICE, Some(at)));
        }
        words.sign(b'=')?;
        if attribute == "RESOURCE" {
            let (name, place) = words.name()?;
            system.uses.push((number, name, place));
        } else {
            let (token, at) = words.next()?;
            let value = match (attribute, token) {
                ("PRIORITY", Token::Digits(digits)) => value(digits),
                ("AUTOSTART", Token::Letters("TRUE")) => 1,
                ("AUTOSTART", Token::Letters("FALSE")) => 0,
                _ => return Err((UNEXPECTED, Some(at))),
            };
            given.insert(attribute, value);
        }
        words.sign(b';')?;
    }
    let autostart = given.get("AUTOSTART") == Some(&1);
    system.bodies.push(Body { isr, priority: given["PRIORITY"], autostart });
    Ok(())
}

fn parse(text: &[u8]) -> Result<System<'_>, Refusal> {
    let mut words = Words { text, at: 0 };
    let mut system = System::default();
    let mut names = HashSet::new();
    loop {
        let (token, at) = words.next()?;
        let kind = match token {
            Token::End => break,
            Token::Letters(kind @ ("TASK" | "ISR" | "RESOURCE")) => kind,
            Token::Letters(_) => return Err((UNKNOWN, Some(at))),
            _ => return Err((UNEXPECTED, Some(at))),
        };
        let (name, at) = words.name()?;
        if !names.insert(name) {
            return Err((TWICE, Some(at)));
        }
        words.sign(b'{')?;
        if kind == "RESOURCE" {
            system.resources.push(name);
            match words.next()? {
                (Token::Sign(b'}'), _) => {}
                (Token::Letters(_), at) => return Err((UNKNOWN, Some(at))),
                (_, at) => return Err((UNEXPECTED, Some(at))),
            }
        } else {
            body(&mut words, &mut system, kind == "ISR")?;
        }
        words.sign(b';')?;
    }
    match system.uses.iter().find(|(_, name, _)| !system.resources.contains(name)) {
        Some((_, _, at)) => Err((NO_RESOURCE, Some(*at))),
        None => Ok(system),
    }
}

fn number(bytes: &mut Vec<u8>, mut value: u32) {
    while value > 0x7f {
        bytes.push((value & 0x7f) as u8 | 0x80);
        value >>= 7;
    }
    bytes.push(value as u8);
}

/// The bytes of the configuration, tested in the reader's order.
fn bytes(system: &System) -> Result<Vec<u8>, Refusal> {
    let refuse = |refusal: u64, wrong: bool| if wrong { Err((refusal, None)) } else { Ok(()) };
    let mut bytes = vec![1];
    refuse(COUNT, system.bodies.is_empty() || system.bodies.len() > 32)?;
    number(&mut bytes, system.bodies.len() as u32);
    let mut priorities = BTreeSet::new();
    for body in &system.bodies {
        refuse(FIELD, body.priority == 0 || body.priority > 200)?;
        refuse(PRIORITY_USED, !priorities.insert(body.priority))?;
        bytes.push(u8::from(body.isr));
        number(&mut bytes, body.priority);
        bytes.push(u8::from(body.autostart));
    }
    refuse(COUNT, system.resources.len() > 16)?;
    number(&mut bytes, system.resources.len() as u32);
    for resource in &system.resources {
        let users = system.uses.iter().filter(|(_, name, _)| name == resource);
        let mask = users.fold(0u32, |mask, (body, ..)| mask | 1 << body);
        refuse(FIELD, mask == 0)?;
        number(&mut bytes, mask);
    }
    bytes.push(0);
    Ok(bytes)
}

/// As `osek_oil`.
pub fn oil(text: &[u8], config: &mut [u8], place: &mut [u64; 2]) -> u64 {
    *place = [0, 0];
    match parse(text).and_then(|system| bytes(&system)) {
        Ok(bytes) if config.len() < bytes.len() => TOO_SHORT << 32 | bytes.len() as u64,
        Ok(bytes) => {
            config[..bytes.len()].copy_from_slice(&bytes);
            bytes.len() as u64
        }
        Err((refusal, at)) => {
            if let Some(at) = at {
                let before = &text[..at];
                let line = before.split(|byte| *byte == b'\n');
                *place = [line.clone().count() as u64, line.last().map_or(0, <[u8]>::len) as u64 + 1];
            }
            refusal << 32
        }
    }
}

/// What one reading is given.
#[derive(Clone, PartialEq, Eq)]
pub struct Source {
    pub text: Vec<u8>,
    pub config_len: usize,
    /// The outputs before the call depend on it.
    pub fill: u8,
}

impl std::fmt::Debug for Source {
    fn fmt(&self, f: &mut std::fmt::Formatter<'_>) -> std::fmt::Result {
        write!(f, "{} bytes lent for\n{}", self.config_len, String::from_utf8_lossy(&self.text))
    }
}

impl Source {
    pub fn prefilled(&self) -> Vec<u8> {
        (0..self.config_len).map(|i| (i as u8).wrapping_mul(167).wrapping_add(self.fill)).collect()
    }

    pub fn place(&self) -> [u64; 2] {
        [u64::from(self.fill) + 3, u64::MAX - u64::from(self.fill)]
    }
}

/// Spaces and comments, or nothing where two words stay apart without them.
fn gap(random: &mut Random, text: &mut Vec<u8>, needed: bool) {
    let gaps: [&[u8]; 14] = [
        b" ",
        b" ",
        b"\n",
        b"\r\n",
        b"\t",
        b"\x0b\x0c",
        b"  ",
        b"/**/",
        b"/* / * TASK */",
        b"/***/",
        b"// }; */\n",
        b"//\n",
        b"/*\n/* //*/",
        b"/*/*/",
    ];
    if needed || random.chance(40) {
        for _ in 0..random.pick(&[1, 1, 1, 2, 3]) {
            text.extend(random.pick(&gaps));
        }
    }
}

/// A drawn text word by word.
struct Drawing<'a> {
    random: &'a mut Random,
    text: Vec<u8>,
}

impl Drawing<'_> {
    fn word(&mut self, word: &str) {
        let joins = |byte: u8| byte.is_ascii_alphanumeric() || byte == b'_';
        let needed = self.text.last().is_some_and(|byte| joins(*byte)) && joins(word.as_bytes()[0]);
        gap(self.random, &mut self.text, needed);
        self.text.extend(word.bytes());
    }

    fn words(&mut self, words: &[&str]) {
        words.iter().for_each(|word| self.word(word));
    }
}

fn name(random: &mut Random, sort: char, number: usize) -> String {
    let before = random.pick(&["", "", "TASK", "TRUE", "_", "ISR_", "RESOURCE", "x1Y"]);
    format!("{before}{sort}{number}")
}

/// A system, mostly in order, as text.
fn system(random: &mut Random) -> Vec<u8> {
    let bodies = random.pick(&[1, 1, 2, 3, 5, 8, 20, 31, 32, 33]);
    let resources = random.pick(&[0, 0, 1, 2, 3, 8, 15, 16, 17]);
    let names: Vec<String> = (0..resources).map(|i| name(random, 'r', i)).collect();
    let step = random.between(1, 200 / bodies);
    // One body with a priority that is out of range, or another's.
    let odd = if random.chance(8) {
        Some((random.below(bodies), random.pick(&[0, 201, 256, step, step, step])))
    } else {
        None
    };
    let mut objects: Vec<(bool, usize)> =
        (0..bodies).map(|i| (true, i)).chain((0..resources).map(|i| (false, i))).collect();
    if random.chance(60) {
        for i in (1..objects.len()).rev() {
            objects.swap(i, random.below(i + 1));
        }
    }
    let mut drawing = Drawing { random, text: Vec::new() };
    let owners: Vec<usize> = (0..resources).map(|_| drawing.random.below(bodies)).collect();
    for (is_body, number) in objects {
        if !is_body {
            drawing.words(&["RESOURCE", &names[number], "{", "}", ";"]);
            continue;
        }
        let isr = drawing.random.chance(30);
        let called = name(drawing.random, 'b', number);
        drawing.words(&[if isr { "ISR" } else { "TASK" }, &called, "{"]);
        let priority = odd.filter(|(body, _)| *body == number).map_or((number + 1) * step, |(_, priority)| priority);
        let zeros = "0".repeat(drawing.random.pick(&[0, 0, 0, 1, 5, 400]));
        let mut attributes = vec![vec!["PRIORITY".to_string(), format!("{zeros}{priority}")]];
        if !isr && drawing.random.chance(50) {
            let value = drawing.random.pick(&["TRUE", "FALSE"]);
            attributes.push(vec!["AUTOSTART".to_string(), value.to_string()]);
        }
        for (resource, owner) in owners.iter().enumerate() {
            if *owner == number || drawing.random.chance(10) {
                for _ in 0..drawing.random.pick(&[1, 1, 1, 2]) {
                    attributes.push(vec!["RESOURCE".to_string(), names[resource].clone()]);
                }
            }
        }
        for i in (1..attributes.len()).rev() {
            let j = drawing.random.below(i + 1);
            attributes.swap(i, j);
        }
        for attribute in attributes {
            drawing.words(&[&attribute[0], "=", &attribute[1], ";"]);
        }
        drawing.words(&["}", ";"]);
    }
    let mut text = drawing.text;
    gap(random, &mut text, false);
    if random.chance(10) {
        text.extend(random.pick(&[&b"//"[..], b"// end", b"\n", b"/**/"]));
    }
    text
}

/// What is put in the place of words or bytes.
const NOISE: [&str; 27] = [
    "TASK",
    "ISR",
    "RESOURCE",
    "PRIORITY",
    "AUTOSTART",
    "TRUE",
    "FALSE",
    "{",
    "}",
    "=",
    ";",
    "0",
    "201",
    "255",
    "256",
    "4294967297",
    "r0",
    "b0",
    "ALARM",
    "/*",
    "*/",
    "//",
    "/",
    "\\",
    "2abc",
    "0x10",
    "\n",
];

fn damage(random: &mut Random, text: &mut Vec<u8>) {
    let words: Vec<usize> = (0..text.len())
        .filter(|i| *i == 0 || text[*i].is_ascii_alphanumeric() != text[*i - 1].is_ascii_alphanumeric())
        .collect();
    let edge = |random: &mut Random, text: &Vec<u8>| {
        if words.is_empty() {
            random.below(text.len() + 1)
        } else {
            random.pick(&words)
        }
    };
    let from = edge(random, text);
    match random.below(7) {
        0 => text.truncate(from),
        1 => {
            let to = edge(random, text).max(from);
            text.drain(from..to.min(from + 12));
        }
        2 => {
            let noise = random.pick(&NOISE);
            text.splice(from..from, noise.bytes());
        }
        3 => {
            let to = words.iter().copied().find(|word| *word > from).unwrap_or(text.len());
            let noise = random.pick(&NOISE);
            text.splice(from..to, noise.bytes());
        }
        4 => {
            let at = random.below(text.len() + 1);
            text.splice(at..at, [random.word() as u8]);
        }
        5 => {
            let to = edge(random, text).max(from).min(from + 60);
            let again = text[from..to].to_vec();
            text.splice(from..from, again);
        }
        _ => {
            let number = random.pick(&["0", "200", "1", "99999999999999999999"]);
            if let Some(at) = text.iter().position(u8::is_ascii_digit) {
                text.splice(at..=at, number.bytes());
            }
        }
    }
}

/// The text with this number: in order, or with a few damages, rarely noise alone.
pub fn source(seed: u64, number: u64) -> Source {
    let mut random = Random::new(Random::new(seed).word() ^ number.wrapping_mul(0x9fb2_1c65_1e98_df25));
    let mut text = system(&mut random);
    match random.below(20) {
        0..=8 => {}
        9..=18 => (0..random.pick(&[1, 1, 1, 2, 4])).for_each(|_| damage(&mut random, &mut text)),
        _ => {
            text.clear();
            (0..random.below(60)).for_each(|_| {
                text.extend(random.pick(&NOISE).bytes());
                gap(&mut random, &mut text, false);
            });
        }
    }
    let needed = match parse(&text).and_then(|system| bytes(&system)) {
        Ok(bytes) => bytes.len(),
        Err(_) => 20,
    };
    let config_len = match random.below(8) {
        0 => needed.saturating_sub(1),
        1 => random.below(needed + 1),
        2..=5 => needed,
        _ => needed + random.below(40),
    };
    Source { text, config_len, fill: random.word() as u8 }
}
