//! The words of documents 01 and 02: events, kinds, versions, statuses and refusals, each in one table, and nowhere else
//! in the tool.

/// What a file holds, and a refusal is about.
#[derive(Clone, Copy, PartialEq, Eq, Debug)]
pub enum Part {
    Config,
    Trace,
}

/// What an argument of an event names.
#[derive(Clone, Copy, PartialEq, Eq, Debug)]
pub enum Sort {
    Body,
    Resource,
    Table,
    Delay,
    Mask,
}

impl Sort {
    pub fn name(self) -> &'static str {
        match self {
            Sort::Body => "body",
            Sort::Resource => "resource",
            Sort::Table => "table",
            Sort::Delay => "delay",
            Sort::Mask => "mask",
        }
    }
}

#[derive(PartialEq, Eq, Debug)]
pub struct EventWord {
    pub code: u32,
    /// As a listing calls it.
    pub name: &'static str,
    /// As the text form writes it.
    pub word: &'static str,
    pub arguments: &'static [Sort],
}

impl EventWord {
    pub fn is_tick(&self) -> bool {
        self.code == TICK
    }

    /// Whether an answer to this event says that a line is lost.
    pub fn loses_a_line(&self, status: u8) -> bool {
        self.code == LINE && status == LIMIT
    }
}

const TICK: u32 = 6;
const LINE: u32 = 7;

const LIMIT: u8 = 4;

pub const EVENTS: [EventWord; 12] = [
    EventWord { code: 1, name: "Activate", word: "activate", arguments: &[Sort::Body] },
    EventWord { code: 2, name: "Finish", word: "finish", arguments: &[] },
    EventWord { code: 3, name: "Chain", word: "chain", arguments: &[Sort::Body] },
    EventWord { code: 4, name: "Get", word: "get", arguments: &[Sort::Resource] },
    EventWord { code: 5, name: "Release", word: "release", arguments: &[Sort::Resource] },
    EventWord { code: TICK, name: "Tick", word: "tick", arguments: &[] },
    EventWord { code: LINE, name: "Line", word: "line", arguments: &[Sort::Body] },
    EventWord { code: 8, name: "Start", word: "start", arguments: &[Sort::Table, Sort::Delay] },
    EventWord { code: 9, name: "Stop", word: "stop", arguments: &[Sort::Table] },
    EventWord { code: 10, name: "Wait", word: "wait", arguments: &[Sort::Mask] },
    EventWord { code: 11, name: "Set", word: "set", arguments: &[Sort::Body, Sort::Mask] },
    EventWord { code: 12, name: "Clear", word: "clear", arguments: &[Sort::Mask] },
];

pub fn event(code: u32) -> Option<&'static EventWord> {
    EVENTS.iter().find(|event| event.code == code)
}

pub fn event_named(word: &str) -> Option<&'static EventWord> {
    EVENTS.iter().find(|event| event.word == word)
}

/// OSEK's name of each status; 33 has no number in OSEK, and its name is the reference's own.
pub const STATUSES: [(u8, &str); 10] = [
    (0, "E_OK"),
    (1, "E_OS_ACCESS"),
    (2, "E_OS_CALLEVEL"),
    (3, "E_OS_ID"),
    (4, "E_OS_LIMIT"),
    (5, "E_OS_NOFUNC"),
    (6, "E_OS_RESOURCE"),
    (7, "E_OS_STATE"),
    (8, "E_OS_VALUE"),
    (33, "E_USER"),
];

/// The name of a status; none if no event gives it.
pub fn status(number: u8) -> Option<&'static str> {
    STATUSES.iter().find(|(status, _)| *status == number).map(|(_, name)| *name)
}

/// A status with its name: `4 E_OS_LIMIT`.
pub fn status_words(number: u8) -> String {
    status(number).map_or_else(|| number.to_string(), |name| format!("{number} {name}"))
}

/// A version of the configuration.
pub struct VersionWord {
    pub number: u32,
    /// Whether a lost line adds to its ISR's losses.
    pub counts_lines: bool,
    /// Whether each body has a number for its deadline.
    pub has_deadlines: bool,
}

pub const VERSIONS: [VersionWord; 3] = [
    VersionWord { number: 1, counts_lines: false, has_deadlines: false },
    VersionWord { number: 2, counts_lines: true, has_deadlines: false },
    VersionWord { number: 3, counts_lines: true, has_deadlines: true },
];

pub fn version(number: u32) -> Option<&'static VersionWord> {
    VERSIONS.iter().find(|version| version.number == number)
}

/// Of a version's number.
pub fn has_deadlines(number: u32) -> bool {
    version(number).is_some_and(|version| version.has_deadlines)
}

/// What a version that counts lost lines says of itself, and of such a line.
pub const LINES_COUNTED: &str = "lost lines are counted";
pub const LINE_COUNTED: &str = "the line is counted as lost";
/// What a version that has deadlines says of itself.
pub const DEADLINES_READ: &str = "tasks have deadlines";

/// What a body does that misses its deadline at a tick: it became ready so many ticks before.
pub fn missed(tick: u32, deadline: u32) -> String {
    format!(
        "misses its deadline, {} after tick {}",
        counted(deadline as usize, "tick"),
        grouped((tick - deadline).into())
    )
}

/// `1 miss`, `2 misses`.
pub fn misses(count: usize) -> String {
    format!("{} {}", grouped(count as u64), if count == 1 { "miss" } else { "misses" })
}

/// A kind of body: its number in a configuration, its word in the text form and its name in sentences.
pub struct KindWord {
    pub number: u32,
    pub word: &'static str,
    pub name: &'static str,
    /// What it is asked for by, and loses.
    pub request: &'static str,
    /// Whether it may be ready at the fresh start, whether an entry of a table may name it, and whether a mask of users may.
    pub autostarts: bool,
    pub in_tables: bool,
    pub in_masks: bool,
    /// Whether it may have a deadline.
    pub has_deadline: bool,
    /// Whether it has event bits.
    pub has_bits: bool,
    /// Whether entries alone start it, and it preempts whoever runs.
    pub time_triggered: bool,
}

impl KindWord {
    /// `a task`, `an ISR`.
    pub fn with_article(&self) -> String {
        let article = if self.name.starts_with(['a', 'e', 'i', 'o', 'u', 'I']) { "an" } else { "a" };
        format!("{article} {}", self.name)
    }
}

pub const KINDS: [KindWord; 4] = [
    KindWord {
        number: 0,
        word: "task",
        name: "task",
        request: "activation",
        autostarts: true,
        in_tables: true,
        in_masks: true,
        has_deadline: true,
        has_bits: false,
        time_triggered: false,
    },
    KindWord {
        number: 1,
        word: "isr",
        name: "ISR",
        request: "line",
        autostarts: false,
        in_tables: false,
        in_masks: true,
        has_deadline: false,
        has_bits: false,
        time_triggered: false,
    },
    KindWord {
        number: 2,
        word: "extended",
        name: "extended task",
        request: "activation",
        autostarts: true,
        in_tables: true,
        in_masks: true,
        has_deadline: true,
        has_bits: true,
        time_triggered: false,
    },
    KindWord {
        number: 3,
        word: "timed",
        name: "time-triggered task",
        request: "activation",
        autostarts: false,
        in_tables: true,
        in_masks: false,
        has_deadline: true,
        has_bits: false,
        time_triggered: true,
    },
];

pub fn kind(number: u32) -> Option<&'static KindWord> {
    KINDS.iter().find(|kind| kind.number == number)
}

/// Of a kind's number.
pub fn is_time_triggered(number: u32) -> bool {
    kind(number).is_some_and(|kind| kind.time_triggered)
}

/// A class of systems: what it adds to the first one.
pub struct ClassWord {
    pub name: &'static str,
    pub adds_kinds: &'static [u32],
    pub adds_events: &'static [u32],
}

pub const CLASSES: [ClassWord; 3] = [
    ClassWord { name: "bcc1", adds_kinds: &[], adds_events: &[] },
    ClassWord { name: "ecc1", adds_kinds: &[2], adds_events: &[10, 11, 12] },
    ClassWord { name: "timed", adds_kinds: &[3], adds_events: &[] },
];

/// What a refusal is about, and with it what its place counts.
#[derive(Clone, Copy, PartialEq, Eq, Debug)]
pub enum About {
    /// A number that can't be read.
    Unread(Part),
    /// A number of the configuration that is not allowed: out of its range, or beside the numbers before it.
    Range,
    PriorityUsed,
    EntryOrder,
    EntryTotal,
    /// An entry beside one of a time-triggered task.
    SharedOffset,
    MixedTable,
    /// The bytes after the configuration.
    LeftOver,
    /// An event's code.
    UnknownEvent,
    /// The input as a whole.
    TooLong(Part),
    /// The output's length; the place is the bytes needed.
    Output,
    /// The length of a unit's record.
    Record,
    /// A file.
    Unreadable(Part),
}

pub struct RefusalWord {
    pub code: u32,
    pub about: About,
    pub meaning: &'static str,
}

const fn refusal_word(code: u32, about: About, meaning: &'static str) -> RefusalWord {
    RefusalWord { code, about, meaning }
}

const CUT: &str = "the input ends where a number, or the rest of one, is missing";
const MALFORMED: &str = "a number is above 4,294,967,295 or not in its shortest form";

/// Those of the run, then those of the bench program and of the verdict.
pub const REFUSALS: [RefusalWord; 20] = [
    refusal_word(1, About::Unread(Part::Config), CUT),
    refusal_word(2, About::Unread(Part::Config), MALFORMED),
    refusal_word(3, About::Range, "the version is unknown"),
    refusal_word(4, About::Range, "a count is outside its range"),
    refusal_word(5, About::Range, "a field is outside its range"),
    refusal_word(6, About::PriorityUsed, "a priority is used already"),
    refusal_word(7, About::EntryOrder, "an entry does not come after the one before it"),
    refusal_word(8, About::EntryTotal, "an entry count takes the total over 64"),
    refusal_word(9, About::LeftOver, "bytes are left over after the configuration"),
    refusal_word(10, About::TooLong(Part::Config), "the configuration is longer than 4,096 bytes"),
    refusal_word(13, About::SharedOffset, "a time-triggered task shares its offset"),
    refusal_word(14, About::MixedTable, "a table is not the one of the time-triggered tasks alone"),
    refusal_word(20, About::TooLong(Part::Trace), "the trace is longer than 8,192 bytes"),
    refusal_word(21, About::Unread(Part::Trace), CUT),
    refusal_word(22, About::Unread(Part::Trace), MALFORMED),
    refusal_word(23, About::UnknownEvent, "an event code is unknown"),
    refusal_word(30, About::Output, "the output is too short"),
    refusal_word(40, About::Unreadable(Part::Config), "the configuration can't be read"),
    refusal_word(41, About::Unreadable(Part::Trace), "the trace can't be read"),
    refusal_word(
        70,
        About::Record,
        "the record is not four bytes an answer, or has more answers than there are events",
    ),
];

/// The refusal of a file that can't be read.
pub fn unreadable(part: Part) -> u32 {
    REFUSALS.iter().find(|refusal| refusal.about == About::Unreadable(part)).map_or(0, |refusal| refusal.code)
}

pub fn refusal(code: u32) -> Option<&'static RefusalWord> {
    REFUSALS.iter().find(|refusal| refusal.code == code)
}

/// 65,535 for 65535, as document 01 writes numbers.
pub fn grouped(number: u64) -> String {
    let digits = number.to_string();
    let mut text = String::new();
    for (index, digit) in digits.chars().enumerate() {
        if index > 0 && (digits.len() - index).is_multiple_of(3) {
            text.push(',');
        }
        text.push(digit);
    }
    text
}

/// `1 byte`, `2 bytes`, `8,192 bytes`.
pub fn counted(number: usize, thing: &str) -> String {
    format!("{} {thing}{}", grouped(number as u64), if number == 1 { "" } else { "s" })
}

/// `a`, `a or b`, `a, b or c`.
pub fn either<T: AsRef<str>>(words: &[T]) -> String {
    joined(words, "or")
}

/// `a`, `a and b`, `a, b and c`.
pub fn listed<T: AsRef<str>>(words: &[T]) -> String {
    joined(words, "and")
}

fn joined<T: AsRef<str>>(words: &[T], before_last: &str) -> String {
    match words {
        [] => String::new(),
        [word] => word.as_ref().into(),
        [most @ .., last] => {
            let most: Vec<&str> = most.iter().map(AsRef::as_ref).collect();
            format!("{} {before_last} {}", most.join(", "), last.as_ref())
        }
    }
}

/// A text of others as a terminal may show it: control characters are written as `\\x1b`, and a long line is cut.
pub fn visible(text: &str) -> String {
    const SHOWN: usize = 160;
    let mut shown = String::new();
    for sign in text.chars().take(SHOWN) {
        if sign.is_control() && sign != '\t' {
            shown.push_str(&format!("\\x{:02x}", u32::from(sign)));
        } else {
            shown.push(sign);
        }
    }
    if text.chars().count() > SHOWN {
        shown.push_str("..");
    }
    shown
}

/// A sentence lists at most so many things, then `..`.
pub const LISTED_MAX: usize = 8;

#[cfg(test)]
mod tests {
    use super::*;
    use osek_tests::coverage;

    #[test]
    fn every_event_and_status_that_the_tests_cover_has_its_words() {
        for (code, name, statuses) in coverage::STATUSES {
            let event = event(u32::from(code)).expect("a covered event has a word");
            assert_eq!(event.name, name);
            for number in statuses {
                assert!(status(*number).is_some());
            }
        }
        assert_eq!(EVENTS.len(), coverage::STATUSES.len());
    }

    #[test]
    fn every_refusal_that_the_tests_cover_has_its_words() {
        for code in coverage::REFUSALS {
            assert!(refusal(code).is_some(), "{code}");
        }
        assert_eq!(REFUSALS.len(), coverage::REFUSALS.len() + 3);
    }

    #[test]
    fn numbers_and_lists_read_well() {
        assert_eq!(grouped(4_294_967_295), "4,294,967,295");
        assert_eq!(counted(1, "byte"), "1 byte");
        assert_eq!(counted(8_192, "byte"), "8,192 bytes");
        assert_eq!(either(&["a", "b", "c"]), "a, b or c");
    }
}
