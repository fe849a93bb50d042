//! Which drawn cases are taken: those that a simulator knows.

use osek_tests::cases::{self, Case};

use crate::failure::Failure;
use crate::layout::{self, Field};
use crate::options::Options;
use crate::reference;
use crate::words::{self, CLASSES, VERSIONS};

/// The options of a choice, for the commands that have them.
pub const ACCEPTED: &str = "--accepted";
pub const CLASS: &str = "--class";
pub const VERSIONS_OPTION: &str = "--versions";

pub const DETAILS: &str = "\
  --accepted        only cases that the reference accepts
  --class LIST      only cases with the bodies and events of these classes: bcc1 (tasks and ISRs, events 1 to 9), ecc1
                    (extended tasks and events 10 to 12 too), timed (time-triggered tasks too); a comma between them
  --versions LIST   only cases of these versions of the configuration: 1, 2 or 3; a comma between them
";

pub struct Choice {
    accepted: bool,
    /// The kinds, events and versions that are known but not taken.
    kinds: Vec<u32>,
    events: Vec<u32>,
    versions: Vec<u32>,
    any: bool,
}

impl Choice {
    pub fn of(options: &Options) -> Result<Choice, Failure> {
        let mut choice = Choice {
            accepted: options.flag(ACCEPTED),
            kinds: Vec::new(),
            events: Vec::new(),
            versions: Vec::new(),
            any: options.flag(ACCEPTED),
        };
        if let Some(list) = options.value(CLASS) {
            let classes = named(options, CLASS, list, &CLASSES.map(|class| class.name))?;
            let taken = |index: usize| classes.contains(&index);
            let missing = || (0..CLASSES.len()).filter(|index| !taken(*index)).map(|index| &CLASSES[index]);
            // Every class has what the first one has.
            choice.kinds = missing().flat_map(|class| class.adds_kinds).copied().collect();
            choice.events = missing().flat_map(|class| class.adds_events).copied().collect();
            choice.any = true;
        }
        if let Some(list) = options.value(VERSIONS_OPTION) {
            let known = VERSIONS.map(|version| version.number.to_string());
            let taken = named(options, VERSIONS_OPTION, list, &known)?;
            let missing = (0..VERSIONS.len()).filter(|index| !taken.contains(index));
            choice.versions = missing.map(|index| VERSIONS[index].number).collect();
            choice.any = true;
        }
        Ok(choice)
    }

    /// Whether anything is left out at all.
    pub fn chooses(&self) -> bool {
        self.any
    }

    /// Whether a simulator of the chosen sort knows all that can be read of the case.
    pub fn takes(&self, case: &Case) -> bool {
        if !self.any {
            return true;
        }
        let unknown = |(field, number): &(Field, layout::Number)| match field {
            Field::Version => self.versions.contains(&number.value),
            Field::Kind(_) => self.kinds.contains(&number.value),
            _ => false,
        };
        let event_unknown = |event: &layout::Event| self.events.contains(&event.word.code);
        !layout::config(&case.config).numbers.iter().any(unknown)
            && !layout::trace(&case.trace).events.iter().any(event_unknown)
            && (!self.accepted || reference::run(&case.config, &case.trace).is_ok())
    }

    /// The cases of a seed from this number on that are taken, each with its number.
    pub fn cases(&self, seed: u64, first: u64) -> impl Iterator<Item = (u64, Case)> + '_ {
        (first..).map(move |number| (number, cases::case(seed, number))).filter(|(_, case)| self.takes(case))
    }
}

/// The places of the words of a list.
fn named<T: AsRef<str>>(options: &Options, option: &str, list: &str, known: &[T]) -> Result<Vec<usize>, Failure> {
    let place = |word: &str| known.iter().position(|other| other.as_ref() == word);
    let places: Option<Vec<usize>> = list.split(',').map(place).collect();
    places.ok_or_else(|| {
        let range = words::either(known);
        options.wrong(&format!("{option} takes {range}, or several with commas between them, not {list}"))
    })
}
