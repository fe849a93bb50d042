//! What is played: for each trace how it is drawn, from one seed.
//!
//! Two kinds of draw alternate. *Drawn* traces are A1's, from a start value, weights and limits alone. Its masks are whole 32-bit
//! numbers, which hardly ever meet, and it does not look at the state. *Guided* traces do, as `osek cases` draws them: small masks,
//! deep nests, Wait 0, long first delays, calls that succeed.

use osek_tests::cases::{draw_trace, Random};
use osek_tests::fast;

use super::draw::{self, Setting, LIMITS};
use crate::layout::Objects;
use crate::words::{self, Sort, EVENTS};

/// How a trace is drawn.
#[derive(Clone, PartialEq, Eq, Debug)]
pub enum Source {
    Drawn { start: u32, setting: Setting, events: usize },
    Guided { seed: u64, bytes: usize },
}

impl Source {
    pub fn is_guided(&self) -> bool {
        matches!(self, Source::Guided { .. })
    }

    pub fn words(&self) -> String {
        match self {
            Source::Drawn { start, events, .. } => {
                format!("drawn from {start}, {}", words::counted(*events, "event"))
            }
            Source::Guided { seed, bytes } => {
                format!("guided by seed {seed}, at most {}", words::counted(*bytes, "byte"))
            }
        }
    }

    pub fn trace(&self, config: &[u8]) -> Vec<u8> {
        match self {
            Source::Drawn { start, setting, events } => {
                draw::trace(*start, setting, *events).expect("start value, weights and limits were checked")
            }
            Source::Guided { seed, bytes } => {
                let config = fast::read_config(config).expect("the configuration is accepted");
                draw_trace(&mut Random::new(*seed), &config, *bytes)
            }
        }
    }
}

/// Which kinds are played.
#[derive(Clone, Copy, PartialEq, Eq, Debug)]
pub enum Kinds {
    Drawn,
    Guided,
    Both,
}

/// What the draws have in common.
#[derive(Clone, Debug)]
pub struct Plan {
    pub seed: u64,
    pub kinds: Kinds,
    pub setting: Setting,
    /// Events of a drawn trace, where one length is asked for.
    pub events: Option<usize>,
    /// The limit of delays was given: it does not change from trace to trace.
    pub delays_given: bool,
    /// A period of the configuration, the longest.
    period: u32,
}

/// Short, middling and long traces; no event has more than nine bytes, so that the longest fits.
const EVENTS_OF: [usize; 4] = [40, 150, 400, 900];
const BYTES_OF: [usize; 4] = [80, 300, 900, 2_500];
/// Of delays: most are small, so that entries become due; some reach over a period; a few are any.
pub const SMALL_DELAYS: u16 = 4;

/// Weights by event code, for a configuration that has everything.
const WEIGHTS: [u16; EVENTS.len()] = [4, 6, 2, 5, 5, 8, 6, 2, 1, 3, 4, 1];

impl Plan {
    pub fn of(objects: &Objects, seed: u64) -> Plan {
        let period = objects.tables.iter().map(|table| table.period).max().unwrap_or(1);
        let setting = default_setting(objects);
        Plan { seed, kinds: Kinds::Both, setting, events: None, delays_given: false, period }
    }

    /// The source of the trace with this number. Each has a generator of its own: traces whose start values were successive
    /// values of one xorshift would be one stream, shifted by a draw.
    pub fn source(&self, number: u64) -> Source {
        let mut random = Random::new(Random::new(self.seed).word() ^ number.wrapping_mul(0xd134_2543_de82_ef95));
        let guided = match self.kinds {
            Kinds::Drawn => false,
            Kinds::Guided => true,
            Kinds::Both => number % 2 == 1,
        };
        if guided {
            return Source::Guided { seed: random.word(), bytes: random.pick(&BYTES_OF) };
        }
        let start = std::iter::repeat_with(|| random.word() as u32).find(|start| *start != 0).unwrap_or(1);
        let mut setting = self.setting.clone();
        if !self.delays_given {
            let any = u16::MAX;
            let periods = (2 * self.period).min(any.into()) as u16;
            setting.limits[limit_of(Sort::Delay)] = match random.below(8) {
                0 => any,
                1 | 2 => periods.max(SMALL_DELAYS),
                _ => SMALL_DELAYS,
            };
        }
        Source::Drawn { start, setting, events: self.events.unwrap_or_else(|| random.pick(&EVENTS_OF)) }
    }
}

pub fn limit_of(sort: Sort) -> usize {
    LIMITS.iter().position(|(limited, _)| *limited == sort).expect("every sort but a mask has a limit")
}

/// Limits one above the configuration's counts, so that a number that names nothing occurs. What can only be refused is drawn seldom.
fn default_setting(objects: &Objects) -> Setting {
    let counts = [objects.bodies.len(), objects.resources.len(), objects.tables.len()];
    let mut limits = [SMALL_DELAYS; LIMITS.len()];
    limits.iter_mut().zip(counts).for_each(|(limit, count)| *limit = count as u16 + 1);
    let has = |number: u32| objects.bodies.iter().any(|body| body.kind == number);
    let useful = |code: u32| match code {
        4 | 5 => !objects.resources.is_empty(),
        7 => has(fast::ISR),
        8 | 9 => !objects.tables.is_empty(),
        10..=12 => has(fast::EXTENDED),
        _ => true,
    };
    let mut weights = WEIGHTS;
    EVENTS.iter().zip(&mut weights).filter(|(event, _)| !useful(event.code)).for_each(|(_, weight)| *weight = 1);
    // Where every weight is small, one in some twenty is much: the others count four times.
    weights.iter_mut().zip(&EVENTS).filter(|(_, event)| useful(event.code)).for_each(|(weight, _)| *weight *= 4);
    Setting { weights, limits }
}

/// A seed from the system's entropy.
pub fn entropy() -> std::io::Result<u64> {
    let mut bytes = [0; 8];
    std::io::Read::read_exact(&mut std::fs::File::open("/dev/urandom")?, &mut bytes)?;
    Ok(u64::from_le_bytes(bytes))
}

#[cfg(test)]
mod tests {
    use super::*;
    use crate::layout;
    use crate::reference;
    use osek_tests::listing::DOCUMENT_CONFIG;

    #[test]
    fn the_generator_is_marsaglia_s() {
        let setting = Setting { weights: [1, 0, 0, 0, 0, 0, 0, 0, 0, 0, 0, 0], limits: [65_535, 1, 1, 1] };
        // From 2,463,534,242 the first draw is 723,471,715 and picks the code; the second, 2,497,366,906, the body.
        let trace = draw::trace(2_463_534_242, &setting, 1).expect("it is drawn");
        assert_eq!(layout::numbers(&trace), [1, (2_497_366_906u32 % 65_535)]);
        assert_eq!(draw::trace(0, &setting, 1), None);
    }

    #[test]
    fn every_trace_is_accepted_and_no_two_begin_alike() {
        let config = DOCUMENT_CONFIG;
        let plan = Plan::of(&layout::config(&config).objects, 7);
        let mut beginnings = std::collections::BTreeSet::new();
        for number in 0..200 {
            let trace = plan.source(number).trace(&config);
            assert!(reference::run(&config, &trace).is_ok(), "{number}");
            beginnings.insert(trace[..trace.len().min(30)].to_vec());
        }
        assert!(beginnings.len() > 195, "{}", beginnings.len());
    }
}
