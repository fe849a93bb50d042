//! Document 02's salvage of a damaged trace, word by word: where no event can be read, one byte is dropped. Shares nothing with the
//! other implementations; and drawn recordings, from a seed and a number alone.

use crate::cases::{self, Random};

const TRACE_MAX: usize = 8_192;
/// What suffices for the list of every trace.
pub const STRETCHES_MAX: usize = 12_224;
const TRACE_TOO_LONG: u64 = 20;
const TOO_SHORT: u64 = 30;

/// How many arguments follow each code, from 1 on.
const ARGUMENTS: [usize; 12] = [1, 0, 1, 1, 1, 0, 1, 2, 1, 1, 2, 1];

/// The number at the head of `bytes`, if one can be read, and how many bytes it takes.
fn number(bytes: &[u8]) -> Option<(u64, usize)> {
    let length = 1 + bytes.iter().position(|byte| byte & 0x80 == 0)?;
    let groups = &bytes[..length];
    let value = groups.iter().rev().fold(0u64, |value, group| value << 7 | u64::from(group & 0x7f));
    let shortest = length == 1 || groups[length - 1] != 0;
    (length <= 5 && shortest && value <= u64::from(u32::MAX)).then_some((value, length))
}

/// How many bytes the event at the head of `bytes` takes, if one can be read.
fn event(bytes: &[u8]) -> Option<usize> {
    let (code, mut length) = number(bytes)?;
    let arguments = *ARGUMENTS.get(usize::try_from(code).ok()?.checked_sub(1)?)?;
    for _ in 0..arguments {
        length += number(&bytes[length..])?.1;
    }
    Some(length)
}

/// The kept bytes, and offset and length of each dropped stretch.
pub fn parts(trace: &[u8]) -> (Vec<u8>, Vec<(usize, usize)>) {
    let mut kept = Vec::new();
    let mut dropped = Vec::new();
    let mut at = 0;
    while at < trace.len() {
        if let Some(length) = event(&trace[at..]) {
            kept.extend(&trace[at..at + length]);
            at += length;
        } else {
            dropped.push(at);
            at += 1;
        }
    }
    (kept, dropped.chunk_by(|a, b| a + 1 == *b).map(|stretch| (stretch[0], stretch.len())).collect())
}

/// The list of stretches in bytes.
pub fn list(stretches: &[(usize, usize)]) -> Vec<u8> {
    let mut bytes = Vec::new();
    for value in stretches.iter().flat_map(|(offset, length)| [*offset, *length]) {
        let mut rest = value;
        while rest > 0x7f {
            bytes.push((rest % 0x80) as u8 + 0x80);
            rest /= 0x80;
        }
        bytes.push(rest as u8);
    }
    bytes
}

/// As `osek_salvage`.
pub fn salvage(trace: &[u8], events: &mut [u8], stretches: &mut [u8]) -> u64 {
    if trace.len() > TRACE_MAX {
        return TRACE_TOO_LONG << 32;
    }
    let (kept, dropped) = parts(trace);
    let listed = list(&dropped);
    for (output, bytes) in [(&*events, &kept), (&*stretches, &listed)] {
        if output.len() < bytes.len() {
            return TOO_SHORT << 32 | bytes.len() as u64;
        }
    }
    events[..kept.len()].copy_from_slice(&kept);
    stretches[..listed.len()].copy_from_slice(&listed);
    (listed.len() << 16 | kept.len()) as u64
}

/// What one salvage is given.
#[derive(Clone, PartialEq, Eq, Debug)]
pub struct Recording {
    pub trace: Vec<u8>,
    pub events_len: usize,
    pub stretches_len: usize,
    /// The outputs before the call depend on it.
    pub fill: u8,
}

impl Recording {
    /// Both outputs before the call. Neighbours differ, so that a byte moved is seen as well as one overwritten.
    pub fn prefilled(&self) -> (Vec<u8>, Vec<u8>) {
        let bytes = |length: usize, factor: u8| {
            (0..length).map(|i| (i as u8).wrapping_mul(factor).wrapping_add(self.fill)).collect()
        };
        (bytes(self.events_len, 167), bytes(self.stretches_len, 91))
    }
}

/// What a flat cell and a bad line do to a trace.
fn damage(random: &mut Random, trace: &mut Vec<u8>) {
    let from = random.below(trace.len() + 1);
    let length = random.pick(&[1, 1, 2, 3, 5, 16, 130, 1_000]).min(trace.len() - from);
    let stretch = from..from + length;
    match random.below(7) {
        0 => trace.truncate(from),
        1 => trace[stretch].iter_mut().for_each(|byte| *byte ^= 1 << random.below(8)),
        2 => trace[stretch].fill(random.pick(&[0, 0xff, 0x80])),
        3 => trace[stretch].iter_mut().for_each(|byte| *byte = random.word() as u8),
        4 => {
            let noise: Vec<u8> = (0..random.between(1, 40)).map(|_| random.word() as u8).collect();
            trace.splice(from..from, noise);
        }
        5 => {
            let same = random.pick(&[0, 0x7f, 0x80, 0xff]);
            trace.splice(from..from, vec![same; random.between(1, 300)]);
        }
        _ => drop(trace.drain(stretch)),
    }
}

/// Lengths around the one that is needed.
fn lent(random: &mut Random, needed: usize, most: usize) -> usize {
    match random.below(12) {
        0 => needed.saturating_sub(1),
        1 => random.below(needed + 1),
        2..=6 => needed,
        7..=9 => needed + random.between(1, 40),
        _ => most,
    }
}

/// The recording with this number: a drawn trace with up to eight damages, rarely noise or a byte of every other kind.
pub fn recording(seed: u64, number: u64) -> Recording {
    let mut random = Random::new(Random::new(seed).word() ^ number.wrapping_mul(0x9fb2_1c65_1e98_df25));
    let mut trace = cases::case(seed, number).trace;
    match random.below(40) {
        0 => trace = (0..random.below(600)).map(|_| random.word() as u8).collect(),
        1 => trace = [0, 2].repeat(random.between(1, TRACE_MAX / 2)),
        2 => trace = vec![random.pick(&[0, 0x80, 0xff]); random.between(1, TRACE_MAX)],
        _ => (0..random.below(9)).for_each(|_| damage(&mut random, &mut trace)),
    }
    match random.below(50) {
        0 => trace.resize(TRACE_MAX + random.between(1, 40), 2),
        _ => trace.truncate(TRACE_MAX),
    }
    let (kept, dropped) = parts(&trace);
    let events_len = lent(&mut random, kept.len(), TRACE_MAX);
    let stretches_len = lent(&mut random, list(&dropped).len(), STRETCHES_MAX);
    Recording { trace, events_len, stretches_len, fill: random.word() as u8 }
}
