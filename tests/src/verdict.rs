//! The verdict on a unit in Rust, from document 02 (A14) alone and over the plain scheduler; and drawn records.

use crate::cases::{self, Case, Random};
use crate::fast::OUTPUT_MAX;
use crate::plain;

/// The result of a unit that passes.
pub const PASS: u64 = u64::MAX;

/// The record is not whole answers, or has more than there are events.
pub const BAD_RECORD: u64 = 70;

/// As `osek_verdict`.
pub fn verdict(config: &[u8], trace: &[u8], recorded: &[u8]) -> u64 {
    let mut out = vec![0; OUTPUT_MAX];
    let result = plain::run(config, trace, &mut out);
    if result >> 32 != 0 {
        return result;
    }
    let expected: Vec<&[u8]> = out.chunks_exact(4).take(result as usize).collect();
    let answers = recorded.chunks_exact(4);
    if !answers.remainder().is_empty() || answers.len() > expected.len() {
        return BAD_RECORD << 32;
    }
    let mut answers = answers.map(Some).chain(std::iter::repeat(None));
    expected.iter().position(|answer| answers.next().flatten() != Some(answer)).map_or(PASS, |event| event as u64)
}

/// What one verdict is given.
#[derive(Clone, PartialEq, Eq, Debug)]
pub struct Unit {
    pub config: Vec<u8>,
    pub trace: Vec<u8>,
    pub recorded: Vec<u8>,
}

/// The answers that a right unit records of a case; none where the run is refused.
pub fn right_record(case: &Case) -> Vec<u8> {
    let mut out = vec![0; OUTPUT_MAX];
    let result = plain::run(&case.config, &case.trace, &mut out);
    out.truncate(if result >> 32 == 0 { 4 * result as usize } else { 0 });
    out
}

/// What is wrong with a record.
fn spoil(random: &mut Random, recorded: &mut Vec<u8>) {
    let at = random.below(recorded.len() + 1);
    match random.below(6) {
        // One bit of one byte, and of a few.
        0 | 1 if at < recorded.len() => recorded[at] ^= 1 << random.below(8),
        2 if at < recorded.len() => {
            for byte in &mut recorded[at..] {
                *byte ^= u8::from(random.chance(5));
            }
        }
        // It breaks off, between two answers or within one.
        3 => recorded.truncate(at / 4 * 4),
        4 => recorded.truncate(at),
        // It goes on.
        _ => recorded.resize(recorded.len() + random.between(1, 9), random.word() as u8),
    }
}

/// The unit with this number: a drawn case, damaged ones too, and a record of it that is right or has up to two faults.
pub fn unit(seed: u64, number: u64) -> Unit {
    let mut random = Random::new(Random::new(seed).word() ^ number.wrapping_mul(0xa24b_aed4_963e_e407));
    let case = cases::case(seed, number);
    let mut recorded = right_record(&case);
    (0..random.below(3)).for_each(|_| spoil(&mut random, &mut recorded));
    Unit { config: case.config, trace: case.trace, recorded }
}
