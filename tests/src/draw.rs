//! Document 02's drawn trace, word by word: Marsaglia's xorshift, a code by its weight, each argument one more draw. Shares nothing
//! with the other implementations; and requests for draws, from a seed and a number alone.

use crate::cases::Random;

pub const TRACE_MAX: usize = 8_192;
const TRACE_TOO_LONG: u64 = 20;
const TOO_SHORT: u64 = 30;
const ZERO_START: u64 = 50;
const NOTHING_TO_DRAW: u64 = 51;

/// What is drawn after a code: a number below the limit of a sort, or a mask.
#[derive(Clone, Copy, PartialEq, Eq, Debug)]
pub enum Argument {
    Below(usize),
    Mask,
}

const BODY: Argument = Argument::Below(0);
const RESOURCE: Argument = Argument::Below(1);
const TABLE: Argument = Argument::Below(2);
const DELAY: Argument = Argument::Below(3);

/// What follows each code, from 1 on.
pub const ARGUMENTS: [&[Argument]; 12] = [
    &[BODY],                 // Activate
    &[],                     // Finish
    &[BODY],                 // Chain
    &[RESOURCE],             // Get
    &[RESOURCE],             // Release
    &[],                     // Tick
    &[BODY],                 // Line
    &[TABLE, DELAY],         // Start
    &[TABLE],                // Stop
    &[Argument::Mask],       // Wait
    &[BODY, Argument::Mask], // Set
    &[Argument::Mask],       // Clear
];

/// The generator, whose iterator advances before it gives a value.
pub struct Xorshift(pub u32);

impl Iterator for Xorshift {
    type Item = u32;

    fn next(&mut self) -> Option<u32> {
        self.0 ^= self.0 << 13;
        self.0 ^= self.0 >> 17;
        self.0 ^= self.0 << 5;
        Some(self.0)
    }
}

/// What one draw is given.
#[derive(Clone, PartialEq, Eq, Debug)]
pub struct Request {
    pub start: u32,
    pub weights: [u16; 12],
    pub limits: [u16; 4],
    pub count: u32,
    pub out_len: usize,
    /// The output before the call depends on it.
    pub fill: u8,
}

impl Request {
    /// The output before the call. Neighbours differ, so that a byte moved is seen as well as one overwritten.
    pub fn prefilled(&self) -> Vec<u8> {
        (0..self.out_len).map(|i| (i as u8).wrapping_mul(167).wrapping_add(self.fill)).collect()
    }
}

fn push(bytes: &mut Vec<u8>, value: u32) {
    let mut rest = value;
    while rest >= 1 << 7 {
        bytes.push(rest as u8 | 1 << 7);
        rest >>= 7;
    }
    bytes.push(rest as u8);
}

/// The drawn numbers: of each event its code, then its arguments. Start value, weights and limits are not 0.
pub fn events(start: u32, weights: &[u16; 12], limits: &[u16; 4], count: u32) -> Vec<Vec<u32>> {
    let mut values = Xorshift(start);
    let mut draw = || values.next().expect("it never ends");
    // A code for each value below the sum: as many times as its weight.
    let shares: Vec<u32> =
        (1..).zip(weights).flat_map(|(code, weight)| std::iter::repeat_n(code, usize::from(*weight))).collect();
    (0..count)
        .map(|_| {
            let code = shares[draw() as usize % shares.len()];
            let argument = |argument: &Argument| match *argument {
                Argument::Below(sort) => draw() % u32::from(limits[sort]),
                Argument::Mask => draw(),
            };
            std::iter::once(code).chain(ARGUMENTS[code as usize - 1].iter().map(argument)).collect()
        })
        .collect()
}

/// As `osek_draw`.
pub fn draw(start: u32, weights: &[u16; 12], limits: &[u16; 4], count: u32, out: &mut [u8]) -> u64 {
    if start == 0 {
        return ZERO_START << 32;
    }
    if weights.iter().all(|weight| *weight == 0) || limits.contains(&0) {
        return NOTHING_TO_DRAW << 32;
    }
    if count as usize > TRACE_MAX {
        return TRACE_TOO_LONG << 32;
    }
    let mut trace = Vec::new();
    events(start, weights, limits, count).iter().flatten().for_each(|number| push(&mut trace, *number));
    if trace.len() > TRACE_MAX {
        return TRACE_TOO_LONG << 32;
    }
    if out.len() < trace.len() {
        return TOO_SHORT << 32 | trace.len() as u64;
    }
    out[..trace.len()].copy_from_slice(&trace);
    trace.len() as u64
}

/// A weight or a limit: small ones and the ends of the range as often as any other.
fn sixteen_bits(random: &mut Random, zero: usize) -> u16 {
    if random.chance(zero) {
        return 0;
    }
    match random.below(4) {
        0 => 1,
        1 => random.between(2, 40) as u16,
        2 => random.pick(&[127, 128, 255, 256, 32_768, 65_534, 65_535]),
        _ => random.between(1, 65_535) as u16,
    }
}

/// The request with this number: now and then refused, often with room to the byte.
pub fn request(seed: u64, number: u64) -> Request {
    let mut random = Random::new(Random::new(seed).word() ^ number.wrapping_mul(0xd6e8_feb8_6659_fd93));
    let start = match random.below(20) {
        0 => 0,
        1 => random.pick(&[1, 2, 0x8000_0000, u32::MAX, 2_463_534_242]),
        _ => random.word() as u32,
    };
    let zero = random.pick(&[0, 30, 90, 100]);
    let weights: [u16; 12] = std::array::from_fn(|_| sixteen_bits(&mut random, zero));
    let limits: [u16; 4] = std::array::from_fn(|_| sixteen_bits(&mut random, 2));
    let count = match random.below(20) {
        0 => 0,
        1 => 1,
        2 => random.pick(&[u32::MAX, 8_193, 1 << 31, 65_536]),
        3 => random.between(2_000, 8_192) as u32,
        _ => random.between(2, 400) as u32,
    };
    let needed = match draw(start, &weights, &limits, count, &mut []) {
        refused if refused >> 32 == TOO_SHORT => refused as u32 as usize,
        _ => 0,
    };
    let out_len = match random.below(10) {
        0 => needed.saturating_sub(1),
        1 => random.below(needed + 1),
        2..=5 => needed,
        6..=8 => needed + random.between(1, 40),
        _ => TRACE_MAX,
    };
    Request { start, weights, limits, count, out_len, fill: random.word() as u8 }
}
