//! The longest output: a trace of 8,192 Ticks over 32 bodies needs 4 × 8,192 + 2 × 32 = 32,832 bytes.

use osek_tests::cases::Case;
use osek_tests::compare::{check, others};
use osek_tests::guard::GuardedRun;

/// 32 tasks of priorities 1 to 32, of which the last is ready at the fresh start; no resource, no table.
fn all_bodies() -> Vec<u8> {
    let mut config = vec![1, 32];
    config.extend((1..=32).flat_map(|priority| [0, priority, u8::from(priority == 32)]));
    config.extend([0, 0]);
    config
}

/// 8,192 Ticks with an output of this length.
fn longest(out_len: usize) -> Case {
    Case { config: all_bodies(), trace: vec![6; 8_192], out_len, fill: 77 }
}

/// What every implementation gives.
fn outcome(case: &Case) -> (u64, Vec<u8>) {
    check(case, &others(), &mut GuardedRun::default()).unwrap_or_else(|difference| panic!("{difference}"))
}

#[test]
fn the_longest_output_takes_32_832_bytes() {
    let (result, out) = outcome(&longest(32_832));
    assert_eq!(result, 8_192);
    let (answers, losses) = out.split_at(4 * 8_192);
    assert!(answers.chunks(4).all(|answer| *answer == [0, 31, 32, 0]));
    assert_eq!(losses, [0; 64]);
}

#[test]
fn one_byte_less_is_refused_with_the_bytes_needed() {
    let case = longest(32_831);
    let (result, out) = outcome(&case);
    assert_eq!((result >> 32, result & 0xffff_ffff), (30, 32_832));
    assert_eq!(out, case.prefilled(), "a refused run writes nothing");
}
