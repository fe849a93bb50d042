//! Verdicts on recorded answers: worked by hand on the document's listing, and drawn and compared with the proved verdict,
//! whose slices are guarded.

use osek_tests::cases::Case;
use osek_tests::guard::{announce, report_faults, GuardedVerdict, Side, Verdict};
use osek_tests::listing::{DOCUMENT_CONFIG, DOCUMENT_LISTING, DOCUMENT_TRACE};
use osek_tests::verdict::{right_record, unit, verdict, Unit, PASS};

/// The proved verdict, if it is linked.
fn proved() -> Vec<Verdict> {
    vec![
        #[cfg(feature = "linked")]
        osek_tests::subject::verdict,
    ]
}

/// The verdict of the Rust version on one unit; the proved one, guarded on both sides in turn, must agree.
fn agreed(unit: &Unit, memory: &mut GuardedVerdict, seed: u64, number: u64) -> u64 {
    let expected = verdict(&unit.config, &unit.trace, &unit.recorded);
    for judge in proved() {
        for side in [Side::Before, Side::After] {
            let result = memory.run(judge, unit, side);
            assert_eq!(result, expected, "osek_verdict differs: seed {seed} case {number}: {unit:02x?}");
        }
    }
    expected
}

const BAD_RECORD: u64 = 70 << 32;
const EVENTS: usize = 17;

/// The four bytes of each row of document 01's listing.
fn listed() -> Vec<u8> {
    let byte = |field: &str| if field == "-" { 255 } else { field.parse().expect("a byte") };
    let rows = DOCUMENT_LISTING.lines().skip(1).take(EVENTS);
    rows.flat_map(|row| row.split(' ').skip(2).map(byte).collect::<Vec<u8>>()).collect()
}

/// The verdict on a record of the listing.
#[track_caller]
fn assert_verdict(memory: &mut GuardedVerdict, recorded: Vec<u8>, result: u64) {
    let unit = Unit { config: DOCUMENT_CONFIG.to_vec(), trace: DOCUMENT_TRACE.to_vec(), recorded };
    assert_eq!(agreed(&unit, memory, 0, 0), result, "{:02x?}", unit.recorded);
}

#[test]
fn the_listing_passes() {
    let listed = listed();
    assert_eq!(listed.len(), 4 * EVENTS);
    assert_verdict(&mut GuardedVerdict::default(), listed, PASS);
}

#[test]
fn every_bit_of_every_answer_counts() {
    let mut memory = GuardedVerdict::default();
    for byte in 0..4 * EVENTS {
        for bit in 0..8 {
            let mut recorded = listed();
            recorded[byte] ^= 1 << bit;
            assert_verdict(&mut memory, recorded, byte as u64 / 4);
        }
    }
}

#[test]
fn the_first_difference_is_given() {
    let mut memory = GuardedVerdict::default();
    for first in 0..EVENTS {
        for second in first..EVENTS {
            let mut recorded = listed();
            recorded[4 * first + 2] ^= 0x40;
            recorded[4 * second + 3] ^= 1;
            assert_verdict(&mut memory, recorded, first as u64);
        }
    }
}

#[test]
fn a_record_that_breaks_off_fails_at_the_first_missing_answer() {
    let mut memory = GuardedVerdict::default();
    for length in 0..4 * EVENTS {
        let result = if length % 4 == 0 { length as u64 / 4 } else { BAD_RECORD };
        assert_verdict(&mut memory, listed()[..length].to_vec(), result);
        // An earlier answer that differs comes first.
        let mut recorded = listed()[..length].to_vec();
        if length % 4 == 0 && length > 0 {
            recorded[0] = 4;
            assert_verdict(&mut memory, recorded, 0);
        }
    }
}

#[test]
fn answers_beyond_the_events_are_no_record() {
    let mut memory = GuardedVerdict::default();
    for more in 1..12 {
        let mut recorded = listed();
        recorded.resize(4 * EVENTS + more, 0);
        assert_verdict(&mut memory, recorded.clone(), BAD_RECORD);
        // Before any comparison.
        recorded[0] = 4;
        assert_verdict(&mut memory, recorded, BAD_RECORD);
    }
    // The losses are not recorded: with them a record is too long, or not whole.
    let mut recorded = listed();
    recorded.extend([1, 0, 0, 0, 0, 0]);
    assert_verdict(&mut memory, recorded, BAD_RECORD);
}

#[test]
fn refusals_of_the_run_come_first() {
    let mut memory = GuardedVerdict::default();
    let mut refused = |config: &[u8], trace: &[u8], result: u64| {
        for recorded in [vec![], vec![0; 4], vec![1; 3], vec![0; 40_000]] {
            let unit = Unit { config: config.to_vec(), trace: trace.to_vec(), recorded };
            assert_eq!(agreed(&unit, &mut memory, 0, 0), result);
        }
    };
    refused(&[], &DOCUMENT_TRACE, 1 << 32);
    refused(&[0; 4_097], &[0; 8_193], 10 << 32);
    refused(&DOCUMENT_CONFIG, &[0; 8_193], 20 << 32);
    refused(&DOCUMENT_CONFIG, &[2, 13], 23 << 32 | 1);
    refused(&DOCUMENT_CONFIG, &[2, 1], 21 << 32 | 2);
}

#[test]
fn no_events_and_no_answers_pass() {
    let mut memory = GuardedVerdict::default();
    for (recorded, result) in [(vec![], PASS), (vec![0, 0, 2, 0], BAD_RECORD), (vec![0], BAD_RECORD)] {
        let unit = Unit { config: DOCUMENT_CONFIG.to_vec(), trace: vec![], recorded };
        assert_eq!(agreed(&unit, &mut memory, 0, 0), result);
    }
}

/// 8,192 events and 32 bodies: the run needs 32,832 bytes, as many as it can.
#[test]
fn the_longest_output_has_room() {
    let mut config = vec![1, 32];
    config.extend((1..=32).flat_map(|priority| [0, priority, 1]));
    config.extend([0, 0]);
    let mut memory = GuardedVerdict::default();
    let case = Case { config, trace: vec![2; 8_192], out_len: 0, fill: 0 };
    let mut recorded = right_record(&case);
    assert_eq!(recorded.len(), 32_768);
    let (config, trace) = (case.config, case.trace);
    let unit = |recorded: &[u8]| Unit { config: config.clone(), trace: trace.clone(), recorded: recorded.to_vec() };
    assert_eq!(agreed(&unit(&recorded), &mut memory, 0, 0), PASS);
    recorded[32_767] ^= 1;
    assert_eq!(agreed(&unit(&recorded), &mut memory, 0, 0), 8_191);
    recorded.extend([0; 4]);
    assert_eq!(agreed(&unit(&recorded), &mut memory, 0, 0), BAD_RECORD);
}

/// What drawn units showed.
#[derive(Default, Debug)]
struct Seen {
    refused_input: usize,
    bad_record: usize,
    passed: usize,
    differed: usize,
    missed: usize,
    late: usize,
}

impl Seen {
    fn count(&mut self, unit: &Unit, result: u64) {
        match result {
            PASS => self.passed += 1,
            BAD_RECORD => self.bad_record += 1,
            _ if result >> 32 != 0 => self.refused_input += 1,
            event => {
                let missed = unit.recorded.len() as u64 == 4 * event;
                self.missed += usize::from(missed);
                self.differed += usize::from(!missed);
                self.late += usize::from(event >= 1_000);
            }
        }
    }

    fn least(&self) -> usize {
        let Seen { refused_input, bad_record, passed, differed, missed, late } = *self;
        [refused_input, bad_record, passed, differed, missed, late].into_iter().min().expect("there are some")
    }
}

#[test]
fn drawn_units_are_judged_alike() {
    report_faults();
    let mut memory = GuardedVerdict::default();
    let mut seen = Seen::default();
    for seed in [1, 20_261_117] {
        for number in 0..4_000 {
            announce(seed, number);
            let unit = unit(seed, number);
            let result = agreed(&unit, &mut memory, seed, number);
            seen.count(&unit, result);
        }
    }
    println!("{seen:?}");
    assert!(seen.least() >= 50, "too few of some kind: {seen:?}");
}
