//! Damaged traces: worked by hand, and drawn and compared with the proved salvage, whose slices are guarded.

use osek_tests::guard::{announce, report_faults, GuardedSalvage, Salvage, Side};
use osek_tests::salvage::{parts, recording, salvage, Recording, STRETCHES_MAX};

/// Every implementation, with whether its memory is guarded.
fn implementations() -> Vec<(&'static str, Salvage, bool)> {
    vec![
        ("word by word", salvage, false),
        #[cfg(feature = "linked")]
        ("osek_salvage", osek_tests::subject::salvage, true),
    ]
}

/// What a call gives: the result and both whole outputs.
type Outcome = (u64, Vec<u8>, Vec<u8>);

fn outcome(run: Salvage, recording: &Recording) -> Outcome {
    let (mut events, mut stretches) = recording.prefilled();
    let result = run(&recording.trace, &mut events, &mut stretches);
    (result, events, stretches)
}

/// All implementations on one recording; they must agree on the result and on every byte.
fn agreed(recording: &Recording, memory: &mut GuardedSalvage, seed: u64, number: u64) -> Outcome {
    let expected = outcome(salvage, recording);
    for (name, run, guarded) in implementations() {
        let outcomes = if guarded {
            vec![memory.run(run, recording, Side::Before), memory.run(run, recording, Side::After)]
        } else {
            vec![outcome(run, recording)]
        };
        for outcome in outcomes {
            assert!(outcome == expected, "{name} differs: seed {seed} case {number}: {recording:02x?}");
        }
    }
    expected
}

/// A trace by hand, with slices of these lengths; the result, and what the fronts of both slices must hold.
fn by_hand(trace: &[u8], events_len: usize, stretches_len: usize, result: u64, kept: &[u8], listed: &[u8]) {
    let recording = Recording { trace: trace.to_vec(), events_len, stretches_len, fill: 7 };
    let (before_events, before_stretches) = recording.prefilled();
    let (given, events, stretches) = agreed(&recording, &mut GuardedSalvage::default(), 0, 0);
    assert_eq!(given, result, "{trace:02x?}");
    assert_eq!((&events[..kept.len()], &events[kept.len()..]), (kept, &before_events[kept.len()..]));
    assert_eq!((&stretches[..listed.len()], &stretches[listed.len()..]), (listed, &before_stretches[listed.len()..]));
}

const ACCEPTED: u64 = 1 << 16;
const TOO_SHORT: u64 = 30 << 32;

/// Get 0; FF; Tick; 00 00; Line 2; Start 0 without its delay.
const DAMAGED: [u8; 10] = [0x04, 0x00, 0xff, 0x06, 0x00, 0x00, 0x07, 0x02, 0x08, 0x00];

#[test]
fn unreadable_bytes_are_dropped_one_by_one() {
    by_hand(&DAMAGED, 9, 9, 6 * ACCEPTED + 5, &[0x04, 0x00, 0x06, 0x07, 0x02], &[2, 1, 4, 2, 8, 2]);
    // An argument that can't be read: only the code is dropped, and what was to be the argument is tried as a code.
    by_hand(&[0x01, 0x80, 0x00], 3, 2, 2 * ACCEPTED, &[], &[0, 3]);
    by_hand(&[0x08, 0x06, 0x80, 0x00], 4, 4, 4 * ACCEPTED + 1, &[0x06], &[0, 1, 2, 2]);
    // Where the code is dropped, its first argument may be an event of its own.
    by_hand(&[0x08, 0x02], 2, 2, 2 * ACCEPTED + 1, &[0x02], &[0, 1]);
    // A fifth byte above 15, and four bytes with the top bit before a readable one.
    by_hand(&[0x01, 0xff, 0xff, 0xff, 0xff, 0x10], 6, 2, 2 * ACCEPTED, &[], &[0, 6]);
    by_hand(&[0x80, 0x80, 0x80, 0x80, 0x02], 5, 2, 2 * ACCEPTED + 1, &[0x02], &[0, 4]);
}

#[test]
fn a_readable_trace_comes_back_whole() {
    by_hand(&[], 0, 0, 0, &[], &[]);
    by_hand(&[], 3, 3, 0, &[], &[]);
    let trace = [0x08, 0x00, 0x01, 0x04, 0x00, 0x06, 0x07, 0x02, 0x03, 0x80, 0x01, 0x02];
    by_hand(&trace, 12, 0, 12, &trace, &[]);
}

#[test]
fn a_stretch_of_128_bytes_and_an_offset_of_128_take_two_bytes_each() {
    let mut trace = vec![0x00; 128];
    trace.extend([0x02, 0x00]);
    by_hand(&trace, 1, 6, 6 * ACCEPTED + 1, &[0x02], &[0, 0x80, 0x01, 0x81, 0x01, 1]);
}

#[test]
fn refusals_come_in_order_and_leave_both_outputs() {
    by_hand(&DAMAGED, 5, 6, 6 * ACCEPTED + 5, &[0x04, 0x00, 0x06, 0x07, 0x02], &[2, 1, 4, 2, 8, 2]);
    by_hand(&DAMAGED, 4, 6, TOO_SHORT + 5, &[], &[]);
    by_hand(&DAMAGED, 4, 5, TOO_SHORT + 5, &[], &[]);
    by_hand(&DAMAGED, 5, 5, TOO_SHORT + 6, &[], &[]);
    by_hand(&vec![0x02; 8_193], 0, 0, 20 << 32, &[], &[]);
    by_hand(&vec![0x00; 8_193], 9_000, 9_000, 20 << 32, &[], &[]);
}

#[test]
fn the_longest_list_takes_12_224_bytes() {
    let trace = [0x00, 0x02].repeat(4_096);
    let recording = Recording { trace, events_len: 8_192, stretches_len: STRETCHES_MAX, fill: 0 };
    let (result, ..) = agreed(&recording, &mut GuardedSalvage::default(), 0, 0);
    assert_eq!(result, 12_224 * ACCEPTED + 4_096);
    let short = Recording { stretches_len: 12_223, ..recording };
    let (result, ..) = agreed(&short, &mut GuardedSalvage::default(), 0, 0);
    assert_eq!(result, TOO_SHORT + 12_224);
}

/// What drawn recordings showed.
#[derive(Default, Debug)]
struct Seen {
    too_long: usize,
    events_too_short: usize,
    stretches_too_short: usize,
    whole: usize,
    nothing_kept: usize,
    many_stretches: usize,
    long_stretch: usize,
}

impl Seen {
    fn count(&mut self, recording: &Recording, result: u64) {
        let (kept, dropped) = parts(&recording.trace);
        match result >> 32 {
            20 => self.too_long += 1,
            30 if recording.events_len < kept.len() => self.events_too_short += 1,
            30 => self.stretches_too_short += 1,
            _ => {
                self.whole += usize::from(dropped.is_empty());
                self.nothing_kept += usize::from(kept.is_empty() && !dropped.is_empty());
                self.many_stretches += usize::from(dropped.len() > 9);
                self.long_stretch += usize::from(dropped.iter().any(|(_, length)| *length > 127));
            }
        }
    }

    fn least(&self) -> usize {
        let Seen { too_long, events_too_short, stretches_too_short, whole, nothing_kept, many_stretches, long_stretch } =
            *self;
        [too_long, events_too_short, stretches_too_short, whole, nothing_kept, many_stretches, long_stretch]
            .into_iter()
            .min()
            .expect("there are some")
    }
}

#[test]
fn drawn_recordings_are_salvaged_alike() {
    report_faults();
    let mut memory = GuardedSalvage::default();
    let mut seen = Seen::default();
    for seed in [1, 20_261_116] {
        for number in 0..3_000 {
            announce(seed, number);
            let recording = recording(seed, number);
            let (result, ..) = agreed(&recording, &mut memory, seed, number);
            seen.count(&recording, result);
        }
    }
    println!("{seen:?}");
    assert!(seen.least() >= 50, "too few of some kind: {seen:?}");
}
