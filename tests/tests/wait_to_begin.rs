//! How long a body waits to begin: worked by hand, and drawn and compared with the proved call, whose inputs are guarded.

use std::collections::BTreeMap;

use osek_tests::cases::case;
use osek_tests::fast::{self, count_events, read_config, read_event, Cells, NextDue, TRACE_MAX};
use osek_tests::guard::{announce, report_faults, GuardedWait, Side, Wait};
use osek_tests::plain;

/// Every implementation, with whether its memory is guarded.
fn implementations() -> Vec<(&'static str, Wait, bool)> {
    vec![
        ("plain scheduler", plain::wait, false),
        ("fast with cells", fast::wait::<Cells>, false),
        #[cfg(feature = "linked")]
        ("osek_wait", osek_tests::subject::wait, true),
    ]
}

/// All implementations; they must agree.
fn agreed(memory: &mut GuardedWait, config: &[u8], trace: &[u8], body: u32) -> u64 {
    let expected = fast::wait::<NextDue>(config, trace, body);
    for (name, wait, guarded) in implementations() {
        let results = if guarded {
            [Side::Before, Side::After].map(|side| memory.run(wait, config, trace, body, side)).to_vec()
        } else {
            vec![wait(config, trace, body)]
        };
        for result in results {
            assert!(
                result == expected,
                "{name}: {result}, not {expected}: body {body} of {config:02x?} after {trace:02x?}"
            );
        }
    }
    expected
}

#[track_caller]
fn waits(config: &[u8], trace: &[u8], body: u32, ends: u64) {
    assert_eq!(agreed(&mut GuardedWait::default(), config, trace, body), ends);
}

#[track_caller]
fn refused(config: &[u8], trace: &[u8], body: u32, refusal: u64, place: u64) {
    assert_eq!(agreed(&mut GuardedWait::default(), config, trace, body), refusal << 32 | place);
}

/// Task 0 (priority 2) runs; ISRs 1 (9), 2 (5) and 3 (7), task 4 (6); resource 0 of tasks 0 and 4, ceiling 6.
const CONFIG: [u8; 20] = [1, 5, 0, 2, 1, 1, 9, 0, 1, 5, 0, 1, 7, 0, 0, 6, 0, 1, 17, 0];

#[test]
fn a_body_waits_for_the_runner_and_for_all_between() {
    // ISR 1 runs; ISRs 2 and 3 and task 4 are ready, and begin in the order 3, 4, 2.
    let trace = [7, 1, 7, 2, 7, 3, 1, 4];
    waits(&CONFIG, &trace, 3, 1);
    waits(&CONFIG, &trace, 4, 2);
    waits(&CONFIG, &trace, 2, 3);
    // Once ISR 1 has ended, ISR 3 runs.
    waits(&CONFIG, &[7, 1, 7, 2, 7, 3, 1, 4, 2], 2, 2);
}

#[test]
fn an_isr_waits_behind_itself() {
    waits(&CONFIG, &[7, 2, 7, 2], 2, 1);
    // Preempted by ISR 1, which is requested once and twice.
    waits(&CONFIG, &[7, 2, 7, 2, 7, 1], 2, 2);
    waits(&CONFIG, &[7, 2, 7, 2, 7, 1, 7, 1], 2, 3);
    // What was refused does not count: a third request of ISR 1.
    waits(&CONFIG, &[7, 2, 7, 2, 7, 1, 7, 1, 7, 1], 2, 3);
}

#[test]
fn what_is_below_does_not_count() {
    // ISR 1 runs above the started task 0 and the ready ISR 2, itself requested again.
    waits(&CONFIG, &[7, 2, 7, 2, 7, 1, 7, 3], 3, 1);
    waits(&CONFIG, &[7, 1, 7, 1, 7, 2], 1, 1);
}

#[test]
fn each_refusal_and_their_order() {
    // 31: suspended, running, preempted.
    refused(&CONFIG, &[], 4, 31, 0);
    refused(&CONFIG, &[], 0, 31, 0);
    refused(&CONFIG, &[7, 1], 0, 31, 0);
    // 34: the first number that no body has, and the last there is.
    refused(&CONFIG, &[], 5, 34, 0);
    refused(&CONFIG, &[], 32, 34, 0);
    refused(&CONFIG, &[], u32::MAX, 34, 0);
    // 32: the runner holds the resource, or a preempted task does; and no longer after its Release.
    refused(&CONFIG, &[4, 0, 1, 4], 4, 32, 0);
    refused(&CONFIG, &[4, 0, 7, 1, 7, 3], 3, 32, 0);
    waits(&CONFIG, &[7, 1, 1, 4], 4, 1);
    waits(&CONFIG, &[4, 0, 5, 0, 7, 1, 1, 4], 4, 1);
    // 34, then 31, before 32.
    refused(&CONFIG, &[4, 0, 1, 4], 5, 34, 0);
    refused(&CONFIG, &[4, 0, 1, 4], 2, 31, 0);
    // 35 before all three, for either kind, whichever body it is.
    for kind in [2, 3] {
        for at in [2, 14] {
            let mut config = CONFIG;
            config[at] = kind;
            config[at + 2] = 0;
            config[18] = if at == 2 { 16 } else { 1 };
            refused(&config, &[7, 1, 7, 1], 1, 35, 0);
            refused(&config, &[], 5, 35, 0);
            refused(&config, &[], 3, 35, 0);
            refused(&config, &[4, 0], 3, 35, 0);
            // The run's come first, with their places.
            refused(&config, &[7, 1, 13], 5, 23, 2);
            refused(&config[..19], &[], 0, 1, 19);
        }
    }
    refused(&CONFIG, &[7], 9, 21, 1);
    refused(&CONFIG, &[0x80, 0], 9, 22, 1);
    refused(&CONFIG, &vec![6; TRACE_MAX + 1], 9, 20, 0);
    // The longest trace is answered: no output can be too short.
    refused(&CONFIG, &vec![6; TRACE_MAX], 4, 31, 0);
}

/// The door of the carrier's letter: ISR 0 (priority 8); tasks radio 1 (12), sensor 2 (10) and record 3 (3), which runs; a
/// table of period 10 that wakes radio and sensor at offset 0.
const DOOR: [u8; 22] = [1, 4, 1, 8, 0, 0, 12, 0, 0, 10, 0, 0, 3, 1, 0, 1, 10, 2, 0, 1, 0, 2];

#[test]
fn the_door_waits_while_the_radio_wakes_in_the_same_tick() {
    // The tick wakes radio and sensor, and the door opens.
    waits(&DOOR, &[8, 0, 1, 6, 7, 0], 0, 2);
    waits(&DOOR, &[8, 0, 1, 6, 7, 0], 2, 1);
    // The door has opened before, and opens again: its own end comes on top.
    waits(&DOOR, &[8, 0, 1, 7, 0, 6, 7, 0], 0, 3);
    // The radio has ended.
    waits(&DOOR, &[8, 0, 1, 6, 7, 0, 2], 0, 1);
}

/// The bodies with the priorities 1, 2 and so on, of these kinds, each task autostart.
fn bodies(kinds: &[u8]) -> Vec<u8> {
    let mut config = vec![1, kinds.len() as u8];
    for (body, kind) in kinds.iter().enumerate() {
        config.extend([*kind, body as u8 + 1, u8::from(*kind == 0)]);
    }
    config.extend([0, 0]);
    config
}

/// Two requests of each of these ISRs.
fn twice(isrs: impl Iterator<Item = u8>) -> Vec<u8> {
    isrs.flat_map(|isr| [7, isr, 7, isr]).collect()
}

#[test]
fn all_32_bodies_with_8_isrs_requested_twice() {
    let mut kinds = [0; 32];
    kinds[24..].fill(1);
    let (config, trace) = (bodies(&kinds), twice(24..32));
    // Task 23 runs at the fresh start, and ISR 31 at the end; the tasks below 23 are ready.
    refused(&config, &trace, 23, 31, 0);
    for task in 0..23 {
        waits(&config, &trace, task, u64::from(16 + 1 + (22 - task)));
    }
    for isr in 24..32 {
        waits(&config, &trace, isr, u64::from(2 * (31 - isr) + 1));
    }
}

#[test]
fn the_longest_wait_is_63_ends() {
    let config = bodies(&[1; 32]);
    waits(&config, &twice(0..32), 0, 63);
    waits(&config, &twice(0..32), 31, 1);
    // Requested once each from the top: the first runs, and all others are ready.
    let trace: Vec<u8> = (0..32).rev().flat_map(|isr| [7, isr]).collect();
    waits(&config, &trace, 0, 31);
}

#[test]
fn drawn_traces_after_every_event() {
    report_faults();
    let seed = 5;
    let mut memory = GuardedWait::default();
    // How often each answer was given: refusals by their code, and numbers of ends.
    let (mut refusals, mut ends) = (BTreeMap::new(), BTreeMap::new());
    for number in 0..250 {
        announce(seed, number);
        let case = case(seed, number);
        let bodies = read_config(&case.config).map_or(1, |config| config.bodies() as u32);
        let mut prefixes = vec![case.trace.len()];
        if count_events(&case.trace).is_ok() {
            let mut at = 0;
            while let Ok((_, next)) = read_event(&case.trace[..case.trace.len().min(60)], at) {
                prefixes.push(at);
                at = next;
            }
        }
        for length in prefixes {
            for body in 0..=bodies {
                let result = agreed(&mut memory, &case.config, &case.trace[..length], body);
                if result >> 32 == 0 {
                    *ends.entry(result).or_insert(0) += 1;
                } else {
                    *refusals.entry(result >> 32).or_insert(0) += 1;
                }
            }
        }
    }
    println!("refusals {refusals:?}, ends {ends:?}");
    for refusal in [1, 2, 3, 4, 5, 6, 7, 8, 9, 20, 21, 22, 23, 31, 32, 34, 35] {
        assert!(refusals.contains_key(&refusal), "no case was refused with {refusal}: {refusals:?}");
    }
    assert!(!refusals.contains_key(&30), "{refusals:?}");
    for count in 1..=8 {
        assert!(ends.contains_key(&count), "nobody waited for {count} ends: {ends:?}");
    }
}
