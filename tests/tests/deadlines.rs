//! Deadlines: when a task misses, the list of the misses and its refusals, worked by hand; drawn and compared, with all three
//! slices guarded. A deadline of 65,535 lies beyond a trace's length: it is missed in src/plain.rs and src/fast.rs.

use std::collections::BTreeMap;

use osek_tests::by_hand::with_deadlines;
use osek_tests::cases::{case, draw_trace, with_list, Case, Random};
use osek_tests::compare::check_misses;
use osek_tests::coverage::REFUSALS;
use osek_tests::fast::{self, Config, Deadlines, Event, Kernel, NextDue, TRACE_MAX};
use osek_tests::guard::{announce, report_faults, GuardedRun};

const TICK: u8 = 6;
const FINISH: u8 = 2;

/// The bytes of a list of misses, each a tick and a task.
fn list(misses: &[(u16, u8)]) -> Vec<u8> {
    misses.iter().flat_map(|(tick, task)| [tick.to_le_bytes()[0], tick.to_le_bytes()[1], *task]).collect()
}

/// Every implementation counts so many misses and lists the first ones, in the least room and with some to spare.
#[track_caller]
fn assert_counted(config: &[u8], trace: &[u8], count: usize, first: &[(u16, u8)]) {
    let expected = list(first);
    for spare in [0, 5] {
        let case = Case { config: config.to_vec(), trace: trace.to_vec(), out_len: expected.len() + spare, fill: 51 };
        let (result, list) = check_misses(&case, &mut GuardedRun::default()).unwrap_or_else(|why| panic!("{why}"));
        assert_eq!(result, count as u64);
        assert_eq!(list[..expected.len()], expected);
        assert_eq!(list[expected.len()..], case.prefilled()[expected.len()..], "bytes beyond the list stay");
    }
}

/// Every implementation gives these misses, and no others.
#[track_caller]
fn assert_misses(config: &[u8], trace: &[u8], misses: &[(u16, u8)]) {
    assert_counted(config, trace, misses.len(), misses);
}

/// Every implementation refuses so, and writes nothing.
#[track_caller]
fn assert_refused(config: &[u8], trace: &[u8], list_len: usize, refusal: u64, place: u64) {
    let case = Case { config: config.to_vec(), trace: trace.to_vec(), out_len: list_len, fill: 13 };
    let (result, list) = check_misses(&case, &mut GuardedRun::default()).unwrap_or_else(|why| panic!("{why}"));
    assert_eq!((result >> 32, result & 0xffff_ffff), (refusal, place));
    assert_eq!(list, case.prefilled(), "a refused call writes nothing");
}

/// One autostart task, which uses resource 0.
const ONE: [u8; 8] = [1, 1, 0, 1, 1, 1, 1, 0];

/// That task with a deadline.
fn one(deadline: u32) -> Vec<u8> {
    with_deadlines(&ONE, &[deadline])
}

#[test]
fn an_autostart_task_counts_from_the_fresh_start_and_misses_once() {
    assert_misses(&one(1), &[6, 6, 6], &[(1, 0)]);
    assert_misses(&one(2), &[6, 6, 6], &[(2, 0)]);
    assert_misses(&one(3), &[6, 6, 6], &[(3, 0)]);
    assert_misses(&one(4), &[6, 6, 6], &[]);
    // No Tick, no miss.
    assert_misses(&one(1), &[], &[]);
}

#[test]
fn no_deadline_is_missed_by_none() {
    assert_misses(&one(0), &[TICK; TRACE_MAX], &[]);
    // Versions 1 and 2 have none.
    for version in [1, 2] {
        assert_misses(&[&[version], &ONE[1..]].concat(), &[TICK; TRACE_MAX], &[]);
    }
}

#[test]
fn the_longest_trace_ends_before_the_longest_deadline() {
    assert_misses(&one(65_535), &[TICK; TRACE_MAX], &[]);
    assert_misses(&one(8_193), &[TICK; TRACE_MAX], &[]);
    assert_misses(&one(8_192), &[TICK; TRACE_MAX], &[(8_192, 0)]);
}

#[test]
fn an_end_before_the_due_tick_is_in_time_and_one_after_it_is_not() {
    // In the tick before, in the event before and in the event after the due Tick, the third.
    assert_misses(&one(3), &[6, 2, 6, 6, 6], &[]);
    assert_misses(&one(3), &[6, 6, 2, 6, 6], &[]);
    assert_misses(&one(3), &[6, 6, 6, 2, 6], &[(3, 0)]);
    // With the deadline 1 in the same places.
    assert_misses(&one(1), &[2, 6, 6], &[]);
    assert_misses(&one(1), &[6, 2, 6], &[(1, 0)]);
}

#[test]
fn a_refused_call_is_no_end() {
    // Finish and Chain while the resource is held.
    assert_misses(&one(2), &[4, 0, 6, 2, 6], &[(2, 0)]);
    assert_misses(&one(2), &[4, 0, 6, 3, 0, 6, 6], &[(2, 0)]);
    // Chain to no task.
    assert_misses(&one(2), &[6, 3, 7, 6], &[(2, 0)]);
    // Released, it may end.
    assert_misses(&one(2), &[4, 0, 6, 2, 5, 0, 2, 6], &[]);
}

#[test]
fn a_chain_to_itself_ends_it_and_counts_anew() {
    // With one Tick so far, it is due at the third.
    assert_misses(&one(2), &[6, 3, 0, 6, 6, 6], &[(3, 0)]);
    // Before the first Tick.
    assert_misses(&one(1), &[3, 0, 3, 0, 6, 6], &[(1, 0)]);
    // After each miss.
    assert_misses(&one(1), &[6, 3, 0, 6, 3, 0, 6], &[(1, 0), (2, 0), (3, 0)]);
    // Just in time, over and over.
    assert_misses(&one(2), &[6, 3, 0, 6, 3, 0, 6, 3, 0, 6, 3, 0, 6, 2, 6], &[]);
}

/// Task 0 (priority 2) runs, task 1 (1) is below it.
const TWO: [u8; 10] = [1, 2, 0, 2, 1, 0, 1, 0, 0, 0];

#[test]
fn a_chain_ends_the_caller_and_makes_the_other_ready() {
    assert_misses(&with_deadlines(&TWO, &[2, 1]), &[6, 3, 1, 6, 6], &[(2, 1)]);
    assert_misses(&with_deadlines(&TWO, &[1, 2]), &[6, 3, 1, 6, 6], &[(1, 0), (3, 1)]);
}

#[test]
fn a_ready_task_that_never_begins_misses() {
    // Activated between the first and the second Tick; an Activate at its limit counts nothing anew.
    assert_misses(&with_deadlines(&TWO, &[0, 2]), &[6, 1, 1, 6, 1, 1, 6, 6, 6], &[(3, 1)]);
    // It begins once task 0 has ended, and ends before the second Tick.
    assert_misses(&with_deadlines(&TWO, &[0, 2]), &[1, 1, 6, 2, 2, 6, 6], &[]);
}

/// Task 0 (priority 1) runs, task 1 (2) is above it.
const BELOW: [u8; 10] = [1, 2, 0, 1, 1, 0, 2, 0, 0, 0];

#[test]
fn a_preempted_task_counts_on_and_being_resumed_is_no_readiness() {
    assert_misses(&with_deadlines(&BELOW, &[2, 0]), &[6, 1, 1, 6, 6], &[(2, 0)]);
    assert_misses(&with_deadlines(&BELOW, &[3, 0]), &[1, 1, 6, 2, 6, 6, 6, 6], &[(3, 0)]);
    // The one above ends late, the one below in time, and the other way round.
    assert_misses(&with_deadlines(&BELOW, &[3, 1]), &[1, 1, 6, 2, 6, 2, 6], &[(1, 1)]);
    assert_misses(&with_deadlines(&BELOW, &[1, 2]), &[1, 1, 6, 2, 6, 6], &[(1, 0)]);
}

/// Extended task 0 (priority 1) runs; ISR 1 (9).
const EXTENDED: [u8; 10] = [1, 2, 2, 1, 1, 1, 9, 0, 0, 0];

#[test]
fn waiting_is_no_end_and_being_resumed_is_no_readiness() {
    let config = with_deadlines(&EXTENDED, &[3, 0]);
    // It waits for bit 0, and nobody sets it.
    assert_misses(&config, &[10, 1, 6, 6, 6, 6], &[(3, 0)]);
    assert_misses(&config, &[6, 10, 1, 6, 6, 6], &[(3, 0)]);
    // The ISR sets it after the first Tick, and the task goes on.
    let resumed = [10, 1, 6, 7, 1, 11, 0, 1, 2];
    assert_misses(&config, &[&resumed[..], &[6, 6, 6, 6, 6]].concat(), &[(3, 0)]);
    assert_misses(&config, &[&resumed[..], &[6, 2, 6, 6]].concat(), &[]);
    // Resumed after its miss, it misses no second time.
    assert_misses(&config, &[10, 1, 6, 6, 6, 7, 1, 11, 0, 1, 2, 6, 6, 6, 6], &[(3, 0)]);
}

/// Task 0 (priority 1) runs; time-triggered bodies 1 and 2 at the offsets 0 and 2 of a table of period 10.
const TIMED: [u8; 19] = [1, 3, 0, 1, 1, 3, 2, 0, 3, 3, 0, 0, 1, 10, 2, 0, 1, 2, 2];

#[test]
fn a_time_triggered_task_becomes_ready_at_the_tick_in_which_it_begins() {
    let config = with_deadlines(&TIMED, &[0, 3, 2]);
    // They begin at the Ticks 1 and 3, and are due at 4 and 5.
    assert_misses(&config, &[8, 0, 1, 6, 6, 6, 6, 6], &[(4, 1), (5, 2)]);
    // Body 2 ends in time, above body 1, which does not.
    assert_misses(&config, &[8, 0, 1, 6, 6, 6, 6, 2, 6], &[(4, 1)]);
    // Both end in time.
    assert_misses(&config, &[8, 0, 1, 6, 6, 6, 2, 2, 6, 6, 6], &[]);
    // Their entries at the Ticks 11 and 13 are losses, and count nothing anew.
    assert_misses(&config, &[&[8, 0, 1][..], &[TICK; 30]].concat(), &[(4, 1), (5, 2)]);
}

/// Task 0 (priority 1) runs; task 1 (2) at offset 0 of a table of period 4.
const ENTRY: [u8; 14] = [1, 2, 0, 1, 1, 0, 2, 0, 0, 1, 4, 1, 0, 1];

/// That configuration with a deadline of task 1.
fn entry(deadline: u32) -> Vec<u8> {
    with_deadlines(&ENTRY, &[0, deadline])
}

#[test]
fn a_task_made_ready_at_one_tick_counts_from_the_next() {
    // The entry is due at the Ticks 1, 5, 9.
    assert_misses(&entry(1), &[8, 0, 1, 6, 6, 6], &[(2, 1)]);
    assert_misses(&entry(1), &[8, 0, 1, 6, 2, 6, 6, 6, 6, 6], &[(6, 1)]);
    // A due entry of a task that isn't suspended is a loss, and no readiness, at the Tick of its miss too.
    assert_misses(&entry(4), &[&[8, 0, 1][..], &[TICK; 20]].concat(), &[(5, 1)]);
    assert_misses(&entry(5), &[&[8, 0, 1][..], &[TICK; 20]].concat(), &[(6, 1)]);
    // Ended in the event before that Tick, which makes it ready again.
    assert_misses(&entry(4), &[&[8, 0, 1, 6, 6, 6, 6, 2][..], &[TICK; 8]].concat(), &[(9, 1)]);
}

#[test]
fn misses_stand_in_order_of_time_then_of_body() {
    // Two autostart tasks, the first below the second; and the other way round.
    for priorities in [[1, 2], [2, 1]] {
        let both = [1, 2, 0, priorities[0], 1, 0, priorities[1], 1, 0, 0];
        assert_misses(&with_deadlines(&both, &[2, 2]), &[6, 6, 6], &[(2, 0), (2, 1)]);
        assert_misses(&with_deadlines(&both, &[3, 1]), &[6, 6, 6], &[(1, 1), (3, 0)]);
        assert_misses(&with_deadlines(&both, &[1, 3]), &[6, 6, 6], &[(1, 0), (3, 1)]);
    }
}

#[test]
fn all_32_bodies_miss_at_one_tick() {
    let mut config = vec![1, 32];
    // Priorities that fall, rise and fall again.
    config.extend((0..32u8).flat_map(|body| [0, 1 + (body ^ 21), 1]));
    config.extend([0, 0]);
    let misses: Vec<(u16, u8)> = (0..32).map(|body| (5, body)).collect();
    assert_misses(&with_deadlines(&config, &[5; 32]), &[6; 9], &misses);
}

#[test]
fn a_tick_is_two_bytes_low_first() {
    assert_eq!(list(&[(300, 0), (8_192, 7)]), [44, 1, 0, 0, 32, 7]);
    assert_misses(&one(300), &[TICK; 301], &[(300, 0)]);
    assert_misses(&one(256), &[TICK; 301], &[(256, 0)]);
}

/// One task that misses at every Tick and then chains to itself, so often.
fn chained(times: usize) -> Vec<u8> {
    [TICK, 3, 0].repeat(times)
}

#[test]
fn the_first_64_misses_are_listed_and_all_are_counted() {
    let first: Vec<(u16, u8)> = (1..=64).map(|tick| (tick, 0)).collect();
    assert_counted(&one(1), &chained(63), 63, &first[..63]);
    assert_counted(&one(1), &chained(64), 64, &first);
    assert_counted(&one(1), &chained(65), 65, &first);
    assert_counted(&one(1), &chained(2_730), 2_730, &first);
}

#[test]
fn three_thousand_misses() {
    // Tasks 0 to 29, of two tables of 15 entries each and period 2; task 30 starts both. All are made ready at every odd Tick,
    // miss at the next one, and end then.
    let mut config = vec![1, 31];
    config.extend((0..30).flat_map(|task| [0, 2 + task, 0]));
    config.extend([0, 1, 1, 0, 2]);
    for table in 0..2 {
        config.extend([2, 15]);
        config.extend((0..15).flat_map(|entry| [0, 15 * table + entry]));
    }
    let mut deadlines = [1; 31];
    deadlines[30] = 0;
    let round = [&[TICK, TICK][..], &[FINISH; 30]].concat();
    let trace = [&[8, 0, 1, 8, 1, 1][..], &round.repeat(100)].concat();
    let first: Vec<(u16, u8)> =
        [2, 4].iter().flat_map(|tick| (0..30).map(|task| (*tick, task))).chain((0..4).map(|task| (6, task))).collect();
    assert_counted(&with_deadlines(&config, &deadlines), &trace, 3_000, &first);
}

/// Source document 000, Table 4.5: a round of length 1,000 with TTTask1 (body 1) at the offsets 100 and 600, deadlines at 450 and
/// 950, and TTTask2 (body 2) at 200, deadline at 350: 350 and 150 ticks after their dispatch. Body 0 starts the round; offset o of
/// the first round is Tick 1 + o.
fn round() -> Vec<u8> {
    let config = [1, 3, 0, 1, 1, 3, 2, 0, 3, 3, 0, 0, 1, 0xe8, 7, 3, 100, 1, 0xc8, 1, 2, 0xd8, 4, 1];
    with_deadlines(&config, &[0, 350, 150])
}

/// The round is started, and somebody ends after each of these Ticks; then on to the last.
fn ends_after(ticks: &[usize], last: usize) -> Vec<u8> {
    let mut trace = vec![8, 0, 1];
    let mut now = 0;
    for end in ticks {
        trace.extend(vec![TICK; end - now]);
        trace.push(FINISH);
        now = *end;
    }
    trace.extend(vec![TICK; last - now]);
    trace
}

#[test]
fn table_4_5_with_ends_before_its_deadlines() {
    // Figure 4.8: TTTask2 preempts TTTask1 and ends at 300, TTTask1 at 400, and at 700 again; three rounds.
    let figure = [301, 401, 701, 1_301, 1_401, 1_701, 2_301, 2_401, 2_701];
    assert_misses(&round(), &ends_after(&figure, 3_100), &[]);
    // In the last event before each deadline.
    assert_misses(&round(), &ends_after(&[350, 450, 950, 1_350, 1_450, 1_950], 2_000), &[]);
}

#[test]
fn table_4_5_with_ends_after_its_deadlines() {
    // In the first event after each deadline: at 350, 450 and 950 of each round.
    let late = ends_after(&[351, 451, 951, 1_351, 1_451, 1_951], 2_000);
    assert_misses(&round(), &late, &[(351, 2), (451, 1), (951, 1), (1_351, 2), (1_451, 1), (1_951, 1)]);
    // TTTask2 ends in time, and TTTask1 below it does not.
    assert_misses(&round(), &ends_after(&[350, 451, 950], 1_000), &[(451, 1)]);
}

#[test]
fn table_4_5_without_an_end() {
    // Both go on for ever: what is due later is lost, and no deadline counts for it.
    assert_misses(&round(), &ends_after(&[], 4_000), &[(351, 2), (451, 1)]);
    // TTTask2 ends in every round, in time; TTTask1 below it never does.
    assert_misses(&round(), &ends_after(&[250, 1_250, 2_250], 3_000), &[(451, 1)]);
}

#[test]
fn the_runs_refusals_come_first_without_its_30() {
    let config = one(1);
    // The configuration's, whatever the trace; then the trace's; a list of no bytes is no hindrance to either.
    for trace in [&[][..], &[0], &[6; TRACE_MAX + 1]] {
        assert_refused(&[], trace, 0, 1, 0);
        assert_refused(&[3, 1, 0, 1, 1, 0x80, 0], trace, 0, 2, 6);
        assert_refused(&[4, 1, 0, 1, 1, 0, 0, 0], trace, 0, 3, 0);
        assert_refused(&[3, 0], trace, 0, 4, 1);
        assert_refused(&[3, 1, 1, 1, 0, 1, 0, 0], trace, 0, 5, 5);
        assert_refused(&[3, 2, 0, 1, 1, 0, 0, 1], trace, 0, 6, 7);
        assert_refused(&[&config[..], &[0]].concat(), trace, 0, 9, config.len() as u64);
        assert_refused(&[0; 4_097], trace, 0, 10, 0);
    }
    for list_len in [0, 3, 200] {
        assert_refused(&config, &[6; TRACE_MAX + 1], list_len, 20, 0);
        assert_refused(&config, &[6, 1], list_len, 21, 2);
        assert_refused(&config, &[6, 1, 0x80, 0], list_len, 22, 3);
        assert_refused(&config, &[6, 13], list_len, 23, 1);
    }
    // The answers of a run need room, and the misses none: there are none.
    assert_counted(&one(0), &[TICK; TRACE_MAX], 0, &[]);
}

#[test]
fn a_list_too_short_is_30_with_the_bytes_needed() {
    for list_len in 0..3 {
        assert_refused(&one(1), &[6, 6], list_len, 30, 3);
    }
    for list_len in [0, 3, 5] {
        assert_refused(&one(1), &chained(2), list_len, 30, 6);
    }
    // Beyond 64 misses it needs no more.
    for times in [64, 65, 2_730] {
        for list_len in [0, 189, 191] {
            assert_refused(&one(1), &chained(times), list_len, 30, 192);
        }
    }
}

/// How often a miss, or an end in time, was seen in which situation.
type Seen = BTreeMap<&'static str, u64>;

const SITUATIONS: [&str; 8] = [
    "misses, running",
    "misses, preempted",
    "misses, ready and never begun",
    "misses, waiting",
    "misses, time-triggered",
    "several miss at one tick",
    "ends in the event before its due tick",
    "ends in the event after it",
];

/// What a body is that misses now.
fn situation(config: &Config, kernel: &Kernel<NextDue>, body: u32) -> &'static str {
    match () {
        () if config.is_timed(body) => SITUATIONS[4],
        () if kernel.runner() == Some(body) => SITUATIONS[0],
        () if kernel.is_waiting(body) => SITUATIONS[3],
        () if kernel.is_requested(body) => SITUATIONS[2],
        () => SITUATIONS[1],
    }
}

/// Who misses at a Tick after these events.
fn due_next(kernel: &Kernel<NextDue>, deadlines: &Deadlines) -> u32 {
    deadlines.clone().step(&mut kernel.clone(), Event::Tick).1
}

fn see(config: &Config, trace: &[u8], seen: &mut Seen) {
    let mut kernel = Kernel::<NextDue>::fresh(config);
    let mut deadlines = Deadlines::fresh(&kernel);
    let (mut at, mut missed_last) = (0, 0u32);
    while let Ok((event, next)) = fast::read_event(trace, at) {
        at = next;
        let (before, due) = (kernel.clone(), due_next(&kernel, &deadlines));
        let (answer, missed) = deadlines.step(&mut kernel, event);
        let ended = before.runner().filter(|_| event == Event::Finish && answer.status == 0);
        let mut add = |situation| *seen.entry(situation).or_default() += 1;
        (0..32).filter(|body| missed >> body & 1 == 1).for_each(|body| add(situation(config, &before, body)));
        if missed.count_ones() > 1 {
            add(SITUATIONS[5]);
        }
        if ended.is_some_and(|body| due >> body & 1 == 1) && trace.get(at) == Some(&TICK) {
            add(SITUATIONS[6]);
        }
        if ended.is_some_and(|body| missed_last >> body & 1 == 1) {
            add(SITUATIONS[7]);
        }
        missed_last = missed;
    }
}

/// A drawn case; of some that have deadlines the trace is long, so that more are missed than listed.
fn draw_case(random: &mut Random, seed: u64, number: u64) -> Case {
    let mut case = case(seed, number);
    if let Some(config) = fast::read_config(&case.config).ok().filter(|config| config.version() == 3) {
        if random.chance(15) {
            case.trace = draw_trace(random, &config, TRACE_MAX);
        }
    }
    with_list(case)
}

#[test]
fn drawn_cases_give_equal_misses() {
    report_faults();
    let seed = 40;
    let mut random = Random::new(seed);
    let mut memory = GuardedRun::default();
    let mut seen = Seen::new();
    // How often each refusal was given, and how many misses were counted.
    let (mut refusals, mut counts) = (BTreeMap::new(), BTreeMap::new());
    for number in 0..12_000 {
        announce(seed, number);
        let case = draw_case(&mut random, seed, number);
        let (result, list) = check_misses(&case, &mut memory).unwrap_or_else(|why| panic!("case {number}: {why}"));
        if result >> 32 != 0 {
            assert_eq!(list, case.prefilled(), "case {number} is refused and writes");
            *refusals.entry((result >> 32) as u32).or_insert(0) += 1;
            continue;
        }
        *counts.entry(result.min(65)).or_insert(0) += 1;
        let config = fast::read_config(&case.config).expect("the configuration is accepted");
        assert!(config.version() == 3 || result == 0, "case {number} has no deadlines");
        see(&config, &case.trace, &mut seen);
    }
    println!("refusals {refusals:?}, misses {counts:?}, {seen:?}");
    for refusal in REFUSALS {
        assert!(refusals.contains_key(&refusal), "no case was refused with {refusal}: {refusals:?}");
    }
    for situation in SITUATIONS {
        assert!(seen.get(situation).is_some_and(|times| *times >= 20), "{situation}: {seen:?}");
    }
    let more_than_listed = counts.get(&65).copied().unwrap_or(0);
    assert!(more_than_listed >= 50, "only {more_than_listed} cases with more than 64 misses");
}
