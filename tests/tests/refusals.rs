//! Every refusal at every kind of number, with its place, worked by hand and shown by every implementation.

use osek_tests::cases::Case;
use osek_tests::compare::{check, others};
use osek_tests::coverage::REFUSALS;
use osek_tests::guard::GuardedRun;
use osek_tests::listing::{DOCUMENT_CONFIG, DOCUMENT_TRACE};

/// Task 0 of priority 1 (autostart), ISR 1 of priority 2, task 2 of priority 200; one resource of all three; one table
/// of period 3 with entries (0, task 0), (0, task 2), (2, task 0). The places:
///
/// 0 version, 1 body count, 2 kind, 3 priority, 4 autostart, 5 kind, 6 priority, 7 autostart, 8 kind, 9 priority,
/// 11 autostart, 12 resource count, 13 users, 14 table count, 15 period, 16 entry count, 17 offset, 18 task,
/// 19 offset, 20 task, 21 offset, 22 task, 23 end
const CONFIG: [u8; 23] = [1, 3, 0, 1, 1, 1, 2, 0, 0, 200, 1, 0, 1, 7, 1, 3, 3, 0, 0, 0, 2, 2, 0];

/// The configuration with `bytes` in the place of the `length` bytes at `place`.
fn with(place: usize, length: usize, bytes: &[u8]) -> Vec<u8> {
    let mut config = CONFIG.to_vec();
    config.splice(place..place + length, bytes.iter().copied());
    config
}

#[track_caller]
fn result(config: &[u8], trace: &[u8], out_len: usize) -> (u64, u64) {
    let case = Case { config: config.to_vec(), trace: trace.to_vec(), out_len, fill: 3 };
    match check(&case, &others(), &mut GuardedRun::default()) {
        Ok((result, out)) => {
            assert!(result >> 32 == 0 || out == case.prefilled(), "a refused run wrote to the output");
            (result >> 32, result & 0xffff_ffff)
        }
        Err(difference) => panic!("{difference}"),
    }
}

#[track_caller]
fn assert_config(config: &[u8], code: u64, place: u64) {
    // Whatever is wrong with the trace and the output, the configuration's refusal comes first.
    for trace in [&[][..], &[0], &[6; 8193]] {
        assert_eq!(result(config, trace, 0), (code, place));
    }
}

#[track_caller]
fn assert_trace(trace: &[u8], code: u64, place: u64) {
    assert_eq!(result(&CONFIG, trace, 40_000), (code, place));
    assert_eq!(result(&CONFIG, trace, 0), (code, place), "an output too short comes after the trace");
}

#[test]
fn the_whole_configuration_is_accepted() {
    assert_eq!(result(&CONFIG, &[], 6), (0, 0));
}

#[test]
fn a_configuration_over_4_096_bytes_is_10() {
    assert_config(&[0x80; 4097], 10, 0);
    let mut long = CONFIG.to_vec();
    long.resize(4096, 0);
    assert_config(&long, 9, 23);
    long.push(0);
    assert_config(&long, 10, 0);
}

#[test]
fn a_configuration_that_ends_early_is_1_at_its_end() {
    // One of these cuts lies inside a number, the priority 200.
    for length in 0..CONFIG.len() {
        assert_config(&CONFIG[..length], 1, length as u64);
    }
}

#[test]
fn a_number_that_breaks_off_is_1_at_the_inputs_end() {
    // The version, the users, the last task.
    for place in [0, 13, 22] {
        for groups in 1..=4 {
            let mut config = CONFIG[..place].to_vec();
            config.extend(vec![0x80; groups]);
            assert_config(&config, 1, (place + groups) as u64);
        }
    }
}

/// Numbers that are too large or not in their shortest form, and the offset of the byte that decides it.
const BAD_NUMBERS: [(&[u8], usize); 9] = [
    (&[0x80, 0], 1),
    (&[0x81, 0], 1),
    (&[0x80, 0x80, 0], 2),
    (&[0x87, 0x80, 0], 2),
    (&[0x80, 0x80, 0x80, 0x80, 0], 4),
    (&[0x80, 0x80, 0x80, 0x80, 0x80], 4),
    (&[0xff, 0xff, 0xff, 0xff, 0x10], 4),
    (&[0xff, 0xff, 0xff, 0xff, 0x8f], 4),
    (&[0x81, 0x80, 0x80, 0x80, 0x7f], 4),
];

#[test]
fn a_number_too_large_or_not_shortest_is_2_at_the_byte_that_decides() {
    let numbers = [0, 1, 2, 3, 4, 5, 6, 7, 8, 9, 11, 12, 13, 14, 15, 16, 17, 18, 19, 20, 21, 22];
    for place in numbers {
        let length = if place == 9 { 2 } else { 1 };
        for (bytes, decides) in BAD_NUMBERS {
            let config = with(place, length, bytes);
            assert_config(&config, 2, (place + decides) as u64);
            // Nothing after that byte matters, and without it the number breaks off there.
            let (before, after) = config.split_at(place + decides);
            assert_config(&[before, &after[..1], &[0xff]].concat(), 2, (place + decides) as u64);
            assert_config(before, 1, (place + decides) as u64);
        }
    }
}

#[test]
fn a_version_other_than_1_to_3_is_3() {
    assert_eq!(result(&with(0, 1, &[2]), &[], 6), (0, 0));
    for version in [&[0][..], &[4], &[5], &[0x81, 1], &[0x82, 1], &[0x83, 1], &[0xff, 0xff, 0xff, 0xff, 0x0f]] {
        assert_config(&with(0, 1, version), 3, 0);
    }
}

/// Version 3: task 0 of priority 1 (autostart) with the deadline 300, ISR 1 of priority 2, extended task 2 of priority 3 with the
/// deadline 65,535, time-triggered body 3 of priority 4 with the deadline 1. The places:
///
/// 0 version, 1 body count, 2 kind, 3 priority, 4 autostart, 5 deadline, 7 to 9 the same, 10 deadline, 11 to 13 the same,
/// 14 deadline, 17 to 19 the same, 20 deadline, 21 resource count, 22 table count, 23 end
const DEADLINES: [u8; 23] = [3, 4, 0, 1, 1, 0xac, 2, 1, 2, 0, 0, 2, 3, 0, 0xff, 0xff, 3, 3, 4, 0, 1, 0, 0];

/// That configuration with `bytes` in the place of the `length` bytes at `place`.
fn deadlines_with(place: usize, length: usize, bytes: &[u8]) -> Vec<u8> {
    [&DEADLINES[..place], bytes, &DEADLINES[place + length..]].concat()
}

/// The deadlines of the three tasks: where they stand, and their lengths.
const OF_TASKS: [(usize, usize); 3] = [(5, 2), (14, 3), (20, 1)];

#[test]
fn a_task_of_any_kind_has_a_deadline_of_0_to_65_535() {
    for (place, length) in OF_TASKS {
        for deadline in [&[0][..], &[1], &[0x80, 1], &[0xff, 0xff, 3]] {
            assert_eq!(result(&deadlines_with(place, length, deadline), &[], 8), (0, 0));
        }
        for deadline in [&[0x80, 0x80, 4][..], &[0x81, 0x80, 4], &[0xff, 0xff, 0xff, 0xff, 0x0f]] {
            assert_config(&deadlines_with(place, length, deadline), 5, place as u64);
        }
    }
}

#[test]
fn a_deadline_of_an_isr_is_5() {
    for deadline in [&[1][..], &[0xac, 2], &[0xff, 0xff, 3], &[0x80, 0x80, 4]] {
        assert_config(&deadlines_with(10, 1, deadline), 5, 10);
    }
}

#[test]
fn a_deadline_that_can_not_be_read_is_1_or_2() {
    for (place, length) in [(5, 2), (10, 1), (14, 3), (20, 1)] {
        for groups in 0..=4 {
            let cut = [&DEADLINES[..place], &vec![0x80; groups]].concat();
            assert_config(&cut, 1, (place + groups) as u64);
        }
        for (bytes, decides) in BAD_NUMBERS {
            assert_config(&deadlines_with(place, length, bytes), 2, (place + decides) as u64);
        }
    }
}

#[test]
fn a_deadline_is_read_after_the_autostart_and_before_the_next_body() {
    // A priority used twice and an autostart out of range come before a deadline that can't be.
    assert_config(&deadlines_with(8, 3, &[1, 0, 9]), 6, 8);
    assert_config(&deadlines_with(9, 2, &[1, 9]), 5, 9);
    assert_config(&deadlines_with(9, 3, &[0, 9, 7]), 5, 10);
}

#[test]
fn versions_1_and_2_have_no_deadlines() {
    // What is a deadline in version 3 is the kind of the next body there.
    for version in [1, 2] {
        assert_config(&deadlines_with(0, 1, &[version]), 5, 5);
        assert_eq!(result(&[version, 1, 0, 1, 1, 0, 0], &[], 2), (0, 0));
        assert_config(&[version, 1, 0, 1, 1, 0, 0, 0], 9, 7);
    }
    assert_config(&[3, 1, 0, 1, 1, 0, 0], 1, 7);
    assert_eq!(result(&[3, 1, 0, 1, 1, 0, 0, 0], &[], 2), (0, 0));
}

#[test]
fn a_count_out_of_range_is_4() {
    for (place, bytes) in [(1, &[0][..]), (1, &[33]), (12, &[17]), (14, &[9]), (16, &[0]), (16, &[17])] {
        assert_config(&with(place, 1, bytes), 4, place as u64);
        assert_config(&with(place, 1, &[0xff, 0xff, 0xff, 0xff, 0x0f]), 4, place as u64);
    }
}

#[test]
fn a_field_out_of_range_is_5() {
    let fields: [(usize, usize, &[u8]); 18] = [
        (2, 1, &[4]),
        (3, 1, &[0]),
        (3, 1, &[0xc9, 1]),
        (4, 1, &[2]),
        (7, 1, &[1]),
        (7, 1, &[2]),
        (13, 1, &[0]),
        (13, 1, &[8]),
        (13, 1, &[0x81, 0x80, 0x80, 0x80, 0x08]),
        (15, 1, &[0]),
        (15, 1, &[0x80, 0x80, 4]),
        (17, 1, &[3]),
        (18, 1, &[1]),
        (18, 1, &[3]),
        (18, 1, &[32]),
        (20, 1, &[1]),
        (22, 1, &[0xff, 0xff, 0xff, 0xff, 0x0f]),
        (21, 1, &[0x82, 0x80, 4]),
    ];
    for (place, length, bytes) in fields {
        assert_config(&with(place, length, bytes), 5, place as u64);
    }
}

#[test]
fn an_extended_task_is_a_task_to_autostart_and_entries() {
    assert_eq!(result(&with(2, 1, &[2]), &[], 6), (0, 0));
    assert_eq!(result(&with(8, 1, &[2]), &[], 6), (0, 0));
    // An autostart of 2 is none.
    assert_config(&with(2, 3, &[2, 1, 2]), 5, 4);
}

/// Task 0 of priority 1 (autostart), time-triggered bodies 1 and 2 of priorities 2 and 3, task 3 of priority 4; one resource of the
/// tasks; two tables of period 5, the first with entries (0, task 0), (0, task 3), the second with (0, body 1), (1, body 2). The places:
///
/// 0 version, 1 body count, 2 kind, 3 priority, 4 autostart, 5 to 7, 8 to 10 and 11 to 13 the same, 14 resource count, 15 users,
/// 16 table count, 17 period, 18 entry count, 19 offset, 20 task, 21 offset, 22 task, 23 period, 24 entry count, 25 offset, 26 task,
/// 27 offset, 28 task, 29 end
const TIMED: [u8; 29] = [1, 4, 0, 1, 1, 3, 2, 0, 3, 3, 0, 0, 4, 0, 1, 9, 2, 5, 2, 0, 0, 0, 3, 5, 2, 0, 1, 1, 2];

/// That configuration with `bytes` in the place of all from `place` on.
fn timed(place: usize, bytes: &[u8]) -> Vec<u8> {
    [&TIMED[..place], bytes].concat()
}

/// That configuration with one number of one byte changed.
fn timed_with(place: usize, value: u8) -> Vec<u8> {
    [&TIMED[..place], &[value], &TIMED[place + 1..]].concat()
}

#[test]
fn a_table_of_time_triggered_bodies_is_accepted() {
    let accepted = |config: &[u8]| assert_eq!(result(config, &[], 8), (0, 0));
    accepted(&TIMED);
    // In either order of the tables; a body several times; neighbours of one offset in tables of their own.
    accepted(&timed(17, &[5, 2, 0, 1, 1, 2, 5, 2, 0, 0, 0, 3]));
    accepted(&timed(23, &[5, 2, 0, 1, 1, 1]));
    accepted(&timed(23, &[5, 3, 0, 2, 1, 1, 2, 2]));
    // Without a table of theirs, and without any.
    accepted(&timed(16, &[1, 5, 1, 0, 0]));
    accepted(&timed(16, &[0]));
}

#[test]
fn the_fields_of_a_time_triggered_body_are_5_or_6() {
    // Its autostart.
    assert_config(&timed_with(7, 1), 5, 7);
    assert_config(&timed_with(7, 2), 5, 7);
    assert_config(&timed_with(10, 1), 5, 10);
    // Its bit in a mask, alone or with others.
    for mask in [0b0010, 0b0100, 0b0011, 0b1101, 0b1111] {
        assert_config(&timed_with(15, mask), 5, 15);
    }
    // Its priority number, out of range or used already; that of a later body.
    assert_config(&timed_with(6, 0), 5, 6);
    assert_config(&timed(6, &[0xc9, 1]), 5, 6);
    assert_config(&timed_with(6, 1), 6, 6);
    assert_config(&timed_with(9, 2), 6, 9);
    assert_config(&timed_with(12, 3), 6, 12);
    // The next kind.
    assert_config(&timed_with(5, 4), 5, 5);
}

#[test]
fn an_offset_shared_with_a_time_triggered_body_is_13_at_its_task() {
    // Both are time-triggered; the second is; the first is.
    assert_config(&timed_with(27, 0), 13, 28);
    assert_config(&timed_with(22, 1), 13, 22);
    assert_config(&timed(25, &[0, 1, 0, 3]), 13, 28);
    // The third is, after two tasks that share it; the last two of three such bodies share it.
    assert_config(&timed(8, &[0, 3, 0, 3, 4, 0, 0, 1, 5, 3, 1, 0, 1, 2, 1, 3]), 13, 23);
    assert_config(&timed(24, &[3, 0, 1, 4, 1, 4, 2]), 13, 30);
}

#[test]
fn a_mixed_or_second_table_of_time_triggered_bodies_is_14_at_the_task() {
    // A task before one; one before a task; one at the third entry.
    assert_config(&timed(21, &[1, 1, 0]), 14, 22);
    assert_config(&timed_with(28, 3), 14, 28);
    assert_config(&timed_with(28, 0), 14, 28);
    assert_config(&timed(24, &[3, 0, 1, 1, 2, 4, 0]), 14, 30);
    assert_config(&timed(24, &[3, 0, 0, 0, 3, 4, 2]), 14, 30);
    // A second table, next to the first or not, of the same body or another; it is seen before its second entry is read.
    assert_config(&timed(17, &[5, 1, 0, 1, 5, 1, 0, 1]), 14, 24);
    assert_config(&timed(17, &[5, 1, 0, 1, 5, 2, 3, 2]), 14, 24);
    assert_config(&timed(16, &[3, 5, 1, 0, 2, 5, 1, 0, 0, 5, 1, 0, 1]), 14, 28);
    // A second table that is mixed.
    assert_config(&timed(17, &[5, 1, 0, 1, 5, 2, 0, 3, 4, 2]), 14, 26);
}

#[test]
fn at_an_entrys_task_5_comes_before_7_before_13_before_14() {
    // Unreadable, then no such body.
    assert_config(&timed(27, &[0, 0x80, 0]), 2, 29);
    assert_config(&timed(27, &[0, 4]), 5, 28);
    // Not after the one before: twice the same, the body falls, the offset falls; shared or mixed it is besides.
    assert_config(&timed(27, &[0, 1]), 7, 28);
    assert_config(&timed(25, &[0, 2, 0, 1]), 7, 28);
    assert_config(&timed(25, &[1, 2, 0, 3]), 7, 28);
    assert_config(&timed(25, &[1, 2, 1, 0]), 7, 28);
    // In a second table: not after, and shared, each before 14.
    assert_config(&timed(17, &[5, 1, 0, 1, 5, 2, 0, 3, 0, 2]), 7, 26);
    assert_config(&timed(17, &[5, 1, 0, 1, 5, 2, 0, 0, 0, 2]), 13, 26);
    // A shared offset in a mixed table.
    assert_config(&timed(21, &[0, 2]), 13, 22);
}

#[test]
fn a_priority_already_used_is_6_before_the_autostart_is_read() {
    assert_config(&with(6, 1, &[1]), 6, 6);
    assert_config(&with(9, 2, &[2]), 6, 9);
    assert_config(&with(9, 3, &[2, 9]), 6, 9);
    assert_config(&with(9, 14, &[1]), 6, 9);
}

#[test]
fn an_entry_not_after_the_one_before_is_7_at_its_task() {
    // Twice the same; the task falls; the offset falls.
    assert_config(&with(20, 1, &[0]), 7, 20);
    assert_config(&with(18, 1, &[2]), 7, 20);
    assert_config(&with(17, 6, &[1, 0, 0, 2, 2, 0]), 7, 20);
    // The offset falls, but the task is an ISR or missing: 5 comes first.
    assert_config(&with(17, 6, &[1, 0, 0, 1, 2, 0]), 5, 20);
    assert_config(&with(17, 6, &[1, 0, 0]), 1, 20);
}

#[test]
fn entries_of_another_table_need_not_rise() {
    let mut config = with(14, 1, &[2]);
    config.extend([3, 1, 0, 0]);
    assert_eq!(result(&config, &[], 6), (0, 0));
}

/// One task; tables of period 16 with these many entries.
fn tables(counts: &[u8]) -> Vec<u8> {
    let mut config = vec![1, 1, 0, 1, 1, 0, counts.len() as u8];
    for count in counts {
        config.extend([16, *count]);
        for offset in 0..*count {
            config.extend([offset, 0]);
        }
    }
    config
}

#[test]
fn more_than_64_entries_are_8_at_the_count() {
    assert_eq!(result(&tables(&[16, 16, 16, 16]), &[], 2), (0, 0));
    assert_eq!(result(&tables(&[8; 8]), &[], 2), (0, 0));
    // 7 bytes before, 34 a table, then the period.
    assert_config(&tables(&[16, 16, 16, 16, 1]), 8, 7 + 4 * 34 + 1);
    assert_config(&tables(&[16, 16, 16, 15, 2]), 8, 7 + 3 * 34 + 32 + 1);
    // 17 is out of range before it is too many; the total is tested before the entries.
    assert_config(&tables(&[16, 16, 16, 16, 17]), 4, 7 + 4 * 34 + 1);
    let mut cut = tables(&[16, 16, 16, 16]);
    cut[6] = 5;
    cut.extend([16, 1]);
    assert_config(&cut, 8, 7 + 4 * 34 + 1);
}

#[test]
fn bytes_left_over_are_9_at_the_first() {
    let mut config = CONFIG.to_vec();
    config.push(0);
    assert_config(&config, 9, 23);
    config.extend([0x80; 5]);
    assert_config(&config, 9, 23);
}

#[test]
fn a_mask_of_32_bodies_may_have_every_bit() {
    let mut config = vec![1, 32];
    for body in 0..32 {
        config.extend([0, body + 1, 0]);
    }
    config.extend([2, 0xff, 0xff, 0xff, 0xff, 0x0f, 0x80, 0x80, 0x80, 0x80, 0x08, 0]);
    assert_eq!(result(&config, &[], 64), (0, 0));
}

#[test]
fn the_largest_values_are_accepted() {
    // Priority 200, period 65,535, an entry at 65,534.
    let config = [1, 1, 0, 0xc8, 1, 1, 0, 1, 0xff, 0xff, 3, 1, 0xfe, 0xff, 3, 0];
    assert_eq!(result(&config, &[], 2), (0, 0));
}

#[test]
fn a_trace_over_8_192_bytes_is_20() {
    assert_trace(&[6; 8193], 20, 0);
    assert_trace(&[0; 8193], 20, 0);
    assert_eq!(result(&CONFIG, &[6; 8192], 4 * 8192 + 6), (0, 8192));
}

/// What stands before a number of a trace: the first code, a later one, a first and a second argument.
const BEFORE_NUMBERS: [&[u8]; 10] =
    [&[], &[6, 1, 0], &[1], &[6, 8], &[8, 0], &[6, 8, 0x80, 1], &[10], &[6, 11], &[11, 0x80, 1], &[12]];

#[test]
fn a_trace_that_ends_early_is_21_at_its_end() {
    for code in [1, 3, 4, 5, 7, 8, 9, 10, 11, 12] {
        assert_trace(&[6, code], 21, 2);
    }
    assert_trace(&[11, 0], 21, 2);
    assert_trace(&[8, 0], 21, 2);
    assert_trace(&[8, 0x80, 1], 21, 3);
    for before in BEFORE_NUMBERS {
        for groups in 1..=4 {
            assert_trace(&[before, &vec![0x86; groups]].concat(), 21, (before.len() + groups) as u64);
        }
    }
}

#[test]
fn a_bad_number_in_the_trace_is_22_at_the_byte_that_decides() {
    for before in BEFORE_NUMBERS {
        for (bytes, decides) in BAD_NUMBERS {
            assert_trace(&[before, bytes].concat(), 22, (before.len() + decides) as u64);
            assert_trace(&[before, bytes, &[6, 0xff]].concat(), 22, (before.len() + decides) as u64);
        }
    }
}

#[test]
fn an_unknown_event_code_is_23_before_its_arguments() {
    for code in [&[0][..], &[13], &[14], &[0x7f], &[0x81, 1], &[0x8a, 1], &[0xff, 0xff, 0xff, 0xff, 0x0f]] {
        let mut trace = vec![6, 1, 0];
        trace.extend(code);
        assert_trace(&trace, 23, 3);
        trace.extend([0x80, 0]);
        assert_trace(&trace, 23, 3);
    }
}

#[test]
fn an_output_too_short_is_30_at_the_bytes_needed() {
    let needed = 4 * 17 + 2 * 3;
    for out_len in [0, 1, needed as usize - 1] {
        assert_eq!(result(&DOCUMENT_CONFIG, &DOCUMENT_TRACE, out_len), (30, needed));
    }
    assert_eq!(result(&DOCUMENT_CONFIG, &DOCUMENT_TRACE, needed as usize), (0, 17));
    assert_eq!(result(&CONFIG, &[], 5), (30, 6));
    assert_eq!(result(&CONFIG, &[6; 8192], 4 * 8192 + 5), (30, 4 * 8192 + 6));
}

#[test]
fn an_empty_configuration_is_1_at_0() {
    assert_config(&[], 1, 0);
}

#[test]
fn the_run_has_seventeen_refusals() {
    assert_eq!(REFUSALS.len(), 17);
}
