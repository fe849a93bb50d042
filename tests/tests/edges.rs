//! Document 01's listing and edges, worked by hand, shown by every implementation. P6 and P11 lie beyond a run's length and
//! stand with the cells in src/fast.rs.

use osek_tests::by_hand::{assert_refused, assert_rows, number, shown, with_deadlines, Script};
use osek_tests::cases::push_number;
use osek_tests::listing::{DOCUMENT_CONFIG, DOCUMENT_LISTING, DOCUMENT_TRACE};

/// One autostart task of priority 1.
const ONE_TASK: [u8; 7] = [1, 1, 0, 1, 1, 0, 0];

#[test]
fn document_listing_is_reproduced() {
    assert_eq!(shown(&DOCUMENT_CONFIG, &DOCUMENT_TRACE), DOCUMENT_LISTING);
}

#[test]
fn empty_trace_is_accepted_with_no_events() {
    assert_rows(&ONE_TASK, &[], "");
}

#[test]
fn edge_p1_127_takes_one_byte_and_128_two() {
    assert_rows(&ONE_TASK, &[1, 0x7f, 1, 0x80, 0x01], "0 1 3 0 1 0\n1 1 3 0 1 0");
}

#[test]
fn edge_p2_two_bytes_for_zero_are_refused() {
    assert_refused(&[0x80, 0x00], &[], 2, 1);
    assert_refused(&ONE_TASK, &[1, 0x80, 0x00], 22, 2);
}

#[test]
fn edge_p3_the_largest_number_ends_in_0f() {
    assert_rows(&ONE_TASK, &[1, 0xff, 0xff, 0xff, 0xff, 0x0f], "0 1 3 0 1 0");
    assert_refused(&ONE_TASK, &[1, 0xff, 0xff, 0xff, 0xff, 0x10], 22, 5);
    assert_refused(&[0xff, 0xff, 0xff, 0xff, 0x0f], &[], 3, 0);
    assert_refused(&[0xff, 0xff, 0xff, 0xff, 0x10], &[], 2, 4);
}

/// Task 0 (priority 1) runs; table 0 of period 1 and table 1 of period 4 have one entry each for task 1 (priority 2).
const TWO_TABLES: [u8; 18] = [1, 2, 0, 1, 1, 0, 2, 0, 0, 2, 1, 1, 0, 1, 4, 1, 0, 1];

#[test]
fn edge_p4_period_1_is_due_at_each_tick() {
    assert_rows(
        &TWO_TABLES,
        &[8, 0, 1, 6, 2, 6, 6, 2, 6],
        "0 8 0 0 1 0
         1 6 0 1 2 1
         2 2 0 0 1 0
         3 6 0 1 2 1
         4 6 0 1 2 0
         5 2 0 0 1 0
         6 6 0 1 2 1
         lost 1 1",
    );
}

#[test]
fn edge_p5_period_4_delay_3_is_due_at_3_and_7() {
    assert_rows(
        &TWO_TABLES,
        &[8, 1, 3, 6, 6, 6, 2, 6, 6, 6, 6, 6],
        "0 8 0 0 1 0
         1 6 0 0 1 0
         2 6 0 0 1 0
         3 6 0 1 2 1
         4 2 0 0 1 0
         5 6 0 0 1 0
         6 6 0 0 1 0
         7 6 0 0 1 0
         8 6 0 1 2 1
         9 6 0 1 2 0",
    );
}

#[test]
fn edge_p7_delay_and_smallest_offset_reach_65_535_together() {
    // Period 4, entries at offsets 2 and 3.
    let config = [1, 1, 0, 1, 1, 0, 1, 4, 2, 2, 0, 3, 0];
    // 65,533 is FD FF 03, 65,534 is FE FF 03.
    assert_rows(
        &config,
        &[8, 0, 0xfe, 0xff, 0x03, 8, 0, 0, 8, 0, 0xfd, 0xff, 0x03, 8, 0, 0, 8, 0, 1],
        "0 8 8 0 1 0
         1 8 8 0 1 0
         2 8 0 0 1 0
         3 8 8 0 1 0
         4 8 7 0 1 0",
    );
}

/// Task 0 of priority 1 runs; a table of this period activates it at offset 0 and task 1 of priority 2 at `offset`.
fn late_entry(period: u32, offset: u32) -> Vec<u8> {
    let mut config = vec![1, 2, 0, 1, 1, 0, 2, 0, 0, 1];
    push_number(&mut config, period);
    config.extend([2, 0, 0]);
    push_number(&mut config, offset);
    config.push(1);
    config
}

#[test]
fn the_makers_long_start_is_accepted() {
    // 30,000 is B0 EA 01.
    assert_rows(&late_entry(60_000, 50_000), &[8, 0, 0xb0, 0xea, 0x01, 6], "0 8 0 0 1 0\n1 6 0 0 1 0");
}

#[test]
fn a_first_delay_beyond_a_turn_does_not_match_a_turn_early() {
    const DELAY: u32 = 30_000;
    for first_delay in [65_535, 65_536, 65_537, 70_000, 73_000] {
        let mut trace = vec![8, 0];
        push_number(&mut trace, DELAY);
        trace.resize(8_192, 6);
        // No entry is due so soon: task 0 goes on, and nothing is lost.
        let ticks: String = (1..trace.len() - 4).map(|step| format!("\n{step} 6 0 0 1 0")).collect();
        assert_rows(&late_entry(65_535, first_delay - DELAY), &trace, &format!("0 8 0 0 1 0{ticks}"));
    }
}

#[test]
fn a_restart_has_no_turn_of_the_start_before_to_pass() {
    // Delay 65,535 (FF FF 03) gives the entry at offset 2 a first delay of 65,537. Stopped and started with delay 1, it is due
    // at the third tick, and the entry at offset 0, whose task runs, is lost at the first.
    assert_rows(
        &late_entry(4, 2),
        &[8, 0, 0xff, 0xff, 0x03, 6, 6, 9, 0, 8, 0, 1, 6, 6, 6],
        "0 8 0 0 1 0
         1 6 0 0 1 0
         2 6 0 0 1 0
         3 9 0 0 1 0
         4 8 0 0 1 0
         5 6 0 0 1 0
         6 6 0 0 1 0
         7 6 0 1 2 1
         lost 0 1",
    );
}

#[test]
fn edge_p8_a_task_at_the_ceiling_does_not_begin() {
    // Task 0 (priority 1) shares a resource with task 1 (priority 2) and activates it while it holds the resource.
    let config = [1, 2, 0, 1, 1, 0, 2, 0, 1, 3, 0];
    assert_rows(&config, &[4, 0, 1, 1, 5, 0], "0 4 0 0 2 0\n1 1 0 0 2 0\n2 5 0 1 2 1");
}

#[test]
fn edge_p9_a_task_that_chains_itself_begins_again() {
    assert_rows(&ONE_TASK, &[3, 0, 3, 0], "0 3 0 0 1 1\n1 3 0 0 1 1");
}

#[test]
fn edge_p10_two_tables_due_at_once_lose_one_activation() {
    assert_rows(
        &TWO_TABLES,
        &[8, 0, 2, 8, 1, 2, 6, 6],
        "0 8 0 0 1 0
         1 8 0 0 1 0
         2 6 0 0 1 0
         3 6 0 1 2 1
         lost 1 1",
    );
}

/// ISR 0 of priority 5, ISR 1 of priority 9, task 2 of priority 1, not started; a resource of ISRs 0 and 1.
const TWO_ISRS: [u8; 14] = [1, 3, 1, 5, 0, 1, 9, 0, 0, 1, 0, 1, 3, 0];

#[test]
fn edge_p12_a_started_isr_takes_one_more_request() {
    assert_rows(
        &TWO_ISRS,
        &[7, 0, 7, 0, 7, 0, 2, 2, 2],
        "0 7 0 0 5 1
         1 7 0 0 5 0
         2 7 4 0 5 0
         3 2 0 0 5 1
         4 2 0 - 0 0
         5 2 2 - 0 0",
    );
}

/// A configuration with another version, without deadlines.
fn of_version(version: u8, config: &[u8]) -> Vec<u8> {
    if version == 3 {
        return with_deadlines(config, &vec![0; config[1].into()]);
    }
    let mut config = config.to_vec();
    config[0] = version;
    config
}

#[test]
fn a_line_lost_on_a_started_isr_counts_in_versions_2_and_3() {
    let rows = "0 7 0 0 5 1
                1 7 0 0 5 0
                2 7 4 0 5 0
                3 7 4 0 5 0
                4 2 0 0 5 1
                5 7 0 0 5 0
                6 7 4 0 5 0";
    let trace = [7, 0, 7, 0, 7, 0, 7, 0, 2, 7, 0, 7, 0];
    assert_rows(&of_version(1, &TWO_ISRS), &trace, rows);
    for version in [2, 3] {
        assert_rows(&of_version(version, &TWO_ISRS), &trace, &format!("{rows}\nlost 0 3"));
    }
}

#[test]
fn a_line_lost_on_a_ready_isr_counts_in_versions_2_and_3() {
    // ISR 0 runs at the ceiling 9, so that ISR 1 waits to begin.
    let rows = "0 7 0 0 5 1
                1 4 0 0 9 0
                2 7 0 0 9 0
                3 7 4 0 9 0
                4 7 4 0 9 0
                5 5 0 1 9 1
                6 7 0 1 9 0";
    let trace = [7, 0, 4, 0, 7, 1, 7, 1, 7, 1, 5, 0, 7, 1];
    assert_rows(&of_version(1, &TWO_ISRS), &trace, rows);
    for version in [2, 3] {
        assert_rows(&of_version(version, &TWO_ISRS), &trace, &format!("{rows}\nlost 1 2"));
    }
}

#[test]
fn no_other_refusal_is_a_loss_in_versions_2_and_3() {
    // Task 0 (4, runs), task 1 (1), ISR 2 (9). A Line to a task or to nobody is 3; a refused Activate or Chain is no loss.
    let config = [2, 3, 0, 4, 1, 0, 1, 0, 1, 9, 0, 0, 0];
    for version in [2, 3] {
        assert_rows(
            &of_version(version, &config),
            &[7, 0, 7, 1, 7, 3, 1, 0, 1, 1, 1, 1, 3, 1, 7, 2, 7, 2, 3, 1, 1, 1, 7, 2],
            "0 7 3 0 4 0
             1 7 3 0 4 0
             2 7 3 0 4 0
             3 1 4 0 4 0
             4 1 0 0 4 0
             5 1 4 0 4 0
             6 3 4 0 4 0
             7 7 0 2 9 1
             8 7 0 2 9 0
             9 3 2 2 9 0
             10 1 4 2 9 0
             11 7 4 2 9 0
             lost 2 1",
        );
    }
}

#[test]
fn lost_activations_count_alike_in_all_versions() {
    for version in [1, 2, 3] {
        assert_rows(
            &of_version(version, &TWO_TABLES),
            &[8, 0, 1, 6, 6, 6],
            "0 8 0 0 1 0
             1 6 0 1 2 1
             2 6 0 1 2 0
             3 6 0 1 2 0
             lost 1 2",
        );
    }
}

#[test]
fn edge_p13_resources_are_released_in_the_order_last_taken_first() {
    // Resources 0 and 1, both of the one task.
    let config = [1, 1, 0, 1, 1, 2, 1, 1, 0];
    assert_rows(
        &config,
        &[4, 0, 4, 1, 5, 0, 5, 1, 5, 0, 5, 0],
        "0 4 0 0 1 0
         1 4 0 0 1 0
         2 5 5 0 1 0
         3 5 0 0 1 0
         4 5 0 0 1 0
         5 5 5 0 1 0",
    );
}

#[test]
fn a_preempted_isr_is_resumed_and_its_second_request_waits() {
    assert_rows(
        &TWO_ISRS,
        &[7, 0, 7, 0, 7, 1, 2, 2, 2],
        "0 7 0 0 5 1
         1 7 0 0 5 0
         2 7 0 1 9 1
         3 2 0 0 5 0
         4 2 0 0 5 1
         5 2 0 - 0 0",
    );
}

#[test]
fn a_second_request_begins_only_after_a_better_ready_body() {
    // ISR 0 at the ceiling 9; ISR 1 and a second request of ISR 0 wait behind it.
    assert_rows(
        &TWO_ISRS,
        &[7, 0, 4, 0, 7, 1, 7, 0, 2, 5, 0, 2, 2],
        "0 7 0 0 5 1
         1 4 0 0 9 0
         2 7 0 0 9 0
         3 7 0 0 9 0
         4 2 6 0 9 0
         5 5 0 1 9 1
         6 2 0 0 5 0
         7 2 0 0 5 1",
    );
}

#[test]
fn release_falls_back_to_the_resource_still_held() {
    // Priorities 1 (runs), 4 and 6; resource 0 of bodies 0 and 1, resource 1 of bodies 0 and 2.
    let config = [1, 3, 0, 1, 1, 0, 4, 0, 0, 6, 0, 2, 3, 5, 0];
    assert_rows(
        &config,
        &[4, 0, 4, 1, 1, 1, 5, 1, 5, 0],
        "0 4 0 0 4 0
         1 4 0 0 6 0
         2 1 0 0 6 0
         3 5 0 0 4 0
         4 5 0 1 4 1",
    );
    // Taken the other way round, the lower ceiling does not lower the level.
    assert_rows(
        &config,
        &[4, 1, 4, 0, 1, 1, 5, 0, 5, 1],
        "0 4 0 0 6 0
         1 4 0 0 6 0
         2 1 0 0 6 0
         3 5 0 0 6 0
         4 5 0 1 4 1",
    );
}

/// Task 0 of priority 1 runs, tasks 1 and 2 have 4 and 6; resource 0 of task 1, resource 1 of tasks 0 and 1, both with the
/// ceiling 4; resource 2 of tasks 0 and 2, ceiling 6.
const THREE_RESOURCES: [u8; 16] = [1, 3, 0, 1, 1, 0, 4, 0, 0, 6, 0, 3, 2, 3, 5, 0];

#[test]
fn a_body_that_is_no_user_does_not_get_a_free_resource() {
    // Below the ceiling, at it by resource 1, above it by resource 2, and by its own priority.
    assert_rows(
        &THREE_RESOURCES,
        &[4, 0, 4, 1, 4, 0, 5, 1, 4, 2, 4, 0, 5, 2, 1, 2, 4, 0, 4, 1, 4, 2],
        "0 4 33 0 1 0
         1 4 0 0 4 0
         2 4 33 0 4 0
         3 5 0 0 1 0
         4 4 0 0 6 0
         5 4 33 0 6 0
         6 5 0 0 1 0
         7 1 0 2 6 1
         8 4 33 2 6 0
         9 4 33 2 6 0
         10 4 0 2 6 0",
    );
}

#[test]
fn a_body_that_is_no_user_gets_33_where_the_resource_is_held() {
    // Task 0 holds resource 1; task 2, which is no user of it, preempts. Release knows no 33.
    assert_rows(
        &THREE_RESOURCES,
        &[4, 1, 1, 2, 4, 1, 5, 1, 4, 3, 2, 4, 1, 5, 1],
        "0 4 0 0 4 0
         1 1 0 2 6 1
         2 4 33 2 6 0
         3 5 5 2 6 0
         4 4 3 2 6 0
         5 2 0 0 4 0
         6 4 1 0 4 0
         7 5 0 0 1 0",
    );
}

#[test]
fn a_user_is_refused_only_what_it_holds_itself() {
    // Tasks 1 and 2 take what is theirs, once, whatever the bodies below them hold.
    assert_rows(
        &THREE_RESOURCES,
        &[1, 1, 4, 0, 4, 0, 4, 1, 4, 1, 1, 2, 4, 2, 4, 2, 5, 2, 2, 5, 1, 5, 0],
        "0 1 0 1 4 1
         1 4 0 1 4 0
         2 4 1 1 4 0
         3 4 0 1 4 0
         4 4 1 1 4 0
         5 1 0 2 6 1
         6 4 0 2 6 0
         7 4 1 2 6 0
         8 5 0 2 6 0
         9 2 0 1 4 0
         10 5 0 1 4 0
         11 5 0 1 4 0",
    );
}

#[test]
fn users_are_bodies_by_number_and_not_by_priority() {
    // Task 0 (9), task 1 (2, runs), ISR 2 (4); the resource is task 1's alone, whose priority is the lowest.
    let config = [1, 3, 0, 9, 0, 0, 2, 1, 1, 4, 0, 1, 2, 0];
    assert_rows(
        &config,
        &[4, 0, 5, 0, 7, 2, 4, 0, 2, 1, 0, 4, 0],
        "0 4 0 1 2 0
         1 5 0 1 2 0
         2 7 0 2 4 1
         3 4 33 2 4 0
         4 2 0 1 2 0
         5 1 0 0 9 1
         6 4 33 0 9 0",
    );
}

#[test]
fn a_preempting_body_releases_nothing_of_the_one_below() {
    // Task 0 (1) holds its own resource; task 1 (4) preempts it.
    let config = [1, 2, 0, 1, 1, 0, 4, 0, 1, 1, 0];
    assert_rows(
        &config,
        &[4, 0, 1, 1, 5, 0, 4, 0, 2, 2, 5, 0],
        "0 4 0 0 1 0
         1 1 0 1 4 1
         2 5 5 1 4 0
         3 4 33 1 4 0
         4 2 0 0 1 0
         5 2 6 0 1 0
         6 5 0 0 1 0",
    );
}

#[test]
fn chain_checks_the_id_before_resources_and_resources_before_the_limit() {
    // Task 0 (1, runs), task 1 (4), ISR 2 (9); a resource of task 0.
    let config = [1, 3, 0, 1, 1, 0, 4, 0, 1, 9, 0, 1, 1, 0];
    assert_rows(
        &config,
        &[4, 0, 3, 2, 3, 3, 3, 0, 3, 1, 5, 0, 7, 2, 3, 1, 2, 3, 1, 3, 0, 2],
        "0 4 0 0 1 0
         1 3 3 0 1 0
         2 3 3 0 1 0
         3 3 6 0 1 0
         4 3 6 0 1 0
         5 5 0 0 1 0
         6 7 0 2 9 1
         7 3 2 2 9 0
         8 2 0 0 1 0
         9 3 0 1 4 1
         10 3 0 0 1 1
         11 2 0 - 0 0",
    );
}

#[test]
fn a_stopped_table_is_due_no_more_and_starts_afresh() {
    assert_rows(
        &TWO_TABLES,
        &[9, 1, 8, 1, 2, 6, 9, 1, 9, 1, 6, 6, 8, 1, 1, 6, 8, 1, 1],
        "0 9 5 0 1 0
         1 8 0 0 1 0
         2 6 0 0 1 0
         3 9 0 0 1 0
         4 9 5 0 1 0
         5 6 0 0 1 0
         6 6 0 0 1 0
         7 8 0 0 1 0
         8 6 0 1 2 1
         9 8 7 1 2 0",
    );
}

#[test]
fn nobody_running_is_status_2_before_any_id_is_looked_at() {
    let config = [1, 1, 0, 1, 0, 0, 0];
    assert_rows(
        &config,
        &[1, 9, 2, 3, 9, 4, 9, 5, 9, 6, 7, 9, 8, 9, 0, 9, 9],
        "0 1 2 - 0 0
         1 2 2 - 0 0
         2 3 2 - 0 0
         3 4 2 - 0 0
         4 5 2 - 0 0
         5 6 0 - 0 0
         6 7 3 - 0 0
         7 8 2 - 0 0
         8 9 2 - 0 0",
    );
}

#[test]
fn a_tick_serves_every_table_before_one_arbitration() {
    // Task 0 (1, runs); table 0 makes task 1 (4) ready, table 1 task 2 (6), at the same tick.
    let config = [1, 3, 0, 1, 1, 0, 4, 0, 0, 6, 0, 0, 2, 9, 1, 0, 1, 9, 1, 0, 2];
    assert_rows(
        &config,
        &[8, 0, 1, 8, 1, 1, 6, 2, 2],
        "0 8 0 0 1 0
         1 8 0 0 1 0
         2 6 0 2 6 1
         3 2 0 1 4 1
         4 2 0 0 1 0",
    );
}

#[test]
fn entries_at_one_offset_are_served_together_after_delay_and_offset() {
    // Task 0 (1, runs); one table with entries at offset 2 for tasks 1 (4) and 2 (6).
    let config = [1, 3, 0, 1, 1, 0, 4, 0, 0, 6, 0, 0, 1, 9, 2, 2, 1, 2, 2];
    assert_rows(
        &config,
        &[8, 0, 1, 6, 6, 6, 2, 2],
        "0 8 0 0 1 0
         1 6 0 0 1 0
         2 6 0 0 1 0
         3 6 0 2 6 1
         4 2 0 1 4 1
         5 2 0 0 1 0",
    );
}

#[test]
fn a_request_that_waits_outlives_the_stop_of_its_table() {
    // Task 0 (5, runs); the table's task 1 (2) waits behind it.
    let config = [1, 2, 0, 5, 1, 0, 2, 0, 0, 1, 9, 1, 0, 1];
    assert_rows(&config, &[8, 0, 1, 6, 9, 0, 2], "0 8 0 0 5 0\n1 6 0 0 5 0\n2 9 0 0 5 0\n3 2 0 1 2 1");
}

#[test]
fn a_ready_or_started_task_is_at_its_limit_and_loses_nothing() {
    // Task 0 (5, runs, uses the resource) makes task 1 (2) ready.
    let config = [1, 2, 0, 5, 1, 0, 2, 0, 1, 1, 0];
    assert_rows(
        &config,
        &[1, 1, 4, 0, 3, 1, 5, 0, 3, 1, 1, 1, 1, 0],
        "0 1 0 0 5 0
         1 4 0 0 5 0
         2 3 6 0 5 0
         3 5 0 0 5 0
         4 3 4 0 5 0
         5 1 4 0 5 0
         6 1 4 0 5 0",
    );
}

/// So many tasks, body 0 ready at the fresh start, each of a greater priority than the one before: `priority(body)`.
fn rising_tasks(bodies: u8) -> Vec<u8> {
    let mut config = vec![1, bodies];
    for body in 0..bodies {
        config.extend([0, priority(body), u8::from(body == 0)]);
    }
    config
}

fn priority(body: u8) -> u8 {
    3 * body + 1
}

#[test]
fn all_32_bodies_are_preempted_in_turn_and_come_back() {
    let config = [rising_tasks(32), vec![0, 0]].concat();
    let mut script = Script::default();
    for body in 1..32 {
        script.event(&[1, body], 0, &body.to_string(), priority(body), 1);
    }
    for body in (0..31).rev() {
        script.event(&[2], 0, &body.to_string(), priority(body), 0);
    }
    script.event(&[2], 0, "-", 0, 0);
    script.event(&[2], 2, "-", 0, 0);
    script.assert(&config);
}

#[test]
fn bodies_that_hold_all_16_resources_come_back_at_their_levels() {
    // Body 2k takes resource k, whose ceiling is the priority of body 2k + 1; then body 2k + 2 begins.
    let masks = (0..16).flat_map(|k| number(3 << (2 * k)));
    let config = [rising_tasks(32), vec![16], masks.collect(), vec![0]].concat();
    let mut script = Script::default();
    for k in 0..16 {
        script.event(&[4, k], 0, &(2 * k).to_string(), priority(2 * k + 1), 0);
        if k < 15 {
            script.event(&[1, 2 * k + 2], 0, &(2 * k + 2).to_string(), priority(2 * k + 2), 1);
        }
    }
    for k in (0..16).rev() {
        let runner = (2 * k).to_string();
        script.event(&[2], 6, &runner, priority(2 * k + 1), 0);
        script.event(&[5, k], 0, &runner, priority(2 * k), 0);
        match k.checked_sub(1) {
            Some(below) => script.event(&[2], 0, &(2 * below).to_string(), priority(2 * below + 1), 0),
            None => script.event(&[2], 0, "-", 0, 0),
        }
    }
    script.assert(&config);
}

#[test]
fn one_body_holds_all_16_resources_and_gives_them_back() {
    // Resource k has the ceiling of body k + 1.
    let masks = (0..16).flat_map(|k| number(1 | 2 << k));
    let config = [rising_tasks(17), vec![16], masks.collect(), vec![0]].concat();
    let mut script = Script::default();
    for k in 0..16 {
        script.event(&[4, k], 0, "0", priority(k + 1), 0);
        script.event(&[4, k], 1, "0", priority(k + 1), 0);
    }
    for k in (0..16).rev() {
        script.event(&[5, k], 0, "0", priority(k), 0);
        script.event(&[5, k], 5, "0", priority(k), 0);
    }
    script.assert(&config);
}
