//! Time-triggered bodies, worked by hand: when they begin and over whom, what their calls get, what goes on after them.

use osek_tests::by_hand::{assert_rows, Script};

/// Task 0 (priority 1) runs; task 1 (5), ISR 2 (9); time-triggered bodies 3 and 4, whose priority numbers 200 and 3 do not count;
/// extended task 5 (2). Resource 0 of tasks 0 and 1, ceiling 5. Table 0 of period 10 with body 3 at offset 0 and body 4 at offset 2;
/// table 1 of period 10 with task 1 at offset 0.
const CONFIG: [u8; 34] =
    [1, 6, 0, 1, 1, 0, 5, 0, 1, 9, 0, 3, 0xc8, 1, 0, 3, 3, 0, 2, 2, 0, 1, 3, 2, 10, 2, 0, 3, 2, 4, 10, 1, 0, 1];

/// The same in version 2, which counts lost lines.
fn version_2() -> Vec<u8> {
    [&[2], &CONFIG[1..]].concat()
}

#[test]
fn a_due_body_begins_at_once_and_the_latest_start_goes_first() {
    // First delays 1 and 3. Body 3 goes on until body 4 preempts it at tick 3.
    assert_rows(
        &CONFIG,
        &[8, 0, 1, 6, 6, 6, 2, 2],
        "0 8 0 0 1 0
         1 6 0 3 201 1
         2 6 0 3 201 0
         3 6 0 4 201 1
         4 2 0 3 201 0
         5 2 0 0 1 0",
    );
}

#[test]
fn a_number_below_that_of_who_runs_does_not_hold_it_back() {
    // The ISR of priority 9 runs, with task 1 of priority 5 ready, when body 4 of number 3 is due.
    assert_rows(
        &CONFIG,
        &[8, 0, 1, 6, 2, 6, 7, 2, 1, 1, 6, 2, 2, 2],
        "0 8 0 0 1 0
         1 6 0 3 201 1
         2 2 0 0 1 0
         3 6 0 0 1 0
         4 7 0 2 9 1
         5 1 0 2 9 0
         6 6 0 4 201 1
         7 2 0 2 9 0
         8 2 0 1 5 1
         9 2 0 0 1 0",
    );
}

#[test]
fn the_latest_start_goes_first_whatever_the_numbers() {
    // Body 3 ends at once; body 4 begins at tick 3 and goes on until body 3 preempts it at tick 11.
    let mut script = Script::default();
    script.event(&[8, 0, 1], 0, "0", 1, 0);
    script.event(&[6], 0, "3", 201, 1);
    script.event(&[2], 0, "0", 1, 0);
    script.ticks(1, "0", 1);
    script.event(&[6], 0, "4", 201, 1);
    script.ticks(7, "4", 201);
    script.event(&[6], 0, "3", 201, 1);
    script.event(&[2], 0, "4", 201, 0);
    script.event(&[2], 0, "0", 1, 0);
    script.assert(&CONFIG);
}

#[test]
fn it_begins_while_nobody_runs() {
    assert_rows(
        &CONFIG,
        &[8, 0, 1, 2, 6, 2, 2],
        "0 8 0 0 1 0
         1 2 0 - 0 0
         2 6 0 3 201 1
         3 2 0 - 0 0
         4 2 2 - 0 0",
    );
}

#[test]
fn it_preempts_an_isr() {
    // The ISR has a second request waiting, which begins after its end and not before.
    assert_rows(
        &CONFIG,
        &[8, 0, 1, 7, 2, 7, 2, 6, 2, 2, 2],
        "0 8 0 0 1 0
         1 7 0 2 9 1
         2 7 0 2 9 0
         3 6 0 3 201 1
         4 2 0 2 9 0
         5 2 0 2 9 1
         6 2 0 0 1 0",
    );
}

#[test]
fn a_preempted_holder_goes_on_at_its_ceiling() {
    // Task 1, of the ceiling's priority, is due while body 3 runs, and begins at the release.
    assert_rows(
        &CONFIG,
        &[8, 0, 1, 8, 1, 2, 4, 0, 6, 6, 2, 2, 5, 0, 2],
        "0 8 0 0 1 0
         1 8 0 0 1 0
         2 4 0 0 5 0
         3 6 0 3 201 1
         4 6 0 3 201 0
         5 2 0 0 5 0
         6 2 6 0 5 0
         7 5 0 1 5 1
         8 2 0 0 1 0",
    );
}

#[test]
fn an_entry_due_while_its_body_is_started_is_a_loss() {
    // Tick 11: body 3 is preempted; tick 13: body 4 runs. Both end; at tick 21 body 3 begins again.
    let mut script = Script::default();
    script.event(&[8, 0, 1], 0, "0", 1, 0);
    script.event(&[6], 0, "3", 201, 1);
    script.ticks(1, "3", 201);
    script.event(&[6], 0, "4", 201, 1);
    script.ticks(10, "4", 201);
    script.event(&[2], 0, "3", 201, 0);
    script.event(&[2], 0, "0", 1, 0);
    script.ticks(7, "0", 1);
    script.event(&[6], 0, "3", 201, 1);
    script.lost(3, 1);
    script.lost(4, 1);
    script.assert(&CONFIG);
}

#[test]
fn a_body_due_at_every_tick_begins_once_and_loses_the_others() {
    // Task 0, time-triggered body 1, a table of period 1.
    let config = [1, 2, 0, 1, 1, 3, 2, 0, 0, 1, 1, 1, 0, 1];
    assert_rows(
        &config,
        &[8, 0, 1, 6, 6, 6, 2, 6, 2],
        "0 8 0 0 1 0
         1 6 0 1 201 1
         2 6 0 1 201 0
         3 6 0 1 201 0
         4 2 0 0 1 0
         5 6 0 1 201 1
         6 2 0 0 1 0
         lost 1 2",
    );
}

#[test]
fn a_line_meanwhile_is_served_after_it() {
    // A second line is at its limit, and a loss in version 2.
    let trace = [8, 0, 1, 6, 7, 2, 7, 2, 6, 6, 2, 2, 2];
    let rows = "0 8 0 0 1 0
                1 6 0 3 201 1
                2 7 0 3 201 0
                3 7 4 3 201 0
                4 6 0 3 201 0
                5 6 0 4 201 1
                6 2 0 3 201 0
                7 2 0 2 9 1
                8 2 0 0 1 0";
    assert_rows(&CONFIG, &trace, rows);
    assert_rows(&version_2(), &trace, &format!("{rows}\nlost 2 1"));
}

#[test]
fn a_task_due_at_the_same_tick_begins_after_it() {
    // Both tables are due at tick 1; the time-triggered body's is the first of them, then the second.
    let trace = [8, 0, 1, 8, 1, 1, 6, 2, 2];
    let rows = "0 8 0 0 1 0
                1 8 0 0 1 0
                2 6 0 3 201 1
                3 2 0 1 5 1
                4 2 0 0 1 0";
    assert_rows(&CONFIG, &trace, rows);
    let swapped = [&CONFIG[..24], &[10, 1, 0, 1, 10, 2, 0, 3, 2, 4]].concat();
    assert_rows(&swapped, &trace, rows);
}

#[test]
fn its_calls_other_than_finish_get_2_before_any_other_status() {
    let calls: [&[u8]; 31] = [
        // Nothing else is wrong: Activate, Start and Stop would be done.
        &[1, 1],
        &[8, 1, 1],
        &[9, 0],
        // Activate: 3 (no such body, an ISR, a time-triggered body, itself), 4.
        &[1, 6],
        &[1, 2],
        &[1, 4],
        &[1, 3],
        &[1, 0],
        // Chain: a task, itself, 3, 4.
        &[3, 1],
        &[3, 3],
        &[3, 6],
        &[3, 0],
        // Get: no user, held by task 0, no such resource. Release: not held by it, no such resource.
        &[4, 0],
        &[4, 1],
        &[5, 0],
        &[5, 1],
        // Start: 3, 8, 7. Stop: 3, 5.
        &[8, 2, 1],
        &[8, 1, 0],
        &[8, 0, 0],
        &[8, 0, 1],
        &[9, 2],
        &[9, 1],
        // Wait and Clear: not extended. Set: 3, 1, 7.
        &[10, 1],
        &[10, 0],
        &[12, 1],
        &[12, 0],
        &[11, 6, 1],
        &[11, 2, 1],
        &[11, 3, 1],
        &[11, 0, 1],
        &[11, 5, 1],
    ];
    // Over task 0 that holds the resource.
    let mut script = Script::default();
    script.event(&[8, 0, 1], 0, "0", 1, 0);
    script.event(&[4, 0], 0, "0", 5, 0);
    script.event(&[6], 0, "3", 201, 1);
    for call in calls {
        script.event(call, 2, "3", 201, 0);
    }
    // Tick and Line are no calls.
    script.event(&[7, 3], 3, "3", 201, 0);
    script.event(&[7, 2], 0, "3", 201, 0);
    script.ticks(1, "3", 201);
    script.event(&[6], 0, "4", 201, 1);
    for call in calls {
        script.event(call, 2, "4", 201, 0);
    }
    // Nothing has changed: both end, the ISR begins, task 0 still holds the resource, table 0 still runs.
    script.event(&[2], 0, "3", 201, 0);
    script.event(&[2], 0, "2", 9, 1);
    script.event(&[2], 0, "0", 5, 0);
    script.event(&[5, 0], 0, "0", 1, 0);
    script.event(&[8, 0, 1], 7, "0", 1, 0);
    script.event(&[9, 1], 5, "0", 1, 0);
    script.assert(&CONFIG);
}

#[test]
fn calls_that_name_it_get_3_and_set_gets_1() {
    // By task 0, which then holds the resource: 3 comes before 6. By the ISR, for which Chain is 2.
    assert_rows(
        &CONFIG,
        &[1, 3, 1, 4, 3, 3, 11, 3, 1, 11, 4, 0, 7, 3, 4, 0, 3, 4, 1, 3, 11, 3, 1, 7, 2, 1, 3, 3, 3, 11, 3, 1],
        "0 1 3 0 1 0
         1 1 3 0 1 0
         2 3 3 0 1 0
         3 11 1 0 1 0
         4 11 1 0 1 0
         5 7 3 0 1 0
         6 4 0 0 5 0
         7 3 3 0 5 0
         8 1 3 0 5 0
         9 11 1 0 5 0
         10 7 0 2 9 1
         11 1 3 2 9 0
         12 3 2 2 9 0
         13 11 1 2 9 0",
    );
}

#[test]
fn its_table_is_stopped_by_who_runs_below_and_starts_anew() {
    let mut script = Script::default();
    script.event(&[8, 0, 1], 0, "0", 1, 0);
    script.event(&[6], 0, "3", 201, 1);
    script.event(&[9, 0], 2, "3", 201, 0);
    script.event(&[2], 0, "0", 1, 0);
    script.event(&[9, 0], 0, "0", 1, 0);
    // No entry is due any more, not that of body 4 at the third tick.
    script.ticks(30, "0", 1);
    // Started again with delay 2: due at ticks 2 and 4, then a period later.
    script.event(&[8, 0, 2], 0, "0", 1, 0);
    script.ticks(1, "0", 1);
    script.event(&[6], 0, "3", 201, 1);
    script.event(&[2], 0, "0", 1, 0);
    script.ticks(1, "0", 1);
    script.event(&[6], 0, "4", 201, 1);
    script.event(&[2], 0, "0", 1, 0);
    script.ticks(7, "0", 1);
    script.event(&[6], 0, "3", 201, 1);
    script.assert(&CONFIG);
}

#[test]
fn it_runs_while_a_task_waits() {
    // Extended task 5 waits, nobody runs; after body 3 the ISR resumes it.
    assert_rows(
        &CONFIG,
        &[8, 0, 1, 3, 5, 10, 1, 6, 2, 7, 2, 11, 5, 1, 2],
        "0 8 0 0 1 0
         1 3 0 5 2 1
         2 10 0 - 0 0
         3 6 0 3 201 1
         4 2 0 - 0 0
         5 7 0 2 9 1
         6 11 0 2 9 0
         7 2 0 5 2 0",
    );
}

#[test]
fn a_body_in_no_table_never_runs() {
    // Alone, and as a named one beside task 0.
    assert_rows(&[1, 1, 3, 5, 0, 0, 0], &[6, 1, 0, 2, 6], "0 6 0 - 0 0\n1 1 2 - 0 0\n2 2 2 - 0 0\n3 6 0 - 0 0");
    assert_rows(
        &[1, 2, 0, 1, 1, 3, 0xc8, 1, 0, 0, 0],
        &[1, 1, 3, 1, 7, 1, 6, 2],
        "0 1 3 0 1 0\n1 3 3 0 1 0\n2 7 3 0 1 0\n3 6 0 0 1 0\n4 2 0 - 0 0",
    );
}

/// The time-triggered body at an offset, of 16 that are numbered 1 to 16.
fn at_offset(offset: u8) -> u8 {
    offset * 5 % 16 + 1
}

/// Task 0 of priority 1 runs; time-triggered bodies 1 to 16 of priorities 101 to 116; a table of period 20 with all of them, one a
/// tick from offset 0 on.
fn sixteen() -> Vec<u8> {
    let mut config = vec![1, 17, 0, 1, 1];
    for body in 1..=16 {
        config.extend([3, 100 + body, 0]);
    }
    config.extend([0, 1, 20, 16]);
    for offset in 0..16 {
        config.extend([offset, at_offset(offset)]);
    }
    config
}

#[test]
fn sixteen_begin_one_over_the_other_and_end_in_reverse() {
    let name = |offset: u8| at_offset(offset).to_string();
    let mut script = Script::default();
    script.event(&[8, 0, 1], 0, "0", 1, 0);
    for offset in 0..16 {
        script.event(&[6], 0, &name(offset), 201, 1);
    }
    script.ticks(4, &name(15), 201);
    for offset in (0..15).rev() {
        script.event(&[2], 0, &name(offset), 201, 0);
    }
    script.event(&[2], 0, "0", 1, 0);
    // The next round, of which the first 15 ticks' bodies are ended at once.
    for offset in 0..15 {
        script.event(&[6], 0, &name(offset), 201, 1);
        script.event(&[2], 0, "0", 1, 0);
    }
    script.event(&[6], 0, &name(15), 201, 1);
    script.assert(&sixteen());
}

#[test]
fn sixteen_that_do_not_end_lose_every_later_round() {
    let mut script = Script::default();
    script.event(&[8, 0, 1], 0, "0", 1, 0);
    for offset in 0..16 {
        script.event(&[6], 0, &at_offset(offset).to_string(), 201, 1);
    }
    // Four ticks to the end of the round, and two rounds more.
    script.ticks(4 + 40, &at_offset(15).to_string(), 201);
    for body in 1..=16 {
        script.lost(body, 2);
    }
    script.assert(&sixteen());
}
