//! Extended tasks, worked by hand: Wait, Set and Clear, who is resumed and when, what becomes of event bits.

use osek_tests::by_hand::{assert_rows, number, Script};
use osek_tests::cases::{case, Case};
use osek_tests::compare::{others, outcome, Implementation};
use osek_tests::fast::{read_event, Event, OUTPUT_MAX};

/// Task 0 (priority 1) runs; extended tasks 1 (3) and 2 (5), ISR 3 (7), task 4 (2); resource 0 of tasks 0 and 1, ceiling 3; a
/// table of period 50 with an entry at offset 0 for task 1.
const CONFIG: [u8; 24] = [1, 5, 0, 1, 1, 2, 3, 0, 2, 5, 0, 1, 7, 0, 0, 2, 0, 1, 3, 1, 50, 1, 0, 1];

#[test]
fn wait_and_clear_check_the_caller_before_its_resources() {
    assert_rows(
        &CONFIG,
        &[
            10, 1, 12, 1, 4, 0, 10, 1, 5, 0, 1, 1, 4, 0, 10, 1, 11, 1, 1, 10, 1, 12, 1, 7, 3, 10, 0, 12, 0, 2, 5, 0,
            10, 1, 2, 10, 1, 11, 1, 1, 12, 1,
        ],
        "0 10 1 0 1 0
         1 12 1 0 1 0
         2 4 0 0 3 0
         3 10 1 0 3 0
         4 5 0 0 1 0
         5 1 0 1 3 1
         6 4 0 1 3 0
         7 10 6 1 3 0
         8 11 0 1 3 0
         9 10 6 1 3 0
         10 12 0 1 3 0
         11 7 0 3 7 1
         12 10 1 3 7 0
         13 12 1 3 7 0
         14 2 0 1 3 0
         15 5 0 1 3 0
         16 10 0 0 1 0
         17 2 0 - 0 0
         18 10 2 - 0 0
         19 11 2 - 0 0
         20 12 2 - 0 0",
    );
}

#[test]
fn set_checks_the_named_task() {
    // No such body, the largest number, an ISR; a basic task, suspended or running; an extended one that is suspended.
    assert_rows(
        &CONFIG,
        &[11, 5, 1, 11, 0xff, 0xff, 0xff, 0xff, 0x0f, 1, 11, 3, 1, 11, 4, 1, 11, 0, 1, 11, 1, 1],
        "0 11 3 0 1 0
         1 11 3 0 1 0
         2 11 3 0 1 0
         3 11 1 0 1 0
         4 11 1 0 1 0
         5 11 7 0 1 0",
    );
}

#[test]
fn a_waited_bit_resumes_at_once_and_stays_set() {
    // Task 2 waits for bit 2. Bits 0 and 1 do not resume it and stay; then bit 2 does.
    assert_rows(
        &CONFIG,
        &[1, 2, 10, 4, 11, 2, 3, 11, 2, 4, 10, 4, 10, 1, 10, 2, 12, 5, 10, 2, 10, 5, 11, 2, 2, 11, 2, 1],
        "0 1 0 2 5 1
         1 10 0 0 1 0
         2 11 0 0 1 0
         3 11 0 2 5 0
         4 10 0 2 5 0
         5 10 0 2 5 0
         6 10 0 2 5 0
         7 12 0 2 5 0
         8 10 0 2 5 0
         9 10 0 0 1 0
         10 11 0 0 1 0
         11 11 0 2 5 0",
    );
}

#[test]
fn one_waited_bit_of_many_suffices() {
    // Waits for bits 1 to 3, gets bits 3 and 4; goes on where one of two is set; bit 31 is a bit like others.
    let bit_31 = number(1 << 31);
    let trace = [
        &[1, 2, 10, 14, 11, 2, 24, 10, 9, 10][..],
        &bit_31,
        &[11, 2, 0x7f, 11, 2],
        &bit_31,
        &[10, 0xff, 0xff, 0xff, 0xff, 0x0f],
    ];
    assert_rows(
        &CONFIG,
        &trace.concat(),
        "0 1 0 2 5 1
         1 10 0 0 1 0
         2 11 0 2 5 0
         3 10 0 2 5 0
         4 10 0 0 1 0
         5 11 0 0 1 0
         6 11 0 2 5 0
         7 10 0 2 5 0",
    );
}

#[test]
fn a_wait_for_no_bit_is_never_resumed() {
    // Not where bits are set, and not by all bits.
    assert_rows(
        &CONFIG,
        &[1, 2, 11, 2, 1, 10, 0, 11, 2, 0, 11, 2, 0xff, 0xff, 0xff, 0xff, 0x0f, 1, 2, 2, 6],
        "0 1 0 2 5 1
         1 11 0 2 5 0
         2 10 0 0 1 0
         3 11 0 0 1 0
         4 11 0 0 1 0
         5 1 4 0 1 0
         6 2 0 - 0 0
         7 6 0 - 0 0",
    );
}

#[test]
fn a_task_resumed_by_an_isr_runs_when_the_isr_has_ended() {
    // Both extended tasks wait, the one of the lower priority since the beginning; the ISR resumes both.
    assert_rows(
        &CONFIG,
        &[1, 1, 10, 1, 1, 2, 10, 1, 7, 3, 11, 1, 1, 11, 2, 1, 2, 2, 2, 2],
        "0 1 0 1 3 1
         1 10 0 0 1 0
         2 1 0 2 5 1
         3 10 0 0 1 0
         4 7 0 3 7 1
         5 11 0 3 7 0
         6 11 0 3 7 0
         7 2 0 2 5 0
         8 2 0 1 3 0
         9 2 0 0 1 0
         10 2 0 - 0 0",
    );
}

#[test]
fn a_resumed_task_of_a_lower_priority_waits_for_its_turn() {
    // Task 2 resumes task 1, which goes on after it, and before task 4, which is ready.
    assert_rows(
        &CONFIG,
        &[1, 1, 10, 1, 1, 2, 1, 4, 11, 1, 1, 2, 2, 2],
        "0 1 0 1 3 1
         1 10 0 0 1 0
         2 1 0 2 5 1
         3 1 0 2 5 0
         4 11 0 2 5 0
         5 2 0 1 3 0
         6 2 0 4 2 1
         7 2 0 0 1 0",
    );
}

#[test]
fn bits_set_while_the_task_is_ready_are_there_when_it_begins() {
    // Task 2 makes task 1 ready and sets its bit 0; task 1 begins when task 2 waits, and goes on.
    assert_rows(
        &CONFIG,
        &[1, 2, 1, 1, 11, 1, 1, 10, 8, 10, 1, 10, 2],
        "0 1 0 2 5 1
         1 1 0 2 5 0
         2 11 0 2 5 0
         3 10 0 1 3 1
         4 10 0 1 3 0
         5 10 0 0 1 0",
    );
}

#[test]
fn an_activation_clears_the_bits() {
    // Bit 0 is set, the task ends; activated, chained or due it waits for bit 0 in vain.
    let end_with_bit = |script: &mut Script| {
        script.event(&[1, 1], 0, "1", 3, 1);
        script.event(&[11, 1, 1], 0, "1", 3, 0);
        script.event(&[2], 0, "0", 1, 0);
    };
    let mut activated = Script::default();
    end_with_bit(&mut activated);
    activated.event(&[1, 1], 0, "1", 3, 1);
    activated.event(&[10, 1], 0, "0", 1, 0);
    activated.assert(&CONFIG);

    let mut chained = Script::default();
    end_with_bit(&mut chained);
    chained.event(&[3, 1], 0, "1", 3, 1);
    chained.event(&[10, 1], 0, "-", 0, 0);
    chained.assert(&CONFIG);

    let mut due = Script::default();
    end_with_bit(&mut due);
    due.event(&[8, 0, 1], 0, "0", 1, 0);
    due.event(&[6], 0, "1", 3, 1);
    due.event(&[10, 1], 0, "0", 1, 0);
    due.assert(&CONFIG);

    let mut itself = Script::default();
    itself.event(&[1, 1], 0, "1", 3, 1);
    itself.event(&[11, 1, 1], 0, "1", 3, 0);
    itself.event(&[10, 1], 0, "1", 3, 0);
    itself.event(&[3, 1], 0, "1", 3, 1);
    itself.event(&[10, 1], 0, "0", 1, 0);
    itself.assert(&CONFIG);
}

#[test]
fn a_refused_activation_keeps_the_bits() {
    assert_rows(
        &CONFIG,
        &[1, 2, 11, 2, 1, 1, 2, 10, 1],
        "0 1 0 2 5 1
         1 11 0 2 5 0
         2 1 4 2 5 0
         3 10 0 2 5 0",
    );
}

#[test]
fn a_waiting_task_is_not_suspended() {
    // Task 1 waits: activated and chained it is at its limit, its due entry is lost; it waits on.
    assert_rows(
        &CONFIG,
        &[1, 1, 10, 1, 1, 1, 3, 1, 8, 0, 1, 6, 11, 1, 1],
        "0 1 0 1 3 1
         1 10 0 0 1 0
         2 1 4 0 1 0
         3 3 4 0 1 0
         4 8 0 0 1 0
         5 6 0 0 1 0
         6 11 0 1 3 0
         lost 1 1",
    );
}

#[test]
fn a_holder_goes_before_a_resumed_task_of_the_same_priority() {
    // Task 0 holds the resource, at the ceiling 3; it resumes task 1 itself, or the ISR does. Task 1 runs at the release.
    let waits = [1, 1, 10, 1, 4, 0];
    let rows = "0 1 0 1 3 1
                1 10 0 0 1 0
                2 4 0 0 3 0";
    assert_rows(&CONFIG, &[&waits[..], &[11, 1, 1, 5, 0]].concat(), &format!("{rows}\n3 11 0 0 3 0\n4 5 0 1 3 0"));
    assert_rows(
        &CONFIG,
        &[&waits[..], &[7, 3, 11, 1, 1, 2, 5, 0]].concat(),
        &format!("{rows}\n3 7 0 3 7 1\n4 11 0 3 7 0\n5 2 0 0 3 0\n6 5 0 1 3 0"),
    );
}

#[test]
fn a_holder_goes_on_at_its_level_when_the_one_above_waits() {
    // Task 0 at the ceiling 3 is preempted by task 2; task 1 becomes ready at that ceiling, and begins at the release.
    assert_rows(
        &CONFIG,
        &[4, 0, 1, 2, 1, 1, 10, 1, 2, 5, 0],
        "0 4 0 0 3 0
         1 1 0 2 5 1
         2 1 0 2 5 0
         3 10 0 0 3 0
         4 2 6 0 3 0
         5 5 0 1 3 1",
    );
}

#[test]
fn a_second_request_of_an_isr_and_a_waiting_task_do_not_meet() {
    // The ISR resumes task 2, and its second request begins before task 2 goes on.
    assert_rows(
        &CONFIG,
        &[1, 2, 10, 1, 7, 3, 7, 3, 11, 2, 1, 2, 2, 2],
        "0 1 0 2 5 1
         1 10 0 0 1 0
         2 7 0 3 7 1
         3 7 0 3 7 0
         4 11 0 3 7 0
         5 2 0 3 7 1
         6 2 0 2 5 0
         7 2 0 0 1 0",
    );
}

#[test]
fn an_extended_task_that_never_waits_is_like_a_basic_one() {
    // Autostart, ended by Chain, begun from an entry.
    let config = [2, 2, 2, 4, 1, 2, 2, 0, 0, 1, 3, 1, 0, 0];
    assert_rows(
        &config,
        &[8, 0, 1, 3, 1, 6, 2, 2, 6, 6, 6],
        "0 8 0 0 4 0
         1 3 0 1 2 1
         2 6 0 0 4 1
         3 2 0 1 2 0
         4 2 0 - 0 0
         5 6 0 - 0 0
         6 6 0 - 0 0
         7 6 0 0 4 1",
    );
}

/// Extended tasks 0 to 30 of priorities 1, 4, 7, .., all autostart, and ISR 31 of priority 200.
fn many_wait() -> Vec<u8> {
    let mut config = vec![1, 32];
    for body in 0..31 {
        config.extend([2, 3 * body + 1, 1]);
    }
    config.extend([1, 0xc8, 1, 0, 0, 0]);
    config
}

#[test]
fn thirty_one_tasks_wait_and_an_isr_wakes_them() {
    let level = |body: u8| 3 * body + 1;
    let bit = |body: u8| number(1 << body);
    let mut script = Script::default();
    for body in (1..31).rev() {
        let next = body - 1;
        script.event(&[&[10][..], &bit(body)].concat(), 0, &next.to_string(), level(next), 1);
    }
    script.event(&[10, 1], 0, "-", 0, 0);
    script.event(&[6], 0, "-", 0, 0);
    script.event(&[7, 31], 0, "31", 200, 1);
    // Another task's bit resumes nobody; its own does, in whatever order.
    for body in 0..31 {
        script.event(&[&[11, body][..], &bit((body + 1) % 31)].concat(), 0, "31", 200, 0);
    }
    for body in 0..31 {
        script.event(&[&[11, body][..], &bit(body)].concat(), 0, "31", 200, 0);
    }
    for body in (0..31).rev() {
        script.event(&[2], 0, &body.to_string(), level(body), 0);
    }
    script.event(&[2], 0, "-", 0, 0);
    script.assert(&many_wait());
}

/// The four bytes of the last answer to a trace; none where the run is refused.
fn last_answer(implementation: Implementation, config: &[u8], trace: &[u8]) -> Option<[u8; 4]> {
    let case = Case { config: config.to_vec(), trace: trace.to_vec(), out_len: OUTPUT_MAX, fill: 77 };
    let (events, out) = outcome(implementation, &case);
    let at = 4 * usize::try_from(events).ok()?.checked_sub(1)?;
    out.get(at..at + 4)?.try_into().ok()
}

/// A Wait that does not go on is one that is done and after which another body runs, or nobody.
#[test]
fn a_wait_that_does_not_go_on_is_answered_as_a_finish_in_its_place() {
    const FINISH: u8 = 2;
    for implementation in others() {
        let mut compared = 0;
        for number in 0..2000 {
            let Case { config, mut trace, .. } = case(1, number);
            trace.truncate(200);
            let mut runner = None;
            let mut at = 0;
            while let Ok((event, next)) = read_event(&trace, at) {
                let Some(answer) = last_answer(implementation, &config, &trace[..next]) else { break };
                if matches!(event, Event::Wait(_)) && answer[0] == 0 && runner != Some(answer[1]) {
                    let instead = last_answer(implementation, &config, &[&trace[..at], &[FINISH]].concat());
                    assert_eq!(Some(answer), instead, "{}, case {number}, at {at}", implementation.name);
                    compared += 1;
                }
                runner = Some(answer[1]);
                at = next;
            }
        }
        assert!(compared > 300, "{compared} such Waits were drawn");
    }
}
