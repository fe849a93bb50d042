//! The control flows that the source documents show, worked out from their text, as traces: bodies, times and levels are those
//! of the figures, every step stands beside the event that makes it. Of the time-triggered ones the text gives rounds, offsets,
//! deadlines and who preempts whom, and not when a task ends: each test says which times are ours.

use osek_tests::by_hand::{assert_rows, Script};

/// Source document 000, Table 4.1: Task1 (priority 1, autostart), ISR2 (2), Task3 (3), Task4 (4) are bodies 0 to 3; Res1 and Res2
/// of Task1 and Task3; the alarm that activates Task4 is a table of one entry.
const SLOTH: [u8; 22] = [1, 4, 0, 1, 1, 1, 2, 0, 0, 3, 0, 0, 4, 0, 2, 5, 5, 1, 100, 1, 0, 3];

#[test]
fn sloth_figure_4_1() {
    // t1 is the fresh start: Task1 is dispatched.
    let trace = [
        4, 0, // t2: Task1 gets Res1, the level rises to the ceiling 3
        7, 1, // t3: the interrupt of ISR2 is delayed
        5, 0, // t4: Task1 releases the resource, ISR2 is dispatched
        8, 0, 2, // t5: ISR2 sets the alarm
        2, // t6: ISR2 ends, Task1 goes on
        2, // t7: Task1 ends, nothing is left to run
        6, 6, // t8: the alarm expires, Task4 is dispatched
        1, 0, // t9: Task4 activates Task1, which does not preempt it
        2, // t10: Task4 ends, Task1 is dispatched
    ];
    assert_rows(
        &SLOTH,
        &trace,
        "0 4 0 0 3 0
         1 7 0 0 3 0
         2 5 0 1 2 1
         3 8 0 1 2 0
         4 2 0 0 1 0
         5 2 0 - 0 0
         6 6 0 - 0 0
         7 6 0 3 4 1
         8 1 0 3 4 0
         9 2 0 0 1 1",
    );
}

/// Source document 000, Table 4.3: BT1 (priority 1, autostart), BT2 (2), ET3 (3, extended), ET5 (5, extended) are bodies 0 to 3;
/// Res1 of BT1 and ET3. Ev1 of ET3 is bit 0.
const SLEEPY_SLOTH: [u8; 17] = [1, 4, 0, 1, 1, 0, 2, 0, 2, 3, 0, 2, 5, 0, 1, 5, 0];

#[test]
fn sleepy_sloth_figure_4_4_and_figure_2_of_the_paper() {
    let trace = [
        1, 2, // t1: BT1 activates ET3, which runs from t2 on
        10, 1, // t3: ET3 blocks, BT1 resumes at t4
        1, 1, // t5: BT1 activates BT2, which runs from t6 on
        11, 2, 1, // t7: BT2 unblocks ET3, which resumes at t8 after the point it had blocked at
        // Beyond the figure: all end, in the order of their priorities.
        2, 2, 2,
    ];
    assert_rows(
        &SLEEPY_SLOTH,
        &trace,
        "0 1 0 2 3 1
         1 10 0 0 1 0
         2 1 0 1 2 1
         3 11 0 2 3 0
         4 2 0 1 2 0
         5 2 0 0 1 0
         6 2 0 - 0 0",
    );
}

#[test]
fn sleepy_sloth_figure_4_7() {
    // The source gives the resource a slot of its own, 4, above its ceiling 3; here the level is the ceiling, and on an equal
    // priority the holder goes first.
    let rows = |leaves: u8| {
        format!(
            "0 4 0 0 3 0
             1 1 0 3 5 1
             2 {leaves} 0 0 3 0
             3 5 0 0 1 0"
        )
    };
    let get = [4, 0]; // t1: BT1 gets Res1 and its priority is raised
    let preempted = [1, 3]; // t2: ET5 preempts it
    let release = [5, 0]; // after t5, at which BT1 continues at the raised priority
    let end = [&get[..], &preempted, &[2], &release].concat(); // t4: ET5 terminates ..
    assert_rows(&SLEEPY_SLOTH, &end, &rows(2));
    let block = [&get[..], &preempted, &[10, 1], &release].concat(); // .. or blocks
    assert_rows(&SLEEPY_SLOTH, &block, &rows(10));
}

#[test]
fn sleepy_sloth_figure_4_7_with_et3_at_the_ceiling() {
    // ET3 waits for Ev1 while BT1 takes the resource. ET5 unblocks it: at the ceiling it comes after the holder, and runs when BT1
    // leaves its critical section.
    let trace = [1, 2, 10, 1, 4, 0, 1, 3, 11, 2, 1, 2, 5, 0, 4, 0];
    assert_rows(
        &SLEEPY_SLOTH,
        &trace,
        "0 1 0 2 3 1
         1 10 0 0 1 0
         2 4 0 0 3 0
         3 1 0 3 5 1
         4 11 0 3 5 0
         5 2 0 0 3 0
         6 5 0 2 3 0
         7 4 0 2 3 0",
    );
}

/// Source document 000, Table 4.5: a dispatcher round of length 1,000 with TTTask1 at offsets 100 and 600 and TTTask2 at 200. They are
/// bodies 1 and 2; body 0 is a task that starts the round. An entry at offset o is due at tick 1 + o after a Start with delay 1.
const ROUND: [u8; 24] = [1, 3, 0, 1, 1, 3, 2, 0, 3, 3, 0, 0, 1, 0xe8, 7, 3, 100, 1, 0xc8, 1, 2, 0xd8, 4, 1];

/// The ends are ours, before the deadlines that the table gives.
#[test]
fn sloth_on_time_figure_4_8() {
    let mut script = Script::default();
    script.event(&[8, 0, 1], 0, "0", 1, 0);
    script.event(&[2], 0, "-", 0, 0);
    script.ticks(1, "-", 0); // the round starts
    for _ in 0..3 {
        script.ticks(99, "-", 0);
        script.event(&[6], 0, "1", 201, 1); // 100: TTTask1
        script.ticks(99, "1", 201);
        script.event(&[6], 0, "2", 201, 1); // 200: TTTask2 preempts it
        script.ticks(100, "2", 201);
        script.event(&[2], 0, "1", 201, 0); // before its deadline 350 TTTask2 ends, and TTTask1 goes on
        script.ticks(100, "1", 201);
        script.event(&[2], 0, "-", 0, 0); // before its deadline 450 TTTask1 ends
        script.ticks(199, "-", 0);
        script.event(&[6], 0, "1", 201, 1); // 600: TTTask1 again
        script.ticks(100, "1", 201);
        script.event(&[2], 0, "-", 0, 0); // before its deadline 950
        script.ticks(300, "-", 0); // the next round starts
    }
    script.assert(&ROUND);
}

/// Beyond the figure.
#[test]
fn sloth_on_time_figure_4_8_without_an_end() {
    // TTTask1 is at work from 100 on and never ends: at 600, and twice in every round from then on, it is lost.
    let mut script = Script::default();
    script.event(&[8, 0, 1], 0, "0", 1, 0);
    script.ticks(100, "0", 1);
    script.event(&[6], 0, "1", 201, 1);
    script.ticks(99, "1", 201);
    script.event(&[6], 0, "2", 201, 1);
    script.event(&[2], 0, "1", 201, 0);
    // From 201 to 1,199, over 600 and 1,100; at 1,200 TTTask2 preempts it once more.
    script.ticks(999, "1", 201);
    script.event(&[6], 0, "2", 201, 1);
    script.lost(1, 2);
    script.assert(&ROUND);
}

/// The tasks of Table 4.1 (bodies 0 to 3, with the alarm as table 0) below the round of Table 4.5 (bodies 4 and 5, table 1). The source
/// has the priorities 1 to 4, and 6 and 7 for execution and trigger; here these are 201 and 202.
const MIXED: [u8; 39] = [
    1, 6, 0, 1, 1, 1, 2, 0, 0, 3, 0, 0, 4, 0, 3, 5, 0, 3, 6, 0, 2, 5, 5, 2, 100, 1, 0, 3, 0xe8, 7, 3, 100, 4, 0xc8, 1,
    5, 0xd8, 4, 4,
];

/// The text says that the application of Table 4.1 runs in the background time of that of Table 4.5, which may interrupt it at any
/// time. Where in Figure 4.1's flow it does so, and the ends, are ours.
#[test]
fn sloth_on_time_figure_4_12() {
    let mut script = Script::default();
    // Task1 starts the round and gets Res1; TTTask1 preempts it in its critical section.
    script.event(&[8, 1, 1], 0, "0", 1, 0);
    script.event(&[4, 0], 0, "0", 3, 0);
    script.ticks(100, "0", 3);
    script.event(&[6], 0, "4", 201, 1); // 100
                                        // The interrupt of ISR2 waits for the time-triggered tasks, and then for Task1's resource.
    script.event(&[7, 1], 0, "4", 201, 0);
    script.ticks(99, "4", 201);
    script.event(&[6], 0, "5", 201, 1); // 200: TTTask2 preempts TTTask1
    script.ticks(100, "5", 201);
    script.event(&[2], 0, "4", 201, 0);
    script.ticks(100, "4", 201);
    script.event(&[2], 0, "0", 3, 0); // the background goes on, at the ceiling
    script.event(&[5, 0], 0, "1", 2, 1);
    script.event(&[8, 0, 0xfa, 1], 0, "1", 2, 0); // ISR2 sets the alarm, 250 ticks from 400 on
    script.event(&[2], 0, "0", 1, 0);
    script.event(&[2], 0, "-", 0, 0);
    script.ticks(199, "-", 0);
    script.event(&[6], 0, "4", 201, 1); // 600: TTTask1 begins while nothing is left to run
    script.ticks(49, "4", 201);
    script.ticks(1, "4", 201); // 650: the alarm expires, Task4 is ready in the background
    script.ticks(50, "4", 201);
    script.event(&[2], 0, "3", 4, 1); // 700: TTTask1 ends, Task4 is dispatched
    script.event(&[1, 0], 0, "3", 4, 0);
    script.event(&[2], 0, "0", 1, 1);
    script.assert(&MIXED);
}

/// Two tasks of one kind, of priorities 1 and 2, and a task of priority 3 that starts a table of period 100 and ends. It has Task1 (body 1)
/// at 10 and 40 and Task2 (body 2) at 20 and 30.
fn two_tasks(kind: u8) -> Vec<u8> {
    vec![1, 3, 0, 3, 1, kind, 1, 0, kind, 2, 0, 0, 1, 100, 4, 10, 1, 20, 2, 30, 2, 40, 1]
}

/// The offsets are ours: the text gives the order of the activations in both parts.
#[test]
fn sloth_on_time_figure_4_13() {
    // Left part: Task1, then Task2. Right part: Task1 after Task2, which it preempts in an OSEKtime system alone.
    let trace = |script: &mut Script, levels: [u8; 2], right: [(&str, u8, u8); 2]| {
        let [one, two] = levels;
        script.event(&[8, 0, 1], 0, "0", 3, 0);
        script.event(&[2], 0, "-", 0, 0);
        script.ticks(10, "-", 0);
        script.event(&[6], 0, "1", one, 1);
        script.ticks(9, "1", one);
        script.event(&[6], 0, "2", two, 1);
        script.event(&[2], 0, "1", one, 0);
        script.event(&[2], 0, "-", 0, 0);
        script.ticks(9, "-", 0);
        script.event(&[6], 0, "2", two, 1);
        script.ticks(9, "2", two);
        let [(runner, level, begun), (next, next_level, next_begun)] = right;
        script.event(&[6], 0, runner, level, begun); // t6
        script.event(&[2], 0, next, next_level, next_begun);
        script.event(&[2], 0, "-", 0, 0);
    };
    let mut osektime = Script::default();
    trace(&mut osektime, [201, 201], [("1", 201, 1), ("2", 201, 0)]);
    osektime.assert(&two_tasks(3));
    let mut autosar = Script::default();
    trace(&mut autosar, [1, 2], [("2", 2, 0), ("1", 1, 1)]);
    autosar.assert(&two_tasks(0));
}

/// Source document 002, Figure 4.1: a dispatcher table of 200 ticks with Task1 at offset 60 and Task2 at 170; below it Figure 4.2's
/// event-triggered ET1 of priority 1. They are bodies 1, 2 and 0.
const MIXED_THESIS: [u8; 21] = [1, 3, 0, 1, 1, 3, 2, 0, 3, 3, 0, 0, 1, 0xc8, 1, 2, 60, 1, 0xaa, 1, 2];

/// Figure 4.2's flow at the times of Figure 4.1's table: bringing the two together, and t3 and t4, are ours.
#[test]
fn efficient_time_triggered_execution_figures_4_1_and_4_2() {
    let mut script = Script::default();
    script.event(&[8, 0, 1], 0, "0", 1, 0);
    script.ticks(60, "0", 1);
    for _ in 0..3 {
        script.event(&[6], 0, "1", 201, 1); // t1, at 60: TT1 preempts ET1
        script.ticks(109, "1", 201);
        script.event(&[6], 0, "2", 201, 1); // t2, at 170: TT2 preempts TT1
        script.ticks(10, "2", 201);
        script.event(&[2], 0, "1", 201, 0); // t3: TT2 ends, and the priority does not change
        script.ticks(10, "1", 201);
        script.event(&[2], 0, "0", 1, 0); // t4: TT1 ends, and it drops
        script.ticks(69, "0", 1); // from 190 to 259, before 60 of the next round
    }
    script.assert(&MIXED_THESIS);
}
