//! The guarded memory is seen to catch what it should, and the stack use of the run and of the misses is measured.

use std::process::Command;

use osek_tests::cases::{self, Case, Shape};
use osek_tests::compare::{self, Implementation};
use osek_tests::guard::{announce, report_faults, GuardedRun, Run, Side};
use osek_tests::stack;

fn case() -> Case {
    Case { config: vec![1; 20], trace: vec![6; 30], out_len: 40, fill: 9 }
}

/// Runs that reach one byte outside a slice, at either end.
const FAULTS: [(&str, Side, Run); 8] = [
    ("reads before config", Side::Before, |config, _, _| unsafe { config.as_ptr().sub(1).read_volatile().into() }),
    ("reads after config", Side::After, |config, _, _| unsafe {
        config.as_ptr().add(config.len()).read_volatile().into()
    }),
    ("reads before trace", Side::Before, |_, trace, _| unsafe { trace.as_ptr().sub(1).read_volatile().into() }),
    ("reads after trace", Side::After, |_, trace, _| unsafe { trace.as_ptr().add(trace.len()).read_volatile().into() }),
    ("writes before out", Side::Before, |_, _, out| unsafe {
        out.as_mut_ptr().sub(1).write_volatile(0);
        0
    }),
    ("writes after out", Side::After, |_, _, out| unsafe {
        out.as_mut_ptr().add(out.len()).write_volatile(0);
        0
    }),
    ("writes to config", Side::After, |config, _, _| unsafe {
        config.as_ptr().cast_mut().write_volatile(0);
        0
    }),
    ("writes to trace", Side::After, |_, trace, _| unsafe {
        trace.as_ptr().cast_mut().write_volatile(0);
        0
    }),
];

/// Run as a process of its own by the test below; on its own it does nothing.
#[test]
fn faulty_child() {
    let Ok(name) = std::env::var("OSEK_FAULT") else { return };
    let (_, side, run) = FAULTS.into_iter().find(|fault| fault.0 == name).expect("the fault has a name");
    report_faults();
    announce(12, 34);
    GuardedRun::default().run(run, &case(), side);
}

#[test]
fn one_byte_outside_a_slice_ends_the_process() {
    for (name, ..) in FAULTS {
        let child = Command::new(std::env::current_exe().expect("this test has a file"))
            .args(["--exact", "faulty_child", "--nocapture"])
            .env("OSEK_FAULT", name)
            .output()
            .expect("the child runs");
        let said = String::from_utf8_lossy(&child.stderr).into_owned();
        assert!(!child.status.success(), "{name}: not caught");
        assert!(said.contains("memory touched outside the slices: seed 12 case 34"), "{name}: {said}");
    }
}

#[test]
#[should_panic(expected = "wrote outside its output")]
fn a_write_far_from_the_guarded_side_is_seen() {
    let run: Run = |_, _, out| unsafe {
        out.as_mut_ptr().add(out.len()).write_volatile(0);
        0
    };
    GuardedRun::default().run(run, &case(), Side::Before);
}

#[test]
fn empty_slices_are_not_touched() {
    let case = Case { config: vec![], trace: vec![], out_len: 0, fill: 0 };
    let mut memory = GuardedRun::default();
    for implementation in [runs(), misses()].concat() {
        for side in [Side::Before, Side::After] {
            assert_eq!(memory.run(implementation.run, &case, side), (1 << 32, vec![]), "{}", implementation.name);
        }
    }
}

#[test]
fn stack_use_is_measured() {
    fn takes_10_000_bytes(_: &[u8], _: &[u8], _: &mut [u8]) -> u64 {
        let mut bytes = std::hint::black_box([1u8; 10_000]);
        bytes[77] = 2;
        std::hint::black_box(&bytes).iter().map(|byte| u64::from(*byte)).sum()
    }
    let used = stack::used(takes_10_000_bytes, &[case()]);
    assert!((10_000..25_000).contains(&used), "measured {used} bytes");
}

fn runs() -> Vec<Implementation> {
    [&[compare::FAST][..], &compare::others()].concat()
}

fn misses() -> Vec<Implementation> {
    [&[compare::FAST_MISSES][..], &compare::other_misses()].concat()
}

/// Above what any implementation may use.
const STACK_LIMIT: usize = 64 * 1024;

#[test]
fn a_run_and_the_misses_need_little_stack() {
    let mut cases: Vec<Case> = (0..2_000).map(|number| cases::case(5, number)).collect();
    let shapes = [Shape::NoTicks, Shape::Mixed, Shape::Ticks, Shape::Waiting, Shape::TimeTriggered];
    cases.extend(shapes.map(|shape| cases::timed(1, shape, 8_192)));
    for implementation in [runs(), misses()].concat() {
        let used = stack::used(implementation.run, &cases);
        println!("stack use of {}: {used} bytes", implementation.name);
        assert!(used < STACK_LIMIT, "{} uses {used} bytes of stack", implementation.name);
    }
}
