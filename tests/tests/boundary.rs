//! What include/osek.h promises of the C call beside its answers: that both libraries have it, null pointers with a length of
//! 0, and calls from several threads at once.

use std::fs;
use std::path::Path;
use std::process::Command;
use std::ptr::{null, null_mut};
use std::sync::Barrier;

use osek_tests::by_hand::with_deadlines;
use osek_tests::cases;
use osek_tests::compare::{outcome, FAST, FAST_MISSES, SUBJECT, SUBJECT_MISSES};
use osek_tests::listing::{DOCUMENT_CONFIG, DOCUMENT_TRACE};
use osek_tests::subject::{osek_draw, osek_misses, osek_oil, osek_run, osek_salvage, osek_verdict, osek_wait};

/// The functions that a library defines for others.
fn exported(library: &str, option: &str) -> Vec<String> {
    let path = Path::new(env!("CARGO_MANIFEST_DIR")).join("../build").join(library);
    let output = Command::new("nm").args([option, "--defined-only"]).arg(&path).output().expect("nm runs");
    assert!(output.status.success(), "{}", String::from_utf8_lossy(&output.stderr));
    let text = String::from_utf8_lossy(&output.stdout).into_owned();
    let mut names: Vec<String> = text.lines().filter_map(|line| line.split(" T ").nth(1)).map(String::from).collect();
    names.sort();
    names
}

#[test]
fn both_libraries_export_the_functions_of_the_header_and_no_others() {
    let header = Path::new(env!("CARGO_MANIFEST_DIR")).join("../include/osek.h");
    let text = fs::read_to_string(header).expect("the header can be read");
    let declared = text.lines().filter_map(|line| line.strip_prefix("uint64_t ")?.split('(').next());
    let mut declared: Vec<String> = declared.map(String::from).collect();
    declared.sort();
    assert!(declared.contains(&"osek_run".to_string()));
    assert_eq!(exported("libosek.a", "-g"), declared);
    assert_eq!(exported("libosek.so", "-D"), declared);
}

#[test]
fn a_pointer_of_length_0_may_be_null() {
    let (config, trace) = (&DOCUMENT_CONFIG, &DOCUMENT_TRACE);
    let mut out = [77; 128];
    unsafe {
        // No configuration: 1 at place 0, whatever else is there.
        assert_eq!(osek_run(null(), 0, null(), 0, null_mut(), 0), 1 << 32);
        assert_eq!(osek_run(null(), 0, trace.as_ptr(), trace.len(), out.as_mut_ptr(), out.len()), 1 << 32);
        // No trace: no events, and the losses of three bodies.
        assert_eq!(osek_run(config.as_ptr(), config.len(), null(), 0, null_mut(), 0), 30 << 32 | 6);
        assert_eq!(osek_run(config.as_ptr(), config.len(), null(), 0, out.as_mut_ptr(), out.len()), 0);
        assert_eq!(out[..6], [0; 6]);
        // No output: 4 × 17 + 2 × 3 bytes are needed.
        let result = osek_run(config.as_ptr(), config.len(), trace.as_ptr(), trace.len(), null_mut(), 0);
        assert_eq!(result, 30 << 32 | 74);
        // No output for a drawn trace: none is needed for no event, a byte for a Finish.
        let mut weights = [0; 12];
        weights[1] = 1;
        let draw = |count| osek_draw(1, weights.as_ptr(), [1; 4].as_ptr(), count, null_mut(), 0);
        assert_eq!((draw(0), draw(1)), (0, 30 << 32 | 1));
        // No configuration; no trace and no record; no record: the first event is missing.
        assert_eq!(osek_verdict(null(), 0, null(), 0, null(), 0), 1 << 32);
        assert_eq!(osek_verdict(config.as_ptr(), config.len(), null(), 0, null(), 0), u64::MAX);
        assert_eq!(osek_verdict(config.as_ptr(), config.len(), trace.as_ptr(), trace.len(), null(), 0), 0);
    }
    assert!(out[6..].iter().all(|byte| *byte == 77));
}

#[test]
fn a_pointer_of_length_0_may_be_null_in_a_salvage() {
    // A Tick, a byte to drop, a Tick.
    let trace: [u8; 3] = [6, 0, 6];
    let (mut events, mut list) = ([77; 8], [77; 8]);
    unsafe {
        // No trace: nothing kept, nothing dropped, and nothing needed.
        assert_eq!(osek_salvage(null(), 0, null_mut(), 0, null_mut(), 0), 0);
        assert_eq!(osek_salvage(null(), 0, events.as_mut_ptr(), events.len(), list.as_mut_ptr(), list.len()), 0);
        // No room for the events, which need two bytes, then none for the list, which needs two.
        let result = osek_salvage(trace.as_ptr(), trace.len(), null_mut(), 0, list.as_mut_ptr(), list.len());
        assert_eq!(result, 30 << 32 | 2);
        let result = osek_salvage(trace.as_ptr(), trace.len(), events.as_mut_ptr(), events.len(), null_mut(), 0);
        assert_eq!(result, 30 << 32 | 2);
        assert_eq!((events, list), ([77; 8], [77; 8]));
        // A readable trace drops nothing, and its list needs no room.
        let result = osek_salvage(trace.as_ptr(), 1, events.as_mut_ptr(), events.len(), null_mut(), 0);
        assert_eq!((result, events[..2].to_vec()), (1, vec![6, 77]));
    }
}

#[test]
fn a_pointer_of_length_0_may_be_null_in_a_reading_of_oil() {
    let text = b"TASK a { PRIORITY = 1; };";
    let mut config = [77; 8];
    let mut place = [5, 5];
    unsafe {
        // No text: no body, which is 4, at no line.
        assert_eq!(osek_oil(null(), 0, null_mut(), 0, place.as_mut_ptr()), 4 << 32);
        assert_eq!(place, [0, 0]);
        assert_eq!(osek_oil(null(), 0, config.as_mut_ptr(), config.len(), place.as_mut_ptr()), 4 << 32);
        // No room: the configuration takes seven bytes.
        assert_eq!(osek_oil(text.as_ptr(), text.len(), null_mut(), 0, place.as_mut_ptr()), 30 << 32 | 7);
    }
    assert_eq!((config, place), ([77; 8], [0, 0]));
}

#[test]
fn a_pointer_of_length_0_may_be_null_in_a_wait() {
    let (config, trace) = (&DOCUMENT_CONFIG, &DOCUMENT_TRACE);
    unsafe {
        // No configuration: 1 at place 0. No trace: body 0 has begun at the fresh start, and does not wait.
        assert_eq!(osek_wait(null(), 0, null(), 0, 0), 1 << 32);
        assert_eq!(osek_wait(null(), 0, trace.as_ptr(), trace.len(), 0), 1 << 32);
        assert_eq!(osek_wait(config.as_ptr(), config.len(), null(), 0, 0), 31 << 32);
    }
}

#[test]
fn a_pointer_of_length_0_may_be_null_in_a_list_of_misses() {
    // Body 0 has begun at the fresh start; with the deadline 1 it misses at the first Tick.
    let config = with_deadlines(&DOCUMENT_CONFIG, &[1, 0, 0]);
    let (config, trace) = (&config, &DOCUMENT_TRACE);
    let mut list = [77; 6];
    unsafe {
        // No configuration: 1 at place 0. No trace: no misses, whatever the list.
        assert_eq!(osek_misses(null(), 0, null(), 0, null_mut(), 0), 1 << 32);
        assert_eq!(osek_misses(null(), 0, trace.as_ptr(), trace.len(), list.as_mut_ptr(), list.len()), 1 << 32);
        assert_eq!(osek_misses(config.as_ptr(), config.len(), null(), 0, null_mut(), 0), 0);
        assert_eq!(osek_misses(config.as_ptr(), config.len(), null(), 0, list.as_mut_ptr(), list.len()), 0);
        // No list: three bytes are needed.
        let result = osek_misses(config.as_ptr(), config.len(), trace.as_ptr(), trace.len(), null_mut(), 0);
        assert_eq!(result, 30 << 32 | 3);
        assert_eq!(list, [77; 6]);
        let result = osek_misses(config.as_ptr(), config.len(), trace.as_ptr(), trace.len(), list.as_mut_ptr(), 6);
        assert_eq!((result, list), (1, [1, 0, 0, 77, 77, 77]));
    }
}

#[test]
fn several_threads_may_run_at_once() {
    const THREADS: usize = 8;
    let cases: Vec<_> = (0..500).map(|number| cases::case(11, number)).collect();
    let both = |run, misses, case| (outcome(run, case), outcome(misses, case));
    let expected: Vec<_> = cases.iter().map(|case| both(FAST, FAST_MISSES, case)).collect();
    let barrier = Barrier::new(THREADS);
    std::thread::scope(|scope| {
        for thread in 0..THREADS {
            let (cases, expected, barrier, both) = (&cases, &expected, &barrier, &both);
            scope.spawn(move || {
                barrier.wait();
                // Half of the threads share their inputs, the others are elsewhere in the row.
                let from = if thread % 2 == 0 { 0 } else { thread * 50 };
                for (case, expected) in cases.iter().zip(expected).cycle().skip(from).take(cases.len()) {
                    assert_eq!(both(SUBJECT, SUBJECT_MISSES, case), *expected);
                }
            });
        }
    });
}
