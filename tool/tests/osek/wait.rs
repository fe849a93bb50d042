//! `osek wait`: how many bodies end before one begins, and which.

use osek_tests::fast::TRACE_MAX;

use super::common::*;

/// docs/door.txt as bytes.
const CONFIG: [u8; 22] = [1, 4, 0, 12, 0, 0, 10, 0, 0, 9, 1, 1, 8, 0, 0, 1, 30, 2, 0, 0, 0, 1];
const TRACE: [u8; 6] = [8, 0, 1, 6, 7, 3];

fn folder() -> Folder {
    Folder::new().with("door.txt", DOOR).with("config.bin", CONFIG).with("trace.bin", TRACE)
}

#[test]
fn all_that_wait_are_told_in_the_order_in_which_they_begin() {
    let told = "sensor waits for 1 end: radio\ndoor waits for 3 ends: radio, sensor, record\n";
    folder().osek(&["wait", "door.txt"]).prints(told, 0);
}

#[test]
fn a_body_is_named_or_numbered() {
    let folder = folder();
    let told = "door waits for 3 ends: radio, sensor, record\n";
    folder.osek(&["wait", "door.txt", "door"]).prints(told, 0);
    folder.osek(&["wait", "door.txt", "3"]).prints(told, 0);
    // Bytes have no names of their own.
    let told = "isr3 waits for 3 ends: task0, task1, task2\n";
    folder.osek(&["wait", "config.bin", "trace.bin", "3"]).prints(told, 0);
    folder.osek(&["wait", "config.bin", "trace.bin", "isr3"]).prints(told, 0);
}

#[test]
fn an_isr_waits_behind_itself() {
    let folder = Folder::new().with("config.txt", "version 1\ntask main priority 1 autostart\nisr door priority 2\n");
    folder.write("trace.txt", "line door\nline door\n");
    folder.osek(&["wait", "config.txt", "trace.txt"]).prints("door waits for 1 end: door\n", 0);
    folder.write("trace.txt", "line door\n");
    folder.osek(&["wait", "config.txt", "trace.txt"]).prints("nobody waits to begin\n", 0);
    // Before the first event: who runs is told by the fresh start.
    folder.write("config.txt", "version 1\ntask main priority 1 autostart\ntask first priority 2 autostart\n");
    folder.write("trace.txt", "trace\n");
    folder.osek(&["wait", "config.txt", "trace.txt"]).prints("main waits for 1 end: first\n", 0);
}

#[test]
fn what_is_refused_is_told_with_its_reason() {
    let folder = folder();
    let refused = |arguments: &[&str], line: &str, why: &str| {
        let said = folder.osek(&[&["wait"], arguments].concat());
        assert_eq!((said.out.as_str(), said.code), (line, Some(1)), "{arguments:?}");
        assert_eq!(said.err, format!("osek: {why}\n"), "{arguments:?}");
    };
    refused(&["door.txt", "radio"], "refused 31 0\n", "the body does not wait to begin");
    refused(&["door.txt", "9"], "refused 34 0\n", "no body has this number");
    let config = "version 1\ntask low priority 1 autostart\ntask high priority 2\nresource flash users low high\n";
    folder.write("held.txt", format!("{config}trace\nget flash\nactivate high\n"));
    refused(&["held.txt"], "refused 32 0\n", "a resource is held");
    refused(&["held.txt", "high"], "refused 32 0\n", "a resource is held");
    folder.write("waits.txt", "version 1\nextended radio priority 1 autostart\ntrace\n");
    refused(&["waits.txt"], "refused 35 0\n", "the configuration has extended or time-triggered tasks");
    // The run's refusals come first, with their places.
    folder.write("trace.bin", [6, 13]);
    refused(&["config.bin", "trace.bin", "9"], "refused 23 1\n", "an event code is unknown");
}

#[test]
fn a_bad_command_line_says_what_is_wrong() {
    let folder = folder();
    let help = "; see osek wait --help";
    folder.osek(&["wait"]).fails(2, &format!("wait: CONFIG is missing{help}"));
    let unknown = format!("wait: no body is called dor: task0, task1, task2, isr3{help}");
    folder.osek(&["wait", "config.bin", "trace.bin", "dor"]).fails(2, &unknown);
}

#[test]
fn a_trace_without_room_for_the_ends_is_told_without_names() {
    let folder = folder();
    let mut trace = TRACE.to_vec();
    // Lines that no ISR has: refused, and nothing changes.
    while trace.len() + 2 <= TRACE_MAX {
        trace.extend([7, 99]);
    }
    folder.write("trace.bin", &trace);
    folder.osek(&["wait", "config.bin", "trace.bin", "3"]).prints("isr3 waits for 3 ends\n", 0);
}
