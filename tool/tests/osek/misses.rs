//! `osek misses`: which tasks miss their deadlines, in words and as JSON; what `osek explain` says of them.

use super::common::*;

/// docs/deadlines.txt: the record becomes ready with 3 ticks so far and waits for the flash, the radio at tick 3.
const TOLD: &str = "\
tick 9: record misses its deadline, 6 ticks after tick 3
tick 23: radio misses its deadline, 20 ticks after tick 3
2 misses
";

#[test]
fn misses_are_told_in_order_with_names() {
    let folder = Folder::new().with("logger.txt", DEADLINES);
    folder.osek(&["misses", "logger.txt"]).prints(TOLD, 0);
    // Bytes have no names of their own.
    folder.osek(&["asm", "logger.txt", "-o", "logger"]).prints("", 0);
    let told = TOLD.replace("record", "task2").replace("radio", "task1");
    folder.osek(&["misses", "logger.config.bin", "logger.trace.bin"]).prints(&told, 0);
}

#[test]
fn misses_are_told_as_json() {
    let folder = Folder::new().with("logger.txt", DEADLINES);
    let expected = "{\"count\": 2,\n\"first\": [\n  \
                    {\"tick\": 9, \"task\": 2, \"name\": \"record\", \"deadline\": 6},\n  \
                    {\"tick\": 23, \"task\": 1, \"name\": \"radio\", \"deadline\": 20}\n]}\n";
    folder.osek(&["misses", "logger.txt", "--json"]).prints(expected, 0);
    folder.write("none.txt", "version 1\ntask main priority 1\ntrace\n");
    folder.osek(&["misses", "none.txt", "--json"]).prints("{\"count\": 0,\n\"first\": []}\n", 0);
}

#[test]
fn the_count_is_told_of_none_one_and_more_than_are_listed() {
    let folder = Folder::new();
    let says = |deadline: &str, trace: &str, lines: usize, last: &str| {
        folder.write("one.txt", format!("version 3\ntask main priority 1 autostart{deadline}\ntrace\n{trace}"));
        let out = folder.osek(&["misses", "one.txt"]).done();
        assert_eq!((out.lines().count(), out.lines().last()), (lines, Some(last)), "{out}");
    };
    says("", "tick 9\n", 1, "no task has a deadline");
    says(" deadline 9", "tick 8\n", 1, "no deadline is missed");
    says(" deadline 9", "tick 9\n", 2, "1 miss");
    says(" deadline 1", &"tick\nchain main\n".repeat(64), 65, "64 misses");
    says(" deadline 1", &"tick\nchain main\n".repeat(65), 65, "65 misses, of which these are the first 64");
    says(" deadline 1", &"tick\nchain main\n".repeat(2_000), 65, "2,000 misses, of which these are the first 64");
}

#[test]
fn a_refusal_is_printed_and_explained() {
    let folder = Folder::new().with("config.txt", "version 3\nisr door priority 9 deadline 3\n").with("trace.bin", [6]);
    let said = folder.osek(&["misses", "config.txt", "trace.bin"]);
    assert_eq!((said.out.as_str(), said.code), ("refused 5 5\n", Some(1)));
    assert!(said.err.contains("the deadline of ISR door is 3. Allowed: 0, because it is an ISR."), "{}", said.err);
    folder.write("config.txt", "version 3\ntask main priority 9 deadline 3\n");
    folder.write("trace.bin", [6, 13]);
    let said = folder.osek(&["misses", "config.txt", "trace.bin", "--json"]);
    let expected = "{\"refused\": {\"code\": 23, \"place\": 1, \"meaning\": \"an event code is unknown\"}}\n";
    assert_eq!((said.out.as_str(), said.code), (expected, Some(1)));
}

#[test]
fn explain_tells_misses_beside_losses() {
    let folder = Folder::new().with("logger.txt", DEADLINES);
    let out = folder.osek(&["explain", "logger.txt"]).done();
    let lines: Vec<&str> = out.lines().collect();
    assert_eq!(lines[0], "accepted: 32 events, 0 with a status other than 0, 0 losses, 2 misses");
    assert_eq!(
        lines[1],
        "event 13 Tick (logger.txt:20, tick 9) while radio runs at 7: record misses its deadline, 6 ticks after tick 3"
    );
    let out = folder.osek(&["explain", "logger.txt", "--event", "30"]).done();
    assert!(out.contains("\n  does    radio misses its deadline, 20 ticks after tick 3\n"), "{out}");
    // At tick 5 the task misses, and its entry is lost. Without deadlines nothing is said of misses.
    let text =
        "version 3\ntask main priority 1 autostart\ntask due priority 2 deadline 4\ntable t period 4\nat 0 due\n\
                trace\nstart t 1\ntick 5\n";
    folder.write("both.txt", text);
    let out = folder.osek(&["explain", "both.txt"]).done();
    let both = "due misses its deadline, 4 ticks after tick 1; the entry of t at 0 is due while due is running: \
                an activation of it is lost, which makes 1";
    assert!(out.starts_with("accepted: 6 events, 0 with a status other than 0, 1 loss, 1 miss\n"), "{out}");
    assert!(out.contains(both), "{out}");
    folder.write("both.txt", text.replace(" deadline 4", ""));
    let out = folder.osek(&["explain", "both.txt"]).done();
    assert!(out.starts_with("accepted: 6 events, 0 with a status other than 0, 1 loss\n"), "{out}");
}
