//! `osek explain`: a refusal says field, offset, value and what was allowed.

use osek_tests::cases;
use osek_tests::coverage::REFUSALS;

use super::common::*;

/// Document 01's configuration with other bytes from a place on.
fn damaged(place: usize, bytes: &[u8]) -> Vec<u8> {
    let mut config = DOCUMENT_CONFIG.to_vec();
    config.splice(place..place + 1, bytes.iter().copied());
    config
}

#[test]
fn each_refusal_of_the_configuration_is_a_sentence() {
    let entries = |counts: &[u8]| {
        let mut config = vec![1, 1, 0, 1, 1, 0, counts.len() as u8];
        for count in counts {
            config.extend([40, *count]);
            config.extend((0..*count).flat_map(|offset| [offset, 0]));
        }
        config
    };
    let cases: [(Vec<u8>, &str, &str); 22] = [
        (vec![], "1 0", "offset 0: the version is missing: the input ends here."),
        (DOCUMENT_CONFIG[..19].to_vec(), "1 19", "offset 19: the task of entry 1 of table 0 table0 is missing: the input ends here."),
        (
            [&DOCUMENT_CONFIG[..3], &[0x80]].concat(),
            "1 4",
            "offset 4: the priority of body 0 is not complete: the input ends after 80.",
        ),
        (
            damaged(3, &[0x82, 0]),
            "2 4",
            "offset 4: the priority of body 0 is not in its shortest form: of 82 00 the 00 is superfluous.",
        ),
        (damaged(0, &[4]), "3 0", "offset 0: the version is 4. Allowed: 1, 2 or 3."),
        (damaged(1, &[33]), "4 1", "offset 1: the body count is 33. Allowed: 1 to 32."),
        (damaged(11, &[17]), "4 11", "offset 11: the resource count is 17. Allowed: 0 to 16."),
        (damaged(13, &[9]), "4 13", "offset 13: the table count is 9. Allowed: 0 to 8."),
        (damaged(15, &[0]), "4 15", "offset 15: the entry count of table 0 table0 is 0. Allowed: 1 to 16."),
        (
            damaged(2, &[4]),
            "5 2",
            "offset 2: the kind of body 0 body0 is 4. Allowed: 0 (task), 1 (ISR), 2 (extended task) or 3 (time-triggered task).",
        ),
        (damaged(3, &[0xc9, 1]), "5 3", "offset 3: the priority of body 0 task0 is 201. Allowed: 1 to 200, each used once."),
        (damaged(4, &[2]), "5 4", "offset 4: the autostart of body 0 task0 is 2. Allowed: 0 or 1."),
        (damaged(10, &[1]), "5 10", "offset 10: the autostart of body 2 isr2 is 1. Allowed: 0, because it is an ISR."),
        (
            damaged(12, &[8]),
            "5 12",
            "offset 12: the users of resource 0 resource0 are 0b1000. Allowed: a mask with bits of the bodies 0 to 2 only, and not 0.",
        ),
        (damaged(14, &[0x80, 0x80, 4]), "5 14", "offset 14: the period of table 0 table0 is 65,536. Allowed: 1 to 65,535."),
        (damaged(16, &[4]), "5 16", "offset 16: the offset of entry 0 of table 0 table0 is 4. Allowed: 0 to 3, below the period."),
        (damaged(17, &[2]), "5 17", "offset 17: the task of entry 0 of table 0 table0 is 2 isr2, an ISR. Allowed: a task: 0 task0 or 1 task1."),
        (
            damaged(6, &[2]),
            "6 6",
            "offset 6: the priority of body 1 task1 is 2. Allowed: 1 to 200, each used once; body 0 task0 has this one already.",
        ),
        (
            damaged(18, &[0]),
            "7 19",
            "offset 19: the task of entry 1 of table 0 table0 is 0 task0, a task. Allowed: an entry after the one before it, rising by offset, then by task, none twice; offset 0, task task0 does not come after offset 0, task task1.",
        ),
        (
            entries(&[16, 16, 16, 15, 2]),
            "8 142",
            "offset 142: the entry count of table 4 table4 is 2. Allowed: at most 1, because all tables together have at most 64.",
        ),
        ([&DOCUMENT_CONFIG[..], &[5]].concat(), "9 20", "offset 20: the configuration is complete here, and 1 byte more follows."),
        (vec![1; 4097], "10 0", "config.bin has 4,097 bytes."),
    ];
    let folder = Folder::document();
    for (config, refusal, sentence) in cases {
        folder.write("config.bin", config);
        let said = folder.osek(&["explain", "config.bin", "trace.bin"]);
        let lines: Vec<&str> = said.out.lines().collect();
        assert!(lines[0].starts_with(&format!("refused {refusal}: ")), "{}", said.out);
        let told = lines[1].strip_prefix("config.bin, ").unwrap_or(lines[1]);
        assert_eq!(told, sentence);
        assert_eq!((said.code, said.err.as_str()), (Some(1), ""));
        assert_eq!(refusal.starts_with("10 "), lines.len() == 2, "{}", said.out);
    }
}

#[test]
fn what_is_refused_of_a_deadline_is_a_sentence() {
    let cases = [
        (
            "task log priority 1 deadline 65536",
            "2:30: the deadline of task log is 65,536. Allowed: 0 (none) to 65,535.",
        ),
        ("isr door priority 9 deadline 3", "2:30: the deadline of ISR door is 3. Allowed: 0, because it is an ISR."),
    ];
    for (body, sentence) in cases {
        let folder = Folder::new().with("config.txt", format!("version 3\n{body}\ntrace\n"));
        let out = folder.osek(&["explain", "config.txt"]).out;
        let lines: Vec<&str> = out.lines().collect();
        assert_eq!(lines[..2], ["refused 5 5: a field is outside its range", &format!("config.txt:{sentence}")]);
    }
    // Bytes that end where the deadline is due.
    let folder = Folder::document().with("config.bin", [3, 1, 0, 1, 1]);
    let out = folder.osek(&["explain", "config.bin", "trace.bin"]).out;
    assert!(out.contains("offset 5: the deadline of body 0 is missing: the input ends here."), "{out}");
}

#[test]
fn what_is_refused_of_a_time_triggered_task_is_a_sentence() {
    let bodies =
        "version 1\ntask low priority 1 autostart\ntimed one priority 2\ntimed two priority 3\ntask high priority 4\n";
    let cases = [
        (
            bodies.replace("timed one priority 2", "timed one priority 2 autostart"),
            "5 7",
            "3:22: the autostart of time-triggered task one is 1. Allowed: 0, because it is a time-triggered task.",
        ),
        (
            format!("{bodies}resource flash users low two\n"),
            "5 15",
            "6:1: the users of resource flash are low and two. Allowed: bodies of the configuration, at least one, none of them a time-triggered task.",
        ),
        (
            format!("{bodies}table round period 9\nat 3 one\nat 3 two\n"),
            "13 21",
            "8:6: the task of entry 1 of table round is two, a time-triggered task. Allowed: an offset of its own for each time-triggered task; one and two share 3, and two is one.",
        ),
        (
            format!("{bodies}table round period 9\nat 3 one\nat 3 high\n"),
            "13 21",
            "8:6: the task of entry 1 of table round is high, a task. Allowed: an offset of its own for each time-triggered task; one and high share 3, and one is one.",
        ),
        (
            format!("{bodies}table round period 9\nat 3 one\nat 4 high\n"),
            "14 21",
            "8:6: the task of entry 1 of table round is high, a task. Allowed: time-triggered tasks in one table, and nobody else in it; one is one, and high in the same table is not.",
        ),
        (
            format!("{bodies}table round period 9\nat 3 low\nat 4 two\n"),
            "14 21",
            "8:6: the task of entry 1 of table round is two, a time-triggered task. Allowed: time-triggered tasks in one table, and nobody else in it; two is one, and low in the same table is not.",
        ),
        (
            format!("{bodies}table round period 9\nat 3 one\ntable other period 9\nat 4 two\n"),
            "14 23",
            "9:6: the task of entry 0 of table other is two, a time-triggered task. Allowed: time-triggered tasks in one table, and nobody else in it; two is one, and table round has such tasks already.",
        ),
    ];
    for (text, refusal, sentence) in cases {
        let said = Folder::new().with("config.txt", format!("{text}trace\n")).osek(&["explain", "config.txt"]);
        let lines: Vec<&str> = said.out.lines().collect();
        assert!(lines[0].starts_with(&format!("refused {refusal}: ")), "{}", said.out);
        assert_eq!(lines[1], format!("config.txt:{sentence}"));
        assert_eq!((said.code, said.err.as_str()), (Some(1), ""));
    }
}

#[test]
fn the_calls_of_a_time_triggered_task_and_those_that_name_it_are_told() {
    let text = "version 1\ntask low priority 1 autostart\ntimed one priority 2\ntable round period 9\nat 0 one\n\
                trace\nactivate one\nchain one\nset one 1\nstart round 1\ntick\nactivate low\nchain low\nstop round\nclear 1\nfinish\n";
    let low = "  low running at 1\n";
    let one = "  one running at 201; low preempted at 1\n";
    let entries =
        "while low runs at 1: status 3 E_OS_ID: one is a time-triggered task, which entries of a table alone start";
    let finish =
        "while one runs at 201: status 2 E_OS_CALLEVEL: one is a time-triggered task, which makes no call but Finish";
    Folder::new().with("b.txt", text).osek(&["explain", "b.txt"]).prints(
        &format!(
            "\
accepted: 10 events, 7 with a status other than 0, 0 losses
event 0 Activate one (b.txt:7, tick 0) {entries}
{low}event 1 Chain one (b.txt:8, tick 0) {entries}
{low}event 2 Set one 0x1 (b.txt:9, tick 0) while low runs at 1: status 1 E_OS_ACCESS: one is a time-triggered task, no extended one
{low}event 5 Activate low (b.txt:12, tick 1) {finish}
{one}event 6 Chain low (b.txt:13, tick 1) {finish}
{one}event 7 Stop round (b.txt:14, tick 1) {finish}
{one}event 8 Clear 0x1 (b.txt:15, tick 1) {finish}
{one}"
        ),
        0,
    );
}

#[test]
fn each_refusal_of_the_trace_is_a_sentence() {
    let cases: [(&[u8], &str, &str); 7] = [
        (&[6, 1], "21 2", "offset 2: the body of event 1 Activate is missing: the input ends here."),
        (&[8, 0, 0x80], "21 3", "offset 3: the delay of event 0 Start is not complete: the input ends after 80."),
        (&[0x80], "21 1", "offset 1: the code of event 0 is not complete: the input ends after 80."),
        (
            &[4, 0x80, 0x80, 0],
            "22 3",
            "offset 3: the resource of event 0 Get is not in its shortest form: of 80 80 00 the 00 is superfluous.",
        ),
        (
            &[9, 0xff, 0xff, 0xff, 0xff, 0x10],
            "22 5",
            "offset 5: the table of event 0 Stop is above 4,294,967,295: the fifth byte of FF FF FF FF 10 may be at most 0F.",
        ),
        (&[6, 0x80, 1], "23 1", "offset 1: the code of event 1 is 128. Allowed: 1 to 12."),
        (&[0], "23 0", "offset 0: the code of event 0 is 0. Allowed: 1 to 12."),
    ];
    let folder = Folder::document();
    for (trace, refusal, sentence) in cases {
        folder.write("trace.bin", trace);
        let said = folder.osek(&["explain", "config.bin", "trace.bin"]);
        let lines: Vec<&str> = said.out.lines().collect();
        assert!(lines[0].starts_with(&format!("refused {refusal}: ")), "{}", said.out);
        assert_eq!(lines[1], format!("trace.bin, {sentence}"));
        assert_eq!(said.code, Some(1));
    }
    folder.write("trace.bin", vec![6; 9_000]);
    folder
        .osek(&["explain", "config.bin", "trace.bin"])
        .prints("refused 20 0: the trace is longer than 8,192 bytes\ntrace.bin has 9,000 bytes.\n", 1);
}

#[test]
fn the_bytes_around_the_place_are_marked() {
    let mut config = DOCUMENT_CONFIG.to_vec();
    config.splice(17..18, [0x80, 1]);
    let folder = Folder::document().with("config.bin", config);
    folder.osek(&["explain", "config.bin", "trace.bin"]).prints(
        "\
refused 5 17: a field is outside its range
config.bin, offset 17: the task of entry 0 of table 0 table0 is 128. Allowed: a task: 0 task0 or 1 task1.
       0  01 03 00 02 01 00 05 00 01 09 00 01 03 01 04 02
      16  00 80 01 02 00
             ^^ ^^
",
        1,
    );
}

#[test]
fn a_text_is_refused_at_its_line() {
    let folder = Folder::new().with("both.txt", DOCUMENT_TEXT.replace("priority 9", "priority 5"));
    let said = folder.osek(&["explain", "both.txt"]);
    assert_eq!(
        said.out.lines().nth(1),
        Some("both.txt:4:19: the priority of ISR door is 5. Allowed: 1 to 200, each used once; task high has this one already.")
    );
    // A thing is called by the text's name, with what it is.
    folder.write("both.txt", DOCUMENT_TEXT.replace("at 2 low", "at 2 door"));
    let said = folder.osek(&["explain", "both.txt"]);
    let entry = "both.txt:8:8: the task of entry 1 of table beacon is door, an ISR. Allowed: a task: low or high.";
    assert_eq!(said.out.lines().nth(1), Some(entry));
    folder.write("both.txt", DOCUMENT_TEXT.replace("stop beacon", "stop door"));
    let said = folder.osek(&["explain", "both.txt"]);
    let message = "osek: both.txt:22:6: no table is named `door` (it is a body): the configuration has beacon";
    assert_eq!(said.err.lines().next(), Some(message));
}

#[test]
fn an_accepted_run_says_which_events_were_refused_or_lost_something_and_why() {
    let folder = Folder::new().with("both.txt", DOCUMENT_TEXT);
    folder.osek(&["explain", "both.txt"]).prints(
        "\
accepted: 17 events, 3 with a status other than 0, 1 loss
event 4 Chain high (both.txt:14, tick 1) while door runs at 9: status 2 E_OS_CALLEVEL: door is an ISR, and only a task makes the call Chain
  door running at 9; high ready at 5; low preempted at 5, holds flash (ceiling 5)
event 6 Finish (both.txt:16, tick 1) while low runs at 5: status 6 E_OS_RESOURCE: low holds flash (ceiling 5)
  high ready at 5; low running at 5, holds flash (ceiling 5)
event 9 Tick (both.txt:18, tick 3) while high runs at 5: the entry of beacon at 2 is due while low is preempted: an activation of it is lost, which makes 1
  high running at 5; low preempted at 2
event 16 Finish (both.txt:24, tick 5) while nobody runs: status 2 E_OS_CALLEVEL: nobody runs
  every body is suspended
",
        0,
    );
}

/// The events of document 01's listing and of others, in full: states, priorities, holders and the rule that decides.
#[test]
fn an_event_is_told_with_the_rule_that_decides() {
    let folder = Folder::new().with("both.txt", DOCUMENT_TEXT);
    folder.osek(&["explain", "both.txt", "--event", "2"]).prints(
        "\
event 2 Tick (both.txt:12, tick 1): status 0 E_OK
  before  low running at 5, holds flash (ceiling 5)
  does    the entry of beacon at 0 is due: high becomes ready
  after   high ready at 5; low running at 5, holds flash (ceiling 5)
  runs    low goes on: it holds flash (ceiling 5), high is at 5 too, and on equal priority the holder goes first
",
        0,
    );
    folder.osek(&["explain", "both.txt", "--event=7"]).prints(
        "\
event 7 Release flash (both.txt:17, tick 1): status 0 E_OK
  before  high ready at 5; low running at 5, holds flash (ceiling 5)
  does    low gives flash back; its current priority falls from 5 to 2
  after   high running at 5; low preempted at 2
  runs    high begins: it is at 5, above low at 2
",
        0,
    );
    let all = folder.osek(&["explain", "both.txt", "--all"]).done();
    assert_eq!(all.lines().count(), 17 * 5);
    for words in [
        "does    beacon starts: first due are high at tick 1, low at tick 3\n",
        "does    low takes flash (ceiling 5); its current priority rises from 2 to 5\n",
        "runs    door begins: it is at 9, above low at 5\n",
        "runs    low is resumed: it holds flash (ceiling 5), high is at 5 too, and on equal priority the holder goes first\n",
        "runs    nobody: every body is suspended\n",
        "does    no entry is due\n",
        "does    beacon stops\n",
    ] {
        assert!(all.contains(words), "{words} is not in\n{all}");
    }
    folder
        .osek(&["explain", "both.txt", "--event", "17"])
        .fails(2, "explain: --event takes 0 to 16, not 17; see osek explain --help");
    folder
        .osek(&["explain", "both.txt", "--event", "1", "--all"])
        .fails(2, "explain: --event and --all exclude each other; see osek explain --help");
}

/// Event bits, second requests, self-chains and the latest start, each by its sentence.
#[test]
fn every_event_says_what_it_does() {
    let text = "version 2\ntask main priority 5 autostart\nextended radio priority 3\nisr door priority 9\n\
                timed sample priority 2\ntimed flush priority 1\nresource flash users main radio\nresource log users main\n\
                table round period 100\nat 0 sample\nat 1 flush\n\
                trace\nactivate radio\nset radio 0x4\nline door\nline door\nfinish\nfinish\nchain main\nget flash\nget log\n\
                release flash\nrelease log\nrelease log\nstart round 0\nstart round 1\nstart round 1\ntick 2\nfinish\nfinish\n\
                release flash\nfinish\nwait 0x6\nwait 0x1\nline door\nset radio 0x8\nset radio 0x1\nfinish\nclear 0x5\n\
                wait 0\nline main\nline 9\nline door\nline door\nline door\nget flash\nstop round\nstop round\n";
    let all = Folder::new().with("b.txt", text).osek(&["explain", "b.txt", "--all"]).done();
    let told: Vec<Vec<&str>> = all.lines().collect::<Vec<_>>().chunks(5).map(<[&str]>::to_vec).collect();
    let does = [
        (0, "radio becomes ready"),
        (1, "radio has bits 0x4"),
        (2, "door becomes ready"),
        (3, "door has begun, and one more request of it waits"),
        (4, "door ends, and is ready again by the request that waits"),
        (5, "door ends"),
        (6, "main ends; main becomes ready"),
        (8, "main takes log (ceiling 5); its current priority stays 5"),
        (9, "main took log after flash, and has to give it back first"),
        (11, "main does not hold log"),
        (12, "the delay is 0"),
        (13, "round starts: first due are sample at tick 1, flush at tick 2"),
        (14, "round runs already, since 0 ticks ago"),
        (15, "the entry of round at 0 is due: sample is started"),
        (21, "radio goes on at once: of 0x6 it has 0x4 already"),
        (22, "radio waits for 0x1"),
        (24, "radio has bits 0xc; it waited for 0x1 and still waits"),
        (25, "radio has bits 0xd; it waited for 0x1 and no longer waits"),
        (27, "radio has bits 0x8 left"),
        (28, "radio waits for 0x0, which no Set can end"),
        (29, "main is a task, no ISR"),
        (30, "there is no ISR 9: the bodies are 0 to 4"),
        (33, "a request of door waits already; the line is counted as lost, which makes 1"),
        (34, "door is no declared user of flash, which main or radio may take"),
        (35, "round stops"),
        (36, "round is stopped"),
    ];
    for (step, words) in does {
        assert_eq!(told[step][2], format!("  does    {words}"), "event {step}");
    }
    let runs = [
        (4, "door begins again: it is at 9, above main at 5"),
        (6, "main begins again: it is at 5, above radio at 3"),
        (15, "sample begins: it is time-triggered, and runs above all others, at 201"),
        (16, "flush begins: of the time-triggered tasks that have begun and not ended it began last, at 201"),
        (22, "nobody: every body is suspended or waits"),
        (26, "radio is resumed: nobody else is ready or has begun; it is at 3"),
    ];
    for (step, words) in runs {
        assert_eq!(told[step][4], format!("  runs    {words}"), "event {step}");
    }
}

#[test]
fn what_is_refused_about_events_is_told() {
    let text = "version 1\ntask plain priority 2 autostart\nextended radio priority 5\nisr door priority 9\n\
                resource flash users radio\ntrace\nwait 1\nclear 0x3\nset door 1\nset plain 1\nset radio 1\n\
                activate radio\nget flash\nwait 0x80000000\n";
    let said = Folder::new().with("b.txt", text).osek(&["explain", "b.txt"]).done();
    let told: Vec<&str> = said.lines().filter(|line| line.starts_with("event ")).collect();
    let bits = "plain is a task, and only an extended task has event bits";
    assert_eq!(
        told,
        [
            format!("event 0 Wait 0x1 (b.txt:7, tick 0) while plain runs at 2: status 1 E_OS_ACCESS: {bits}"),
            format!("event 1 Clear 0x3 (b.txt:8, tick 0) while plain runs at 2: status 1 E_OS_ACCESS: {bits}"),
            "event 2 Set door 0x1 (b.txt:9, tick 0) while plain runs at 2: status 3 E_OS_ID: door is an ISR, no task".into(),
            "event 3 Set plain 0x1 (b.txt:10, tick 0) while plain runs at 2: status 1 E_OS_ACCESS: plain is a task, no extended one".into(),
            "event 4 Set radio 0x1 (b.txt:11, tick 0) while plain runs at 2: status 7 E_OS_STATE: radio is suspended".into(),
            "event 7 Wait 0x80000000 (b.txt:14, tick 0) while radio runs at 5: status 6 E_OS_RESOURCE: radio holds flash (ceiling 5)".into(),
        ]
    );
}

#[test]
fn a_body_that_is_no_user_is_told_so() {
    let text = "version 1\ntask low priority 2 autostart\ntask high priority 5\nresource flash users high\n\
                resource own users low\ntrace\nget flash\nget own\nget own\n";
    Folder::new().with("b.txt", text).osek(&["explain", "b.txt"]).prints(
        "\
accepted: 3 events, 2 with a status other than 0, 0 losses
event 0 Get flash (b.txt:7, tick 0) while low runs at 2: status 33 E_USER: low is no declared user of flash, which high may take
  low running at 2
event 2 Get own (b.txt:9, tick 0) while low runs at 2: status 1 E_OS_ACCESS: own is held already, by low
  low running at 2, holds own (ceiling 2)
",
        0,
    );
}

#[test]
fn a_lost_line_is_said_to_be_counted_in_version_2_alone() {
    let bounces = "isr door priority 9\ntrace\nline door\nline door\nline door\nline 1\nline door\n";
    let folder = Folder::new();
    for (version, losses) in [(1, "0 losses"), (2, "2 losses")] {
        folder.write("b.txt", format!("version {version}\n{bounces}"));
        let waits = "while door runs at 9: status 4 E_OS_LIMIT: a request of door waits already";
        let lost = |count: u32| {
            if version == 1 {
                String::new()
            } else {
                format!("; the line is counted as lost, which makes {count}")
            }
        };
        let states = "  door running at 9, is requested again\n";
        folder.osek(&["explain", "b.txt"]).prints(
            &format!(
                "\
accepted: 5 events, 3 with a status other than 0, {losses}
event 2 Line door (b.txt:6, tick 0) {waits}{}
{states}event 3 Line 1 (b.txt:7, tick 0) while door runs at 9: status 3 E_OS_ID: there is no ISR 1: the only body is 0
{states}event 4 Line door (b.txt:8, tick 0) {waits}{}
{states}",
                lost(1),
                lost(2),
            ),
            0,
        );
    }
}

/// What is said to be lost, event by event, is what the library counts.
#[test]
fn the_losses_and_misses_that_are_told_are_the_library_s() {
    let folder = Folder::new();
    let (mut counted, mut missed) = (0, 0);
    for number in 0..150 {
        let case = cases::case(6, number);
        folder.write("config.bin", &case.config);
        folder.write("trace.bin", &case.trace);
        let listing = folder.osek(&["run", "config.bin", "trace.bin", "--names"]).out;
        let said = folder.osek(&["explain", "config.bin", "trace.bin"]).out;
        let mut all = 0;
        for (name, lost) in listing.lines().filter_map(|line| line.strip_prefix("lost ")?.split_once(' ')) {
            let lost: usize = lost.parse().expect("a count");
            let line = format!(" Line {name} ");
            let lines = said.lines().filter(|told| told.contains(&line) && told.contains("counted as lost")).count();
            // Of an entry at the same tick as another one the name stands behind, of any other before.
            let before = said.matches(&format!(" while {name} is ")).count();
            let behind = said.matches(&format!("an activation of {name} is lost")).count();
            assert_eq!(lines + before + behind, lost, "case {number}, {name}: {said}");
            all += lost;
        }
        if listing.starts_with("refused") {
            continue;
        }
        let first: Vec<&str> = said.lines().next().unwrap_or_default().split(", ").collect();
        let losses = if all == 1 { "1 loss".into() } else { format!("{} losses", grouped(all)) };
        assert_eq!(first.get(2), Some(&&*losses), "case {number}: {said}");
        counted += all;
        let misses = folder.osek(&["misses", "config.bin", "trace.bin"]).done();
        let told = said.matches(" misses its deadline, ").count();
        match misses.lines().last() {
            Some("no task has a deadline") => assert_eq!(first.len(), 3, "case {number}: {said}"),
            Some("no deadline is missed") => assert_eq!((first[3], told), ("0 misses", 0), "case {number}: {said}"),
            last => assert_eq!(last.and_then(|last| last.split(", ").next()), Some(first[3]), "case {number}: {said}"),
        }
        assert!(first.get(3).is_none_or(|misses| misses.starts_with(&format!("{} miss", grouped(told)))), "{said}");
        missed += told;
    }
    assert!(counted > 200 && missed > 50, "{counted} {missed}");
}

fn grouped(number: usize) -> String {
    let digits = number.to_string();
    match digits.len() {
        0..=3 => digits,
        length => format!("{},{}", &digits[..length - 3], &digits[length - 3..]),
    }
}

#[test]
fn every_drawn_refusal_is_explained_at_its_place() {
    let folder = Folder::new();
    let mut seen = Vec::new();
    let missing = |seen: &[u32]| REFUSALS.into_iter().find(|code| *code != 30 && !seen.contains(code));
    // Some refusals are rare.
    for number in 0..4_000 {
        if number >= 400 && missing(&seen).is_none() {
            break;
        }
        let case = cases::case(5, number);
        // Bytes that look like a text are read as one.
        let is_text = |bytes: &[u8]| !bytes.is_empty() && bytes.iter().all(|byte| (b' '..=b'~').contains(byte));
        if is_text(&case.config) || is_text(&case.trace) {
            continue;
        }
        folder.write("config.bin", &case.config);
        folder.write("trace.bin", &case.trace);
        let said = folder.osek(&["explain", "config.bin", "trace.bin"]);
        let first = said.out.lines().next().unwrap_or_default().to_string();
        if let Some(refused) = first.strip_prefix("refused ") {
            let listing = folder.osek(&["run", "config.bin", "trace.bin"]).out;
            let place = listing.trim_end().strip_prefix("refused ").expect("the run is refused too");
            assert!(refused.starts_with(&format!("{place}: ")), "{listing}{}", said.out);
            assert!(!said.out.contains("nothing is wrong"), "{}", said.out);
            seen.extend(place.split(' ').next().and_then(|code| code.parse::<u32>().ok()));
        }
        assert_eq!(said.err, "");
    }
    assert_eq!(missing(&seen), None, "not drawn");
}
