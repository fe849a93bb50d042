//! `osek inspect` and `osek coverage`: traces drawn, played on units and judged, reports, and what the traces show.

use std::process::{Command, Stdio};
use std::time::Duration;

use super::common::*;
use super::unit::{faulty, sample_in_c};

fn trailer() -> Folder {
    Folder::document().with("trailer.txt", include_str!("../../../unit/configs/trailer.txt"))
}

/// The report's four forms say the same, and each can be read.
#[track_caller]
fn check(folder: &Folder, report: &str, result: &str, traces: usize, differences: usize) {
    let (traces, differences) = (traces.to_string(), differences.to_string());
    python(folder, "check_report.py", &[report, result, &traces, &differences]);
}

/// The number that is the word at this place of a text.
#[track_caller]
fn count(text: &str, place: usize) -> usize {
    text.split(' ').nth(place).and_then(|word| word.parse().ok()).expect("the word is a number")
}

#[test]
fn a_right_unit_passes_and_a_seed_repeats_its_traces() {
    let folder = trailer();
    let unit = sample_in_c(&folder).display().to_string();
    let inspect = |seed: &str, report: &str| {
        let seed = if seed.is_empty() { vec![] } else { vec!["--seed", seed] };
        let all = [&["inspect", "trailer.txt", "--unit", &unit, "--traces", "12", "-o", report], &seed[..]].concat();
        let out = folder.osek(&all).done();
        assert!(out.starts_with("pass: no difference in 12 traces, "), "{out}");
        assert!(out.contains("\n  unit           the sample in C\n"), "{out}");
        check(&folder, report, "pass", 12, 0);
        let json = folder.text(&format!("{report}/report.json"));
        json.split("\"traces\": ").nth(1).expect("the traces are listed").to_string()
    };
    let first = inspect("7", "a");
    assert_eq!(first, inspect("7", "b"));
    assert_ne!(first, inspect("8", "c"));
    assert_ne!(inspect("", "d"), inspect("", "e"));
}

#[test]
fn a_difference_is_told_made_small_and_saved() {
    let folder = trailer();
    let unit = faulty("idle_level");
    let arguments =
        ["inspect", "trailer.txt", "--unit", &unit, "--seed", "1", "--kind", "drawn", "--shrink", "-o", "r"];
    let said = folder.osek(&arguments);
    assert_eq!(said.code, Some(1), "{}{}", said.out, said.err);
    assert!(said.out.starts_with("differs: 1 of "), "{}", said.out);
    assert!(said.out.contains(": level 0 expected, 1 given\n"), "{}", said.out);
    check(&folder, "r", "differs", count(&said.out, 3), 1);
    // Nobody runs after one Finish of the autostart task.
    assert_eq!(folder.read("r/difference-1/trace.bin"), [2]);
    assert!(said.out.contains("; made smaller from "), "{}", said.out);
    assert!(said.out.contains("\n  >    0  Finish  0 E_OK, - at 0  0 E_OK, - at 1\n"), "{}", said.out);
    let again = ["compare", "--unit", &unit, "r/difference-1/config.bin", "r/difference-1/trace.bin"];
    assert_eq!(folder.osek(&again).code, Some(1));
}

#[test]
fn differences_are_grouped_where_it_keeps_going() {
    let folder = trailer();
    let unit = faulty("idle_level");
    let arguments = [
        "inspect",
        "trailer.txt",
        "--unit",
        &unit,
        "--seed",
        "3",
        "--traces",
        "6",
        "--events",
        "60",
        "--keep-going",
        "-o",
        "r",
    ];
    let said = folder.osek(&[&arguments[..], &["--kind", "drawn"]].concat());
    assert!(said.out.starts_with("differs: ") && said.out.contains(" of 6 traces, 360 events, in "), "{}", said.out);
    assert!(count(&said.out, 1) > 1, "{}", said.out);
    assert!(said.out.contains("\ndifferences by what differs:\n"), "{}", said.out);
    // All that differ at a Finish are one group.
    assert_eq!(said.out.matches("\n  Finish: level: ").count(), 1, "{}", said.out);
    check(&folder, "r", "differs", 6, count(&said.out, 1));
}

#[test]
fn losses_and_silence_are_differences() {
    let folder = trailer();
    for (fault, told) in [
        ("wrong_losses", "losses of sensor: "),
        ("silent 3", ": the unit was silent at event 3\n"),
        ("wrong_fresh", "the fresh start: begun 1 expected, 0 given\n"),
        ("no_reset", "the unit was silent after the reset\n"),
    ] {
        let unit = faulty(fault);
        let said =
            folder.osek(&["inspect", "trailer.txt", "--unit", &unit, "--timeout", "2", "--seed", "1", "-o", fault]);
        assert!(said.out.contains(told), "{fault}: {}{}", said.out, said.err);
        assert_eq!(said.code, Some(1));
    }
}

#[test]
fn an_interrupted_inspection_leaves_its_report() {
    let folder = trailer();
    let unit = faulty("slow");
    let arguments = ["inspect", "trailer.txt", "--unit", &unit, "--events", "50", "--kind", "drawn", "-o", "r"];
    let mut command = folder.command(&arguments);
    let child = command.stdout(Stdio::piped()).stderr(Stdio::piped()).spawn().expect("the tool runs");
    std::thread::sleep(Duration::from_secs(4));
    let killed = Command::new("kill").args(["-INT", &child.id().to_string()]).status();
    assert!(killed.expect("kill runs").success());
    let said = Said::of(&arguments, child.wait_with_output().expect("the tool ends"));
    assert_eq!(said.code, Some(5), "{}{}", said.out, said.err);
    assert!(
        said.out.starts_with("interrupted after ") && said.out.contains(" of 200 traces: no difference in "),
        "{}",
        said.out
    );
    let traces = count(&said.out, 2);
    assert!((1..200).contains(&traces));
    check(&folder, "r", "interrupted", traces, 0);
}

#[test]
fn bad_orders_say_what_is_wrong() {
    let folder = trailer().with("bad.bin", [1, 0]);
    for (arguments, message) in [
        (&["trailer.txt"][..], "inspect: --unit is missing; see osek inspect --help"),
        (
            &["trailer.txt", "--unit", "x", "--weights", "tack=1"],
            "inspect: tack is no event: activate, finish, chain, get, release, tick, line, start, stop, wait, set, clear; \
             see osek inspect --help",
        ),
        (
            &["trailer.txt", "--unit", "x", "--limits", "delays=0"],
            "inspect: the limit of delays has to be above 0; see osek inspect --help",
        ),
        (
            &["trailer.txt", "--unit", "x", "--weights", "tick=70000"],
            "inspect: `tick=70000` is not NAME=NUMBER, 0 to 65535; see osek inspect --help",
        ),
        (
            &["trailer.txt", "--unit", "x", "--kind", "any"],
            "inspect: --kind takes drawn, guided or both, not any; see osek inspect --help",
        ),
    ] {
        folder.osek(&[&["inspect"], arguments].concat()).fails(2, message);
    }
    folder.osek(&["inspect", "bad.bin", "--unit", "x"]).fails(4, "bad.bin is refused: refused 4 1");
}

#[test]
fn an_event_of_weight_0_is_not_drawn() {
    let folder = trailer();
    let unit = sample_in_c(&folder).display().to_string();
    let arguments =
        ["inspect", "trailer.txt", "--unit", &unit, "--traces", "4", "--kind", "drawn", "--weights", "tick=0,line=0"];
    let out = folder.osek(&arguments).done();
    assert!(out.contains("\n  not shown: Tick: 0 E_OK\n") && out.contains("\n  not shown: Line: 0 E_OK\n"), "{out}");
}

#[test]
fn coverage_says_what_is_shown_and_what_never_can_be() {
    let folder = Folder::document().with("one.txt", "version 1\ntask a priority 1 autostart\nresource r users a\n");
    folder.write("t.txt", "trace\nget r\nrelease r\nfinish\n");
    let out = folder.osek(&["coverage", "one.txt", "t.txt"]).done();
    let line = |what: &str| {
        let line = out.lines().find(|line| line.trim_start().starts_with(what));
        line.unwrap_or_else(|| panic!("{what}: {out}")).trim_start()[what.len()..].trim().to_string()
    };
    assert!(out.starts_with("1 trace, 3 events\n\nstatuses: 3 of "), "{out}");
    assert_eq!(line("Get: 0 E_OK"), "1");
    assert_eq!(line("Get: 1 E_OS_ACCESS"), "not shown");
    assert_eq!(line("Line: 0 E_OK"), "never: no ISR");
    assert_eq!(line("a Release while the body holds another resource"), "never: no body uses two resources");
    let out = folder.osek(&["coverage", "config.bin", "trace.bin", "trace.bin"]).done();
    assert!(out.starts_with("2 traces, 34 events\n"), "{out}");
    folder.osek(&["coverage", "config.bin", "config.bin"]).fails(4, "config.bin is refused: osek explain says why");
}

/// The numbers of a row of `osek power`: traces, and whether the listing is passed.
#[track_caller]
fn power_row(out: &str, fault: &str) -> (usize, bool) {
    let line = out.lines().find(|line| line.starts_with(fault)).unwrap_or_else(|| panic!("{fault}: {out}"));
    let words: Vec<&str> = line.split_whitespace().collect();
    (words[2].parse().expect("a count of traces"), words[1] == "passes")
}

#[test]
fn power_says_what_a_draw_finds() {
    let folder =
        trailer().with("one.txt", "version 1\ntask a priority 1 autostart\ntask b priority 2\nresource r users a b\n");
    let power = |config: &str, kind: &str| folder.osek(&["power", config, "--seed", "1", "--kind", kind]).done();
    let out = power("trailer.txt", "both");
    assert_eq!(power("trailer.txt", "both"), out);
    // What document 01's listing shows of its own mistakes: a short period, and a dispatch at the ceiling.
    for (fault, passes) in [
        ("every_later_beacon_a_tick_early", false),
        ("two_tasks_write_the_flash", false),
        ("outer_resource_left_unguarded", true),
        ("started_task_activated_again", true),
        ("right_on_the_published_listing_only", true),
    ] {
        let (traces, listing) = power_row(&out, fault);
        assert!(traces > 20, "{fault}: {out}");
        assert_eq!(listing, passes, "{fault}: {out}");
    }
    assert!(out.contains("every answer is right (by losses alone)"), "{out}");
    assert_eq!(power_row(&out, "old_alarm_after_a_restart").0, 0);
    // One resource shows no wrong Release; long first delays are guided to.
    assert_eq!(power_row(&power("one.txt", "both"), "outer_resource_left_unguarded").0, 0);
    assert_eq!(power_row(&power("trailer.txt", "drawn"), "long_start_a_turn_early").0, 0);
    assert!(power_row(&power("trailer.txt", "guided"), "long_start_a_turn_early").0 > 0);
    let json = folder.osek(&["power", "one.txt", "--json"]).done();
    assert!(json.contains("\"name\": \"two_tasks_write_the_flash\""), "{json}");
}
