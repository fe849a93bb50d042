//! `osek compare`: stand-ins with one planted fault each are found out, and the difference is small.

use std::path::{Path, PathBuf};
use std::process::Command;

use osek_tests::fast::read_number;
use osek_tests::subject::LIBRARY;

use super::common::*;

/// Built beside the tool by `cargo test`.
pub fn stand_in() -> PathBuf {
    let path = Path::new(OSEK).with_file_name("examples").join("stand_in");
    assert!(path.is_file(), "{} is not built: cargo build --example stand_in, in the same profile", path.display());
    path
}

fn simulator(fault: &str) -> String {
    format!("{} {fault}", stand_in().display())
}

/// A fault, the most bytes of configuration and trace that the difference needs, and what is said of it.
type Planted = (&'static str, usize, usize, &'static str);

#[test]
fn planted_faults_are_found_made_small_and_told() {
    let faults: [Planted; 18] = [
        ("limit_is_id", 14, 8, ": status 4 E_OS_LIMIT expected, 3 E_OS_ID given"),
        ("ceiling_not_shown", 18, 10, "Get resource0: level "),
        ("second_request_lost", 14, 10, ": status 0 E_OK expected, 4 E_OS_LIMIT given"),
        ("tenth_tick_lost", 20, 20, " expected, "),
        ("delay_one_short", 18, 10, " expected, "),
        ("release_ends_the_body", 16, 10, "Release resource0: runner "),
        ("set_bit_forgotten", 24, 24, "Wait 0x1: runner extended"),
        ("resumed_begins", 16, 10, ": begun 0 expected, 1 given"),
        ("first_start_first", 24, 12, "Tick: runner timed"),
        ("trigger_level_shown", 18, 8, "Tick: level 201 expected, 202 given"),
        ("triggered_loss_forgotten", 18, 12, ": 1 expected, 0 given"),
        ("losses_high_byte_first", 18, 12, "losses of body"),
        ("idle_as_255", 10, 4, ": runner - expected, 255 given"),
        ("unknown_code_one_later", 10, 4, "refusal 23 at place "),
        ("left_over_accepted", 10, 2, " expected, 0 events given"),
        ("last_line_end_missing", 10, 4, "the listings have the same lines, but not the same line ends"),
        ("output_losses_high_byte_first", 18, 12, "losses of body"),
        ("output_without_losses", 10, 4, " expected, no answer given: it printed nothing"),
    ];
    let folder = Folder::new();
    for (fault, config_most, trace_most, told) in faults {
        let said = folder.osek(&["compare", "--sim", &simulator(fault), "-o", fault]);
        assert_eq!((said.code, said.err.as_str()), (Some(1), ""), "{fault}: {}", said.out);
        let lines: Vec<&str> = said.out.lines().collect();
        assert!(lines[2].contains(told), "{fault}: {}", said.out);
        // Of an answer the states and the rule are told, of losses where they happen.
        let reasons = lines[3..lines.len() - 2].iter();
        let first = if lines[2].starts_with("event ") { "  at      tick " } else { "  event " };
        assert!(reasons.clone().all(|line| line.starts_with("  ")), "{fault}: {}", said.out);
        let of_the_run =
            lines[2].starts_with("event ") || (lines[2].starts_with("losses ") && !lines[2].contains(": 0 "));
        let given = reasons.clone().next().is_some_and(|line| line.starts_with(first));
        assert_eq!(given, of_the_run, "{fault}: {}", said.out);
        let (config, trace) = (folder.read(&format!("{fault}/config.bin")), folder.read(&format!("{fault}/trace.bin")));
        assert!(config.len() <= config_most && trace.len() <= trace_most, "{fault}: {config:?} {trace:?}");
        shows_again(&folder, fault, &lines);
    }
}

/// The command that is given shows the difference a second time, and the files say the same.
#[track_caller]
fn shows_again(folder: &Folder, fault: &str, lines: &[&str]) {
    let last = lines.last().expect("there are lines");
    let command = last.strip_prefix("to see it again: osek ").expect("the last line is a command");
    let output = Command::new("sh").arg("-c").arg(format!("{OSEK} {command}")).current_dir(&folder.0).output();
    let again = Said::of(&[command], output.expect("sh runs"));
    assert!(again.out.contains(lines[2]), "{fault}: {}{}", again.out, again.err);
    assert_eq!(again.code, Some(1));
    let expected = folder.text(&format!("{fault}/expected"));
    // Bytes that look like a text are shown again by the text of the case.
    if command.ends_with("trace.bin") {
        let run = ["run", &format!("{fault}/config.bin"), &format!("{fault}/trace.bin")];
        assert_eq!(folder.osek(&run).out, expected);
    }
    let text = folder.text(&format!("{fault}/case.txt"));
    assert!(text.starts_with(&format!("# {}\n", lines[2])), "{text}");
    assert_eq!(folder.osek(&["run", &format!("{fault}/case.txt")]).out, expected);
}

#[test]
fn a_right_simulator_is_equal_with_the_listing_or_the_output() {
    let folder = Folder::document();
    for fault in ["none", "output"] {
        let said = folder.osek(&["compare", "--sim", &simulator(fault), "--count", "150", "--seed", "3"]);
        let out = said.done();
        assert!(out.starts_with("150 cases of seed 3: all equal ("), "{out}");
        folder.osek(&["compare", "--sim", &simulator(fault), "config.bin", "trace.bin"]).prints("equal\n", 0);
    }
    let own = format!("{OSEK} run");
    folder.osek(&["compare", "--sim", &own, "--count", "50"]).done();
    let chatty = format!("f() {{ head -c 1000000 /dev/zero >&2; {OSEK} run \"$@\"; }}; f");
    folder.osek(&["compare", "--sim", &chatty, "config.bin", "trace.bin"]).prints("equal\n", 0);
    assert!(!folder.0.join("difference").exists());
}

#[test]
fn a_simulator_that_breaks_down_differs() {
    let folder = Folder::new();
    let said = folder.osek(&["compare", "--sim", &simulator("chain_crashes"), "-o", "a"]);
    assert_eq!(said.code, Some(1), "{}", said.err);
    // A shell that reports its child's signal by its exit status leaves nothing on standard output.
    assert!(said.out.contains("1 event expected, no answer given: it "), "{}", said.out);
    assert_eq!(folder.read("a/trace.bin").len(), 2, "{}", said.out);
    let said = folder.osek(&["compare", "--sim", &simulator("silent"), "-o", "b"]);
    assert!(said.out.contains("no answer given: it printed nothing"), "{}", said.out);
    let hangs = simulator("stop_hangs");
    folder.write("stop.txt", "version 1\ntask a priority 1 autostart\ntrace\nstop 0\n");
    for endless in [hangs.as_str(), "yes #"] {
        let arguments = ["compare", "--sim", endless, "--timeout", "1", "-o", "c", "stop.txt"];
        let output = Command::new("timeout").args(["60", OSEK]).args(arguments).current_dir(&folder.0).output();
        let said = Said::of(&arguments, output.expect("timeout runs"));
        assert!(said.out.contains("no answer given: it did not end within 1 s"), "{}{}", said.out, said.err);
    }
}

#[test]
fn a_simulator_that_can_not_be_started_is_no_difference() {
    let folder = Folder::new().with("data.so", "no library").with("empty.c", "int x;");
    let said = folder.osek(&["compare", "--sim", "./no-such-simulator"]);
    assert_eq!((said.code, said.out.as_str()), (Some(4), ""));
    assert!(said.err.starts_with("osek: the simulator can't be started: "), "{}", said.err);
    folder.osek(&["compare", "--lib", "no.so"]).fails(4, "no.so can't be read: No such file or directory");
    let said = folder.osek(&["compare", "--lib", "data.so"]);
    assert!(said.err.contains("data.so can't be called: ") && said.code == Some(4), "{}", said.err);
    build(&folder, &["empty.c"], "empty.so");
    let said = folder.osek(&["compare", "--lib", "empty.so"]);
    assert!(said.err.contains("undefined symbol: osek_run") && said.code == Some(4), "{}", said.err);
}

#[test]
fn exactly_one_simulator_is_named() {
    let folder = Folder::document();
    let see = "; see osek compare --help";
    folder.osek(&["compare"]).fails(2, &format!("compare: --sim, --unit or --lib is missing{see}"));
    folder
        .osek(&["compare", "--sim", "x", "--lib", "y"])
        .fails(2, &format!("compare: --sim, --unit and --lib exclude each other{see}"));
    for (option, value) in [("--count", "3"), ("--class", "bcc1"), ("--earlier", "x")] {
        folder
            .osek(&["compare", "--sim", "true", option, value, "config.bin", "trace.bin"])
            .fails(2, &format!("compare: {option} goes with drawn cases, and not with files{see}"));
    }
    folder
        .osek(&["compare", "--sim", "true", "--keep-going", "config.bin", "trace.bin"])
        .fails(2, &format!("compare: --keep-going goes with drawn cases, and not with files{see}"));
}

/// A shared library of C sources.
#[track_caller]
fn build(folder: &Folder, sources: &[&str], library: &str) {
    let gcc = Command::new("gcc")
        .args(["-shared", "-fPIC", "-O1", "-o", library])
        .args(sources)
        .current_dir(&folder.0)
        .output()
        .expect("gcc runs");
    assert!(gcc.status.success(), "{}", String::from_utf8_lossy(&gcc.stderr));
}

/// Spoils what the proved run, under another name, has done.
const SPOILED: &str = "
#include <stddef.h>
#include <stdint.h>
#include <stdio.h>
typedef uint8_t byte;
uint64_t proved_run(const byte *, size_t, const byte *, size_t, byte *, size_t);
uint64_t osek_run(const byte *c, size_t cl, const byte *t, size_t tl, byte *o, size_t ol)
{
    uint64_t r = proved_run(c, cl, t, tl, o, ol);
    uint64_t refusal = r >> 32, used = refusal ? 0 : 4 * (r & 0xffffffff) + 2 * c[1];
    SPOIL
    return r;
}
";

#[test]
fn a_library_is_compared_with_its_whole_output() {
    let folder = Folder::new();
    let renamed = Command::new("objcopy")
        .args(["--redefine-sym", "osek_run=proved_run"])
        .arg(LIBRARY)
        .arg(folder.0.join("proved.a"))
        .status();
    assert!(renamed.expect("objcopy runs").success());
    let libraries = [
        ("right", "", ""),
        ("chatty", "puts(\"hello\"); fflush(stdout);", ""),
        ("output_too_short", "if (refusal == 30) r++;", " expected, refusal 30 at place "),
        (
            "refused_writes",
            "if (refusal == 23 && ol > 0) o[0] ^= 1;",
            " as expected, but byte 0 of the output was written",
        ),
        (
            "writes_behind",
            "if (!refusal && ol > used) o[used] ^= 1;",
            " of the output buffer was written, and the output ends at ",
        ),
        ("level_off", "if (!refusal && r > 0) o[2]++;", ": level "),
        (
            "input_changed",
            "if (tl > 0) ((byte *)t)[0] = 6;",
            "no answer given: it printed nothing, and on standard error: osek: the library has changed its input",
        ),
        ("crashes", "if (tl == 1) *(volatile int *)0 = 1;", "no answer given: it was ended by signal 11"),
    ];
    for (name, spoil, told) in libraries {
        folder.write("spoiled.c", SPOILED.replace("SPOIL", spoil));
        let library = format!("{name}.so");
        build(&folder, &["spoiled.c", "proved.a"], &library);
        if told.is_empty() {
            let out = folder.osek(&["compare", "--lib", &library, "--count", "100"]).done();
            assert!(out.starts_with("100 cases of seed 1: all equal ("), "{out}");
            continue;
        }
        let said = folder.osek(&["compare", "--lib", &library, "-o", name]);
        assert_eq!(said.code, Some(1), "{name}: {}{}", said.out, said.err);
        let lines: Vec<&str> = said.out.lines().collect();
        assert!(lines[2].contains(told), "{name}: {}", said.out);
        let last = lines.last().expect("there are lines");
        let command = last.strip_prefix("to see it again: osek ").expect("the last line is a command");
        let output = Command::new("sh").arg("-c").arg(format!("{OSEK} {command}")).current_dir(&folder.0).output();
        let again = Said::of(&[command], output.expect("sh runs"));
        assert!(again.out.contains(lines[2]), "{name}: {}{}", again.out, again.err);
    }
}

/// Whether a case is accepted, the kinds of its bodies, its version and its event codes.
fn contents(folder: &Folder, name: &str) -> (bool, Vec<u32>, u32, Vec<u32>) {
    let listing = folder.text(&format!("{name}.expected"));
    let config = folder.read(&format!("{name}.config.bin"));
    let mut numbers = Vec::new();
    let mut at = 0;
    while let Ok((number, next)) = read_number(&config, at) {
        numbers.push(number);
        at = next;
    }
    let fields = if numbers[0] == 3 { 4 } else { 3 };
    let kinds = numbers[2..].iter().step_by(fields).take(numbers[1] as usize).copied().collect();
    let rows = listing.lines().skip(1).filter(|line| !line.starts_with("lost"));
    let events = rows.filter_map(|line| line.split(' ').nth(1)?.parse().ok()).collect();
    (!listing.starts_with("refused"), kinds, numbers[0], events)
}

#[test]
fn cases_are_chosen_by_their_version() {
    let folder = Folder::new();
    for list in ["1", "2", "3", "1,2", "2,3"] {
        folder.osek(&["cases", "--accepted", "--versions", list, "--count", "20", "-o", list]).prints("", 0);
        let index = folder.text(&format!("{list}/index.csv"));
        let names = index.lines().skip(1).filter_map(|line| line.split(',').next());
        let mut versions: Vec<u32> = names.map(|name| contents(&folder, &format!("{list}/{name}")).2).collect();
        assert_eq!(versions.len(), 20);
        versions.sort_unstable();
        versions.dedup();
        let known: Vec<u32> = list.split(',').filter_map(|number| number.parse().ok()).collect();
        assert_eq!(versions, known);
    }
    let message =
        "cases: --versions takes 1, 2 or 3, or several with commas between them, not 4; see osek cases --help";
    folder.osek(&["cases", "--versions", "4", "--count", "1", "-o", "new"]).fails(2, message);
}

#[test]
fn cases_are_chosen_by_what_a_simulator_knows() {
    let folder = Folder::new();
    let classes: [(&str, &[u32], &[u32]); 4] = [
        ("bcc1", &[0, 1], &[1, 2, 3, 4, 5, 6, 7, 8, 9]),
        ("ecc1", &[0, 1, 2], &[1, 2, 3, 4, 5, 6, 7, 8, 9, 10, 11, 12]),
        ("timed", &[0, 1, 3], &[1, 2, 3, 4, 5, 6, 7, 8, 9]),
        ("ecc1,timed", &[0, 1, 2, 3], &[1, 2, 3, 4, 5, 6, 7, 8, 9, 10, 11, 12]),
    ];
    for (class, kinds, events) in classes {
        let chosen = ["cases", "--accepted", "--class", class, "--versions", "1", "--count", "25", "-o", class];
        folder.osek(&chosen).prints("", 0);
        let index = folder.text(&format!("{class}/index.csv"));
        let names: Vec<&str> = index.lines().skip(1).filter_map(|line| line.split(',').next()).collect();
        assert_eq!(names.len(), 25);
        let (mut seen_kinds, mut seen_events) = (Vec::new(), Vec::new());
        for name in names {
            let (accepted, has_kinds, version, has_events) = contents(&folder, &format!("{class}/{name}"));
            assert!(accepted && version == 1, "{class} {name}");
            seen_kinds.extend(has_kinds);
            seen_events.extend(has_events);
        }
        let distinct = |mut numbers: Vec<u32>| {
            numbers.sort_unstable();
            numbers.dedup();
            numbers
        };
        assert_eq!(distinct(seen_kinds), kinds, "{class}");
        assert_eq!(distinct(seen_events), events, "{class}");
    }
    // A simulator that knows no extended tasks agrees on its own class, and not on all.
    let basic = simulator("no_extended");
    let said = folder.osek(&["compare", "--sim", &basic, "--class", "bcc1,timed", "--count", "60"]).done();
    assert!(said.starts_with("60 cases of seed 1: all equal ("), "{said}");
    assert_eq!(folder.osek(&["compare", "--sim", &basic, "--count", "60"]).code, Some(1));
    folder.osek(&["cases", "--class", "bcc2", "--count", "1", "-o", "x"]).fails(
        2,
        "cases: --class takes bcc1, ecc1 or timed, or several with commas between them, not bcc2; see osek cases --help",
    );
}

#[test]
fn all_differences_are_counted_by_their_sort_and_played_first_the_next_time() {
    let folder = Folder::new();
    let wrong = simulator("two_faults");
    let said =
        folder.osek(&["compare", "--sim", &wrong, "--count", "80", "--keep-going", "-o", "found", "--shrink", "2"]);
    assert_eq!(said.code, Some(1), "{}{}", said.out, said.err);
    let first = said.out.lines().next().unwrap_or_default();
    assert!(first.starts_with("80 cases of seed 1: ") && first.contains(" different, of "), "{first}");
    let is_sort = |line: &&str| line.split_once(". ").is_some_and(|(number, _)| number.parse::<u32>().is_ok());
    let sorts: Vec<&str> = said.out.lines().filter(is_sort).collect();
    assert!(sorts.iter().any(|sort| sort.contains(": status 4 E_OS_LIMIT expected, 3 E_OS_ID given: ")), "{sorts:?}");
    assert!(sorts.iter().any(|sort| sort.contains(": runner: ")), "{sorts:?}");
    // `1. SORT: 25 cases; case 3 of seed 1 differs`
    let count = |sort: &&str| sort.split("; case ").next()?.rsplit(": ").next()?.split(' ').next()?.parse::<u32>().ok();
    let counted: u32 = sorts.iter().filter_map(count).sum();
    let different = first.split(", ").nth(1).and_then(|words| words.split(' ').next()?.parse().ok());
    assert_eq!(Some(counted), different, "{}", said.out);
    for number in 1..=sorts.len() {
        assert!(folder.0.join(format!("found/{number}/config.bin")).is_file(), "{number}");
    }
    // A right simulator passes them, and one with one of the faults meets it among them.
    let right = folder.osek(&["compare", "--sim", &simulator("none"), "--earlier", "found", "--count", "5"]).done();
    assert!(right.starts_with(&format!("{} earlier cases and 5 cases of seed 1: all equal (", sorts.len())), "{right}");
    let again = folder.osek(&["compare", "--sim", &simulator("limit_is_id"), "--earlier", "found", "--count", "5"]);
    assert!(again.out.starts_with("found/") && again.code == Some(1), "{}", again.out);
    folder.write("empty.txt", "");
    std::fs::create_dir(folder.0.join("none")).expect("a folder can be made");
    folder
        .osek(&["compare", "--sim", "true", "--earlier", "none"])
        .fails(4, "none holds no case: no config.bin with a trace.bin");
}

#[test]
fn what_a_simulator_prints_is_shown_and_given_has_the_form_of_expected() {
    let folder = Folder::new()
        .with("both.txt", DOCUMENT_TEXT)
        .with("record.lst", DOCUMENT_LISTING.replace("3 7 0 2 9 1", "3 7 0 2 5 1"));
    let chatty = "f() { printf 'usage: sim CONFIG\\nno \\033[31mcolour\\n'; }; f";
    let said = folder.osek(&["compare", "--sim", chatty, "both.txt"]);
    assert!(said.out.starts_with("17 events expected, ") || said.out.starts_with("event 0 "), "{}", said.out);
    assert!(!said.out.contains('\x1b'), "{}", said.out);
    let text = "f() { printf 'usage: sim CONFIG\\n'; }; f";
    let said = folder.osek(&["compare", "--sim", text, "both.txt"]);
    let told = "17 events expected, and neither a listing nor an output given, but: `usage: sim CONFIG`";
    assert!(said.out.starts_with(told), "{}", said.out);
    assert!(!said.out.contains('\x1b'), "{}", said.out);
    // A record is no simulator: its own difference is told first, with the text's names, and the command for it.
    let said = folder.osek(&["compare", "--sim", "f() { cat record.lst; }; f", "both.txt"]);
    let lines: Vec<&str> = said.out.lines().collect();
    assert_eq!(lines[0], "event 3 Line door: level 9 expected, 5 given");
    assert_eq!(lines[1], "  at      both.txt:13, tick 1");
    assert_eq!(lines[6], "it says the same of an empty trace: osek check compares a record");
    // Output in bytes is written as a listing, too.
    let said = folder.osek(&["compare", "--sim", &simulator("output_losses_high_byte_first"), "-o", "high"]);
    assert_eq!(said.code, Some(1));
    let (expected, given) = (folder.text("high/expected"), folder.text("high/given"));
    let answers = |text: &str| text.split("lost ").next().map(String::from);
    assert_eq!(answers(&expected), answers(&given));
    assert!(expected != given && given.contains("\nlost "), "{given}");
}

#[test]
fn making_it_small_has_its_time_and_says_when_it_is_over() {
    let folder = Folder::new();
    let over = "it may be smaller yet: the 0 s for it were over, and --shrink T gives others";
    for (shrink, says) in [("0", true), ("30", false)] {
        let arguments = ["compare", "--sim", &simulator("idle_as_255"), "--shrink", shrink];
        let said = folder.osek(&arguments);
        assert_eq!(said.out.contains(over), says, "{}", said.out);
    }
}

#[test]
fn a_library_that_is_given_accepted_cases_gets_room_for_every_output() {
    let folder = Folder::new();
    let library = concat!(env!("CARGO_MANIFEST_DIR"), "/../build/libosek.so");
    let said = folder.osek(&["compare", "--lib", library, "--accepted", "--count", "60"]);
    said.prints("60 cases of seed 1: all equal (60 accepted, 0 refused)\n", 0);
}
