//! `osek salvage`: kept events, the list of stretches, and what was dropped in words.

use osek_tests::cases;
use osek_tests::fast::TRACE_MAX;
use osek_tests::salvage::parts;

use super::common::*;

/// Get 0; FF; Tick; 00 00; Line 2; Start 0 without its delay.
const DAMAGED: [u8; 10] = [0x04, 0x00, 0xff, 0x06, 0x00, 0x00, 0x07, 0x02, 0x08, 0x00];

#[test]
fn kept_events_and_the_list_are_written_and_the_rest_is_told() {
    let folder = Folder::new().with("damaged.bin", DAMAGED);
    folder.osek(&["salvage", "damaged.bin", "-o", "kept.bin", "--dropped", "dropped.bin"]).prints(
        "\
kept 5 of 10 bytes
dropped 1 byte at 2: an event code is unknown
  ff
dropped 2 bytes at 4: an event code is unknown
  00 00
dropped 2 bytes at 8: the input ends where a number, or the rest of one, is missing
  08 00
",
        0,
    );
    assert_eq!(folder.read("kept.bin"), [0x04, 0x00, 0x06, 0x07, 0x02]);
    assert_eq!(folder.read("dropped.bin"), [2, 1, 4, 2, 8, 2]);
    // What was kept is whole, and the list need not be asked for.
    folder.osek(&["salvage", "kept.bin", "-o", "again.bin"]).prints("kept 5 of 5 bytes\n", 0);
    assert_eq!(folder.read("again.bin"), folder.read("kept.bin"));
}

#[test]
fn a_trace_that_looks_like_a_text_is_taken_for_bytes() {
    let folder = Folder::new().with("damaged.bin", "lost");
    let said = folder.osek(&["salvage", "damaged.bin", "-o", "kept.bin"]);
    said.prints("kept 0 of 4 bytes\ndropped 4 bytes at 0: an event code is unknown\n  6c 6f 73 74\n", 0);
    assert_eq!(folder.read("kept.bin"), []);
}

#[test]
fn events_go_to_standard_output_and_words_to_standard_error_or_into_json() {
    let folder = Folder::new().with("damaged.bin", DAMAGED);
    let output = folder.command(&["salvage", "damaged.bin", "-o", "-"]).output().expect("the tool runs");
    assert_eq!(output.stdout, [0x04, 0x00, 0x06, 0x07, 0x02]);
    assert!(output.stderr.starts_with(b"kept 5 of 10 bytes\ndropped 1 byte at 2: "));
    folder.osek(&["salvage", "damaged.bin", "--json"]).prints(
        "\
{\"bytes\": 10, \"kept\": 5, \"dropped\": [
  {\"offset\": 2, \"length\": 1, \"bytes\": \"ff\", \"why\": \"an event code is unknown\"},
  {\"offset\": 4, \"length\": 2, \"bytes\": \"00 00\", \"why\": \"an event code is unknown\"},
  {\"offset\": 8, \"length\": 2, \"bytes\": \"08 00\", \"why\": \"the input ends where a number, or the rest of one, is missing\"}
]}
",
        0,
    );
}

#[test]
fn a_long_stretch_stands_in_several_lines() {
    let folder = Folder::new().with("damaged.bin", [[0x80; 17].as_slice(), &[0x00]].concat());
    let said = folder.osek(&["salvage", "damaged.bin", "-o", "kept.bin"]).done();
    let lines: Vec<&str> = said.lines().collect();
    assert_eq!(lines[1], "dropped 18 bytes at 0: a number is above 4,294,967,295 or not in its shortest form");
    assert_eq!((lines[2].len(), lines[3], lines.len()), (2 + 16 * 3 - 1, "  80 00", 4));
}

#[test]
fn a_trace_that_is_too_long_is_refused_and_nothing_is_written() {
    let folder = Folder::new().with("long.bin", vec![2; 8_193]);
    let said = folder.osek(&["salvage", "long.bin", "-o", "kept.bin", "--dropped", "dropped.bin"]);
    let refused = "refused 20 0: the trace is longer than 8,192 bytes\n";
    assert_eq!((said.out.as_str(), said.err.as_str(), said.code), ("", refused, Some(1)));
    assert!(!folder.0.join("kept.bin").exists() && !folder.0.join("dropped.bin").exists());
}

#[test]
fn a_bad_command_line_says_what_is_missing() {
    let folder = Folder::new().with("damaged.bin", DAMAGED);
    let help = "; see osek salvage --help";
    folder.osek(&["salvage", "-o", "x"]).fails(2, &format!("salvage: the trace is missing{help}"));
    folder.osek(&["salvage", "damaged.bin"]).fails(2, &format!("salvage: -o is missing{help}"));
    let one = format!("salvage: of -o, --dropped and --json one alone can have standard output{help}");
    for arguments in [&["-o", "-", "--dropped", "-"][..], &["-o", "-", "--json"], &["--json", "--dropped", "-"]] {
        folder.osek(&[&["salvage", "damaged.bin"], arguments].concat()).fails(2, &one);
    }
    folder.osek(&["salvage", "none.bin", "-o", "x"]).fails(4, "none.bin can't be read: No such file or directory");
}

#[test]
fn drawn_traces_are_salvaged_as_the_tests_do() {
    let folder = Folder::new();
    for number in 0..60 {
        let trace = cases::case(61, number).trace;
        if trace.len() > TRACE_MAX {
            continue;
        }
        folder.write("trace.bin", &trace);
        let said = folder.osek(&["salvage", "trace.bin", "-o", "kept.bin"]).done();
        let (kept, dropped) = parts(&trace);
        assert_eq!(folder.read("kept.bin"), kept);
        let told: Vec<&str> = said.lines().filter(|line| line.starts_with("dropped ")).collect();
        assert_eq!(told.len(), dropped.len());
        for (line, (offset, length)) in told.iter().zip(dropped) {
            let bytes = if length == 1 { "byte" } else { "bytes" };
            let says = format!("dropped {length} {bytes} at {offset}: ");
            assert!(line.replace(',', "").starts_with(&says), "{line}");
        }
    }
}
