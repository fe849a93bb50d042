//! What every command does with a bad command line, bad files, and an output that can't be written.

use std::fs::{File, OpenOptions};
use std::io::{self, PipeWriter};
use std::process::{Command, Stdio};

use osek_tests::cases::Random;

use super::common::*;

const COMMANDS: [&str; 16] = [
    "run", "explain", "check", "timeline", "wait", "asm", "oil", "dump", "salvage", "draw", "verdict", "cases",
    "compare", "inspect", "coverage", "power",
];

/// A command line of each command that prints something, in a folder with `both.txt` and `trace.txt`.
const PRINTING: [&[&str]; 9] = [
    &["run", "both.txt", "--json"],
    &["explain", "both.txt"],
    &["timeline", "both.txt", "--svg", "-"],
    &["wait", "both.txt"],
    &["asm", "trace.txt", "-o", "-"],
    &["dump", "both.txt"],
    &["salvage", "trace.txt", "-o", "x"],
    &["draw", "--count", "3", "-o", "x"],
    &["compare", "--sim", "true", "both.txt"],
];

#[test]
fn help_is_there_for_everything() {
    let folder = Folder::new();
    let overview = folder.osek(&["--help"]).done();
    assert_eq!(folder.osek(&["help"]).done(), overview);
    assert_eq!(folder.osek(&["-h"]).done(), overview);
    for command in COMMANDS {
        assert!(overview.contains(&format!("\n  {command} ")), "{overview}");
        let help = folder.osek(&[command, "--help"]).done();
        assert_eq!(folder.osek(&["help", command]).done(), help);
        assert!(help.starts_with(&format!("usage: osek {command} ")), "{help}");
        assert!(help.contains("\nExit status: 0 done;"), "{help}");
        assert!(help.lines().all(|line| line.chars().count() <= 120), "{help}");
    }
    // The library's version.
    let header = include_str!("../../../include/osek.h");
    let version = header.split("#define OSEK_VERSION \"").nth(1).and_then(|after| after.split('"').next());
    folder.osek(&["--version"]).prints(&format!("osek {}\n", version.expect("the header has a version")), 0);
}

#[test]
fn bad_command_lines_say_what_is_wrong() {
    let folder = Folder::new();
    let said = folder.osek(&[]);
    assert!(said.err.starts_with("osek: a command is missing\n\nusage: osek COMMAND"), "{}", said.err);
    assert_eq!(said.code, Some(2));
    let said = folder.osek(&["rum"]);
    assert!(said.err.starts_with("osek: unknown command rum\n"), "{}", said.err);
    assert_eq!(said.code, Some(2));
    let wrong: [(&[&str], &str); 14] = [
        (&["run"], "run: CONFIG is missing"),
        (&["run", "a", "b", "c"], "run: one argument too many: c"),
        (&["run", "a", "--nmaes"], "run: unknown option --nmaes"),
        (&["run", "a", "--names=1"], "run: unknown option --names=1"),
        (&["run", "a", "--names", "--csv"], "run: --names, --json and --csv exclude each other"),
        (&["run", "a", "--losses"], "run: --losses goes with --csv"),
        (&["asm", "a"], "asm: -o is missing"),
        (&["asm", "a", "-o"], "asm: a value is missing after -o"),
        (&["asm", "a", "-o", "b", "-o", "c"], "asm: -o is given twice"),
        (&["dump", "a", "--as", "text"], "dump: --as takes config or trace, not text"),
        (&["cases", "-o", "d"], "cases: --count is missing"),
        (&["cases", "--count", "0", "-o", "d"], "cases: --count takes 1 to 1000000, not 0"),
        (&["cases", "--count", "many", "-o", "d"], "cases: --count takes 1 to 1000000, not many"),
        (&["cases", "--seed", "-1", "--count", "1", "-o", "d"], "cases: --seed takes a number from 0, not -1"),
    ];
    for (arguments, message) in wrong {
        let command = arguments[0];
        folder.osek(arguments).fails(2, &format!("{message}; see osek {command} --help"));
    }
}

#[test]
fn a_missing_file_is_named() {
    let folder = Folder::document();
    let missing = "no.bin can't be read: No such file or directory";
    for arguments in [
        &["explain", "no.bin", "trace.bin"][..],
        &["explain", "config.bin", "no.bin"],
        &["timeline", "no.bin", "trace.bin", "--svg", "-"],
        &["asm", "no.bin", "-o", "out"],
        &["asm", "config.bin", "-o", "out", "--config", "no.bin"],
        &["dump", "no.bin"],
        &["salvage", "no.bin", "-o", "out"],
        &["dump", "trace.bin", "--config", "no.bin"],
        &["compare", "--sim", "true", "config.bin", "no.bin"],
    ] {
        folder.osek(arguments).fails(4, missing);
    }
}

#[test]
fn empty_files_are_bytes_of_length_0() {
    let folder = Folder::new()
        .with("empty", "")
        .with("comment.txt", "# nothing\n")
        .with("ok.txt", "version 1\ntask a priority 1\n");
    for file in ["empty", "comment.txt"] {
        let said = folder.osek(&["explain", file, "empty"]);
        assert!(said.out.starts_with("refused 1 0: "), "{}", said.out);
        folder.osek(&["asm", file, "-o", "out"]).prints("", 0);
        assert_eq!(folder.read("out"), b"");
    }
    folder.osek(&["salvage", "empty", "-o", "out"]).prints("kept 0 of 0 bytes\n", 0);
    folder.osek(&["dump", "empty", "--as", "trace"]).prints("# trace, 0 bytes\ntrace\n", 0);
    folder
        .osek(&["dump", "empty", "--as", "config"])
        .prints("# configuration, 0 bytes\n# it ends at offset 0, where the version is missing\n", 0);
    assert!(folder.osek(&["timeline", "ok.txt", "empty", "--svg", "-"]).done().starts_with("<svg "));
    assert!(folder.osek(&["timeline", "ok.txt", "empty", "--vcd", "-"]).done().starts_with("$comment "));
}

/// `-` is standard input wherever a file may stand, once.
#[test]
fn standard_input_is_read_everywhere() {
    let folder = Folder::document()
        .with("both.txt", DOCUMENT_TEXT)
        .with("listing", DOCUMENT_LISTING)
        .with("one.oil", "TASK a { PRIORITY = 1; AUTOSTART = TRUE; };");
    let from = |file: &str, arguments: &[&str]| {
        let input = File::open(folder.0.join(file)).expect("the file opens");
        Said::of(arguments, folder.command(arguments).stdin(input).output().expect("the tool runs"))
    };
    from("both.txt", &["run", "-"]).prints(DOCUMENT_LISTING, 0);
    from("config.bin", &["run", "-", "trace.bin"]).prints(DOCUMENT_LISTING, 0);
    from("trace.bin", &["run", "config.bin", "-"]).prints(DOCUMENT_LISTING, 0);
    from("both.txt", &["explain", "-"]).done();
    from("listing", &["check", "both.txt", "-"]).prints("equal: 17 answers and the losses\n", 0);
    assert!(from("both.txt", &["timeline", "-", "--svg", "-"]).done().starts_with("<svg "));
    from("config.bin", &["asm", "-", "-o", "out"]).prints("", 0);
    assert_eq!(folder.read("out"), DOCUMENT_CONFIG);
    assert!(from("config.bin", &["dump", "-"]).done().starts_with("# configuration, 20 bytes"));
    assert!(from("both.txt", &["dump", "trace.bin", "--config", "-"]).done().contains("start beacon 1"));
    from("trace.bin", &["salvage", "-", "-o", "out"]).prints("kept 24 of 24 bytes\n", 0);
    from("one.oil", &["oil", "-", "-o", "out"]).prints("", 0);
    assert_eq!(folder.read("out"), [1, 1, 0, 1, 1, 0, 0]);
    assert!(from("one.oil", &["dump", "-"]).done().contains("task a priority 1 autostart"));
    from("both.txt", &["run", "-", "-"]).fails(2, "run: standard input, -, can be read once; see osek run --help");
}

#[test]
fn an_output_never_goes_over_its_input() {
    let folder = Folder::document().with("both.txt", DOCUMENT_TEXT).with("l.oil", "TASK a { PRIORITY = 1; };");
    std::os::unix::fs::symlink("both.txt", folder.0.join("link.txt")).expect("a link can be made");
    for (arguments, out, input) in [
        (&["asm", "config.bin", "-o", "config.bin"][..], "config.bin", "config.bin"),
        (&["salvage", "trace.bin", "-o", "./trace.bin"], "./trace.bin", "trace.bin"),
        (&["salvage", "trace.bin", "-o", "x", "--dropped", "trace.bin"], "trace.bin", "trace.bin"),
        (&["oil", "l.oil", "-o", "l.oil"], "l.oil", "l.oil"),
        (&["timeline", "both.txt", "--svg", "link.txt"], "link.txt", "both.txt"),
    ] {
        folder.osek(arguments).fails(3, &format!("{out} is not written: it is the input {input}"));
    }
    assert_eq!(folder.text("both.txt"), DOCUMENT_TEXT);
    assert_eq!(folder.read("trace.bin"), DOCUMENT_TRACE);
}

/// Each mistake is told by its cause.
#[test]
fn files_that_are_not_what_they_should_be_are_told_by_their_cause() {
    let (config, trace) = DOCUMENT_TEXT.split_once("trace\n").expect("it has both parts");
    let wide: Vec<u8> = [0xff, 0xfe].into_iter().chain(DOCUMENT_TEXT.bytes().flat_map(|byte| [byte, 0])).collect();
    let folder = Folder::document()
        .with("config.txt", config)
        .with("trace.txt", trace)
        .with("empty", "")
        .with("latin1.txt", [b"version 1\ntask f".as_slice(), b"\xfchler priority 2\n"].concat())
        .with("wide.txt", &wide)
        .with("blank.txt", format!("\n{DOCUMENT_TEXT}"))
        .with("bell.txt", DOCUMENT_TEXT.replace("task low", "task low\u{7}"))
        .with("ticks.txt", format!("{config}trace\ntick 9003\n"));
    let said = |arguments: &[&str]| folder.osek(arguments).out;
    let ends = |arguments: &[&str], last: &str| {
        let said = said(arguments);
        assert_eq!(said.lines().last(), Some(last), "{said}");
    };
    ends(&["explain", "empty", "trace.bin"], "empty is read as bytes and not as a text: it is empty.");
    ends(
        &["explain", "latin1.txt", "trace.bin"],
        "latin1.txt is read as bytes and not as a text: it is not UTF-8 at line 2, column 7 (byte FC).",
    );
    ends(
        &["explain", "wide.txt", "trace.bin"],
        "wide.txt is read as bytes and not as a text: it is UTF-16: save it as UTF-8.",
    );
    folder.write("wide.txt", &wide[2..]);
    ends(
        &["explain", "wide.txt", "trace.bin"],
        "wide.txt is read as bytes and not as a text: it looks like UTF-16: save it as UTF-8.",
    );
    ends(
        &["explain", "blank.txt", "trace.bin"],
        "blank.txt is read as bytes and not as a text: its first line is empty or begins with a tab.",
    );
    ends(
        &["explain", "bell.txt", "trace.bin"],
        "bell.txt is read as bytes and not as a text: it has the control character 07 at line 2, column 9.",
    );
    ends(&["explain", "ticks.txt"], "The trace that ticks.txt describes has 9,003 bytes.");
    let why = "it is not UTF-8 at line 2, column 7 (byte FC)";
    folder.osek(&["asm", "latin1.txt", "-o", "x"]).fails(4, &format!("latin1.txt can't be read as a text: {why}"));
    folder
        .osek(&["run", "latin1.txt"])
        .fails(4, &format!("latin1.txt holds bytes ({why}): the trace has to be a second file"));
    folder.osek(&["run", "empty"]).fails(4, "empty holds bytes (it is empty): the trace has to be a second file");
    // Exchanged, as texts and as bytes.
    let first = "trace.txt holds a trace alone, no configuration, which comes first";
    folder.osek(&["run", "trace.txt", "config.txt"]).fails(4, first);
    folder
        .osek(&["run", "config.bin", "config.txt"])
        .fails(4, "config.txt holds a configuration, no trace, which comes second");
    folder.write("ticks.bin", [6, 6, 6]);
    ends(
        &["explain", "ticks.bin", "config.bin"],
        "config.bin is a configuration and ticks.bin a trace: are they exchanged?",
    );
    // A refusal in words points to explain.
    folder.osek(&["run", "empty", "trace.bin", "--names"]).prints(
        "refused 1 0: the input ends where a number, or the rest of one, is missing\n\
         osek explain empty trace.bin says where and why\n",
        1,
    );
}

#[test]
fn huge_files_are_judged_or_refused() {
    let ticks = vec![6; 200_000];
    let folder = Folder::document().with("ticks.bin", &ticks).with("huge.bin", vec![6; (16 << 20) + 1]);
    let said = folder.osek(&["explain", "config.bin", "ticks.bin"]);
    said.prints("refused 20 0: the trace is longer than 8,192 bytes\nticks.bin has 200,000 bytes.\n", 1);
    let said = folder.osek(&["timeline", "ticks.bin", "trace.bin", "--svg", "x"]);
    assert_eq!(said.err, "refused 10 0: the configuration is longer than 4,096 bytes\nticks.bin has 200,000 bytes.\n");
    folder.write("ticks.txt", folder.osek(&["dump", "ticks.bin"]).done());
    folder.osek(&["asm", "ticks.txt", "-o", "again.bin"]).prints("", 0);
    assert_eq!(folder.read("again.bin"), ticks);
    folder.osek(&["compare", "--sim", &format!("{OSEK} run"), "config.bin", "ticks.bin"]).prints("equal\n", 0);
    for arguments in [
        &["run", "huge.bin", "trace.bin"][..],
        &["explain", "config.bin", "huge.bin"],
        &["timeline", "config.bin", "huge.bin", "--svg", "x"],
        &["asm", "huge.bin", "-o", "x"],
        &["dump", "huge.bin"],
        &["salvage", "huge.bin", "-o", "x"],
        &["compare", "--sim", "true", "huge.bin", "trace.bin"],
    ] {
        folder.osek(arguments).fails(4, "huge.bin is longer than 16,777,216 bytes, and is not read");
    }
}

#[test]
fn noise_never_breaks_a_command() {
    let folder = Folder::new();
    let mut random = Random::new(99);
    for round in 0..60 {
        let length = random.pick(&[1, 3, 10, 60, 400]);
        // Bytes of all kinds; small ones; letters and spaces, which are texts.
        let noise = |random: &mut Random| -> Vec<u8> {
            let kind = random.below(3);
            (0..length)
                .map(|_| match kind {
                    0 => random.word() as u8,
                    1 => random.below(12) as u8,
                    _ => random.pick(b"version task 0x19 at #\nbytes trace tick number isr "),
                })
                .collect()
        };
        folder.write("a", noise(&mut random));
        folder.write("b", noise(&mut random));
        for arguments in [
            &["run", "a", "b"][..],
            &["run", "a"],
            &["explain", "a", "b"],
            &["timeline", "a", "b", "--svg", "x"],
            &["wait", "a", "b"],
            &["wait", "a", "b", "0"],
            &["asm", "a", "-o", "x"],
            &["dump", "a"],
            &["salvage", "a", "-o", "x"],
            &["dump", "a", "--as", "config", "--config", "b"],
        ] {
            let said = folder.osek(arguments);
            assert!(matches!(said.code, Some(0 | 1 | 4)), "round {round}: {arguments:?} {:?} {}", said.code, said.err);
            assert!(!said.err.contains("panicked"), "{}", said.err);
        }
    }
}

/// A pipe that nobody reads any more.
fn unread_pipe() -> PipeWriter {
    let (_, writer) = io::pipe().expect("a pipe can be made");
    writer
}

#[test]
fn a_closed_pipe_ends_a_command_quietly() {
    let folder = Folder::new().with("both.txt", DOCUMENT_TEXT).with("trace.txt", "trace\ntick\n");
    for arguments in PRINTING {
        let output = folder.command(arguments).stdout(unread_pipe()).output().expect("the tool runs");
        assert_eq!(String::from_utf8_lossy(&output.stderr), "", "{arguments:?}");
        assert_eq!(output.status.code(), Some(3), "{arguments:?}");
    }
}

#[test]
fn a_full_disk_is_told() {
    let folder = Folder::new().with("both.txt", DOCUMENT_TEXT).with("trace.txt", "trace\ntick\n");
    for arguments in PRINTING {
        let full: File = OpenOptions::new().write(true).open("/dev/full").expect("/dev/full opens");
        let output = folder.command(arguments).stdout(full).output().expect("the tool runs");
        let said = String::from_utf8_lossy(&output.stderr).into_owned();
        assert_eq!(said, "osek: standard output could not be written: No space left on device\n", "{arguments:?}");
        assert_eq!(output.status.code(), Some(3), "{arguments:?}");
    }
    folder
        .osek(&["timeline", "both.txt", "--vcd", "/dev/full"])
        .fails(3, "/dev/full could not be written: No space left on device");
}

#[test]
fn a_complaint_that_nobody_reads_is_no_matter() {
    let folder = Folder::document().with("bad.bin", [7]);
    for (arguments, code) in [
        (&["run", "no.bin", "no.bin"][..], 1),
        (&["explain", "no.bin", "no.bin"], 4),
        (&["timeline", "bad.bin", "trace.bin", "--svg", "x"], 1),
        (&["rum"], 2),
    ] {
        let status = folder.command(arguments).stdout(Stdio::null()).stderr(unread_pipe()).status();
        assert_eq!(status.expect("the tool runs").code(), Some(code), "{arguments:?}");
    }
}

#[test]
fn a_long_line_is_shown_in_part() {
    let folder = Folder::new().with("long.txt", format!("version 1\n{}{}", " ".repeat(500_000), "x".repeat(500_000)));
    let said = folder.osek(&["asm", "long.txt", "-o", "out"]);
    assert!(
        said.err.starts_with("osek: long.txt:2:500001: expected `task`") && said.err.len() < 500,
        "{}",
        said.err.len()
    );
}

#[test]
fn a_closed_standard_error_is_no_matter() {
    let folder = Folder::document();
    for line in ["run no.bin no.bin 2>&-", "explain no.bin no.bin 2>&-", "rum 2>&-", "explain no.bin no.bin >&- 2>&-"] {
        let status = Command::new("sh")
            .arg("-c")
            .arg(format!("{OSEK} {line}"))
            .stdout(Stdio::null())
            .current_dir(&folder.0)
            .status()
            .expect("sh runs");
        assert!(matches!(status.code(), Some(1 | 2 | 4)), "{line}: {status}");
    }
}

#[test]
fn progress_is_shown_on_a_terminal_alone() {
    let folder = Folder::new();
    let said = folder.osek(&["cases", "--count", "30", "-o", "quiet"]);
    said.prints("", 0);
    // `script` of util-linux gives a command a terminal.
    let line = format!("{OSEK} cases --count 30 -o shown");
    let Ok(output) = Command::new("script").args(["-qec", &line, "/dev/null"]).current_dir(&folder.0).output() else {
        println!("skipped: script of util-linux is not here");
        return;
    };
    let shown = String::from_utf8_lossy(&output.stdout).into_owned();
    assert!(shown.contains("] 1 of 30"), "{shown:?}");
    assert!(shown.ends_with('\r'), "the line is cleared: {shown:?}");
    assert!(folder.0.join("shown/0029.expected").exists());
}
