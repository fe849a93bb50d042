//! The bench program and the C host, run as processes on files. OSEK_BENCH and OSEK_HOST say where they are; otherwise
//! ../crates/bench/out/bench and ../build/osek_host.

use std::ffi::OsStr;
use std::fs;
use std::path::{Path, PathBuf};
use std::process::Command;
use std::sync::atomic::{AtomicUsize, Ordering};

use osek_tests::by_hand::with_deadlines;
use osek_tests::cases::{self, Case};
use osek_tests::compare::{outcome, FAST};
use osek_tests::fast::OUTPUT_MAX;
use osek_tests::listing::{listing, DOCUMENT_CONFIG, DOCUMENT_LISTING, DOCUMENT_TRACE};

#[derive(Clone, Copy, PartialEq, Eq, Debug)]
enum Program {
    Bench,
    Host,
}

const PROGRAMS: [Program; 2] = [Program::Bench, Program::Host];

fn path(program: Program) -> PathBuf {
    let (variable, usual) = match program {
        Program::Bench => ("OSEK_BENCH", "../crates/bench/out/bench"),
        Program::Host => ("OSEK_HOST", "../build/osek_host"),
    };
    let path =
        std::env::var_os(variable).map_or_else(|| Path::new(env!("CARGO_MANIFEST_DIR")).join(usual), PathBuf::from);
    fs::canonicalize(&path).unwrap_or_else(|_| panic!("{} is not built; {variable} may name another", path.display()))
}

/// A folder for one test's files, removed at its end.
struct Folder(PathBuf);

impl Folder {
    fn new() -> Self {
        static NEXT: AtomicUsize = AtomicUsize::new(0);
        let name = format!("osek-tests-{}-{}", std::process::id(), NEXT.fetch_add(1, Ordering::Relaxed));
        let path = std::env::temp_dir().join(name);
        fs::create_dir(&path).expect("a temporary folder can be made");
        Folder(path)
    }

    fn with(config: &[u8], trace: &[u8]) -> Self {
        let folder = Folder::new();
        folder.write("config.bin", config);
        folder.write("trace.bin", trace);
        folder
    }

    fn write(&self, name: &str, bytes: &[u8]) {
        fs::write(self.0.join(name), bytes).expect("a file can be written");
    }

    /// Both programs print `expected` and nothing else; the host's exit status says whether it is a listing.
    #[track_caller]
    fn assert_shown(&self, expected: &str) {
        self.assert_shown_with(&[], expected);
    }

    /// The same, with variables of the environment set.
    #[track_caller]
    fn assert_shown_with(&self, variables: &[(&str, &OsStr)], expected: &str) {
        for program in PROGRAMS {
            let mut command = Command::new(path(program));
            if program == Program::Host {
                command.args(["config.bin", "trace.bin"]);
            }
            command.current_dir(&self.0).envs(variables.iter().copied());
            let output = command.output().expect("the program runs");
            assert_eq!(String::from_utf8_lossy(&output.stdout), expected, "{program:?}");
            assert_eq!(String::from_utf8_lossy(&output.stderr), "", "{program:?}");
            if program == Program::Host {
                assert_eq!(output.status.code(), Some(i32::from(expected.starts_with("refused"))));
            }
        }
    }
}

impl Drop for Folder {
    fn drop(&mut self) {
        let _ = fs::remove_dir_all(&self.0);
    }
}

#[track_caller]
fn assert_shown(config: &[u8], trace: &[u8], expected: &str) {
    Folder::with(config, trace).assert_shown(expected);
}

/// What the fast Rust version gives with the programs' output buffer.
fn expected(config: &[u8], trace: &[u8]) -> String {
    let case = Case { config: config.to_vec(), trace: trace.to_vec(), out_len: OUTPUT_MAX, fill: 0 };
    let (result, out) = outcome(FAST, &case);
    listing(config, trace, result, &out)
}

const HEADER: &str = "step event status runner level begun\n";

#[test]
fn document_listing_is_printed() {
    assert_shown(&DOCUMENT_CONFIG, &DOCUMENT_TRACE, DOCUMENT_LISTING);
}

#[test]
fn empty_trace_prints_the_header_alone() {
    assert_shown(&DOCUMENT_CONFIG, &[], HEADER);
}

#[test]
fn each_refusal_is_printed_with_its_place() {
    let config = |place: usize, byte: u8| {
        let mut config = DOCUMENT_CONFIG;
        config[place] = byte;
        config.to_vec()
    };
    // Five tables of 16 entries: the fifth takes the total over 64.
    let mut many = vec![1, 1, 0, 1, 1, 0, 5];
    for _ in 0..5 {
        many.extend([16, 16]);
        many.extend((0..16).flat_map(|offset| [offset, 0]));
    }
    let refused: [(Vec<u8>, &[u8], &str); 19] = [
        (vec![], &[], "refused 1 0\n"),
        (DOCUMENT_CONFIG[..19].to_vec(), &[], "refused 1 19\n"),
        (vec![1, 0x81, 0x80], &[], "refused 1 3\n"),
        (vec![0x81, 0], &[], "refused 2 1\n"),
        (config(0, 4), &[], "refused 3 0\n"),
        (config(1, 33), &[], "refused 4 1\n"),
        (config(2, 4), &[], "refused 5 2\n"),
        // A deadline of the ISR.
        (with_deadlines(&DOCUMENT_CONFIG, &[1, 0, 1]), &[], "refused 5 13\n"),
        (config(6, 2), &[], "refused 6 6\n"),
        (config(18, 0), &[], "refused 7 19\n"),
        (many, &[], "refused 8 144\n"),
        ([&DOCUMENT_CONFIG[..], &[0]].concat(), &[], "refused 9 20\n"),
        (vec![1; 4097], &[], "refused 10 0\n"),
        (DOCUMENT_CONFIG.to_vec(), &[6; 8193], "refused 20 0\n"),
        (DOCUMENT_CONFIG.to_vec(), &[6, 1], "refused 21 2\n"),
        (DOCUMENT_CONFIG.to_vec(), &[6, 1, 0x80, 0x80], "refused 21 4\n"),
        (DOCUMENT_CONFIG.to_vec(), &[6, 1, 0x80, 0], "refused 22 3\n"),
        (DOCUMENT_CONFIG.to_vec(), &[6, 13], "refused 23 1\n"),
        (DOCUMENT_CONFIG.to_vec(), &[0], "refused 23 0\n"),
    ];
    for (config, trace, line) in refused {
        assert_shown(&config, trace, line);
    }
}

#[test]
fn files_beyond_the_limits_are_refused_by_the_run() {
    assert_shown(&vec![1; 100_000], &vec![6; 100_000], "refused 10 0\n");
    assert_shown(&DOCUMENT_CONFIG, &vec![6; 100_000], "refused 20 0\n");
    // An ISR with autostart.
    assert_shown(&[1; 4096], &[], "refused 5 4\n");
}

#[test]
fn the_longest_listing_is_printed_whole() {
    let trace = [6; 8192];
    let text = expected(&DOCUMENT_CONFIG, &trace);
    assert_eq!(text.lines().count(), 8193);
    assert_shown(&DOCUMENT_CONFIG, &trace, &text);
}

#[test]
fn missing_files_are_40_and_41() {
    let folder = Folder::new();
    folder.assert_shown("refused 40 0\n");
    folder.write("trace.bin", &DOCUMENT_TRACE);
    folder.assert_shown("refused 40 0\n");
    let folder = Folder::new();
    folder.write("config.bin", &DOCUMENT_CONFIG);
    folder.assert_shown("refused 41 0\n");
    // 41 comes before what the run would refuse.
    folder.write("config.bin", &[]);
    folder.assert_shown("refused 41 0\n");
}

#[test]
fn folders_in_the_place_of_files_are_40_and_41() {
    let folder = Folder::new();
    fs::create_dir(folder.0.join("config.bin")).expect("a folder can be made");
    folder.write("trace.bin", &DOCUMENT_TRACE);
    folder.assert_shown("refused 40 0\n");
    let folder = Folder::new();
    folder.write("config.bin", &DOCUMENT_CONFIG);
    fs::create_dir(folder.0.join("trace.bin")).expect("a folder can be made");
    folder.assert_shown("refused 41 0\n");
}

#[test]
fn files_without_permission_are_40_and_41() {
    use std::os::unix::fs::PermissionsExt;
    for (name, line) in [("config.bin", "refused 40 0\n"), ("trace.bin", "refused 41 0\n")] {
        let folder = Folder::with(&DOCUMENT_CONFIG, &DOCUMENT_TRACE);
        let file = folder.0.join(name);
        fs::set_permissions(&file, fs::Permissions::from_mode(0o000)).expect("a mode can be set");
        // The superuser reads it all the same.
        if fs::read(&file).is_err() {
            folder.assert_shown(line);
        }
    }
}

#[test]
fn a_read_that_fails_in_the_middle_of_a_file_is_40_and_41() {
    let folder = Folder::with(&DOCUMENT_CONFIG, &DOCUMENT_TRACE);
    let library = folder.0.join("failing_reads.so");
    let compiler = Command::new("cc")
        .args(["-shared", "-fPIC", "-Wall", "-Wextra", "-Werror", "-o"])
        .arg(&library)
        .arg(Path::new(env!("CARGO_MANIFEST_DIR")).join("tests/failing_reads.c"))
        .status();
    assert!(compiler.expect("there is a C compiler").success());
    let failing = |name: &'static str| [("LD_PRELOAD", library.as_os_str()), ("OSEK_FAILING", OsStr::new(name))];
    folder.assert_shown_with(&failing("no file"), DOCUMENT_LISTING);
    folder.assert_shown_with(&failing("config.bin"), "refused 40 0\n");
    folder.assert_shown_with(&failing("trace.bin"), "refused 41 0\n");
    // Nor is half a trace run where the four bytes are a trace by themselves.
    folder.write("trace.bin", &[6; 8]);
    folder.assert_shown_with(&failing("trace.bin"), "refused 41 0\n");
}

#[test]
fn drawn_cases_are_printed_as_the_fast_version_has_them() {
    for number in 0..200 {
        let Case { config, trace, .. } = cases::case(7, number);
        assert_shown(&config, &trace, &expected(&config, &trace));
    }
}

#[test]
fn host_explains_itself_and_refuses_a_bad_command_line() {
    let run = |arguments: &[&str]| Command::new(path(Program::Host)).args(arguments).output().expect("the host runs");
    for option in ["-h", "--help"] {
        let help = run(&[option]);
        assert_eq!(help.status.code(), Some(0));
        assert!(help.stdout.starts_with(b"usage: osek_host CONFIG TRACE\n"));
        assert!(help.stderr.is_empty());
    }
    let version = run(&["--version"]);
    assert_eq!(version.status.code(), Some(0));
    assert!(version.stdout.starts_with(b"osek_host "));
    for arguments in [&[][..], &["config.bin"], &["config.bin", "trace.bin", "more"], &["-", "-"]] {
        let output = run(arguments);
        assert_eq!(output.status.code(), Some(2), "{arguments:?}");
        assert!(output.stdout.is_empty());
        assert!(output.stderr.starts_with(b"usage: "));
    }
}

#[test]
fn host_reads_one_file_from_standard_input() {
    let folder = Folder::with(&DOCUMENT_CONFIG, &DOCUMENT_TRACE);
    for (arguments, input) in [(["-", "trace.bin"], "config.bin"), (["config.bin", "-"], "trace.bin")] {
        let input = fs::File::open(folder.0.join(input)).expect("a file can be read");
        let output = Command::new(path(Program::Host)).args(arguments).current_dir(&folder.0).stdin(input).output();
        assert_eq!(String::from_utf8_lossy(&output.expect("the host runs").stdout), DOCUMENT_LISTING);
    }
    // A folder opens, and can't be read.
    let input = fs::File::open(&folder.0).expect("a folder can be opened");
    let output =
        Command::new(path(Program::Host)).args(["config.bin", "-"]).current_dir(&folder.0).stdin(input).output();
    assert_eq!(String::from_utf8_lossy(&output.expect("the host runs").stdout), "refused 41 0\n");
}
