//! The protocol of docs/UNIT.md: the samples, units that break off, and several at once.

use std::fs;
use std::path::{Path, PathBuf};
use std::process::Command;

use osek_tests::cases;
use osek_tests::subject::LIBRARY;

use super::common::*;
use super::compare::stand_in;

pub fn project() -> &'static Path {
    Path::new(env!("CARGO_MANIFEST_DIR")).parent().expect("the tool lies in the project")
}

/// A command that runs a script of Python with python/osek.py beside it.
fn python(script: &str) -> String {
    let library = Path::new(LIBRARY).with_extension("so");
    let (modules, library) = (project().join("python"), library.display().to_string());
    format!("PYTHONPATH={} OSEK_LIBRARY={library} python3 -B {}/{script}", modules.display(), project().display())
}

pub fn faulty(fault: &str) -> String {
    format!("{} {fault}", python("tool/tests/osek/faulty_unit.py"))
}

/// The sample in C, built.
pub fn sample_in_c(folder: &Folder) -> PathBuf {
    let file = folder.0.join("sample");
    let cc = Command::new("cc")
        .args(["-std=c99", "-Wall", "-Wextra", "-Wpedantic", "-Werror", "-O1", "-I"])
        .arg(project().join("include"))
        .args([&project().join("unit/samples/unit.c"), Path::new(LIBRARY)])
        .arg("-o")
        .arg(&file)
        .output()
        .expect("cc runs");
    assert!(cc.status.success(), "{}", String::from_utf8_lossy(&cc.stderr));
    file
}

#[test]
fn the_samples_are_equal_in_both_ways_and_several_at_once() {
    let folder = Folder::document();
    let samples = [python("unit/samples/unit.py"), sample_in_c(&folder).display().to_string()];
    for sample in &samples {
        for (arguments, told) in [
            (&["--sim", sample, "--count", "300"][..], " refused)\n"),
            (&["--sim", sample, "--count", "300", "--jobs", "3"], " refused)\n"),
            (&["--unit", sample, "--count", "40"], " refused and not played)\n"),
            (&["--sim", sample, "--count", "40", "--lock-step", "--jobs", "2"], " refused and not played)\n"),
            (&["--unit", sample, "--count", "300", "--whole"], " refused and not played)\n"),
            (&["--unit", sample, "config.bin", "trace.bin"], "equal\n"),
        ] {
            let out = folder.osek(&[&["compare"], arguments].concat()).done();
            assert!(out.contains(": all equal (") || out == "equal\n", "{arguments:?}: {out}");
            assert!(out.ends_with(told), "{arguments:?}: {out}");
        }
    }
}

#[test]
fn the_document_shows_the_samples() {
    let document = fs::read_to_string(project().join("docs/UNIT.md")).expect("docs/UNIT.md can be read");
    for sample in ["unit/samples/unit.py", "unit/samples/unit.c"] {
        let text = fs::read_to_string(project().join(sample)).expect("the sample can be read");
        let indented: String = text.lines().map(|line| format!("{}\n", format!("    {line}").trim_end())).collect();
        assert!(document.contains(&indented), "docs/UNIT.md has another {sample}");
    }
}

#[test]
fn a_unit_that_breaks_off_differs() {
    let folder = Folder::document();
    for (fault, told) in [
        ("ends 0", "ended at event 0: brown-out"),
        ("wrong_fresh", "its fresh start is [0, 0, 1, 0], and not [0, 0, 1, 1]"),
    ] {
        let said = folder.osek(&["compare", "--unit", &faulty(fault), "config.bin", "trace.bin"]);
        let told = format!(" expected, no answer given: {told}");
        assert!(said.out.lines().any(|line| line.ends_with(&told)), "{fault}: {}{}", said.out, said.err);
        assert_eq!(said.code, Some(1));
    }
}

#[test]
fn losses_of_a_unit_are_compared() {
    let folder = Folder::document();
    let said = folder.osek(&["compare", "--unit", &faulty("wrong_losses"), "config.bin", "trace.bin"]);
    assert!(said.out.contains("losses of body 0 "), "{}{}", said.out, said.err);
}

#[test]
fn a_unit_that_does_not_greet_is_not_played() {
    let folder = Folder::document();
    for (fault, told) in [
        ("version_2", "it speaks another version of the protocol than 1"),
        ("no_greeting", "a greeting `osek-unit 1 NAME` is missing"),
        ("long_greeting", "a line of more than 200 bytes came for a greeting"),
    ] {
        let said = folder.osek(&["compare", "--unit", &faulty(fault), "config.bin", "trace.bin"]);
        said.fails(4, &format!("the unit does not greet: {told}"));
    }
    let said = folder.osek(&["compare", "--unit", "./no-such-unit", "config.bin", "trace.bin"]);
    assert!(
        said.err.starts_with("osek: the unit does not greet: it ended, and said on standard error: "),
        "{}",
        said.err
    );
    let said = folder.osek(&["compare", "--sim", &format!("{OSEK} run"), "--lock-step", "config.bin", "trace.bin"]);
    assert!(said.err.contains("it does not greet, and lock-step needs the protocol"), "{}", said.err);
}

#[test]
fn in_lock_step_a_unit_can_not_look_ahead() {
    let folder = Folder::document();
    let unit = faulty("looks_ahead");
    folder.osek(&["compare", "--unit", &unit, "config.bin", "trace.bin"]).prints("equal\n", 0);
    let said = folder.osek(&["compare", "--unit", &unit, "--whole", "config.bin", "trace.bin"]);
    assert!(said.out.contains(": looked ahead\n"), "{}{}", said.out, said.err);
}

#[test]
fn a_refused_case_is_not_played_on_a_unit() {
    let folder = Folder::document().with("bad.bin", [13]);
    let unit = sample_in_c(&folder).display().to_string();
    let refused = "the reference refuses this case, and a unit is given accepted ones alone";
    folder.osek(&["compare", "--unit", &unit, "config.bin", "bad.bin"]).fails(4, refused);
    folder.osek(&["compare", "--sim", &unit, "--lock-step", "config.bin", "bad.bin"]).fails(4, refused);
    folder.osek(&["compare", "--sim", &unit, "config.bin", "bad.bin"]).prints("equal\n", 0);
}

#[test]
fn the_first_difference_is_told_however_many_run_at_once() {
    let folder = Folder::new();
    // Every case differs, and the first of them takes longest.
    let first = cases::case(1, 0).config.len();
    assert!((1..4).all(|number| cases::case(1, number).config.len() != first));
    let sleeps = format!("test $(wc -c < \"$1\") = {first} && ! test -e slept && touch slept && sleep 1");
    let slow = format!("f() {{ {sleeps}; echo x; }}; f");
    let said = folder.osek(&["compare", "--sim", &slow, "--jobs", "4", "--count", "4"]);
    assert!(said.out.starts_with("case 0 of seed 1 differs\n"), "{}{}", said.out, said.err);
    let simulator = format!("{} tenth_tick_lost", stand_in().display());
    let first = |jobs: &str| {
        let said = folder.osek(&["compare", "--sim", &simulator, "--jobs", jobs, "-o", jobs]);
        said.out.lines().next().unwrap_or_default().to_string()
    };
    assert!(first("1").ends_with(" of seed 1 differs"));
    assert_eq!(first("1"), first("5"));
}
