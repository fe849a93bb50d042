//! include/osek.h compiles as C and as C++ of every standard since C99 and C++98 without a warning, its constants are the
//! documents', and CHANGELOG.md has its version.

use std::fs;
use std::path::{Path, PathBuf};
use std::process::Command;

use osek_tests::coverage::REFUSALS;
use osek_tests::fast::{CONFIG_MAX, IDLE, MISSES_MAX, MISS_SIZE, OUTPUT_MAX, TRACE_MAX};
use osek_tests::salvage::STRETCHES_MAX;

fn header() -> PathBuf {
    Path::new(env!("CARGO_MANIFEST_DIR")).join("../include/osek.h")
}

/// The numbers that the header names, from `#define NAME value` or `NAME = value`.
fn constants() -> Vec<(String, u64)> {
    let text = fs::read_to_string(header()).expect("the header can be read");
    let mut constants = Vec::new();
    for line in text.lines() {
        let words: Vec<&str> = line.split_whitespace().collect();
        let named = match words[..] {
            ["#define", name, value] if !value.starts_with('"') => Some((name, value)),
            [name, "=", value, ..] if name.starts_with("OSEK_") => Some((name, value)),
            _ => None,
        };
        if let Some((name, value)) = named {
            let value = value.trim_end_matches(',').parse().expect("a constant is a number");
            constants.push((name.to_string(), value));
        }
    }
    constants
}

#[test]
fn constants_are_those_of_the_documents() {
    let constants = constants();
    let value =
        |name: &str| constants.iter().find(|(other, _)| other == name).unwrap_or_else(|| panic!("{name} is missing")).1;
    assert_eq!(value("OSEK_CONFIG_MAX"), CONFIG_MAX as u64);
    assert_eq!(value("OSEK_TRACE_MAX"), TRACE_MAX as u64);
    assert_eq!(value("OSEK_OUTPUT_MAX"), OUTPUT_MAX as u64);
    assert_eq!((CONFIG_MAX, TRACE_MAX, OUTPUT_MAX), (4_096, 8_192, 32_832));
    assert_eq!(value("OSEK_STRETCHES_MAX"), STRETCHES_MAX as u64);
    assert_eq!((value("OSEK_MISSES_MAX"), value("OSEK_MISS_SIZE")), (MISSES_MAX as u64, MISS_SIZE as u64));
    assert_eq!((MISSES_MAX, MISS_SIZE), (64, 3));
    assert_eq!(value("OSEK_IDLE"), u64::from(IDLE));
    let group = |prefixes: &[&str], without: &str| -> Vec<u64> {
        let has = |name: &str| prefixes.iter().any(|prefix| name.starts_with(prefix)) && !name.ends_with(without);
        constants.iter().filter(|(name, _)| has(name)).map(|(_, value)| *value).collect()
    };
    assert_eq!(group(&["OSEK_EVENT_"], "-"), [1, 2, 3, 4, 5, 6, 7, 8, 9, 10, 11, 12]);
    assert_eq!(group(&["OSEK_E_"], "-"), [0, 1, 2, 3, 4, 5, 6, 7, 8, 33]);
    let refusals = group(&["OSEK_CONFIG_", "OSEK_TRACE_", "OSEK_OUTPUT_"], "_MAX");
    assert_eq!(refusals, REFUSALS.map(u64::from));
    assert_eq!(group(&["OSEK_WAIT_"], "-"), [31, 32, 34, 35]);
    assert_eq!(group(&["OSEK_OIL_"], "-"), [60, 61, 62, 63, 64]);
    assert_eq!(group(&["OSEK_DRAW_"], "-"), [50, 51]);
    assert_eq!((value("OSEK_WEIGHTS"), value("OSEK_LIMITS")), (12, 4));
    assert_eq!(group(&["OSEK_RECORD_"], "-"), [70]);
}

#[test]
fn header_compiles_as_c_and_as_cpp() {
    let strict = ["-fsyntax-only", "-Wall", "-Wextra", "-Wpedantic", "-Werror", "-Wno-unused-function"];
    let mut compiled = 0;
    for (compiler, language, standard) in [
        ("gcc", "c", "-std=c99"),
        ("clang", "c", "-std=c99"),
        ("gcc", "c", "-std=c17"),
        ("g++", "c++", "-std=c++98"),
        ("g++", "c++", "-std=c++11"),
        ("clang++", "c++", "-std=c++98"),
        ("clang++", "c++", "-std=c++17"),
    ] {
        // A file of its own: a header given as the main file warns of itself.
        let file = std::env::temp_dir().join(format!("osek-header-{}-{compiler}{standard}", std::process::id()));
        fs::write(&file, "#include \"osek.h\"\n#include \"osek.h\"\n").expect("a file can be written");
        let folder = header();
        let output = Command::new(compiler)
            .args(strict)
            .args([standard, "-x", language, "-I"])
            .arg(folder.parent().expect("the header lies in a folder"))
            .arg(&file)
            .output();
        let _ = fs::remove_file(&file);
        if let Ok(output) = output {
            compiled += 1;
            assert!(output.status.success(), "{compiler} {standard}: {}", String::from_utf8_lossy(&output.stderr));
        }
    }
    assert!(compiled > 0, "no C compiler was found");
}

#[test]
fn the_version_stands_at_the_head_of_the_changelog() {
    let text = fs::read_to_string(header()).expect("the header can be read");
    let (_, after) = text.split_once("#define OSEK_VERSION \"").expect("the header has a version");
    let version = after.split('"').next().expect("the version ends");
    let changes = fs::read_to_string(header().with_file_name("../CHANGELOG.md")).expect("CHANGELOG.md can be read");
    let newest = changes.lines().find(|line| line.starts_with("## ")).expect("CHANGELOG.md has a version");
    assert_eq!(newest, format!("## {version}"));
}
