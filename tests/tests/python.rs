//! python/osek: its own tests, with drawn cases and what the fast Rust version answers, and the example of docs/USE.md.

use std::fmt::Write;
use std::path::{Path, PathBuf};
use std::process::{Command, Output};
use std::{env, fs};

use osek_tests::cases::{self, Case};
use osek_tests::compare::{outcome, FAST, FAST_MISSES};
use osek_tests::fast::{self, MISSES_MAX, MISS_SIZE, OUTPUT_MAX};

fn root() -> PathBuf {
    Path::new(env!("CARGO_MANIFEST_DIR")).join("..")
}

/// Runs python3 in python/; none where there is no python3.
fn python(arguments: &[&str], cases: &Path) -> Option<Output> {
    let mut command = Command::new("python3");
    command.args(arguments).current_dir(root().join("python")).env("OSEK_CASES", cases);
    command.env("PYTHONDONTWRITEBYTECODE", "1").env("OSEK_LIBRARY", root().join("build/libosek.so")).output().ok()
}

fn hex(bytes: &[u8]) -> String {
    if bytes.is_empty() {
        return "-".into();
    }
    bytes.iter().map(|byte| format!("{byte:02x}")).collect()
}

/// Configuration, trace, result and output of a drawn case, count and list of its misses, with room for every output.
fn line(number: u64) -> String {
    let Case { config, trace, .. } = cases::case(13, number);
    let case = Case { config, trace, out_len: OUTPUT_MAX, fill: 0 };
    let (result, out) = outcome(FAST, &case);
    let used = match fast::read_config(&case.config) {
        Ok(config) if result >> 32 == 0 => 4 * result as usize + 2 * config.bodies(),
        _ => 0,
    };
    let (count, list) = outcome(FAST_MISSES, &case);
    let listed = if count >> 32 == 0 { MISS_SIZE * (count as usize).min(MISSES_MAX) } else { 0 };
    format!(
        "{} {} {result} {} {count} {}",
        hex(&case.config),
        hex(&case.trace),
        hex(&out[..used]),
        hex(&list[..listed])
    )
}

#[test]
fn python_tests_pass_on_1_000_drawn_cases() {
    let file = env::temp_dir().join(format!("osek-cases-{}", std::process::id()));
    let mut text = String::new();
    for number in 0..1_000 {
        let _ = writeln!(text, "{}", line(number));
    }
    fs::write(&file, text).expect("a file can be written");
    let output = python(&["-m", "unittest", "test_osek"], &file);
    let _ = fs::remove_file(&file);
    let Some(output) = output else { return };
    let said = String::from_utf8_lossy(&output.stderr).into_owned();
    assert!(output.status.success(), "{said}");
    assert!(said.ends_with("\nOK\n"), "a test was skipped: {said}");
}

#[test]
fn the_example_runs() {
    let text = fs::read_to_string(root().join("docs/USE.md")).expect("docs/USE.md can be read");
    let from = text.find("    import osek\n").expect("docs/USE.md has a Python example");
    let lines = text[from..].lines().take_while(|line| line.is_empty() || line.starts_with("    "));
    let example: Vec<&str> = lines.map(|line| line.strip_prefix("    ").unwrap_or("")).collect();
    let Some(output) = python(&["-c", &example.join("\n")], Path::new("")) else { return };
    assert_eq!(String::from_utf8_lossy(&output.stderr), "");
    let expected = "0 0 2 False\n0 0 5 False\n0 0 5 False\n0 2 9 True\n[0, 0, 0]\n";
    assert_eq!(String::from_utf8_lossy(&output.stdout), expected);
}
