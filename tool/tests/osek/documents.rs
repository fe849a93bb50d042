//! The pages: every command in them prints what the page shows, the picture is the one drawn, and every command is listed.

use std::fs;
use std::path::Path;
use std::process::Command;

use super::common::*;

fn project() -> &'static Path {
    Path::new(env!("CARGO_MANIFEST_DIR")).parent().expect("the tool lies in the project")
}

/// A folder in which the documents' commands work: the logger, and the tool under its name.
fn workplace() -> Folder {
    let folder = Folder::new();
    fs::create_dir(folder.0.join("docs")).expect("a folder can be made");
    fs::create_dir(folder.0.join("build")).expect("a folder can be made");
    folder.write("docs/logger.txt", LOGGER);
    folder.write("docs/door.txt", DOOR);
    folder.write("docs/deadlines.txt", DEADLINES);
    std::os::unix::fs::symlink(OSEK, folder.0.join("build/osek")).expect("a link can be made");
    folder
}

/// The commands of a document, which stand behind `$` in indented lines, each with the lines that follow it.
fn commands(document: &str) -> Vec<(String, String)> {
    let mut commands: Vec<(String, String)> = Vec::new();
    let mut inside = false;
    for line in document.lines() {
        let code = line.strip_prefix("    ");
        match (code.and_then(|code| code.strip_prefix("$ ")), commands.last_mut()) {
            (Some(command), _) => {
                commands.push((command.into(), String::new()));
                inside = true;
            }
            // An empty line belongs to a block that goes on.
            (None, Some((_, shown))) if inside && (code.is_some() || line.is_empty()) => {
                shown.push_str(code.unwrap_or_default());
                shown.push('\n');
            }
            _ => inside = false,
        }
    }
    commands
}

/// The pages with commands, the least number of commands in each, and whether it draws the logger.
const DOCUMENTS: [(&str, usize, bool); 4] =
    [("README.md", 1, true), ("docs/USE.md", 9, false), ("docs/TEXT.md", 7, true), ("docs/PROOF.md", 1, false)];

fn document(name: &str) -> String {
    fs::read_to_string(project().join(name)).unwrap_or_else(|error| panic!("{name}: {error}"))
}

#[test]
fn every_command_in_the_documents_gives_what_stands_below_it() {
    for (name, least, draws) in DOCUMENTS {
        let folder = workplace();
        let commands = commands(&document(name));
        assert!(commands.len() >= least, "{name} has only {} commands", commands.len());
        for (command, shown) in commands {
            let output = Command::new("sh").arg("-c").arg(&command).current_dir(&folder.0).output().expect("sh runs");
            let said = String::from_utf8_lossy(&output.stdout).into_owned();
            assert_eq!(shown.trim_end(), said.trim_end(), "{name}: {command}");
            assert_eq!(String::from_utf8_lossy(&output.stderr), "", "{name}: {command}");
        }
        if draws {
            let drawn = folder.text("docs/logger.svg");
            assert_eq!(drawn, document("docs/logger.svg"), "docs/logger.svg is not what {name} draws");
        }
    }
}

#[test]
fn the_use_page_shows_the_door_and_the_oil_text() {
    let page = document("docs/USE.md");
    let indented: String = DOOR.lines().map(|line| format!("{}\n", format!("    {line}").trim_end())).collect();
    assert!(page.contains(&indented), "docs/USE.md has another text than docs/door.txt");
    let from = page.find("    TASK door").expect("the page has an OIL text");
    let text: Vec<&str> = page[from..].lines().take_while(|line| line.starts_with("    ")).collect();
    let folder = Folder::new().with("logger.oil", &text.join("\n"));
    let answer = folder.osek(&["oil", "logger.oil", "-o", "config.bin"]);
    assert_eq!(answer.err, "");
    let hex: Vec<String> = folder.read("config.bin").iter().map(|byte| format!("{byte:02X}")).collect();
    assert!(page.contains(&format!("configuration {}.", hex.join(" "))), "docs/USE.md has other bytes than {hex:?}");
}

/// The table of docs/USE.md has every command of the tool, and no other.
#[test]
fn the_use_page_lists_every_command() {
    let page = document("docs/USE.md");
    let cells = page.lines().filter(|line| line.starts_with("| `osek ")).filter_map(|line| line.split('|').nth(1));
    let named = cells.flat_map(|cell| cell.split('`').skip(1).step_by(2)).filter_map(|name| name.strip_prefix("osek "));
    let mut named: Vec<&str> = named.collect();
    let help = Folder::new().osek(&["--help"]).out;
    let rows = help.lines().skip_while(|line| !line.starts_with("  ")).take_while(|line| line.starts_with("  "));
    let mut commands: Vec<&str> = rows.filter_map(|line| line.split_whitespace().next()).collect();
    named.sort_unstable();
    commands.sort_unstable();
    assert_eq!(named, commands);
}

/// The words of docs/TEXT.md's grammar are the words that the tool knows.
#[test]
fn the_grammar_has_every_event_and_kind() {
    let grammar = document("docs/TEXT.md");
    let folder = Folder::new().with("wrong.txt", "trace\nnothing\n");
    let said = folder.osek(&["asm", "wrong.txt", "-o", "out"]).err;
    let expected = said.lines().next().unwrap_or_default();
    let words: Vec<&str> = expected.split('`').skip(1).step_by(2).filter(|word| *word != "nothing").collect();
    assert!(words.len() >= 11, "{expected}");
    folder.write("wrong.txt", "version 1\nnothing\n");
    let said = folder.osek(&["asm", "wrong.txt", "-o", "out"]).err;
    let expected = said.lines().next().unwrap_or_default();
    let more: Vec<&str> = expected.split('`').skip(1).step_by(2).filter(|word| *word != "nothing").collect();
    assert!(more.len() >= 9, "{expected}");
    for word in words.into_iter().chain(more) {
        assert!(grammar.contains(&format!("\"{word}\"")), "{word} is not in the grammar");
    }
}
