//! What the pages say can be looked up: names of theorems, crates, files, links and commands; excerpts and numbers of lines; the
//! must-fail edits in docs/REQUIREMENTS.md; the whole run and the refusals of docs/RULES.md; the shape of docs/DECISIONS.md and
//! of docs/changes.

use std::collections::BTreeSet;
use std::fs;
use std::path::{Path, PathBuf};

use osek_tests::coverage::REFUSALS;
use osek_tests::listing::{DOCUMENT_LISTING, DOCUMENT_TRACE};

fn root() -> PathBuf {
    Path::new(env!("CARGO_MANIFEST_DIR")).join("..")
}

fn read(name: &str) -> String {
    fs::read_to_string(root().join(name)).unwrap_or_else(|error| panic!("{name}: {error}"))
}

/// The cells of each row of the tables under a heading of a page.
fn rows(page: &str, heading: &str) -> Vec<Vec<String>> {
    let text = read(page);
    let from = text.find(&format!("\n## {heading}\n")).unwrap_or_else(|| panic!("{page} has no heading {heading}"));
    let section = text[from + 1..].split("\n## ").next().unwrap_or_default();
    let tables = section.lines().filter(|line| line.starts_with('|') && !line.starts_with("|-"));
    tables.map(|line| line.trim_matches('|').split('|').map(|cell| cell.trim().to_string()).collect()).collect()
}

/// The names between backquotes.
fn names(text: &str) -> Vec<&str> {
    text.split('`').skip(1).step_by(2).collect()
}

/// Whether a file of Rattle or antt declares a name.
fn declares(text: &str, name: &str) -> bool {
    text.lines().map(str::trim_start).any(|line| {
        let line = ["unfoldable ", "abbrev ", "pub ", "extern \"C\" "]
            .iter()
            .fold(line, |line, mark| line.strip_prefix(mark).unwrap_or(line));
        let declared = line.strip_prefix("fn ").unwrap_or(line);
        declared.strip_prefix(name).is_some_and(|rest| rest.starts_with([' ', '(', '<']))
    })
}

#[track_caller]
fn assert_declared(file: &str, name: &str) {
    assert!(declares(&read(file), name), "docs/READING.md: {file} declares no {name}");
}

#[test]
fn names_of_the_index_stand_in_their_files() {
    let rows = rows("docs/READING.md", "Where to find each event");
    let (head, rows) = rows[1..].split_first().expect("the index has rows");
    let (events, parts): (Vec<_>, Vec<_>) = rows.iter().partition(|row| row.len() == head.len());
    assert_eq!(events.len(), 12);
    for row in events {
        for (folder, cell) in head[1..].iter().zip(&row[1..]) {
            let name = names(cell)[0];
            let other = cell.rsplit_once(", ").map(|(_, file)| file);
            let file = match (other, folder.rsplit_once('/')) {
                (Some(other), Some((folder, _))) => format!("{folder}/{other}"),
                _ => folder.clone(),
            };
            assert_declared(&file, name);
        }
    }
    for row in &parts[1..] {
        for part in row[1].split(';') {
            let file = part.rsplit(", ").next().expect("a part ends in its file");
            for name in names(part) {
                assert_declared(file, name);
            }
        }
    }
}

#[test]
fn every_must_fail_edit_has_a_row() {
    let page = read("docs/REQUIREMENTS.md");
    let named = names(&page);
    let mut edits = Vec::new();
    for folder in fs::read_dir(root().join("crates")).expect("crates can be read") {
        let Ok(files) = fs::read_dir(folder.expect("an entry").path().join("must-fail")) else { continue };
        edits.extend(files.map(|file| file.expect("an entry").path()));
    }
    let unnamed: Vec<_> = edits
        .iter()
        .filter(|edit| !named.contains(&edit.file_stem().expect("an edit has a name").to_str().expect("in UTF-8")))
        .collect();
    assert!(unnamed.is_empty(), "no row of docs/REQUIREMENTS.md names {unnamed:?}");
}

#[test]
fn the_whole_run_of_the_rules_is_the_listing() {
    let rows = &rows("docs/RULES.md", "A whole run")[1..];
    let listing: String = rows.iter().zip(DOCUMENT_LISTING.lines().skip(1)).fold(String::new(), |text, (row, line)| {
        let code = line.split(' ').nth(1).expect("a line has an event");
        format!("{text}{} {code} {} {} {} {}\n", row[0], row[3], row[4], row[5], row[6])
    });
    assert_eq!(format!("step event status runner level begun\n{listing}lost 0 1\n"), DOCUMENT_LISTING);
    let bytes: Vec<u8> = rows
        .iter()
        .flat_map(|row| row[1].split(' ').map(|byte| u8::from_str_radix(byte, 16).expect("a byte")).collect::<Vec<_>>())
        .collect();
    assert_eq!(bytes, DOCUMENT_TRACE);
}

#[test]
fn the_rules_list_every_refusal() {
    let rows = [rows("docs/RULES.md", "Refusals"), rows("docs/RULES.md", "Configurations from OIL")].concat();
    let listed: Vec<u32> =
        rows.iter().flat_map(|row| row[0].split(", ")).filter_map(|code| code.parse().ok()).collect();
    let header = read("include/osek.h");
    let numbers = header.lines().filter_map(|line| line.trim_start().split_once(" = "));
    let refusals = numbers.filter(|(name, _)| !name.starts_with("OSEK_EVENT_") && !name.starts_with("OSEK_E_"));
    let declared = refusals.filter(|(name, _)| name.starts_with("OSEK_") && !name.contains(' '));
    let declared: Vec<u32> =
        declared.filter_map(|(_, rest)| rest.split([',', ' ']).next().and_then(|number| number.parse().ok())).collect();
    assert!(declared.len() > 25, "{declared:?}");
    for refusal in declared.into_iter().chain(REFUSALS.map(u32::from)) {
        assert!(listed.contains(&refusal), "docs/RULES.md does not list {refusal}");
    }
}

fn crates() -> Vec<String> {
    let text = read("crates.txt");
    let heads = text.lines().filter(|line| !line.starts_with('#')).filter_map(|line| line.split_once(':'));
    // `staticlib` may follow a name.
    heads.filter_map(|(head, _)| head.split_whitespace().next()).map(String::from).collect()
}

/// All files under a folder, or the file itself, with one of these endings; not what rt made of them in a folder `out`.
fn files(path: &Path, endings: &[&str]) -> Vec<PathBuf> {
    if path.is_file() {
        return vec![path.to_path_buf()];
    }
    let Ok(entries) = fs::read_dir(path) else { return Vec::new() };
    let paths = entries.map(|entry| entry.expect("an entry").path()).filter(|path| !path.ends_with("out"));
    let found = paths.flat_map(|path| if path.is_dir() { files(&path, endings) } else { vec![path] });
    found.filter(|path| endings.iter().any(|ending| path.to_string_lossy().ends_with(ending))).collect()
}

/// Whether a crate has code of its own.
fn has_functions(name: &str) -> bool {
    let sources = files(&root().join("crates").join(name).join("src"), &[".rt"]);
    let texts = sources.iter().map(|file| fs::read_to_string(file).expect("a source can be read"));
    texts.into_iter().any(|text| text.contains("fn ") || text.contains("\npub use "))
}

/// Whether a file of one of these crates declares a name.
fn declared_in(crates: &[String], name: &str) -> bool {
    let folders = crates.iter().map(|name| root().join("crates").join(name));
    let sources = folders.flat_map(|folder| files(&folder, &[".antt", ".rt"]));
    sources.into_iter().any(|file| declares(&fs::read_to_string(file).expect("a source can be read"), name))
}

/// The pages, without the notes of docs/changes, and without docs/PORT.md, docs/DESIGN-PASS.md and docs/LOOK-BACK.md, which
/// name what was.
fn pages() -> Vec<String> {
    let mut pages: Vec<String> = ["README.md", "CONTRIBUTING.md", "CHANGELOG.md"].map(String::from).into();
    pages.extend(["tests/README.md", "tool/README.md", "unit/README.md"].map(String::from));
    pages.extend(names_in("docs", ".md").iter().map(|name| format!("docs/{name}")));
    pages.retain(|page| !["docs/PORT.md", "docs/DESIGN-PASS.md", "docs/LOOK-BACK.md"].contains(&page.as_str()));
    pages
}

fn notes() -> Vec<String> {
    names_in("docs/changes", ".md").iter().map(|name| format!("docs/changes/{name}")).collect()
}

fn names_in(folder: &str, ending: &str) -> Vec<String> {
    let entries = fs::read_dir(root().join(folder)).expect("a folder can be read");
    let names = entries.map(|entry| entry.expect("an entry").file_name().to_string_lossy().into_owned());
    names.filter(|name| name.ends_with(ending)).collect()
}

#[test]
fn the_map_has_every_crate_in_its_table() {
    let rows = rows("README.md", "The crates");
    let mut bare = true;
    let mut named = Vec::new();
    for row in rows {
        if row[0] == "crate" {
            bare = row[1].contains("alone");
            continue;
        }
        for name in row[0].split(", ") {
            assert_ne!(has_functions(name), bare, "README.md has {name} in the other table");
            named.push(name.to_string());
        }
    }
    let mut crates = crates();
    named.sort();
    crates.sort();
    assert_eq!(named, crates);
}

#[test]
fn the_rooms_name_every_crate_without_functions() {
    let text = read("CONTRIBUTING.md");
    let from = text.find("theorems alone (").expect("CONTRIBUTING.md lists the crates without functions") + 16;
    let mut named: Vec<&str> = text[from..].split(')').next().unwrap_or_default().split(',').map(str::trim).collect();
    let mut bare = crates();
    bare.retain(|name| !has_functions(name));
    named.sort_unstable();
    bare.sort();
    assert_eq!(named, bare);
}

#[test]
fn the_claims_of_the_readme_stand_on_the_page_of_theorems() {
    let page = read("crates/osek/proofs/Theorems.antt");
    let code = read("crates/osek_c/src/lib.rt");
    let rows = &rows("README.md", "What is proved")[1..];
    assert!(rows.len() >= 10);
    for name in rows.iter().flat_map(|row| names(&row[1])) {
        assert!(declares(&page, name) || declares(&code, name), "the page of theorems has no {name}");
    }
}

#[test]
fn the_names_of_each_demand_are_declared_in_its_crates() {
    for row in rows("docs/READING.md", "Where each demand is stated") {
        let crates: Vec<String> = row[1].split(", ").map(String::from).collect();
        if row[1] == "crates" || row[1] == "all" {
            continue;
        }
        for name in names(&row[2]) {
            assert!(declared_in(&crates, name), "docs/READING.md: {} has no {name}", row[1]);
        }
    }
}

/// The words of the sources, and the names of edits and of planted faults.
fn words() -> BTreeSet<String> {
    let folders =
        ["crates", "include", "tests/src", "tests/tests", "tool/src", "tool/tests", "python", "unit", "scripts"];
    let mut sources: Vec<PathBuf> = ["crates.txt", "Makefile", "tests/build.rs"].map(|name| root().join(name)).into();
    sources.extend(folders.iter().flat_map(|folder| files(&root().join(folder), &[""])));
    let mut words = BTreeSet::new();
    for source in sources.into_iter().filter(|source| source.extension().is_none_or(|ending| ending != "md")) {
        words.extend(source.file_stem().map(|name| name.to_string_lossy().into_owned()));
        let Ok(text) = fs::read_to_string(source) else { continue };
        let parts = text.split(|c: char| !(c.is_alphanumeric() || "_-'′".contains(c)));
        words.extend(parts.filter(|word| !word.is_empty()).map(String::from));
    }
    words
}

/// A name between backquotes is a word of the sources. The grammar of docs/TEXT.md has words of its own.
#[test]
fn every_name_in_a_page_is_a_word_of_the_sources() {
    let words = words();
    for page in pages().into_iter().filter(|page| page != "docs/TEXT.md") {
        let text = read(&page);
        for name in text.lines().flat_map(names) {
            let plain = name.chars().all(|c| c.is_ascii_alphanumeric() || "_-′".contains(c));
            if plain && name.starts_with(|c: char| c.is_ascii_alphabetic()) && !name.ends_with(['-', '_']) {
                assert!(words.contains(name), "{page}: no source has {name}");
            }
        }
    }
}

/// docs/USE.md has a row for every function that the header declares, and for no other.
#[test]
fn the_use_page_lists_every_call() {
    let header = read("include/osek.h");
    let lines = header.lines().filter_map(|line| line.strip_prefix("uint64_t "));
    let declared: BTreeSet<&str> = lines.filter_map(|line| line.split('(').next()).collect();
    let page = read("docs/USE.md");
    let rows = page.lines().filter_map(|line| line.strip_prefix("| `osek_"));
    let listed: BTreeSet<String> =
        rows.map(|row| format!("osek_{}", row.split('`').next().unwrap_or_default())).collect();
    assert!(declared.len() >= 6, "{declared:?}");
    assert_eq!(listed.iter().map(String::as_str).collect::<BTreeSet<_>>(), declared);
}

/// A page's number is the counted one, but for rounding and a tenth.
#[track_caller]
fn assert_counted(told: &str, counted: usize, what: &str) {
    let told: usize = told.replace(',', "").parse().unwrap_or_else(|_| panic!("{told} is no number"));
    assert!(
        told.abs_diff(counted) <= counted / 10 + 10,
        "docs/READING.md says {told} lines, there are {counted}: {what}"
    );
}

#[test]
fn the_lines_to_read_are_counted() {
    for row in &rows("docs/READING.md", "What one has to read to believe it")[1..] {
        let sources: BTreeSet<PathBuf> =
            names(&row[2]).iter().flat_map(|path| files(&root().join(path), &[".antt"])).collect();
        assert!(!sources.is_empty(), "{}", row[2]);
        let text: String = sources.iter().map(|file| fs::read_to_string(file).expect("a source can be read")).collect();
        let defines = |line: &&str| {
            let line = line.trim_start();
            !line.is_empty() && !line.starts_with("--") && !line.starts_with("use ")
        };
        assert_counted(&row[3], text.lines().count(), &row[0]);
        assert_counted(&row[4], text.lines().filter(defines).count(), &row[0]);
    }
    let count = |folder: &str, ending: &str| -> usize {
        let folders = crates().into_iter().map(|name| root().join("crates").join(name).join(folder));
        let sources = folders.flat_map(|folder| files(&folder, &[ending]));
        sources.map(|file| fs::read_to_string(file).expect("a source can be read").lines().count()).sum()
    };
    let page = read("docs/READING.md").replace('\n', " ");
    let (code, rest) = page.split_once(" lines of code and ").expect("the page counts the lines of code");
    assert_counted(code.rsplit(' ').next().unwrap_or_default(), count("src", ".rt"), "code");
    assert_counted(rest.split(' ').next().unwrap_or_default(), count("proofs", ".antt"), "proofs");
}

/// A fenced block shows a file, which the line before it names; `..` alone on a line leaves something out.
#[test]
fn excerpts_are_found_word_for_word_in_their_files() {
    for (page, least) in [("docs/PROOF.md", 12), ("docs/READING.md", 2)] {
        let text = read(page);
        let mut lines = text.lines();
        let mut before = "";
        let mut found = 0;
        while let Some(line) = lines.next() {
            if line != "```" {
                before = if line.is_empty() { before } else { line };
                continue;
            }
            let excerpt: Vec<&str> = lines.by_ref().take_while(|line| *line != "```").collect();
            let file = *names(before).last().unwrap_or_else(|| panic!("{page}: no file named in: {before}"));
            let source = read(file);
            let mut rest = format!("\n{source}");
            for part in excerpt.join("\n").split("\n..\n") {
                let at = rest.find(&format!("\n{part}\n"));
                let at = at.unwrap_or_else(|| panic!("{page}: {file} does not have\n{part}"));
                rest = rest[at + part.len()..].to_string();
            }
            found += 1;
        }
        assert!(found >= least, "{page} has only {found} excerpts");
    }
}

/// The words of a page that are paths of this repository, without what rt makes in a crate's folder `out`.
fn paths(text: &str) -> Vec<&str> {
    let folders = ["crates/", "docs/", "tests/", "tool/", "unit/", "host/", "include/", "python/", "scripts/"];
    let parts = |c: char| !(c.is_alphanumeric() || "_./-{}*".contains(c));
    let words = text.split(parts).map(|word| word.trim_end_matches(['.', '/', '-']));
    let kept = |word: &&str| !word.contains(['{', '*']) && !word.contains("/out/");
    words.filter(|word| folders.iter().any(|folder| word.starts_with(folder))).filter(kept).collect()
}

/// From the root of the repository or from the page's folder; a host test may be named without its folder and ending.
#[test]
fn every_path_in_a_page_is_there() {
    for page in pages().into_iter().chain(notes()) {
        let folder = Path::new(&page).parent().expect("a page is in a folder").to_path_buf();
        for path in paths(&read(&page)) {
            let test = format!("tests/{}.rs", path.trim_end_matches(".rs"));
            let there = [PathBuf::from(path), folder.join(path), PathBuf::from(test)];
            assert!(there.iter().any(|path| root().join(path).exists()), "{page}: there is no {path}");
        }
    }
}

/// A heading as a link names it.
fn anchor(heading: &str) -> String {
    let kept = heading.to_lowercase();
    kept.chars().filter(|c| c.is_alphanumeric() || " -_".contains(*c)).collect::<String>().replace(' ', "-")
}

#[test]
fn every_link_leads_somewhere() {
    for page in pages().into_iter().chain(notes()) {
        let text = read(&page);
        let targets = text.split("](").skip(1).filter_map(|rest| rest.split(')').next());
        for target in targets.filter(|target| !target.starts_with("http")) {
            let (file, part) = target.split_once('#').unwrap_or((target, ""));
            let folder = Path::new(&page).parent().expect("a page is in a folder");
            let file = if file.is_empty() { PathBuf::from(&page) } else { folder.join(file) };
            assert!(root().join(&file).exists(), "{page}: there is no {target}");
            let there = part.is_empty()
                || read(&file.to_string_lossy()).lines().any(|line| {
                    line.trim_start_matches('#').strip_prefix(' ').is_some_and(|heading| anchor(heading) == part)
                });
            assert!(there, "{page}: {target} leads to no heading");
        }
    }
}

/// What README.md shows of `make run` is the listing, with lines left out at `..`.
#[test]
fn the_readme_shows_the_listing() {
    let page = read("README.md");
    let from = page.find("    step event status").expect("README.md shows the listing");
    let block: String =
        page[from..].lines().take_while(|line| !line.is_empty()).map(|line| format!("{}\n", &line[4..])).collect();
    let (first, last) = block.split_once("..\n").expect("README.md leaves lines out");
    assert!(DOCUMENT_LISTING.starts_with(first), "{first}");
    assert!(DOCUMENT_LISTING.ends_with(last), "{last}");
}

/// scripts/prove and scripts/test compare what they took with these sentences.
#[test]
fn the_readme_says_how_long_both_commands_take() {
    let page = read("README.md").replace('\n', " ");
    for sentence in ["every crate it needs, about ", "`make test` takes about "] {
        let (_, rest) = page.split_once(sentence).unwrap_or_else(|| panic!("README.md does not say: {sentence}"));
        let (minutes, unit) = rest.split_once(' ').expect("a number and its unit");
        assert!(minutes.parse::<u32>().is_ok_and(|minutes| minutes > 0) && unit.starts_with("minutes"), "{sentence}");
    }
}

#[test]
fn every_make_goal_in_a_page_is_one() {
    let makefile = read("Makefile");
    for page in pages().into_iter().chain(notes()) {
        let text = read(&page);
        let indented = text.lines().filter(|line| line.starts_with("    make "));
        let commands = names(&text).into_iter().filter(|name| name.starts_with("make ")).chain(indented);
        for command in commands {
            let words = command.trim_start().split("  ").next().unwrap_or_default().split(' ').skip(1);
            for goal in words.filter(|word| !word.contains('=')) {
                let there = makefile.lines().any(|line| line.split(':').next().is_some_and(|head| head == goal));
                assert!(there, "{page}: `{command}` names no goal {goal}");
            }
        }
    }
}

#[test]
fn decisions_are_short_and_readings_link_to_their_rules() {
    for line in read("docs/DECISIONS.md").lines().filter(|line| line.starts_with("| ")) {
        for cell in line.trim_matches('|').split(" | ") {
            let words = cell.split_whitespace().count();
            assert!(words <= 40, "docs/DECISIONS.md: {words} words: {cell}");
        }
    }
    for heading in ["Readings of document 01", "Readings of document 02"] {
        for row in &rows("docs/DECISIONS.md", heading)[1..] {
            assert!(row.iter().any(|cell| cell.contains("](R")), "docs/DECISIONS.md: no link to the rule: {}", row[0]);
        }
    }
}

#[test]
fn notes_of_changes_have_one_shape() {
    for note in notes() {
        let text = read(&note);
        let stem = note.trim_start_matches("docs/changes/").trim_end_matches(".md");
        assert!(text.starts_with(&format!("# {stem}: ")), "{note} has another title");
        let headings: Vec<&str> = text.lines().filter_map(|line| line.strip_prefix("## ")).collect();
        assert_eq!(headings, ["Moved", "Stayed", "Cost"], "{note}");
        let moved = &rows(&note, "Moved");
        assert_eq!(moved[0], ["what", "where", "how"], "{note}");
        let mut seen = BTreeSet::new();
        for row in moved {
            assert_eq!(row.len(), 3, "{note}: {row:?}");
            let first = row[1].split(|c: char| !(c.is_alphanumeric() || c == '_')).next().unwrap_or_default();
            let known = ["where", "the", "include", "tests", "tool"].contains(&first);
            assert!(known || crates().iter().any(|name| name == first), "{note}: no crate {first}");
            assert!(seen.insert((&row[0], &row[1])), "{note} has two rows of {}, {}", row[0], row[1]);
        }
        let changelog = read("CHANGELOG.md");
        assert!(changelog.contains(&format!("- {stem}: ")), "CHANGELOG.md does not have {stem}");
    }
}

/// The bounds of docs/PERFORMANCE.md hold or do not as it says, by its own tables of drawn traces.
#[test]
fn the_last_run_meets_the_bounds_that_it_is_said_to_meet() {
    let greatest = |column: &str| {
        let mut head: Vec<String> = Vec::new();
        let mut greatest: f64 = 0.0;
        for row in rows("docs/PERFORMANCE.md", "The last run") {
            if row[1].parse::<u32>().is_err() && row[2].parse::<u32>().is_err() {
                head = row;
            } else if let (true, Some(at)) = (head[0] == "traces", head.iter().position(|name| name == column)) {
                greatest = greatest.max(row[at].parse().expect("a ratio"));
            }
        }
        assert!(greatest > 0.0, "no table has {column}");
        greatest
    };
    let page = read("docs/PERFORMANCE.md");
    for (bound, column) in [
        ("a run takes at most 2.0 times", "osek_run / Rust"),
        ("a run takes at most 1.15 times", "osek_run / Rust"),
        ("a verdict takes at most 1.1 times", "osek_verdict / osek_run"),
    ] {
        let row = page.lines().find(|line| line.contains(bound)).unwrap_or_else(|| panic!("no row: {bound}"));
        let limit: f64 = bound.split(' ').nth(5).and_then(|number| number.parse().ok()).expect("a bound");
        assert_eq!(row.ends_with("| yes |"), greatest(column) <= limit, "{bound}");
    }
}

/// What was tried is one table, and every shape has its reason.
#[test]
fn what_was_tried_is_one_table() {
    let rows = rows("docs/PERFORMANCE.md", "What was tried");
    assert_eq!(rows[0], ["shape", "instructions", "why not kept"]);
    assert!(rows.iter().all(|row| row.len() == 3 && row.iter().all(|cell| !cell.is_empty())));
}
