//! `osek oil`: the configuration of an OIL text, and what is said of one that is refused.

use super::common::*;

const LOGGER_OIL: &str = "\
TASK door { PRIORITY = 5; RESOURCE = log; };
TASK radio { PRIORITY = 2; AUTOSTART = TRUE;\tRESOURCE = log; };
ISR wake { PRIORITY = 9; }; // no AUTOSTART
RESOURCE log { };
";

#[test]
fn the_configuration_of_a_text_is_written() {
    let folder = Folder::new().with("logger.oil", LOGGER_OIL);
    folder.osek(&["oil", "logger.oil", "-o", "config.bin"]).prints("", 0);
    assert_eq!(folder.read("config.bin"), [1, 3, 0, 5, 0, 0, 2, 1, 1, 9, 0, 1, 3, 0]);
}

/// The logger with one part replaced is refused with this message, and nothing is written.
#[track_caller]
fn refused(old: &str, new: &str, lines: &[&str]) {
    let folder = Folder::new().with("l.oil", LOGGER_OIL.replace(old, new));
    let said = folder.osek(&["oil", "l.oil", "-o", "config.bin"]);
    assert_eq!((said.out.as_str(), said.err, said.code), ("", lines.join("\n") + "\n", Some(1)));
    assert!(!folder.0.join("config.bin").exists());
}

#[test]
fn the_word_at_fault_is_marked() {
    refused(
        "wake { PRIORITY",
        "wake { AUTOSTART",
        &[
            "l.oil:3:12: AUTOSTART is unknown here; known are PRIORITY and RESOURCE (refusal 62)",
            "  3 | ISR wake { AUTOSTART = 9; }; // no AUTOSTART",
            "    |            ^^^^^^^^^",
        ],
    );
    refused(
        "RESOURCE log {",
        "RESOURCE lag {",
        &[
            "l.oil:1:38: no RESOURCE object is called log (refusal 64)",
            "  1 | TASK door { PRIORITY = 5; RESOURCE = log; };",
            "    |                                      ^^^",
        ],
    );
    refused(
        "ISR wake",
        "ISR door",
        &[
            "l.oil:3:5: an earlier object is called door (refusal 63)",
            "  3 | ISR door { PRIORITY = 9; }; // no AUTOSTART",
            "    |     ^^^^",
        ],
    );
    refused(
        "= 9",
        "= nine",
        &[
            "l.oil:3:23: expected a number, found nine (refusal 61)",
            "  3 | ISR wake { PRIORITY = nine; }; // no AUTOSTART",
            "    |                       ^^^^",
        ],
    );
    refused(
        "log { };\n",
        "log {",
        &[
            "l.oil:4:15: the text breaks off here, where `}` is expected (refusal 61)",
            "  4 | RESOURCE log {",
            "    |               ^",
        ],
    );
    refused(
        "// no",
        "/* no",
        &[
            "l.oil:3:29: this comment is not closed (refusal 60)",
            "  3 | ISR wake { PRIORITY = 9; }; /* no AUTOSTART",
            "    |                             ^^",
        ],
    );
}

#[test]
fn what_is_expected_or_known_is_said() {
    let first = |old: &str, new: &str| {
        let folder = Folder::new().with("l.oil", LOGGER_OIL.replace(old, new));
        let said = folder.osek(&["oil", "l.oil", "-o", "config.bin"]);
        assert_eq!((said.out.as_str(), said.code), ("", Some(1)));
        said.err.lines().next().unwrap_or_default().to_string()
    };
    for (old, new, message) in [
        ("TASK door", "OS door", "l.oil:1:1: OS is unknown here; known are TASK, ISR and RESOURCE: OIL has it, and the subset that is read has not; --subset leaves it out (refusal 62)"),
        ("RESOURCE log { }", "RESOURCE log { RESOURCEPROPERTY = STANDARD; }", "l.oil:4:16: RESOURCEPROPERTY is unknown here; a RESOURCE has no attributes: OIL has it, and the subset that is read has not; --subset leaves it out (refusal 62)"),
        ("PRIORITY = 9;", "", "l.oil:3:13: PRIORITY is missing (refusal 61)"),
        ("ISR wake {", "ISR wake [", "l.oil:3:10: no word of OIL has this sign (refusal 60)"),
        ("ISR wake {", "ISR wake ;", "l.oil:3:10: expected `{`, found ; (refusal 61)"),
        ("ISR wake", "ISR TASK", "l.oil:3:5: expected a name, found TASK, a word of OIL (refusal 61)"),
        ("= TRUE", "= YES", "l.oil:2:40: expected TRUE or FALSE, found YES (refusal 61)"),
        ("= log; };\nTASK", "= log }; TASK", "l.oil:1:42: expected `;`, found } (refusal 61)"),
    ] {
        assert_eq!(first(old, new), message, "{old} to {new}");
    }
}

#[test]
fn the_object_that_is_out_of_range_is_named() {
    refused(
        "= 5",
        "= 2",
        &[
            "l.oil:2:25: the priority of radio is 2, which door has already (refusal 6)",
            "  2 | TASK radio { PRIORITY = 2; AUTOSTART = TRUE; RESOURCE = log; };",
            "    |                         ^",
        ],
    );
    refused(
        "= 5",
        "= 500",
        &[
            "l.oil:1:24: the priority of door is 500; 1 to 200 are allowed (refusal 5)",
            "  1 | TASK door { PRIORITY = 500; RESOURCE = log; };",
            "    |                        ^^^",
        ],
    );
    refused(
        "RESOURCE log { };",
        "RESOURCE log { }; RESOURCE spare { };",
        &[
            "l.oil:4:28: no TASK or ISR uses the resource spare; at least one has to (refusal 5)",
            "  4 | RESOURCE log { }; RESOURCE spare { };",
            "    |                            ^^^^^",
        ],
    );
    let many: String = (1..=33).map(|number| format!("TASK t{number} {{ PRIORITY = {number}; }};\n")).collect();
    let folder = Folder::new().with("l.oil", many);
    let said = folder.osek(&["oil", "l.oil", "-o", "x"]);
    assert!(
        said.err.starts_with("l.oil:33:6: 33 TASK and ISR objects; 1 to 32 are allowed (refusal 4)\n"),
        "{}",
        said.err
    );
    let folder = Folder::new().with("l.oil", "// nothing\n");
    folder
        .osek(&["oil", "l.oil", "-o", "x"])
        .fails_plainly("l.oil: 0 TASK and ISR objects; 1 to 32 are allowed (refusal 4)\n");
}

/// A text as makers have it.
const MAKER: &str = "\
/* a maker's file */
OIL_VERSION = \"2.5\" : \"a version\";
#include \"sloth.oil\"
IMPLEMENTATION Sloth { TASK { UINT32 STACKSIZE = 64; }; };
CPU trailer {
  OS os { STATUS = EXTENDED; ERRORHOOK = FALSE; };
  APPMODE road { };
  TASK door {
    PRIORITY = 5;
    SCHEDULE = FULL; ACTIVATION = 1;
    AUTOSTART = TRUE { APPMODE = road; };
    RESOURCE = table;
  } : \"writes a record\";
  ISR wake { CATEGORY = 2; PRIORITY = 9; };
  RESOURCE table { RESOURCEPROPERTY = STANDARD; };
};
";

#[test]
fn what_the_subset_does_not_know_is_left_out_and_listed() {
    let folder = Folder::new().with("m.oil", MAKER);
    let said = folder.osek(&["oil", "m.oil", "-o", "c.bin", "--subset"]);
    assert_eq!((said.out.as_str(), said.code), ("", Some(0)), "{}", said.err);
    assert_eq!(folder.read("c.bin"), [1, 2, 0, 5, 1, 1, 9, 0, 1, 1, 0]);
    let mut places: Vec<(u32, &str)> = said
        .err
        .lines()
        .filter_map(|line| line.strip_prefix("m.oil:")?.split_once(": left out: "))
        .filter_map(|(place, words)| Some((place.split(':').next()?.parse().ok()?, words)))
        .collect();
    places.sort_unstable();
    let words: Vec<String> = places.iter().map(|(line, words)| format!("{line} {words}")).collect();
    assert_eq!(
        words,
        [
            "2 OIL_VERSION = \"2.5\" : \"a version\" ;",
            "3 #include \"sloth.oil\"",
            "4 IMPLEMENTATION Sloth { TASK { UINT32 STACKSIZE = ..",
            "5 CPU trailer {",
            "6 OS os { STATUS = EXTENDED ; ERRORHOOK ..",
            "7 APPMODE road { } ;",
            "10 ACTIVATION = 1 ;",
            "10 SCHEDULE = FULL ;",
            "11 { APPMODE = road ; }",
            "13 : \"writes a record\"",
            "14 CATEGORY = 2 ;",
            "15 RESOURCEPROPERTY = STANDARD ;",
        ]
    );
    // What changes the meaning stays.
    for (old, new, message) in [
        ("FULL", "NON", "m.oil:10:5: SCHEDULE = NON can't be left out: the reference has SCHEDULE = FULL alone\n"),
        (
            "ACTIVATION = 1",
            "ACTIVATION = 2",
            "m.oil:10:22: ACTIVATION = 2 can't be left out: the reference has ACTIVATION = 1 alone\n",
        ),
        (
            "CATEGORY = 2",
            "CATEGORY = 1",
            "m.oil:14:14: CATEGORY = 1 can't be left out: the reference has CATEGORY = 2 alone\n",
        ),
    ] {
        folder.write("n.oil", MAKER.replace(old, new).replace("m.oil", "n.oil"));
        folder.osek(&["oil", "n.oil", "-o", "x", "--subset"]).fails_plainly(&message.replace("m.oil", "n.oil"));
    }
    // Lines and columns stay those of the file.
    folder.write("n.oil", MAKER.replace("RESOURCE = table", "RESOURCE = tabel"));
    let said = folder.osek(&["oil", "n.oil", "-o", "x", "--subset"]);
    assert!(said.err.contains("n.oil:12:16: no RESOURCE object is called tabel (refusal 64)\n"), "{}", said.err);
}

#[test]
fn names_are_taken_along_and_an_oil_file_is_a_configuration() {
    let bom = format!("\u{feff}{LOGGER_OIL}");
    let folder = Folder::new()
        .with("l.oil", LOGGER_OIL)
        .with("bom.oil", bom)
        .with("t.txt", "trace\nline wake\nfinish\nget log\n")
        .with("m.oil", MAKER);
    folder.osek(&["oil", "l.oil", "-o", "config.txt"]).prints("", 0);
    let text = folder.text("config.txt");
    for line in [
        "task door priority 5 ",
        "task radio priority 2 autostart ",
        "isr wake priority 9 ",
        "resource log users door radio ",
    ] {
        assert!(text.contains(line), "{line}: {text}");
    }
    folder.osek(&["oil", "l.oil", "-o", "config.bin"]).prints("", 0);
    folder.osek(&["asm", "config.txt", "-o", "again.bin"]).prints("", 0);
    assert_eq!(folder.read("again.bin"), folder.read("config.bin"));
    for file in ["l.oil", "bom.oil", "config.txt"] {
        let said = folder.osek(&["run", file, "t.txt", "--names"]).done();
        let rows: Vec<&str> = said.lines().collect();
        assert_eq!(rows[1], "   0  Line wake  0 E_OK  wake        9  begins");
        assert_eq!(rows[3], "   2  Get log    0 E_OK  radio       5");
    }
    // A name that is a word of the text form gets a line at its end.
    folder.osek(&["oil", "m.oil", "-o", "m.txt", "--subset"]);
    assert!(folder.text("m.txt").contains("resource table_ users door"), "{}", folder.text("m.txt"));
    folder.write("bad.oil", LOGGER_OIL.replace("= 5", "= five"));
    let said = folder.osek(&["run", "bad.oil", "t.txt"]);
    assert!(
        said.err.starts_with("osek: bad.oil:1:24: expected a number, found five (refusal 61)\n")
            && said.code == Some(4),
        "{}",
        said.err
    );
    folder.osek(&["run", "l.oil"]).fails(4, "l.oil holds OIL: the trace has to be a second file");
}

/// A file's control characters are shown as signs.
#[test]
fn no_control_character_of_a_file_reaches_the_terminal() {
    let folder = Folder::new().with("l.oil", "TASK a { \x1b[31m\x07 PRIORITY = 1; };\n");
    let said = folder.osek(&["oil", "l.oil", "-o", "x"]);
    assert!(said.err.starts_with("l.oil:1:10: no word of OIL has this sign (refusal 60)\n"), "{}", said.err);
    assert!(!said.err.chars().any(|sign| sign.is_control() && sign != '\n'), "{:?}", said.err);
    folder.write("m.oil", "OS \x1b[31m { };\nTASK a { PRIORITY = 1; };\n");
    let said = folder.osek(&["oil", "m.oil", "-o", "x", "--subset"]);
    assert!(!said.err.chars().any(|sign| sign.is_control() && sign != '\n'), "{:?}", said.err);
}
