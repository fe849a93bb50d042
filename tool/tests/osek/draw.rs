//! `osek draw`: the trace, and what is printed so that it can be drawn again.

use osek_tests::draw::{draw, TRACE_MAX};

use super::common::*;

/// Worked out apart from the library: eight events from 2,463,534,242 on.
const EIGHT: [u8; 23] = [
    0x08, 0x00, 0x00, 0x07, 0x04, 0x03, 0x04, 0x06, 0x0c, 0xb9, 0xfc, 0xbc, 0xf1, 0x09, 0x06, 0x0a, 0xa6, 0xf9, 0xa7,
    0xe1, 0x0a, 0x01, 0x01,
];

const EQUAL: &str =
    "weights activate=1,finish=1,chain=1,get=1,release=1,tick=1,line=1,start=1,stop=1,wait=1,set=1,clear=1\n";

#[test]
fn the_trace_is_written_and_told_with_what_it_was_drawn_from() {
    let folder = Folder::new();
    let limits = "bodies=5,resources=3,tables=2,delays=100";
    let said = folder.osek(&["draw", "--count", "8", "--start", "2463534242", "--limits", limits, "-o", "x"]);
    said.prints(&format!("start 2463534242\n{EQUAL}limits {limits}\n8 events, 23 bytes\n"), 0);
    assert_eq!(folder.read("x"), EIGHT);
}

/// A word's line of what was printed.
fn line<'a>(said: &'a str, word: &str) -> &'a str {
    let found = said.lines().find_map(|line| line.strip_prefix(word)?.strip_prefix(' '));
    found.unwrap_or_else(|| panic!("no {word} in {said}"))
}

#[test]
fn a_trace_is_drawn_again_from_what_was_printed() {
    let folder = Folder::new();
    let said = folder.osek(&["draw", "--count", "300", "-o", "first"]).done();
    let arguments =
        ["--start", line(&said, "start"), "--weights", line(&said, "weights"), "--limits", line(&said, "limits")];
    let again = folder.osek(&[&["draw", "--count", "300", "-o", "again"], &arguments[..]].concat()).done();
    assert_eq!(again, said);
    assert_eq!(folder.read("again"), folder.read("first"));
    // Another draw without start value and seed is another trace.
    let other = folder.osek(&["draw", "--count", "300", "-o", "other"]).done();
    assert_ne!(line(&other, "start"), line(&said, "start"));
    assert_ne!(folder.read("other"), folder.read("first"));
}

#[test]
fn seeds_give_start_values_of_another_generator() {
    let folder = Folder::new();
    let start = |seed: &str| -> u32 {
        let said = folder.osek(&["draw", "--count", "1", "--seed", seed, "-o", "x"]).done();
        line(&said, "start").parse().expect("a number")
    };
    // The high halves of SplitMix64's first outputs.
    assert_eq!([start("0"), start("1"), start("2")], [0xe220_a839, 0x910a_2dec, 0x9758_35de]);
    assert_eq!(start("7"), start("7"));
}

#[test]
fn a_configuration_gives_weights_and_limits() {
    let folder = Folder::new().with("config.bin", DOCUMENT_CONFIG).with("one.txt", "version 1\ntask a priority 1\n");
    let said = folder.osek(&["draw", "--count", "400", "--seed", "3", "--config", "config.bin", "-o", "x"]).done();
    assert_eq!(line(&said, "limits"), "bodies=3,resources=1,tables=1,delays=4");
    let weights = "activate=1,finish=1,chain=1,get=1,release=1,tick=1,line=1,start=1,stop=1,wait=0,set=0,clear=0";
    assert_eq!(line(&said, "weights"), weights);
    let (start, mut trace) = (line(&said, "start").parse().expect("a number"), vec![0; TRACE_MAX]);
    let length = draw(start, &[1, 1, 1, 1, 1, 1, 1, 1, 1, 0, 0, 0], &[3, 1, 1, 4], 400, &mut trace);
    assert_eq!(folder.read("x"), &trace[..length as usize]);
    assert_eq!(folder.osek(&["run", "config.bin", "x", "--csv"]).done().lines().count(), 401);
    // Neither resources nor tables nor extended tasks; a weight and a limit that are named count before them.
    let said = folder.osek(&["draw", "--count", "9", "--config", "one.txt", "-o", "x"]).done();
    let weights = "activate=1,finish=1,chain=1,get=0,release=0,tick=1,line=1,start=0,stop=0,wait=0,set=0,clear=0";
    assert_eq!((line(&said, "weights"), line(&said, "limits")), (weights, "bodies=1,resources=1,tables=1,delays=1"));
    let named = ["--weights", "tick=65535,get=1", "--limits", "resources=9"];
    let said = folder.osek(&[&["draw", "--count", "9", "--config", "one.txt", "-o", "x"], &named[..]].concat()).done();
    let weights = "activate=0,finish=0,chain=0,get=1,release=0,tick=65535,line=0,start=0,stop=0,wait=0,set=0,clear=0";
    assert_eq!((line(&said, "weights"), line(&said, "limits")), (weights, "bodies=1,resources=9,tables=1,delays=1"));
}

#[test]
fn refusals_are_told_and_nothing_is_written() {
    let folder = Folder::new().with("bad.bin", [9]);
    let refused: [(&[&str], &str); 6] = [
        (&["--count", "0", "--start", "0"], "refused 50 0\n"),
        (&["--count", "1", "--start", "1", "--weights", "tick=0"], "refused 51 0\n"),
        (&["--count", "1", "--start", "1", "--limits", "delays=0"], "refused 51 0\n"),
        (&["--count", "8193", "--start", "1", "--weights", "tick=1"], "refused 20 0\n"),
        (&["--count", "4294967295"], "refused 20 0\n"),
        (&["--count", "1", "--config", "bad.bin"], "refused 3 0\n"),
    ];
    for (arguments, line) in refused {
        folder.osek(&[&["draw", "-o", "x"], arguments].concat()).prints(line, 1);
        assert!(!folder.0.join("x").exists());
    }
}

#[test]
fn a_bad_command_line_says_what_is_wrong() {
    let folder = Folder::new();
    let events = "activate, finish, chain, get, release, tick, line, start, stop, wait, set, clear";
    let wrong: [(&[&str], &str); 8] = [
        (&["-o", "x"], "--count is missing"),
        (&["--count", "1"], "-o is missing"),
        (&["--count", "1", "-o", "-"], "standard output takes the words: name a file"),
        (&["--count", "4294967296", "-o", "x"], "--count takes 0 to 4294967295, not 4294967296"),
        (&["--count", "1", "-o", "x", "--start", "1", "--seed", "1"], "--start and --seed exclude each other"),
        (&["--count", "1", "-o", "x", "--weights", "tik=1"], &format!("--weights: tik is none of {events}")),
        (&["--count", "1", "-o", "x", "--weights", "tick=65536"], "--weights: tick takes 0 to 65535, not 65536"),
        (&["--count", "1", "-o", "x", "--limits", "bodies"], "--limits: bodies takes 0 to 65535, not "),
    ];
    for (arguments, message) in wrong {
        folder.osek(&[&["draw"], arguments].concat()).fails(2, &format!("draw: {message}; see osek draw --help"));
    }
}
