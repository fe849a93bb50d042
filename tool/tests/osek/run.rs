//! `osek run`: the listing in its four shapes.

use osek_tests::cases::{self, Case};
use osek_tests::compare::{outcome, SUBJECT};
use osek_tests::fast::OUTPUT_MAX;
use osek_tests::listing::listing;

use super::common::*;

#[test]
fn document_listing_is_printed_from_bytes_and_from_text() {
    let folder = Folder::document().with("both.txt", DOCUMENT_TEXT);
    folder.osek(&["run", "config.bin", "trace.bin"]).prints(DOCUMENT_LISTING, 0);
    folder.osek(&["run", "both.txt"]).prints(DOCUMENT_LISTING, 0);
    // A configuration in text, a trace in bytes, and the other way round, with the names that bytes have.
    folder.osek(&["run", "both.txt", "trace.bin"]).prints(DOCUMENT_LISTING, 0);
    let trace = DOCUMENT_TEXT.split_once("trace\n").expect("it has both parts").1;
    folder.write("numbers.txt", trace.replace("door", "isr2").replace("high", "1").replace("beacon", "table0"));
    let said = folder.osek(&["run", "config.bin", "numbers.txt"]);
    said.fails(
        4,
        "numbers.txt:2:5: no resource is named `flash`: the configuration has resource0\n  2 | get flash\n    |     ^^^^^",
    );
    folder.write("numbers.txt", folder.text("numbers.txt").replace("flash", "0"));
    folder.osek(&["run", "config.bin", "numbers.txt"]).prints(DOCUMENT_LISTING, 0);
}

#[test]
fn names_say_the_same_in_words() {
    let folder = Folder::new().with("both.txt", DOCUMENT_TEXT);
    let expected = "\
step  event           status           runner  level  begun
   0  Start beacon 1  0 E_OK           low         2
   1  Get flash       0 E_OK           low         5
   2  Tick            0 E_OK           low         5
   3  Line door       0 E_OK           door        9  begins
   4  Chain high      2 E_OS_CALLEVEL  door        9
   5  Finish          0 E_OK           low         5
   6  Finish          6 E_OS_RESOURCE  low         5
   7  Release flash   0 E_OK           high        5  begins
 8-9  Tick x2         0 E_OK           high        5
  10  Finish          0 E_OK           low         2
  11  Finish          0 E_OK           -           0
  12  Tick            0 E_OK           -           0
  13  Tick            0 E_OK           high        5  begins
  14  Stop beacon     0 E_OK           high        5
  15  Finish          0 E_OK           -           0
  16  Finish          2 E_OS_CALLEVEL  -           0
lost low 1
";
    folder.osek(&["run", "both.txt", "--names"]).prints(expected, 0);
}

#[test]
fn csv_has_a_row_for_each_event_and_one_for_each_body() {
    let folder = Folder::new().with("both.txt", DOCUMENT_TEXT);
    let csv = folder.osek(&["run", "both.txt", "--csv"]).done();
    let rows: Vec<&str> = csv.lines().collect();
    assert_eq!(rows[0], "step,code,event,argument1,argument2,status,status_name,runner,runner_name,level,begun");
    assert_eq!(rows[1], "0,8,Start,beacon,1,0,E_OK,0,low,2,0");
    assert_eq!(rows[17], "16,2,Finish,,,2,E_OS_CALLEVEL,,,0,0");
    assert_eq!(rows.len(), 18);
    folder.osek(&["run", "--csv", "--losses", "both.txt"]).prints("body,name,lost\n0,low,1\n1,high,0\n2,door,0\n", 0);
}

#[test]
fn json_agrees_with_the_listing() {
    let folder = Folder::document().with("both.txt", DOCUMENT_TEXT).with("listing", DOCUMENT_LISTING);
    for files in [&["both.txt"][..], &["config.bin", "trace.bin"]] {
        let json = folder.osek(&[&["run", "--json"], files].concat()).done();
        folder.write("run.json", json);
        python(&folder, "check_run.py", &["run.json", "listing"]);
    }
    folder.write("config.bin", [1, 1, 0, 0]);
    let json = folder.osek(&["run", "config.bin", "trace.bin", "--json"]);
    json.prints("{\"refused\": {\"code\": 5, \"place\": 3, \"meaning\": \"a field is outside its range\"}}\n", 1);
}

#[test]
fn drawn_and_damaged_files_give_the_library_s_listing() {
    let folder = Folder::new();
    for number in 0..120 {
        let Case { config, trace, .. } = cases::case(31, number);
        folder.write("config.bin", &config);
        folder.write("trace.bin", &trace);
        let case = Case { config, trace, out_len: OUTPUT_MAX, fill: 0 };
        let (result, out) = outcome(SUBJECT, &case);
        let expected = listing(&case.config, &case.trace, result, &out);
        let code = i32::from(result >> 32 != 0);
        // The file is bytes: a drawn one is a text only where all of it could be read as one.
        let said = folder.osek(&["run", "config.bin", "trace.bin"]);
        said.prints(&expected, code);
        if number % 10 == 0 && code == 0 {
            folder.write("listing", &expected);
            folder.write("run.json", folder.osek(&["run", "config.bin", "trace.bin", "--json"]).done());
            python(&folder, "check_run.py", &["run.json", "listing"]);
        }
    }
}

#[test]
fn files_that_can_not_be_read_are_40_and_41_as_in_the_bench_program() {
    let folder = Folder::document();
    let cases = [
        (["no.bin", "trace.bin"], "refused 40 0\n", "no.bin can't be read: No such file or directory"),
        (["no.bin", "no.bin"], "refused 40 0\n", "no.bin can't be read: No such file or directory"),
        (["config.bin", "no.bin"], "refused 41 0\n", "no.bin can't be read: No such file or directory"),
        (["config.bin", "."], "refused 41 0\n", ". can't be read: Is a directory"),
    ];
    for (files, out, err) in cases {
        let said = folder.osek(&["run", files[0], files[1]]);
        assert_eq!((said.out.as_str(), said.code), (out, Some(1)));
        assert_eq!(said.err, format!("osek: {err}\n"));
    }
}

#[test]
fn empty_and_huge_files_are_judged_by_the_library() {
    let folder =
        Folder::document().with("empty", "").with("huge", vec![6; 1 << 20]).with("more", vec![6; (16 << 20) + 1]);
    let header = DOCUMENT_LISTING.lines().next().expect("it has a header");
    folder.osek(&["run", "empty", "trace.bin"]).prints("refused 1 0\n", 1);
    folder.osek(&["run", "config.bin", "empty"]).prints(&format!("{header}\n"), 0);
    folder.osek(&["run", "huge", "huge"]).prints("refused 10 0\n", 1);
    folder.osek(&["run", "config.bin", "huge"]).prints("refused 20 0\n", 1);
    folder.osek(&["run", "config.bin", "more"]).fails(4, "more is longer than 16,777,216 bytes, and is not read");
}

#[test]
fn one_file_has_to_hold_both_parts() {
    let (config, trace) = DOCUMENT_TEXT.split_once("trace\n").expect("it has both parts");
    let folder = Folder::document()
        .with("config.txt", config)
        .with("trace.txt", format!("trace\n{trace}"))
        .with("both.txt", DOCUMENT_TEXT);
    folder.osek(&["run", "config.bin"]).fails(4, "config.bin holds bytes: the trace has to be a second file");
    folder
        .osek(&["run", "config.txt"])
        .fails(4, "config.txt holds a configuration alone, no trace: it follows a line `trace`, or is a second file");
    folder.osek(&["run", "trace.txt"]).fails(4, "trace.txt holds a trace alone, no configuration, which comes first");
    folder
        .osek(&["run", "trace.txt", "trace.bin"])
        .fails(4, "trace.txt holds a trace alone, no configuration, which comes first");
    folder
        .osek(&["run", "config.bin", "both.txt"])
        .fails(4, "both.txt holds a configuration of its own: give it as the only file, or a trace alone");
    folder.osek(&["run", "config.txt", "trace.txt"]).prints(DOCUMENT_LISTING, 0);
}
