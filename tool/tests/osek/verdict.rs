//! `osek verdict`: units of a folder and single files, in words, as JSON and as JUnit XML.

use std::fs;

use super::common::*;

/// Document 01's listing as a record: four bytes a row.
fn record() -> Vec<u8> {
    let byte = |field: &str| if field == "-" { 255 } else { field.parse().expect("a byte") };
    let rows = DOCUMENT_LISTING.lines().skip(1).take(17);
    rows.flat_map(|row| row.split(' ').skip(2).map(byte).collect::<Vec<u8>>()).collect()
}

/// The record with one byte changed.
fn changed(at: usize, to: u8) -> Vec<u8> {
    let mut record = record();
    record[at] = to;
    record
}

/// A folder `units` with these records of document 01's run.
fn units(records: &[(&str, Vec<u8>)]) -> Folder {
    let folder = Folder::new();
    fs::create_dir(folder.0.join("units")).expect("a folder can be made");
    for (name, record) in records {
        folder.write(&format!("units/{name}.config.bin"), DOCUMENT_CONFIG);
        folder.write(&format!("units/{name}.trace.bin"), DOCUMENT_TRACE);
        folder.write(&format!("units/{name}.record.bin"), record);
    }
    folder
}

#[test]
fn units_of_a_folder_get_a_line_each_and_a_summary() {
    let folder = units(&[
        ("b", changed(4 * 6, 0)),
        ("a", record()),
        ("c", record()[..4 * 14].to_vec()),
        ("d", record()[..67].to_vec()),
        ("e", [record(), vec![0; 4]].concat()),
        ("f", changed(4 * 3 + 1, 7)),
        ("g", changed(4 * 13 + 3, 0)),
        ("h", [vec![4, 255, 0, 1], record()[4..].to_vec()].concat()),
    ]);
    let wrong = "the record is not four bytes an answer, or has more answers than there are events";
    let lines = format!(
        "\
a: pass
b: differs at 6: Finish: status 6 E_OS_RESOURCE expected, 0 recorded
c: differs at 14: Stop table0: no answer recorded
d: refused 70 0: {wrong}
e: refused 70 0: {wrong}
f: differs at 3: Line isr2: runner isr2 expected, 7 recorded
g: differs at 13: Tick: begun 1 expected, 0 recorded
h: differs at 0: Start table0 1: status 0 E_OK expected, 4 recorded; runner task0 expected, - recorded; level 2 expected, 0 recorded; begun 0 expected, 1 recorded
8 units: 1 passed, 5 differ, 2 refused
"
    );
    for jobs in ["1", "3", "100"] {
        folder.osek(&["verdict", "units", "--jobs", jobs]).prints(&lines, 1);
    }
    folder.osek(&["verdict", "units/"]).prints(&lines, 1);
}

#[test]
fn units_that_all_pass_end_well() {
    let folder = units(&[("a", record()), ("b", record())]);
    folder.osek(&["verdict", "units"]).prints("a: pass\nb: pass\n2 units: 2 passed, 0 differ, 0 refused\n", 0);
}

#[test]
fn refusals_of_the_run_come_before_the_record_s() {
    let folder = units(&[("a", vec![1]), ("b", vec![1])]);
    folder.write("units/a.trace.bin", [2, 13]);
    folder.write("units/b.config.bin", []);
    let lines = "\
a: refused 23 1: an event code is unknown
b: refused 1 0: the input ends where a number, or the rest of one, is missing
2 units: 0 passed, 0 differ, 2 refused
";
    folder.osek(&["verdict", "units"]).prints(lines, 1);
}

#[test]
fn units_without_a_configuration_have_the_folder_s() {
    let folder = units(&[("a", record()), ("b", record())]);
    folder.write("units/config.bin", DOCUMENT_CONFIG);
    fs::remove_file(folder.0.join("units/a.config.bin")).expect("a file can be removed");
    folder.osek(&["verdict", "units"]).prints("a: pass\nb: pass\n2 units: 2 passed, 0 differ, 0 refused\n", 0);
}

#[test]
fn a_unit_whose_file_is_missing_does_not_stop_the_others() {
    let folder = units(&[("a", record()), ("b", record()), ("c", changed(0, 1))]);
    fs::remove_file(folder.0.join("units/b.record.bin")).expect("a file can be removed");
    let said = folder.osek(&["verdict", "units"]);
    let lines = "\
a: pass
b: unreadable: units/b.record.bin can't be read: No such file or directory
c: differs at 0: Start table0 1: status 0 E_OK expected, 1 recorded
3 units: 1 passed, 1 differ, 0 refused, 1 unreadable
";
    assert_eq!((said.out.as_str(), said.code), (lines, Some(4)));
    assert_eq!(said.err, "osek: 1 unit can't be read\n");
}

#[test]
fn single_files_are_judged_and_texts_give_their_names() {
    let folder = Folder::document().with("logger.txt", DOCUMENT_TEXT).with("unit.record.bin", changed(4 * 4, 0));
    let end = "status 2 E_OS_CALLEVEL expected, 0 recorded\n1 unit: 0 passed, 1 differ, 0 refused\n";
    let said = folder.osek(&["verdict", "config.bin", "trace.bin", "unit.record.bin"]);
    said.prints(&format!("unit: differs at 4: Chain task1: {end}"), 1);
    let said = folder.osek(&["verdict", "logger.txt", "unit.record.bin"]);
    said.prints(&format!("unit: differs at 4: Chain high: {end}"), 1);
}

#[test]
fn json_says_the_same() {
    let folder = units(&[("a", record()), ("b", changed(0, 1)), ("c", vec![0])]);
    let said = folder.osek(&["verdict", "units", "--json", "-"]);
    let json = "\
{\"units\": [
  {\"unit\": \"a\", \"verdict\": \"pass\"},
  {\"unit\": \"b\", \"verdict\": \"differs\", \"event\": 0, \"how\": \"Start table0 1: status 0 E_OK expected, 1 recorded\"},
  {\"unit\": \"c\", \"verdict\": \"refused\", \"code\": 70, \"place\": 0, \"meaning\": \"the record is not four bytes an answer, or has more answers than there are events\"}
],
\"summary\": {\"passed\": 1, \"differ\": 1, \"refused\": 1, \"unreadable\": 0}}
";
    said.prints(json, 1);
    let said = folder.osek(&["verdict", "units", "--json", "out.json"]);
    assert_eq!(folder.text("out.json"), json);
    assert!(said.out.starts_with("a: pass\n"));
}

#[test]
fn junit_has_a_case_for_each_unit() {
    let folder = units(&[("a", record()), ("b<&>", changed(0, 1)), ("c", vec![0])]);
    folder.osek(&["verdict", "units", "--junit", "out.xml", "--json", "out.json"]);
    assert_eq!(
        folder.text("out.xml"),
        "\
<?xml version=\"1.0\" encoding=\"UTF-8\"?>
<testsuite name=\"units\" tests=\"3\" failures=\"1\" errors=\"1\">
  <testcase classname=\"osek.verdict\" name=\"a\"/>
  <testcase classname=\"osek.verdict\" name=\"b&lt;&amp;&gt;\">
    <failure message=\"differs at 0: Start table0 1: status 0 E_OK expected, 1 recorded\"/>
  </testcase>
  <testcase classname=\"osek.verdict\" name=\"c\">
    <error message=\"refused 70 0: the record is not four bytes an answer, or has more answers than there are events\"/>
  </testcase>
</testsuite>
"
    );
}

#[test]
fn a_bad_command_line_or_folder_is_told() {
    let folder = units(&[]);
    let help = "; see osek verdict --help";
    folder.osek(&["verdict"]).fails(2, &format!("verdict: DIR is missing{help}"));
    let range = format!("verdict: --jobs takes 1 to 1024, not 0{help}");
    folder.osek(&["verdict", "units", "--jobs", "0"]).fails(2, &range);
    let both = format!("verdict: standard output takes either --json or --junit{help}");
    folder.osek(&["verdict", "units", "--json", "-", "--junit", "-"]).fails(2, &both);
    let none = "units holds no units: NAME.config.bin, NAME.trace.bin, NAME.record.bin";
    folder.osek(&["verdict", "units"]).fails(4, none);
    folder.osek(&["verdict", "none"]).fails(4, "none can't be read: No such file or directory");
}
