//! `osek check`: a record against the reference, without a simulator.

use super::common::*;

/// The document's text with a record of its run, changed.
#[track_caller]
fn check(record: impl AsRef<[u8]>) -> Said {
    Folder::new().with("both.txt", DOCUMENT_TEXT).with("record", record).osek(&["check", "both.txt", "record"])
}

fn output() -> Vec<u8> {
    let mut out = vec![0; osek_tests::fast::OUTPUT_MAX];
    osek_tests::subject::run(&DOCUMENT_CONFIG, &DOCUMENT_TRACE, &mut out);
    out.truncate(4 * 17 + 2 * 3);
    out
}

#[test]
fn a_right_record_is_equal_in_every_form() {
    let all = "equal: 17 answers and the losses\n";
    check(DOCUMENT_LISTING).prints(all, 0);
    check(DOCUMENT_LISTING.replace('\n', "\r\n")).prints(all, 0);
    check(output()).prints(all, 0);
    check(&output()[..68]).prints("equal: 17 answers; the record has no losses\n", 0);
    let folder = Folder::document().with("record", DOCUMENT_LISTING);
    folder.osek(&["check", "config.bin", "trace.bin", "record"]).prints(all, 0);
    folder.write("config.bin", [1]);
    folder.write("record", "refused 1 1\n");
    folder.osek(&["check", "config.bin", "trace.bin", "record"]).prints("equal: refused 1 1\n", 0);
}

/// The true difference is told, not one of a smaller case: listing step 7, where a body that began first is taken for
/// the one that goes first.
#[test]
fn the_first_difference_is_told_with_its_reasons_and_the_others_in_a_line_each() {
    let record = DOCUMENT_LISTING
        .replace("7 5 0 1 5 1", "7 5 0 0 2 0")
        .replace("8 6 0 1 5 0", "8 6 0 0 2 0")
        .replace("lost 0 1", "lost 0 3");
    check(&record).prints(
        "\
3 differences; the first:
event 7 Release flash (both.txt:17, tick 1): runner high expected, low recorded; level 5 expected, 2 recorded; begun 1 expected, 0 recorded
  before  high ready at 5; low running at 5, holds flash (ceiling 5)
  does    low gives flash back; its current priority falls from 5 to 2
  after   high running at 5; low preempted at 2
  runs    high begins: it is at 5, above low at 2
the others:
event 8 Tick (both.txt:18, tick 2): runner high expected, low recorded; level 5 expected, 2 recorded
losses of low: 1 expected, 3 recorded
",
        1,
    );
    check(DOCUMENT_LISTING.replace("lost 0 1", "lost 1 1")).prints(
        "\
2 differences; the first:
losses of low: 1 expected, 0 recorded
  event 9 Tick (both.txt:18, tick 3): the entry of beacon at 2 is due while low is preempted: an activation of it is lost, which makes 1
the others:
losses of high: 0 expected, 1 recorded
",
        1,
    );
}

#[test]
fn answers_that_are_missing_or_too_many_are_told() {
    let said = check(DOCUMENT_LISTING.replace("5 2 0 0 5 0\n", ""));
    assert!(
        said.out.starts_with("1 difference; the first:\nevent 5 Finish (both.txt:15, tick 1): no answer recorded\n"),
        "{}",
        said.out
    );
    let said = check(&output()[..60]);
    assert!(said.out.starts_with("2 differences; the first:\nevent 15 Finish "), "{}", said.out);
    let said = check([output()[..68].to_vec(), vec![0; 8]].concat());
    assert_eq!(
        (said.out.as_str(), said.code),
        ("1 difference; the first:\n2 answers more recorded than the trace has events, 17 events\n", Some(1))
    );
    let said = check(DOCUMENT_LISTING.replace("5 2 0 0 5 0", "5 3 0 0 5 0"));
    assert!(
        said.out.contains("event 5 Finish (both.txt:15, tick 1): the record has event code 3 here\n"),
        "{}",
        said.out
    );
    check("refused 23 4\n").prints("1 difference; the first:\n17 events expected, refusal 23 at place 4 recorded\n", 1);
}

#[test]
fn a_record_that_can_not_be_read_is_no_difference() {
    check(DOCUMENT_LISTING.replace("5 2 0 0 5 0", "5 2 0 0 5 0 \x1b[31m"))
        .fails(4, "record:7: neither a row of six numbers nor a line `lost BODY COUNT`: `5 2 0 0 5 0 \\x1b[31m`");
    let size = "record: 67 bytes are no listing, and no answers of four bytes each with or without losses behind them";
    check(&output()[..67]).fails(4, size);
    Folder::new().osek(&["check", "a", "b"]).fails(4, "a can't be read: No such file or directory");
    Folder::new().osek(&["check", "a"]).fails(2, "check: TRACE is missing; see osek check --help");
}

/// Every answer that is changed is found at its event.
#[test]
fn any_changed_byte_is_found() {
    let folder = Folder::document();
    for at in 0..74 {
        let mut record = output();
        record[at] ^= 1;
        folder.write("record", &record);
        let said = folder.osek(&["check", "config.bin", "trace.bin", "record"]);
        let place = if at < 68 { format!("event {} ", at / 4) } else { "losses of ".into() };
        let told = said.out.lines().nth(1).unwrap_or_default();
        assert!(said.code == Some(1) && told.starts_with(&place), "{at}: {}", said.out);
        assert!(said.out.starts_with("1 difference; "), "{at}: {}", said.out);
    }
}
