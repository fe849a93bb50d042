//! `osek cases`: the tests' own draws as files.

use std::fs;

use osek_tests::cases;
use osek_tests::compare::{outcome, SUBJECT};
use osek_tests::fast::OUTPUT_MAX;
use osek_tests::listing::listing;

use super::common::*;

#[test]
fn cases_are_the_tests_own_with_the_library_s_listing() {
    let folder = Folder::new();
    folder.osek(&["cases", "--seed", "20261115", "--count", "40", "-o", "drawn"]).prints("", 0);
    let index = folder.text("drawn/index.csv");
    let mut rows = index.lines();
    assert_eq!(rows.next(), Some("case,config_bytes,trace_bytes,events,refusal,place"));
    for number in 0..40 {
        let mut case = cases::case(20_261_115, number);
        case.out_len = OUTPUT_MAX;
        let (result, out) = outcome(SUBJECT, &case);
        let file = |kind: &str| folder.read(&format!("drawn/{number:04}.{kind}"));
        assert_eq!((file("config.bin"), file("trace.bin")), (case.config.clone(), case.trace.clone()));
        assert_eq!(file("expected"), listing(&case.config, &case.trace, result, &out).into_bytes());
        let said = match result >> 32 {
            0 => format!("{result},,"),
            refusal => format!(",{refusal},{}", result & 0xffff_ffff),
        };
        assert_eq!(
            rows.next(),
            Some(format!("{number:04},{},{},{said}", case.config.len(), case.trace.len()).as_str())
        );
    }
    assert_eq!(rows.next(), None);
    assert_eq!(fs::read_dir(folder.0.join("drawn")).expect("it is a folder").count(), 3 * 40 + 1);
}

#[test]
fn a_case_depends_on_its_seed_and_number_alone() {
    let folder = Folder::new();
    folder.osek(&["cases", "--count", "12", "-o", "a"]).prints("", 0);
    folder.osek(&["cases", "--seed=1", "--first=9", "--count=3", "-o", "b"]).prints("", 0);
    for name in ["0009.config.bin", "0010.trace.bin", "0011.expected"] {
        assert_eq!(folder.read(&format!("a/{name}")), folder.read(&format!("b/{name}")));
    }
    folder.osek(&["cases", "--first", "99999", "--count", "2", "-o", "c"]).prints("", 0);
    assert!(folder.0.join("c/100000.expected").exists() && folder.0.join("c/099999.expected").exists());
}

#[test]
fn a_folder_that_is_not_empty_or_can_not_be_made_is_refused() {
    let folder = Folder::document();
    folder.osek(&["cases", "--count", "2", "-o", "."]).fails(3, ". is not empty: name a new folder");
    folder
        .osek(&["cases", "--count", "2", "-o", "config.bin"])
        .fails(3, "config.bin could not be written: File exists");
    folder
        .osek(&["cases", "--count", "2", "-o", "config.bin/x"])
        .fails(3, "config.bin/x could not be written: Not a directory");
    assert_eq!(fs::read_dir(&folder.0).expect("it is a folder").count(), 2);
}
