//! The report as JUnit XML: a test case for each trace.

use std::fmt::Write;

use super::{escaped, Report, Result};

pub fn write(report: &Report) -> String {
    let inspection = &report.inspection;
    let skipped = usize::from(inspection.interrupted);
    let mut text = String::from("<?xml version=\"1.0\" encoding=\"UTF-8\"?>\n");
    let _ = writeln!(
        text,
        "<testsuite name=\"osek inspect: {}\" tests=\"{}\" failures=\"{}\" skipped=\"{skipped}\" time=\"{:.3}\">",
        escaped(&inspection.unit),
        inspection.traces.len() + skipped,
        inspection.differences.len(),
        inspection.took.as_secs_f64()
    );
    text.push_str("  <properties>\n");
    for (name, value) in report.facts.iter().chain([&("verdict", report.sentence.clone())]) {
        let _ = writeln!(text, "    <property name=\"{name}\" value=\"{}\"/>", escaped(value));
    }
    text.push_str("  </properties>\n");
    for trace in &inspection.traces {
        let name = escaped(&format!("trace {}, {}", trace.number, trace.source.words()));
        let _ = write!(text, "  <testcase classname=\"osek.inspect\" name=\"{name}\"");
        match trace.difference.map(|place| &inspection.differences[place]) {
            None => text.push_str("/>\n"),
            Some(difference) => {
                let told = escaped(&difference.finding.told);
                let why = escaped(&report.why(difference));
                let _ = writeln!(text, ">\n    <failure message=\"{told}\">{why}</failure>\n  </testcase>");
            }
        }
    }
    if inspection.interrupted {
        let message = escaped(&report.sentence);
        let _ = writeln!(text, "  <testcase classname=\"osek.inspect\" name=\"all traces\">\n    <skipped message=\"{message}\"/>\n  </testcase>");
    }
    debug_assert!(report.result != Result::Interrupted || inspection.interrupted);
    text.push_str("</testsuite>\n");
    text
}
