//! The report as one page that needs nothing else.

use std::fmt::Write;

use super::{drawn_from, escaped, Report, Result, LOSSES_APART};
use crate::coverage::{counts, Row};
use crate::inspect::Difference;
use crate::words::{self, grouped, EVENTS, STATUSES};

const STYLE: &str = "\
body { font: 15px/1.45 'DejaVu Sans', Verdana, Arial, sans-serif; color: #1f2937; max-width: 70em; margin: 2em auto; padding: 0 1em; }
h1 { font-size: 1.4em; } h2 { font-size: 1.15em; margin-top: 2em; }
.verdict { padding: .8em 1em; border-radius: .4em; font-weight: bold; font-size: 1.1em; }
.pass { background: #d1fae5; color: #065f46; } .differs { background: #fee2e2; color: #991b1b; }
.interrupted { background: #fef3c7; color: #92400e; }
table { border-collapse: collapse; } td, th { padding: .2em .8em .2em 0; text-align: left; vertical-align: top; }
th { font-weight: normal; color: #6b7280; } thead th { border-bottom: 1px solid #d1d5db; }
td.number { text-align: right; font-variant-numeric: tabular-nums; }
tr.marked td { background: #fee2e2; } .missing, .missing td { color: #b45309; } .never, .never td { color: #9ca3af; }
.statuses td, .statuses th { border: 1px solid #e5e7eb; padding: .15em .5em; font-size: 12px; }
pre, .hex { font: 13px/1.4 'DejaVu Sans Mono', Consolas, monospace; background: #f3f4f6; padding: .8em; overflow-x: auto; }
.hex { overflow-wrap: anywhere; } .picture { overflow-x: auto; border: 1px solid #e5e7eb; }
.note { color: #4b5563; } summary { cursor: pointer; }
@media print { details { display: block; } .picture { overflow: visible; } }
";

pub fn write(report: &Report) -> String {
    let unit = escaped(&report.inspection.unit);
    let mut page = format!(
        "<!DOCTYPE html>\n<html lang=\"en\">\n<head>\n<meta charset=\"utf-8\">\n<title>Inspection of {unit}</title>\n\
         <style>\n{STYLE}</style>\n</head>\n<body>\n<h1>Inspection of {unit}</h1>\n"
    );
    let _ = writeln!(page, "<p class=\"verdict {}\">{}</p>", report.result.word(), escaped(&report.sentence));
    page.push_str("<table>\n");
    for (name, value) in &report.facts {
        let _ = writeln!(page, "<tr><th>{name}</th><td>{}</td></tr>", escaped(value));
    }
    let _ = writeln!(page, "</table>\n<p class=\"note\">{LOSSES_APART}</p>");
    if report.result != Result::Differs {
        page.push_str("<p class=\"note\">What such a pass is worth depends on what the draw finds: <code>osek power</code> says it for this configuration.</p>\n");
    }
    if let Some(first) = report.inspection.differences.first() {
        difference(&mut page, report, first);
    }
    if report.inspection.differences.len() > 1 {
        groups(&mut page, report);
    }
    coverage(&mut page, report);
    let bytes: Vec<String> =
        report.inspection.order.config.source.bytes.iter().map(|byte| format!("{byte:02x}")).collect();
    let _ = writeln!(page, "<h2>Configuration</h2>\n<pre>{}</pre>", escaped(&report.config_text()));
    let _ = writeln!(page, "<p class=\"hex\">{}</p>", bytes.join(" "));
    traces(&mut page, report);
    page.push_str("</body>\n</html>\n");
    page
}

fn difference(page: &mut String, report: &Report, difference: &Difference) {
    let _ = writeln!(page, "<h2>The first difference</h2>\n<p>{}</p>", escaped(&report.origin(difference)));
    let _ = writeln!(page, "<p><b>{}</b></p>", escaped(&difference.finding.told));
    page.push_str("<table>\n<thead><tr><th>step</th><th>event</th><th>reference</th><th>unit</th></tr></thead>\n");
    for row in report.rows(difference) {
        let class = if row.differs { " class=\"marked\"" } else { "" };
        let [event, expected, given] = [&row.event, &row.expected, &row.given].map(|cell| escaped(cell));
        let _ = writeln!(
            page,
            "<tr{class}><td class=\"number\">{}</td><td>{event}</td><td>{expected}</td><td>{given}</td></tr>",
            row.step
        );
    }
    page.push_str("</table>\n");
    let why = report.why(difference);
    if !why.is_empty() {
        let _ = writeln!(page, "<p>Why the reference answers so:</p>\n<pre>{}</pre>", escaped(&why));
    }
    if let Some(picture) = report.picture(difference) {
        let _ = writeln!(
            page,
            "<p>Who runs when, by the reference, up to that event:</p>\n<div class=\"picture\">\n{picture}\n</div>"
        );
    }
}

fn groups(page: &mut String, report: &Report) {
    page.push_str("<h2>All differences, by what differs</h2>\n<table>\n");
    page.push_str("<thead><tr><th>what differs</th><th>traces</th><th>the first of them</th></tr></thead>\n");
    for (group, places) in &report.groups {
        let first = &report.inspection.differences[places[0]];
        let _ = writeln!(
            page,
            "<tr><td>{}</td><td class=\"number\">{}</td><td>trace {}: {}</td></tr>",
            escaped(group),
            places.len(),
            first.number,
            escaped(&first.finding.told)
        );
    }
    page.push_str("</table>\n");
}

fn coverage(page: &mut String, report: &Report) {
    page.push_str("<h2>What the traces showed</h2>\n");
    let said = |rows: &[Row], what: &str| {
        let (shown, possible) = counts(rows);
        format!("{what}: {shown} of {possible} that this configuration can show")
    };
    let _ = writeln!(page, "<p>{}</p>", said(&report.statuses, "Statuses"));
    statuses(page, &report.statuses);
    let (shown, possible) = counts(&report.situations);
    let is_open = if shown < possible { " open" } else { "" };
    let summary = said(&report.situations, "Situations");
    let _ = writeln!(page, "<details{is_open}><summary>{summary}</summary>\n<table>");
    for row in &report.situations {
        let (class, times) = times(row);
        let _ = writeln!(page, "<tr{class}><td>{}</td><td class=\"number\">{times}</td></tr>", escaped(&row.what));
    }
    page.push_str("</table></details>\n");
}

/// A row for each event, a column for each status.
fn statuses(page: &mut String, rows: &[Row]) {
    page.push_str("<table class=\"statuses\">\n<thead><tr><th></th>");
    for (_, name) in STATUSES {
        let _ = write!(page, "<th>{}</th>", name.trim_start_matches("E_OS_"));
    }
    page.push_str("</tr></thead>\n");
    for event in &EVENTS {
        let _ = write!(page, "<tr><td>{}</td>", event.name);
        for (status, _) in STATUSES {
            let what = format!("{}: {}", event.name, words::status_words(status));
            match rows.iter().find(|row| row.what == what) {
                None => page.push_str("<td></td>"),
                Some(row) => {
                    let (class, times) = times(row);
                    let _ = write!(page, "<td{class}>{times}</td>");
                }
            }
        }
        page.push_str("</tr>\n");
    }
    page.push_str("</table>\n");
}

/// How often something was shown, or why not, with its class.
fn times(row: &Row) -> (&'static str, String) {
    match (row.times, row.never) {
        (0, Some(reason)) => (" class=\"never\"", escaped(&format!("never: {reason}"))),
        (0, None) => (" class=\"missing\"", "not shown".into()),
        (times, _) => ("", grouped(times)),
    }
}

fn traces(page: &mut String, report: &Report) {
    let count = grouped(report.inspection.traces.len() as u64);
    let _ = writeln!(
        page,
        "<h2>What was drawn</h2>\n<details><summary>{count} traces, with their start values</summary>\n<table>"
    );
    page.push_str("<thead><tr><th>trace</th><th>kind</th><th>start value or seed</th><th>events</th><th>bytes</th><th></th></tr></thead>\n");
    for trace in &report.inspection.traces {
        let (kind, start) = drawn_from(&trace.source);
        let (class, result) = if trace.difference.is_some() { (" class=\"marked\"", "differs") } else { ("", "pass") };
        let _ = writeln!(
            page,
            "<tr{class}><td class=\"number\">{}</td><td>{kind}</td><td class=\"number\">{start}</td><td class=\"number\">{}</td>\
             <td class=\"number\">{}</td><td>{result}</td></tr>",
            trace.number, trace.events, trace.bytes
        );
    }
    page.push_str("</table></details>\n");
}
