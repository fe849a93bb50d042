//! The report as text.

use std::fmt::Write;

use super::{Report, LOSSES_APART};
use crate::coverage::{counts, gaps, Row};
use crate::inspect::Difference;

pub fn write(report: &Report) -> String {
    let mut text = format!("{}\n\n", report.sentence);
    for (name, value) in &report.facts {
        let _ = writeln!(text, "  {name:<15}{value}");
    }
    let _ = writeln!(text, "\n{LOSSES_APART}");
    if let Some(first) = report.inspection.differences.first() {
        difference(&mut text, report, first);
    }
    if report.inspection.differences.len() > 1 {
        groups(&mut text, report);
    }
    coverage(&mut text, "statuses", &report.statuses);
    coverage(&mut text, "situations", &report.situations);
    text
}

fn difference(text: &mut String, report: &Report, difference: &Difference) {
    let _ = writeln!(text, "\nfirst difference: {}\n{}\n", report.origin(difference), difference.finding.told);
    let rows = report.rows(difference);
    let width =
        |cell: fn(&super::ListingRow) -> &str| rows.iter().map(|row| cell(row).chars().count()).max().unwrap_or(0);
    let (event, expected) = (width(|row| &row.event).max(5), width(|row| &row.expected).max(8));
    let _ = writeln!(text, "    step  {:<event$}  {:<expected$}  unit", "event", "expected");
    for row in rows {
        let mark = if row.differs { '>' } else { ' ' };
        let _ = writeln!(
            text,
            "  {mark} {:>4}  {:<event$}  {:<expected$}  {}",
            row.step, row.event, row.expected, row.given
        );
    }
    let why = report.why(difference);
    if !why.is_empty() {
        let _ = write!(text, "\n{why}");
    }
}

fn groups(text: &mut String, report: &Report) {
    let _ = writeln!(text, "\ndifferences by what differs:");
    for (group, places) in &report.groups {
        let first = &report.inspection.differences[places[0]];
        let traces = crate::words::counted(places.len(), "trace");
        let _ = writeln!(text, "  {group}: {traces}, the first of them {}", first.number);
        let _ = writeln!(text, "    {}", first.finding.told);
    }
}

/// So many things that can never be shown are named with their reason; the page has all of them.
const NAMED_MAX: usize = 2;

fn coverage(text: &mut String, name: &str, rows: &[Row]) {
    let (shown, possible) = counts(rows);
    let _ = writeln!(text, "\n{name}: {shown} of {possible} that this configuration can show");
    let (missing, never) = gaps(rows);
    for row in missing {
        let _ = writeln!(text, "  not shown: {}", row.what);
    }
    let mut reasons: Vec<&str> = Vec::new();
    never.iter().filter_map(|row| row.never).for_each(|reason| {
        if !reasons.contains(&reason) {
            reasons.push(reason);
        }
    });
    for reason in reasons {
        let barred: Vec<&str> =
            never.iter().filter(|row| row.never == Some(reason)).map(|row| row.what.as_str()).collect();
        let more = barred.len().saturating_sub(NAMED_MAX);
        let more = if more == 0 { String::new() } else { format!("; and {more} more") };
        let _ = writeln!(text, "  never, {reason}: {}{more}", barred[..barred.len().min(NAMED_MAX)].join("; "));
    }
}
