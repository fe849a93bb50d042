//! The report as JSON.

use super::{drawn_from, Report, LOSSES_APART};
use crate::coverage::Row;
use crate::inspect::plan::Source;
use crate::inspect::{setting, Difference, Trace};
use crate::json::{lines, object, string};

pub fn write(report: &Report) -> String {
    let inspection = &report.inspection;
    let facts: Vec<(&str, String)> = report.facts.iter().map(|(name, value)| (*name, string(value))).collect();
    let members = [
        ("result", string(report.result.word())),
        ("sentence", string(&report.sentence)),
        ("interrupted", inspection.interrupted.to_string()),
        ("facts", object(&facts)),
        ("losses", string(LOSSES_APART)),
        ("seed", inspection.order.plan.seed.to_string()),
        ("configuration", string(&hex(&inspection.order.config.source.bytes))),
        ("planned", inspection.order.traces.to_string()),
        ("events", inspection.events().to_string()),
        ("traces", lines(&inspection.traces.iter().map(trace).collect::<Vec<_>>())),
        ("differences", lines(&inspection.differences.iter().map(|one| difference(report, one)).collect::<Vec<_>>())),
        ("statuses", lines(&report.statuses.iter().map(row).collect::<Vec<_>>())),
        ("situations", lines(&report.situations.iter().map(row).collect::<Vec<_>>())),
    ];
    let members: Vec<String> = members.iter().map(|(name, value)| format!("{}: {value}", string(name))).collect();
    format!("{{{}}}\n", members.join(",\n"))
}

fn trace(trace: &Trace) -> String {
    let (kind, start) = drawn_from(&trace.source);
    let mut members = vec![
        ("number", trace.number.to_string()),
        ("kind", string(kind)),
        (if trace.source.is_guided() { "seed" } else { "start" }, start.to_string()),
        ("events", trace.events.to_string()),
        ("bytes", trace.bytes.to_string()),
    ];
    if let Source::Drawn { setting, .. } = &trace.source {
        members.push(("limits", string(&setting::limits_words(setting, true))));
    }
    members.push(("result", string(if trace.difference.is_some() { "differs" } else { "pass" })));
    object(&members)
}

fn difference(report: &Report, difference: &Difference) -> String {
    let finding = &difference.finding;
    object(&[
        ("trace", difference.number.to_string()),
        ("group", string(&finding.group)),
        ("told", string(&finding.told)),
        ("event", finding.event.map_or_else(|| "null".into(), |event| event.to_string())),
        ("played", string(&hex(&difference.played.trace))),
        ("small", string(&hex(&finding.trace))),
        ("why", string(&report.why(difference))),
    ])
}

fn row(row: &Row) -> String {
    let never = row.never.map_or_else(|| "null".into(), string);
    object(&[("what", string(&row.what)), ("times", row.times.to_string()), ("never", never)])
}

fn hex(bytes: &[u8]) -> String {
    bytes.iter().map(|byte| format!("{byte:02x}")).collect()
}
