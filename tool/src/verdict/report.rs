//! Verdicts as lines with a summary, as JSON and as JUnit XML.

use std::fmt::Write;

use super::{Outcome, Unit};
use crate::json;
use crate::reference::Refused;
use crate::words::{counted, grouped, refusal};

/// Units with what is said of them.
pub struct Report<'a> {
    pub title: &'a str,
    pub units: &'a [Unit],
    pub outcomes: &'a [Outcome],
}

/// How many units have each outcome.
#[derive(Default)]
pub struct Counts {
    pub passed: usize,
    pub differ: usize,
    pub refused: usize,
    pub unreadable: usize,
}

impl Report<'_> {
    fn all(&self) -> impl Iterator<Item = (&str, &Outcome)> {
        self.units.iter().map(|unit| unit.name.as_str()).zip(self.outcomes)
    }

    pub fn counts(&self) -> Counts {
        let mut counts = Counts::default();
        for outcome in self.outcomes {
            match outcome {
                Outcome::Pass => counts.passed += 1,
                Outcome::Differs(..) => counts.differ += 1,
                Outcome::Refused(_) => counts.refused += 1,
                Outcome::Unreadable(_) => counts.unreadable += 1,
            }
        }
        counts
    }

    /// A line for each unit, and the summary.
    pub fn lines(&self) -> String {
        let mut text = String::new();
        for (name, outcome) in self.all() {
            let _ = writeln!(text, "{name}: {}", outcome.words());
        }
        let Counts { passed, differ, refused, unreadable } = self.counts();
        let number = |count: usize| grouped(count as u64);
        let _ = write!(text, "{}: {} passed, ", counted(self.units.len(), "unit"), number(passed));
        let _ = write!(text, "{} differ, {} refused", number(differ), number(refused));
        if unreadable > 0 {
            let _ = write!(text, ", {} unreadable", number(unreadable));
        }
        text.push('\n');
        text
    }

    pub fn json(&self) -> String {
        let units: Vec<String> = self.all().map(|(name, outcome)| json_unit(name, outcome)).collect();
        let Counts { passed, differ, refused, unreadable } = self.counts();
        let counts = [("passed", passed), ("differ", differ), ("refused", refused), ("unreadable", unreadable)]
            .map(|(name, count)| (name, count.to_string()));
        format!("{{\"units\": {},\n\"summary\": {}}}\n", json::lines(&units), json::object(&counts))
    }

    /// A test case for each unit: a difference is a failure, a unit that can't be judged an error.
    pub fn junit(&self) -> String {
        let Counts { differ, refused, unreadable, .. } = self.counts();
        let mut text = String::from("<?xml version=\"1.0\" encoding=\"UTF-8\"?>\n");
        let _ = writeln!(
            text,
            "<testsuite name=\"{}\" tests=\"{}\" failures=\"{differ}\" errors=\"{}\">",
            escaped(self.title),
            self.units.len(),
            refused + unreadable
        );
        for (name, outcome) in self.all() {
            let case = format!("<testcase classname=\"osek.verdict\" name=\"{}\"", escaped(name));
            let element = match outcome {
                Outcome::Pass => {
                    let _ = writeln!(text, "  {case}/>");
                    continue;
                }
                Outcome::Differs(..) => "failure",
                Outcome::Refused(_) | Outcome::Unreadable(_) => "error",
            };
            let _ = writeln!(text, "  {case}>");
            let _ = writeln!(text, "    <{element} message=\"{}\"/>", escaped(&outcome.words()));
            let _ = writeln!(text, "  </testcase>");
        }
        text.push_str("</testsuite>\n");
        text
    }
}

fn json_unit(name: &str, outcome: &Outcome) -> String {
    let mut members = vec![("unit", json::string(name))];
    match outcome {
        Outcome::Pass => members.push(("verdict", json::string("pass"))),
        Outcome::Differs(event, how) => members.extend([
            ("verdict", json::string("differs")),
            ("event", event.to_string()),
            ("how", json::string(how)),
        ]),
        Outcome::Refused(Refused { code, place }) => members.extend([
            ("verdict", json::string("refused")),
            ("code", code.to_string()),
            ("place", place.to_string()),
            ("meaning", json::string(refusal(*code).map_or("", |word| word.meaning))),
        ]),
        Outcome::Unreadable(message) => {
            members.extend([("verdict", json::string("unreadable")), ("message", json::string(message))]);
        }
    }
    json::object(&members)
}

/// For an attribute of XML; control characters, which XML does not have, become spaces.
fn escaped(text: &str) -> String {
    let mut out = String::new();
    for sign in text.chars() {
        match sign {
            '&' => out.push_str("&amp;"),
            '<' => out.push_str("&lt;"),
            '>' => out.push_str("&gt;"),
            '"' => out.push_str("&quot;"),
            sign if sign.is_control() => out.push(' '),
            sign => out.push(sign),
        }
    }
    out
}

#[cfg(test)]
mod tests {
    use super::*;

    #[test]
    fn attributes_are_escaped() {
        assert_eq!(escaped("a<b> & \"c\"\n\u{1}ü"), "a&lt;b&gt; &amp; &quot;c&quot;  ü");
    }
}
