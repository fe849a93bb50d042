//! A timeline as a page for a browser, which needs nothing else: the lanes, the listing and the reasons, to zoom, to
//! search and to step through.

use super::svg::escaped;
use crate::history::{History, Moment, State};
use crate::json;
use crate::why::Why;
use crate::words::{self, Sort};

const PAGE: &str = include_str!("page.html");

pub fn write(history: &History, title: &str) -> String {
    // A text in the data must not end the script that holds it.
    let data = data(history, title).replace("</", "<\\/").replace("<!--", "<\\!--");
    PAGE.replace("@TITLE@", &escaped(title)).replace("@DATA@", &data)
}

fn letter(state: State) -> char {
    match state {
        State::Suspended => '.',
        State::Ready => 'r',
        State::Running => 'R',
        State::Preempted => 'p',
        State::Waiting => 'w',
    }
}

fn list(values: impl Iterator<Item = String>) -> String {
    format!("[{}]", values.collect::<Vec<_>>().join(","))
}

fn data(history: &History, title: &str) -> String {
    let rows = history.by_priority();
    let moments: Vec<&Moment> = history.moments().collect();
    let bodies = list(rows.iter().map(|body| {
        let priority = history.priority(*body).to_string();
        json::object(&[("name", json::string(&history.names.body(*body as u32))), ("priority", priority)])
    }));
    let states = list(
        moments
            .iter()
            .map(|moment| json::string(&rows.iter().map(|body| letter(moment.states[*body])).collect::<String>())),
    );
    let mut levels: Vec<u8> = moments.iter().map(|moment| moment.level).chain([0]).collect();
    let level = list(levels[..moments.len()].iter().map(u8::to_string));
    levels.sort_unstable();
    levels.dedup();
    let data = json::object(&[
        ("title", json::string(title)),
        ("bodies", bodies),
        ("states", states),
        ("resources", list(resources(history, &moments).into_iter())),
        ("bits", list(bits(history, &moments).into_iter())),
        ("level", level),
        ("levels", list(levels.iter().map(u8::to_string))),
        ("events", json::lines(&events(history, &rows))),
    ]);
    data
}

/// The resources that are held at some time, each with its holder at every moment.
fn resources(history: &History, moments: &[&Moment]) -> Vec<String> {
    let mut all = Vec::new();
    for resource in 0..history.objects.resources.len() as u32 {
        let holder = |moment: &&Moment| moment.held.iter().position(|held| held.contains(&resource));
        if moments.iter().any(|moment| holder(moment).is_some()) {
            let name = |moment| holder(moment).map_or_else(String::new, |body| history.names.body(body as u32));
            all.push(json::object(&[
                ("name", json::string(&history.names.name(Sort::Resource, resource))),
                ("ceiling", history.ceiling(resource).to_string()),
                ("holders", list(moments.iter().map(|moment| json::string(&name(moment))))),
            ]));
        }
    }
    all
}

/// The tasks that have event bits or wait at some time, with both at every moment.
fn bits(history: &History, moments: &[&Moment]) -> Vec<String> {
    let mut all = Vec::new();
    for body in history.by_priority().into_iter().filter(|body| history.is_extended(*body)) {
        let value = |moment: &&Moment| match (moment.bits[body], moment.states[body]) {
            (0, State::Waiting) => format!("waits {:#x}", moment.waited[body]),
            (bits, State::Waiting) => format!("{bits:#x} waits {:#x}", moment.waited[body]),
            (0, _) => String::new(),
            (bits, _) => format!("{bits:#x}"),
        };
        if moments.iter().any(|moment| !value(moment).is_empty()) {
            all.push(json::object(&[
                ("name", json::string(&history.names.body(body as u32))),
                ("values", list(moments.iter().map(|moment| json::string(&value(moment))))),
            ]));
        }
    }
    all
}

fn events(history: &History, rows: &[usize]) -> Vec<String> {
    let place = |body: usize| rows.iter().position(|row| *row == body).unwrap_or(0).to_string();
    let mut events = Vec::new();
    for (index, step) in history.steps.iter().enumerate() {
        let why = Why::of(history, index);
        let status = words::status_words(step.answer.status);
        let runner = step.answer.runner.map_or_else(|| "-".into(), |body| history.names.body(body.into()));
        let begins = step.answer.runner.filter(|_| step.answer.begun == 1);
        let before = &history.before(index).losses;
        let lost = (0..rows.len()).filter(|body| step.after.losses[*body] > before[*body]).map(place);
        let text =
            format!("{} ({}): status {status}, runner {runner}, level {}", why.event, why.place, step.answer.level);
        events.push(json::object(&[
            ("name", json::string(&history.names.event(&step.event))),
            ("code", step.event.word.code.to_string()),
            ("tick", step.tick.to_string()),
            ("status", step.answer.status.to_string()),
            ("statusName", json::string(&status)),
            ("runner", json::string(&runner)),
            ("begins", begins.map_or_else(|| "null".into(), |body| place(body.into()))),
            ("lost", list(lost)),
            ("missed", list(step.missed.iter().map(|body| place(*body)))),
            ("why", json::string(&format!("{text}\n{}", why.lines()))),
            ("text", json::string(&text)),
        ]));
    }
    events
}
