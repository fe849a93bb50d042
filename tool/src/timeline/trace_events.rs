//! A timeline as trace events in JSON, for Perfetto and chrome://tracing.

use super::times;
use crate::history::{History, Moment, State};
use crate::json;
use crate::words;

/// The processes under which a viewer groups its rows.
const RUN: u32 = 1;
const BODIES: u32 = 2;

/// Rows of the run's process.
const EVENTS: usize = 0;
const STATUSES: usize = 1;

pub fn write(history: &History) -> String {
    let mut events = names(history);
    events.extend(states(history));
    events.extend(steps(history));
    events.extend(levels(history));
    events.extend(losses(history));
    events.extend(misses(history));
    format!("{{\"displayTimeUnit\": \"ms\", \"traceEvents\": {}}}\n", json::lines(&events))
}

/// Nanoseconds as the format's microseconds.
fn micro(time: u64) -> String {
    format!("{}.{:03}", time / 1_000, time % 1_000)
}

fn event(phase: &str, name: &str, process: u32, row: usize, rest: &[(&str, String)]) -> String {
    let mut members = vec![
        ("ph", json::string(phase)),
        ("name", json::string(name)),
        ("pid", process.to_string()),
        ("tid", row.to_string()),
    ];
    members.extend_from_slice(rest);
    json::object(&members)
}

fn names(history: &History) -> Vec<String> {
    let called = |kind: &str, process, row, name: &str| {
        event("M", kind, process, row, &[("args", json::object(&[("name", json::string(name))]))])
    };
    let mut events = vec![
        called("process_name", RUN, EVENTS, "run"),
        called("thread_name", RUN, EVENTS, "events"),
        called("thread_name", RUN, STATUSES, "statuses other than 0"),
        called("process_name", BODIES, 0, "bodies"),
    ];
    for (place, body) in history.by_priority().into_iter().enumerate() {
        let sort = if history.is_time_triggered(body) { "time-triggered, " } else { "" };
        let priority = history.objects.bodies[body].priority;
        let name = format!("{} ({sort}priority {priority})", history.names.body(body as u32));
        events.push(called("thread_name", BODIES, body, &name));
        let order = json::object(&[("sort_index", place.to_string())]);
        events.push(event("M", "thread_sort_index", BODIES, body, &[("args", order)]));
    }
    events
}

/// A stretch for each state other than suspended.
fn states(history: &History) -> Vec<String> {
    let moments: Vec<&Moment> = history.moments().collect();
    let times: Vec<u64> = std::iter::once(0).chain(times(history)).collect();
    let mut events = Vec::new();
    for body in 0..history.objects.bodies.len() {
        let mut first = 0;
        while first < moments.len() {
            let state = moments[first].states[body];
            let begins = |moment: &usize| *moment > first && history.steps[*moment - 1].answer.begun == 1;
            // A body that ends and begins again in one event goes on running: the stretch is parted there.
            let again = |moment: &usize| state == State::Running && begins(moment);
            let same = |moment: &usize| moments[*moment].states[body] == state && !again(moment);
            let end = first + (first..moments.len()).take_while(same).count();
            if state != State::Suspended {
                let rest = [
                    ("cat", json::string("state")),
                    ("ts", micro(times[first])),
                    ("dur", micro(times[end] - times[first])),
                ];
                events.push(event("X", state.word(), BODIES, body, &rest));
            }
            first = end;
        }
    }
    events
}

fn steps(history: &History) -> Vec<String> {
    let times = times(history);
    let mut events = Vec::new();
    for (index, step) in history.steps.iter().enumerate() {
        let status = step.answer.status;
        let args = json::object(&[
            ("step", index.to_string()),
            ("tick", step.tick.to_string()),
            ("status", status.to_string()),
            ("begun", step.answer.begun.to_string()),
        ]);
        let length = times[index + 1] - times[index];
        let rest = [
            ("cat", json::string("event")),
            ("ts", micro(times[index])),
            ("dur", micro(length)),
            ("args", args.clone()),
        ];
        events.push(event("X", &history.names.event(&step.event), RUN, EVENTS, &rest));
        if status != 0 {
            let rest = [
                ("cat", json::string("status")),
                ("ts", micro(times[index])),
                ("s", json::string("t")),
                ("args", args),
            ];
            events.push(event("i", &words::status_words(status), RUN, STATUSES, &rest));
        }
    }
    events
}

fn levels(history: &History) -> Vec<String> {
    let times = std::iter::once(0).chain(times(history));
    let counter = |time: u64, level: u8| {
        let args = json::object(&[("level", level.to_string())]);
        event("C", "level", RUN, EVENTS, &[("ts", micro(time)), ("args", args)])
    };
    let mut before = None;
    let mut events = Vec::new();
    for (time, moment) in times.zip(history.moments()) {
        if before != Some(moment.level) {
            events.push(counter(time, moment.level));
        }
        before = Some(moment.level);
    }
    events
}

fn losses(history: &History) -> Vec<String> {
    let times = times(history);
    let mut events = Vec::new();
    for (index, step) in history.steps.iter().enumerate() {
        let before = &history.before(index).losses;
        for (body, count) in step.after.losses.iter().enumerate().filter(|(body, count)| **count > before[*body]) {
            let args = json::object(&[("tick", step.tick.to_string()), ("count", count.to_string())]);
            let rest =
                [("cat", json::string("loss")), ("ts", micro(times[index])), ("s", json::string("t")), ("args", args)];
            let request = words::kind(history.objects.bodies[body].kind).map_or("request", |kind| kind.request);
            events.push(event("i", &format!("lost {request}"), BODIES, body, &rest));
        }
    }
    events
}

fn misses(history: &History) -> Vec<String> {
    let times = times(history);
    let mut events = Vec::new();
    for (index, step) in history.steps.iter().enumerate() {
        for body in &step.missed {
            let deadline = history.objects.bodies[*body].deadline;
            let args = json::object(&[("tick", step.tick.to_string()), ("deadline", deadline.to_string())]);
            let rest =
                [("cat", json::string("miss")), ("ts", micro(times[index])), ("s", json::string("t")), ("args", args)];
            events.push(event("i", "deadline missed", BODIES, *body, &rest));
        }
    }
    events
}
