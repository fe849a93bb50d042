//! Request A9 on drawn runs of the library. Nothing below disturbs what is above: two prefixes that differ in what waits
//! below a level, and the same events after them. Every accepted request is one begin or waits to begin: requests and marks
//! are counted from the events' names and answers.

use osek_tests::cases::{case, push_event, Random};
use osek_tests::fast::{self, Answer, Config, Event, Kernel, NextDue, Timers, TRACE_MAX};

#[cfg(not(feature = "linked"))]
use osek_tests::plain::run;
#[cfg(feature = "linked")]
use osek_tests::subject::run;

const DONE: u8 = 0;
const LIMIT: u8 = 4;

/// A drawn configuration that is accepted, with the events of its trace.
fn drawn(seed: u64, number: u64) -> Option<(Vec<u8>, Config, Vec<Event>)> {
    let case = case(seed, number);
    let config = fast::read_config(&case.config).ok()?;
    fast::count_events(&case.trace).ok()?;
    let (mut events, mut at) = (Vec::new(), 0);
    while at < case.trace.len() {
        let (event, next) = fast::read_event(&case.trace, at).ok()?;
        events.push(event);
        at = next;
    }
    Some((case.config, config, events))
}

/// The library's answers to the events, and the losses after them. `None` where the trace would be too long.
fn answers(config: &[u8], bodies: usize, events: &[Event]) -> Option<(Vec<Answer>, Vec<u16>)> {
    let mut trace = Vec::new();
    events.iter().for_each(|event| push_event(&mut trace, *event));
    if trace.len() > TRACE_MAX {
        return None;
    }
    let mut out = vec![0; 4 * events.len() + 2 * bodies];
    assert_eq!(run(config, &trace, &mut out), events.len() as u64);
    let (rows, losses) = out.split_at(4 * events.len());
    let rows = rows.chunks(4).map(|row| Answer { status: row[0], runner: row[1], level: row[2], begun: row[3] });
    Some((rows.collect(), losses.chunks(2).map(|pair| u16::from_le_bytes([pair[0], pair[1]])).collect()))
}

// Nothing below disturbs what is above

/// No Activate, Chain or Line names a body of priority at most `level`, and no Set such an extended task. A time-triggered
/// task, with its trigger level, is above every one.
fn names_above(config: &Config, level: u8, event: Event) -> bool {
    let above = |body: u32| body as usize >= config.bodies() || config.priority(body) > level;
    match event {
        Event::Activate(task) | Event::Chain(task) | Event::Line(task) => above(task),
        Event::Set(task, _) => !config.is_extended(task) || above(task),
        _ => true,
    }
}

/// What was seen of the pairs.
#[derive(Default, Debug)]
struct Sights {
    pairs: usize,
    events: usize,
    begins: usize,
    /// Pairs after which the losses of a body at or below the level differ: its entry was due, and found it waiting in one
    /// run alone.
    due_below: usize,
    /// Pairs whose answers differ at the first event after which a level is below.
    told_by_the_fall: usize,
}

/// Calls and lines of bodies of priority at most `level`.
fn requests_below(random: &mut Random, config: &Config, level: u8) -> Vec<Event> {
    let bodies = (0..config.bodies() as u32).filter(|body| config.priority(*body) <= level);
    let events = bodies.map(|body| if config.is_isr(body) { Event::Line(body) } else { Event::Activate(body) });
    events.filter(|_| random.chance(60)).collect()
}

/// Forks a drawn run where somebody runs, asks in one of the two for bodies below, and compares.
fn compare_pair(random: &mut Random, bytes: &[u8], config: &Config, events: &[Event], sights: &mut Sights) {
    let bodies = config.bodies();
    let Some((rows, _)) = answers(bytes, bodies, events) else { return };
    let Some(fork) = random.pick_where(rows.len(), |at| rows[at as usize].level > 0) else { return };
    let (before, after) = events.split_at(fork as usize + 1);
    let level = random.between(1, usize::from(rows[fork as usize].level)) as u8;
    let asked = requests_below(random, config, level);
    let further: Vec<Event> = after.iter().copied().filter(|event| names_above(config, level, *event)).collect();

    let quiet = [before, &further].concat();
    let busy = [before, &asked, &further].concat();
    let Some((quiet_rows, quiet_losses)) = answers(bytes, bodies, &quiet) else { return };
    let Some((busy_rows, busy_losses)) = answers(bytes, bodies, &busy) else { return };
    let (asked_rows, busy_rows) = busy_rows[before.len()..].split_at(asked.len());
    if asked_rows.iter().all(|row| row.status != DONE) {
        return;
    }
    sights.pairs += 1;
    for (at, (quiet, busy)) in quiet_rows[before.len()..].iter().zip(busy_rows).enumerate() {
        if quiet.level < level || busy.level < level {
            sights.told_by_the_fall += usize::from(quiet != busy);
            return;
        }
        assert_eq!(quiet, busy, "event {at} by level {level}: {bytes:02x?}, {before:?}, {asked:?}, {further:?}");
        sights.events += 1;
        sights.begins += usize::from(quiet.begun);
    }
    for body in 0..bodies {
        let differ = quiet_losses[body] != busy_losses[body];
        assert!(!differ || config.priority(body as u32) <= level, "losses of {body} above {level}: {bytes:02x?}");
        sights.due_below += usize::from(differ);
    }
}

#[test]
fn what_waits_below_does_not_change_the_answers_above() {
    let (seed, mut random, mut sights) = (9, Random::new(9), Sights::default());
    for number in 0..12_000 {
        let Some((bytes, config, events)) = drawn(seed, number) else { continue };
        compare_pair(&mut random, &bytes, &config, &events, &mut sights);
    }
    assert!(sights.pairs > 1_500 && sights.events > 40_000 && sights.begins > 4_000, "{sights:?}");
    assert!(sights.due_below > 300 && sights.told_by_the_fall > 400, "{sights:?}");
}

// Every accepted request is one begin or waits to begin

/// What is counted of one body.
#[derive(Clone, Copy, Default, Debug)]
struct Count {
    requests: usize,
    marks: usize,
    ends: usize,
    losses: usize,
}

/// The body that an event asks for.
fn asked_for(event: Event) -> Option<u32> {
    match event {
        Event::Activate(body) | Event::Chain(body) | Event::Line(body) => Some(body),
        _ => None,
    }
}

/// Counts from the events and their answers; the due entries by the tables' arithmetic. `counts` has the fresh start.
fn count(config: &Config, runner: u8, events: &[Event], rows: &[Answer], counts: &mut [Count]) {
    let mut timers = NextDue::stopped(config);
    let mut runner = runner;
    for (event, row) in events.iter().zip(rows) {
        let accepted = row.status == DONE;
        match *event {
            Event::Start(table, delay) if accepted => timers.start(config, table as usize, delay as u16),
            Event::Stop(table) if accepted => timers.stop(config, table as usize),
            Event::Finish | Event::Chain(_) if accepted => counts[usize::from(runner)].ends += 1,
            Event::Line(isr) if row.status == LIMIT && config.counts_lines() => counts[isr as usize].losses += 1,
            Event::Tick => timers.tick(config, |rank| {
                let body = (0..config.bodies()).find(|body| config.rank(*body as u32) == rank).expect("a body's rank");
                let count = &mut counts[body];
                if count.requests == count.ends {
                    count.requests += 1;
                } else {
                    count.losses += 1;
                }
            }),
            _ => {}
        }
        if let (Some(body), true) = (asked_for(*event), accepted) {
            counts[body as usize].requests += 1;
        }
        if row.begun == 1 {
            counts[usize::from(row.runner)].marks += 1;
        }
        runner = row.runner;
    }
}

#[test]
fn accepted_requests_are_begun_marks_or_wait() {
    let (mut runs, mut requests, mut waiting, mut lost) = (0, 0, 0, 0);
    for number in 0..8_000 {
        let Some((bytes, config, events)) = drawn(10, number) else { continue };
        let Some((rows, losses)) = answers(&bytes, config.bodies(), &events) else { continue };
        let mut kernel = Kernel::<NextDue>::fresh(&config);
        // A Stop of no table changes nothing: its answer says who runs at the fresh start.
        let (fresh, _) = answers(&bytes, config.bodies(), &[Event::Stop(u32::MAX)]).expect("a short trace");
        let mut counts = vec![Count::default(); config.bodies()];
        for (body, count) in counts.iter_mut().enumerate() {
            count.requests = usize::from(!kernel.is_suspended(body as u32));
            count.marks = usize::from(usize::from(fresh[0].runner) == body);
        }
        count(&config, fresh[0].runner, &events, &rows, &mut counts);
        // The answers do not say who waits: that is the Rust version's.
        for event in &events {
            kernel.step(*event);
        }
        for (body, count) in counts.iter().enumerate() {
            let waits = usize::from(kernel.is_requested(body as u32));
            assert_eq!(count.requests, count.marks + waits, "body {body} of run {number}: {bytes:02x?}, {events:?}");
            assert_eq!(usize::from(losses[body]), count.losses.min(65_535), "losses of {body} in run {number}");
            requests += count.requests;
            waiting += waits;
            lost += count.losses;
        }
        runs += 1;
    }
    assert!(runs > 4_000 && requests > 100_000, "{runs} {requests}");
    assert!(waiting > 20_000 && lost > 300_000, "{waiting} {lost}");
}
