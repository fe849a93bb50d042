//! Who is in which state when, from the fresh start on, who holds what, which tables run, and who misses a deadline.
//!
//! The library's answers say who runs, not who waits. The states in between come from the Rust version that the tests
//! keep; every answer of it, its losses and its misses are compared with the library's before anything is said. Held
//! resources and tables follow from the events and their statuses.

use osek_tests::fast::{self, Deadlines, Kernel, NextDue, EXECUTION_LEVEL};

use crate::failure::Failure;
use crate::input::Pair;
use crate::layout::{self, Body, Event, Objects};
use crate::names::Names;
use crate::reference::{self, Answer, Miss, Misses, Run};
use crate::text::line::Position;
use crate::words;

/// The documents' states, with OSEK's words for a started body: it runs or is preempted, or waits for an event.
#[derive(Clone, Copy, PartialEq, Eq, Debug)]
pub enum State {
    Suspended,
    Ready,
    Running,
    Preempted,
    Waiting,
}

pub const STATES: [State; 5] = [State::Suspended, State::Ready, State::Running, State::Preempted, State::Waiting];

impl State {
    pub fn word(self) -> &'static str {
        match self {
            State::Suspended => "suspended",
            State::Ready => "ready",
            State::Running => "running",
            State::Preempted => "preempted",
            State::Waiting => "waiting",
        }
    }

    /// Whether a body in this state may run.
    pub fn competes(self) -> bool {
        matches!(self, State::Ready | State::Running | State::Preempted)
    }
}

/// A table that runs: the delay of its start, and the ticks since.
#[derive(Clone, Copy, PartialEq, Eq, Debug)]
pub struct Started {
    pub delay: u32,
    pub ticks: u32,
}

/// What holds after an event, or at the fresh start. Lists are by body, but for the tables.
#[derive(Clone, PartialEq, Eq, Debug)]
pub struct Moment {
    pub states: Vec<State>,
    /// A request waits to begin; of a started ISR it is the second one.
    pub requests: Vec<bool>,
    pub losses: Vec<u16>,
    /// Held resources in the order taken.
    pub held: Vec<Vec<u32>>,
    /// Event bits that are set, and those that are waited for; 0 of a body that has none.
    pub bits: Vec<u32>,
    pub waited: Vec<u32>,
    pub tables: Vec<Option<Started>>,
    pub runner: Option<u8>,
    pub level: u8,
}

pub struct Step {
    pub event: Event,
    pub answer: Answer,
    pub after: Moment,
    /// Ticks so far, this event included.
    pub tick: u32,
    /// The bodies that miss a deadline at this event, by number.
    pub missed: Vec<usize>,
    /// Where the text says it, if there is one.
    pub position: Option<Position>,
}

/// An accepted run, step by step.
pub struct History {
    pub names: Names,
    pub objects: Objects,
    /// The trace's file, for positions.
    pub file: String,
    pub fresh: Moment,
    pub steps: Vec<Step>,
}

impl History {
    /// The history of a pair that has this run.
    pub fn of(pair: &Pair, run: &Run) -> Result<History, Failure> {
        let mut history = History::of_bytes(&pair.config.source.bytes, &pair.trace.bytes, &pair.config.names, run)?;
        history.file.clone_from(&pair.trace.file);
        for step in &mut history.steps {
            step.position = pair.trace.position(step.event.offset);
        }
        Ok(history)
    }

    /// The history of bytes that have this run.
    pub fn of_bytes(config: &[u8], trace: &[u8], names: &Names, run: &Run) -> Result<History, Failure> {
        let objects = layout::config(config).objects;
        let fresh_answer = reference::fresh_start(config);
        let read = fast::read_config(config).map_err(|_| disagreement("reading the configuration"))?;
        let mut kernel = Kernel::<NextDue>::fresh(&read);
        let mut deadlines = Deadlines::fresh(&kernel);
        let fresh = moment(&kernel, None, &objects);
        if fresh_answer.map(|answer| (answer.runner, answer.level)) != Some((fresh.runner, fresh.level)) {
            return Err(disagreement("the fresh start"));
        }
        let (names, file) = (names.clone(), String::new());
        let mut history = History { names, objects, file, fresh, steps: Vec::with_capacity(run.answers.len()) };
        let mut tick = 0;
        for (index, event) in layout::trace(trace).events.into_iter().enumerate() {
            let place = format!("event {index}");
            let (call, _) = fast::read_event(trace, event.offset).map_err(|_| disagreement(&place))?;
            let (given, missed) = deadlines.step(&mut kernel, call);
            let answer = *run.answers.get(index).ok_or_else(|| disagreement(&place))?;
            let before = history.before(index);
            let mut after = moment(&kernel, Some(before), &history.objects);
            after.follow(before.runner, &event, answer.status);
            let same = (given.status, after.runner, given.level, given.begun)
                == (answer.status, answer.runner, answer.level, answer.begun);
            let at = after.runner.map_or(0, |runner| history.current(&after, runner.into()));
            if !same || at != u32::from(answer.level) {
                return Err(disagreement(&place));
            }
            tick += u32::from(event.word.is_tick());
            let missed = (0..kernel.losses().len()).filter(|body| missed >> body & 1 == 1).collect();
            history.steps.push(Step { event, answer, after, tick, missed, position: None });
        }
        if kernel.losses() != run.losses {
            return Err(disagreement("the losses"));
        }
        if reference::misses(config, trace) != Ok(Misses::of(history.misses())) {
            return Err(disagreement("the misses"));
        }
        Ok(history)
    }

    /// The missed deadlines, in order of time, then of body.
    fn misses(&self) -> impl Iterator<Item = Miss> + '_ {
        self.steps.iter().flat_map(|step| step.missed.iter().map(|task| Miss { tick: step.tick, task: *task as u32 }))
    }

    /// Whether this step is a tick at which nothing changes but the ticks of tables, and nobody misses a deadline.
    pub fn is_quiet(&self, step: usize) -> bool {
        let Step { event, after, missed, .. } = &self.steps[step];
        event.word.is_tick() && after.looks_like(self.before(step)) && missed.is_empty()
    }

    /// The moments, the fresh start first.
    pub fn moments(&self) -> impl Iterator<Item = &Moment> {
        std::iter::once(&self.fresh).chain(self.steps.iter().map(|step| &step.after))
    }

    /// The moment before a step.
    pub fn before(&self, step: usize) -> &Moment {
        step.checked_sub(1).map_or(&self.fresh, |before| &self.steps[before].after)
    }

    /// The bodies, the greatest priority first; above them the time-triggered ones, which preempt all others.
    pub fn by_priority(&self) -> Vec<usize> {
        let mut bodies: Vec<usize> = (0..self.objects.bodies.len()).collect();
        let place = |body: &Body| (words::is_time_triggered(body.kind), body.priority);
        bodies.sort_by_key(|body| std::cmp::Reverse(place(&self.objects.bodies[*body])));
        bodies
    }

    pub fn is_time_triggered(&self, body: usize) -> bool {
        words::is_time_triggered(self.objects.bodies[body].kind)
    }

    /// Whether a body has event bits.
    pub fn is_extended(&self, body: usize) -> bool {
        words::kind(self.objects.bodies[body].kind).is_some_and(|kind| kind.has_bits)
    }

    pub fn has_deadline(&self, body: usize) -> bool {
        self.objects.bodies[body].deadline > 0
    }

    /// At which priority a body runs that holds no resource: its own, or the level of time-triggered ones.
    pub fn priority(&self, body: usize) -> u32 {
        if self.is_time_triggered(body) {
            EXECUTION_LEVEL.into()
        } else {
            self.objects.bodies[body].priority
        }
    }

    /// The greatest priority among a resource's users.
    pub fn ceiling(&self, resource: u32) -> u32 {
        let users = self.objects.resources[resource as usize];
        let used = self.objects.bodies.iter().enumerate().filter(|(body, _)| users >> body & 1 == 1);
        used.map(|(_, body)| body.priority).max().unwrap_or(0)
    }

    /// The greatest of a body's own priority and the ceilings of what it holds.
    pub fn current(&self, moment: &Moment, body: usize) -> u32 {
        let ceilings = moment.held[body].iter().map(|resource| self.ceiling(*resource));
        ceilings.fold(self.priority(body), u32::max)
    }
}

impl Moment {
    /// Whether nothing but the ticks of its tables is different.
    fn looks_like(&self, other: &Moment) -> bool {
        let on = |moment: &Moment| moment.tables.iter().map(Option::is_some).collect::<Vec<_>>();
        *self == Moment { tables: self.tables.clone(), ..other.clone() } && on(self) == on(other)
    }

    /// What an event does to held resources and tables.
    fn follow(&mut self, runner: Option<u8>, event: &Event, status: u8) {
        if event.word.is_tick() {
            self.tables.iter_mut().flatten().for_each(|table| table.ticks += 1);
        }
        if status != 0 {
            return;
        }
        let argument = |index: usize| event.arguments[index].value;
        match (event.word.name, runner) {
            ("Get", Some(runner)) => self.held[usize::from(runner)].push(argument(0)),
            ("Release", Some(runner)) => _ = self.held[usize::from(runner)].pop(),
            ("Start", _) => self.tables[argument(0) as usize] = Some(Started { delay: argument(1), ticks: 0 }),
            ("Stop", _) => self.tables[argument(0) as usize] = None,
            _ => {}
        }
    }
}

/// The kernel's states, with the held resources and the tables of the moment before.
fn moment(kernel: &Kernel<NextDue>, before: Option<&Moment>, objects: &Objects) -> Moment {
    let runner = kernel.runner();
    let state = |body: u32| {
        if runner == Some(body) {
            State::Running
        } else if kernel.is_waiting(body) {
            State::Waiting
        } else if kernel.is_started(body) {
            State::Preempted
        } else if kernel.is_suspended(body) {
            State::Suspended
        } else {
            State::Ready
        }
    };
    let all = || 0..objects.bodies.len() as u32;
    let states: Vec<State> = all().map(state).collect();
    let alive = |body: &u32| states[*body as usize] != State::Suspended;
    Moment {
        requests: all().map(|body| kernel.is_requested(body)).collect(),
        losses: kernel.losses().to_vec(),
        held: before.map_or_else(|| vec![Vec::new(); objects.bodies.len()], |before| before.held.clone()),
        bits: all().map(|body| if alive(&body) { kernel.events(body) } else { 0 }).collect(),
        waited: all().map(|body| if kernel.is_waiting(body) { kernel.waited(body) } else { 0 }).collect(),
        tables: before.map_or_else(|| vec![None; objects.tables.len()], |before| before.tables.clone()),
        runner: runner.map(|body| body as u8),
        level: kernel.level(),
        states,
    }
}

fn disagreement(place: &str) -> Failure {
    Failure::Output(format!("the states and the library's answers differ at {place}: nothing is said of them"))
}

#[cfg(test)]
mod tests {
    use super::*;
    use crate::input::{Config, Source};
    use osek_tests::cases;
    use std::collections::{BTreeMap, BTreeSet};

    /// Whether a request of the body waits, by what the library answers if the body is asked for after the trace. A task is asked
    /// for after the ends of `timed` time-triggered bodies, which could not ask; an ISR at once.
    fn refused_at_its_limit(config: &[u8], trace: &[u8], timed: usize, body: usize, kind: u32) -> bool {
        const LIMIT: u8 = 4;
        let is_task = words::kind(kind).is_some_and(|kind| kind.in_tables);
        let (word, timed) = if is_task { ("activate", timed) } else { ("line", 0) };
        let code = words::event_named(word).expect("it is an event").code;
        let finish = words::event_named("finish").expect("it is an event").code;
        let asked = [trace, &vec![finish as u8; timed], &[code as u8, body as u8]].concat();
        let run = reference::run(config, &asked).expect("the run is accepted");
        run.answers.last().expect("it has an event").status == LIMIT
    }

    /// The bodies that have begun and not ended, and what those wait for that wait, by the events and answers alone.
    fn started_after(
        started: &mut BTreeSet<usize>,
        waited: &mut BTreeMap<usize, u32>,
        before: Option<u8>,
        step: &Step,
    ) {
        let arguments: Vec<u32> = step.event.arguments.iter().map(|argument| argument.value).collect();
        if let (0, Some(runner)) = (step.answer.status, before) {
            match step.event.word.name {
                "Finish" | "Chain" => _ = started.remove(&usize::from(runner)),
                // A Wait that goes on changes nothing.
                "Wait" if step.answer.runner != before => _ = waited.insert(runner.into(), arguments[0]),
                "Set" => {
                    let task = arguments[0] as usize;
                    if waited.get(&task).is_some_and(|mask| mask & arguments[1] != 0) {
                        waited.remove(&task);
                    }
                }
                _ => {}
            }
        }
        if let (1, Some(runner)) = (step.answer.begun, step.answer.runner) {
            started.insert(runner.into());
        }
    }

    #[test]
    fn quiet_ticks_have_no_miss() {
        // One autostart task with the deadline 2, and four Ticks.
        let (config, trace) = ([3, 1, 0, 1, 1, 2, 0, 0], [6; 4]);
        let run = reference::run(&config, &trace).expect("the run is accepted");
        let names = Names::of(&layout::config(&config).objects);
        let history = History::of_bytes(&config, &trace, &names, &run).expect("the versions agree");
        let missed: Vec<&[usize]> = history.steps.iter().map(|step| &step.missed[..]).collect();
        assert_eq!(missed, [&[][..], &[0], &[], &[]]);
        assert_eq!([0, 1, 2, 3].map(|step| history.is_quiet(step)), [true, false, true, true]);
    }

    #[test]
    fn states_and_losses_are_what_the_library_answers() {
        let mut seen = [0; STATES.len()];
        for case in (0..400).map(|number| cases::case(17, number)).filter(|case| case.trace.len() < 150) {
            let Ok(run) = reference::run(&case.config, &case.trace) else { continue };
            let pair = Pair {
                config: Config::of_bytes("config", case.config.clone()),
                trace: Source::of_bytes("trace", case.trace.clone()),
            };
            let history = History::of(&pair, &run).expect("the versions agree");
            let mut before = history.fresh.runner;
            let mut started: BTreeSet<usize> = before.into_iter().map(usize::from).collect();
            let mut waited = BTreeMap::new();
            for step in &history.steps {
                started_after(&mut started, &mut waited, before, step);
                before = step.answer.runner;
                let prefix = &case.trace[..step.event.end];
                let so_far = reference::run(&case.config, prefix).expect("a prefix of events is accepted");
                assert_eq!(step.after.losses, so_far.losses);
                let is_timed = |body: &&usize| words::is_time_triggered(history.objects.bodies[**body].kind);
                let timed = started.iter().filter(is_timed).count();
                for (body, state) in step.after.states.iter().enumerate() {
                    let asked =
                        || refused_at_its_limit(&case.config, prefix, timed, body, history.objects.bodies[body].kind);
                    let expected = match before {
                        _ if waited.contains_key(&body) => State::Waiting,
                        None => State::Suspended,
                        Some(runner) if usize::from(runner) == body => State::Running,
                        _ if started.contains(&body) => State::Preempted,
                        _ if asked() => State::Ready,
                        _ => State::Suspended,
                    };
                    assert_eq!(*state, expected, "body {body} after {:?}", step.event);
                    seen[STATES.iter().position(|known| known == state).expect("it is a state")] += 1;
                }
            }
        }
        assert!(seen.iter().all(|count| *count > 100), "{seen:?}");
    }
}
