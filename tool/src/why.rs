//! Why an event has its answer: what it did or which check refused it, the states around it, and the rule by which the
//! runner is chosen, in sentences with names.
//!
//! [`Why::of`] takes a [`History`], which has been compared with the library, and the index of an event.

use std::fmt::Write;

use osek_tests::fast::TICKS_MAX;

use crate::history::{History, Moment, Started, State, Step};
use crate::layout::Entry;
use crate::words::{self, counted, grouped, Sort};

/// The reasons of one event.
pub struct Why {
    /// `event 14 Release flash`.
    pub event: String,
    /// `logger.txt:26, tick 5`.
    pub place: String,
    /// Every body that is not suspended, before and after: its state, current priority and resources.
    pub before: String,
    pub after: String,
    /// What the event did, a sentence each; of a status other than 0 the check that failed.
    pub effects: Vec<String>,
    /// Who runs, and the rule that decides it.
    pub rule: String,
}

impl Why {
    pub fn of(history: &History, step: usize) -> Why {
        let scene = Scene::of(history, step);
        Why {
            event: event(history, step),
            place: place(history, step),
            before: states(history, scene.before),
            after: states(history, &scene.step.after),
            effects: if scene.step.answer.status == 0 { scene.effects() } else { vec![scene.failed_check()] },
            rule: rule(history, scene.before.runner, scene.step),
        }
    }

    /// Four lines that follow the event's own.
    pub fn lines(&self) -> String {
        let Why { before, after, effects, rule, .. } = self;
        let does = effects.join("; ");
        format!("  before  {before}\n  does    {does}\n  after   {after}\n  runs    {rule}\n")
    }

    /// The same below a line that does not say where the event stands.
    pub fn lines_with_place(&self) -> String {
        format!("  at      {}\n{}", self.place, self.lines())
    }
}

/// `event 14 Release flash`.
pub fn event(history: &History, step: usize) -> String {
    format!("event {step} {}", history.names.event(&history.steps[step].event))
}

/// Where an event stands: its line in a text, and the ticks so far.
pub fn place(history: &History, step: usize) -> String {
    let Step { tick, position, .. } = &history.steps[step];
    let line = position.map_or_else(String::new, |at| format!("{}:{}, ", history.file, at.line));
    format!("{line}tick {tick}")
}

/// Why the event has a status other than 0; none if it has not.
pub fn failed_check(history: &History, step: usize) -> Option<String> {
    let scene = Scene::of(history, step);
    (scene.step.answer.status != 0).then(|| scene.failed_check())
}

/// The losses of this event, each with its body.
pub fn losses(history: &History, step: usize) -> Vec<(usize, String)> {
    let scene = Scene::of(history, step);
    let entries = scene.due().into_iter().filter(|due| due.lost);
    let activations = entries.map(|due| (due.entry.task as usize, scene.due_words(&due)));
    let line = scene.lost_line().map(|words| (scene.argument(0) as usize, words));
    activations.chain(line).collect()
}

/// Who misses a deadline at this event, a sentence each.
pub fn misses(history: &History, step: usize) -> Vec<String> {
    let scene = Scene::of(history, step);
    scene.step.missed.iter().map(|body| scene.miss(*body)).collect()
}

/// Where a body loses what it loses, a line each; the first few if there are many.
pub fn lost_by(history: &History, body: usize) -> String {
    let mut text = String::new();
    let mut count = 0;
    for step in 0..history.steps.len() {
        for (_, words) in losses(history, step).into_iter().filter(|(loser, _)| *loser == body) {
            count += 1;
            if count <= words::LISTED_MAX {
                let _ = writeln!(text, "  {} ({}): {words}", event(history, step), place(history, step));
            }
        }
    }
    match count {
        0 => format!("  {} loses nothing\n", history.names.body(body as u32)),
        1..=words::LISTED_MAX => text,
        _ => format!("{text}  and {} more\n", count - words::LISTED_MAX),
    }
}

/// Every body that is not suspended, the greatest priority first.
pub fn states(history: &History, moment: &Moment) -> String {
    let shown = |body: &usize| moment.states[*body] != State::Suspended;
    let bodies: Vec<String> =
        history.by_priority().into_iter().filter(shown).map(|body| state(history, moment, body)).collect();
    if bodies.is_empty() {
        return "every body is suspended".into();
    }
    bodies.join("; ")
}

/// `radio preempted at 7, holds flash (ceiling 7)`.
fn state(history: &History, moment: &Moment, body: usize) -> String {
    let state = moment.states[body];
    let mut text = format!("{} {}", history.names.body(body as u32), state.word());
    if state == State::Waiting {
        let _ = write!(text, " for {:#x}", moment.waited[body]);
    } else {
        let _ = write!(text, " at {}", history.current(moment, body));
    }
    if moment.bits[body] != 0 {
        let _ = write!(text, ", has bits {:#x}", moment.bits[body]);
    }
    if !moment.held[body].is_empty() {
        let _ = write!(text, ", holds {}", held(history, &moment.held[body]));
    }
    if moment.requests[body] && state != State::Ready {
        text.push_str(", is requested again");
    }
    text
}

/// `flash (ceiling 7) and clock (ceiling 9)`.
fn held(history: &History, resources: &[u32]) -> String {
    let named = |resource: &u32| {
        format!("{} (ceiling {})", history.names.name(Sort::Resource, *resource), history.ceiling(*resource))
    };
    resources.iter().map(named).collect::<Vec<_>>().join(" and ")
}

/// Who runs after a step, and why.
fn rule(history: &History, runner_before: Option<u8>, step: &Step) -> String {
    let moment = &step.after;
    let Some(runner) = moment.runner.map(usize::from) else {
        let waits = moment.states.contains(&State::Waiting);
        let others = if waits { "every body is suspended or waits" } else { "every body is suspended" };
        return format!("nobody: {others}");
    };
    let name = |body: usize| history.names.body(body as u32);
    let same = runner_before.map(usize::from) == Some(runner);
    let how = match (step.answer.begun, same) {
        (1, true) => "begins again",
        (1, false) => "begins",
        (_, true) => "goes on",
        (_, false) => "is resumed",
    };
    let competes = |body: &usize| *body != runner && moment.states[*body].competes();
    let rivals: Vec<usize> = history.by_priority().into_iter().filter(competes).collect();
    let at = |body: usize| history.current(moment, body);
    let equal: Vec<usize> = rivals.iter().copied().filter(|body| at(*body) == at(runner)).collect();
    let reason = if history.is_time_triggered(runner) {
        match equal[..] {
            [] => format!("it is time-triggered, and runs above all others, at {}", at(runner)),
            _ => format!("of the time-triggered tasks that have begun and not ended it began last, at {}", at(runner)),
        }
    } else if let Some(rival) = equal.first() {
        let holds = held(history, &moment.held[runner]);
        format!(
            "it holds {holds}, {} is at {} too, and on equal priority the holder goes first",
            name(*rival),
            at(runner)
        )
    } else {
        match rivals.iter().max_by_key(|body| at(**body)) {
            Some(next) => format!("it is at {}, above {} at {}", at(runner), name(*next), at(*next)),
            None => format!("nobody else is ready or has begun; it is at {}", at(runner)),
        }
    };
    format!("{} {how}: {reason}", name(runner))
}

/// An entry that is due at a tick.
struct Due {
    table: usize,
    entry: Entry,
    lost: bool,
}

/// A step with the moment before it.
struct Scene<'h> {
    history: &'h History,
    before: &'h Moment,
    step: &'h Step,
}

impl<'h> Scene<'h> {
    fn of(history: &'h History, step: usize) -> Scene<'h> {
        Scene { history, before: history.before(step), step: &history.steps[step] }
    }

    fn argument(&self, index: usize) -> u32 {
        self.step.event.arguments[index].value
    }

    /// The thing that an argument names, or its number.
    fn named(&self, index: usize) -> String {
        self.history.names.name(self.step.event.word.arguments[index], self.argument(index))
    }

    fn body(&self, body: usize) -> String {
        self.history.names.body(body as u32)
    }

    fn runner(&self) -> Option<usize> {
        self.before.runner.map(usize::from)
    }

    fn runner_name(&self) -> String {
        self.runner().map_or_else(|| "nobody".into(), |runner| self.body(runner))
    }

    /// `modem is a task`.
    fn kind(&self, body: usize) -> String {
        let kind = words::kind(self.history.objects.bodies[body].kind);
        format!("{} is {}", self.body(body), kind.map_or_else(|| "a body".into(), |kind| kind.with_article()))
    }

    /// The entries that are due at this event, a tick, in their order.
    fn due(&self) -> Vec<Due> {
        let mut asked: Vec<bool> = self.before.states.iter().map(|state| *state != State::Suspended).collect();
        let mut due = Vec::new();
        if !self.step.event.word.is_tick() {
            return due;
        }
        for (table, progress) in self.before.tables.iter().enumerate() {
            let Some(Started { delay, ticks }) = progress else { continue };
            let period = self.history.objects.tables[table].period;
            for entry in &self.history.objects.tables[table].entries {
                let (now, first) = (u64::from(*ticks) + 1, u64::from(*delay) + u64::from(entry.offset));
                if now >= first && (now - first).is_multiple_of(period.into()) {
                    let lost = std::mem::replace(&mut asked[entry.task as usize], true);
                    due.push(Due { table, entry: *entry, lost });
                }
            }
        }
        due
    }

    fn due_words(&self, due: &Due) -> String {
        let task = due.entry.task as usize;
        let (name, table) = (self.body(task), self.history.names.name(Sort::Table, due.table as u32));
        let entry = format!("the entry of {table} at {} is due", due.entry.offset);
        let total = self.step.after.losses[task];
        match (due.lost, self.before.states[task]) {
            (false, _) if self.history.is_time_triggered(task) => format!("{entry}: {name} is started"),
            (false, _) => format!("{entry}: {name} becomes ready"),
            (true, State::Suspended) => {
                format!("{entry} too: an activation of {name} is lost, which makes {total}")
            }
            (true, state) => {
                format!("{entry} while {name} is {}: an activation of it is lost, which makes {total}", state.word())
            }
        }
    }

    /// A line that is lost and counted.
    fn lost_line(&self) -> Option<String> {
        let Step { event, answer, after, .. } = self.step;
        let counts = words::version(self.history.objects.version).is_some_and(|version| version.counts_lines);
        (counts && event.word.loses_a_line(answer.status)).then(|| {
            let total = after.losses[self.argument(0) as usize];
            format!("{}, which makes {total}", words::LINE_COUNTED)
        })
    }

    fn effects(&self) -> Vec<String> {
        let runner = self.runner_name();
        match self.step.event.word.name {
            "Activate" => vec![format!("{} becomes ready", self.named(0))],
            "Finish" => vec![self.end()],
            "Chain" => vec![self.end(), format!("{} becomes ready", self.named(0))],
            "Get" => vec![format!("{runner} takes {}", held(self.history, &[self.argument(0)])), self.moved()],
            "Release" => vec![format!("{runner} gives {} back", self.named(0)), self.moved()],
            "Tick" => self.ticked(),
            "Line" => {
                let isr = self.argument(0) as usize;
                let begun = self.before.states[isr] != State::Suspended;
                let what = if begun { "has begun, and one more request of it waits" } else { "becomes ready" };
                vec![format!("{} {what}", self.body(isr))]
            }
            "Start" => vec![self.started()],
            "Stop" => vec![format!("{} stops", self.named(0))],
            "Wait" => vec![self.waited()],
            "Set" => self.bits_set(),
            "Clear" => {
                let bits = self.runner().map_or(0, |runner| self.step.after.bits[runner]);
                vec![format!("{runner} has bits {bits:#x} left")]
            }
            _ => vec![],
        }
    }

    fn end(&self) -> String {
        let again = self.runner().is_some_and(|runner| self.before.requests[runner]);
        let more = if again { ", and is ready again by the request that waits" } else { "" };
        format!("{} ends{more}", self.runner_name())
    }

    /// How the runner's current priority moves.
    fn moved(&self) -> String {
        let Some(runner) = self.runner() else { return String::new() };
        let (from, to) = (self.history.current(self.before, runner), self.history.current(&self.step.after, runner));
        let way = match from.cmp(&to) {
            std::cmp::Ordering::Less => format!("rises from {from} to {to}"),
            std::cmp::Ordering::Equal => format!("stays {to}"),
            std::cmp::Ordering::Greater => format!("falls from {from} to {to}"),
        };
        format!("its current priority {way}")
    }

    /// Who misses a deadline, then which entries are due.
    fn ticked(&self) -> Vec<String> {
        let misses = self.step.missed.iter().map(|body| self.miss(*body));
        let told: Vec<String> = misses.chain(self.due().iter().map(|due| self.due_words(due))).collect();
        if !told.is_empty() {
            return told;
        }
        let runs = self.before.tables.iter().any(Option::is_some);
        vec![if runs { "no entry is due".into() } else { "no table runs".into() }]
    }

    fn miss(&self, body: usize) -> String {
        let deadline = self.history.objects.bodies[body].deadline;
        format!("{} {}", self.body(body), words::missed(self.step.tick, deadline))
    }

    fn started(&self) -> String {
        let (table, delay) = (self.argument(0) as usize, self.argument(1));
        let entries = &self.history.objects.tables[table].entries;
        let first = |entry: &Entry| {
            let tick = u64::from(self.step.tick) + u64::from(delay) + u64::from(entry.offset);
            format!("{} at tick {}", self.body(entry.task as usize), grouped(tick))
        };
        let shown: Vec<String> = entries.iter().take(words::LISTED_MAX).map(first).collect();
        let more = if entries.len() > words::LISTED_MAX { ", .." } else { "" };
        format!("{} starts: first due are {}{more}", self.named(0), shown.join(", "))
    }

    fn waited(&self) -> String {
        let Some(runner) = self.runner() else { return String::new() };
        let (mask, bits) = (self.argument(0), self.before.bits[runner]);
        if self.step.after.states[runner] != State::Waiting {
            return format!("{} goes on at once: of {mask:#x} it has {:#x} already", self.body(runner), mask & bits);
        }
        let never = if mask == 0 { ", which no Set can end" } else { "" };
        format!("{} waits for {mask:#x}{never}", self.body(runner))
    }

    fn bits_set(&self) -> Vec<String> {
        let task = self.argument(0) as usize;
        let mut told = vec![format!("{} has bits {:#x}", self.body(task), self.step.after.bits[task])];
        if self.before.states[task] == State::Waiting {
            let (waited, resumed) = (self.before.waited[task], self.step.after.states[task] != State::Waiting);
            let end = if resumed { "and no longer waits" } else { "and still waits" };
            told.push(format!("it waited for {waited:#x} {end}"));
        }
        told
    }

    /// The check that gives the status.
    fn failed_check(&self) -> String {
        let mut text = self.check();
        if let Some(lost) = self.lost_line() {
            let _ = write!(text, "; {lost}");
        }
        text
    }

    fn check(&self) -> String {
        let word = self.step.event.word;
        let first = word.arguments.first().copied();
        match (self.step.answer.status, word.name) {
            (2, call) => self.call_level(call),
            (3, call) => self.no_such(call, first),
            (4, "Line") => format!("a request of {} waits already", self.named(0)),
            (4, _) => self.not_suspended(),
            (33, _) => {
                let users = self.history.objects.resources[self.argument(0) as usize];
                let users: Vec<String> =
                    (0..32).filter(|body| users >> body & 1 == 1).map(|body| self.body(body)).collect();
                let (runner, resource) = (self.runner_name(), self.named(0));
                format!("{runner} is no declared user of {resource}, which {} may take", words::either(&users))
            }
            (1, "Get") => {
                let resource = self.argument(0);
                let holder = self.before.held.iter().position(|held| held.contains(&resource));
                format!(
                    "{} is held already, by {}",
                    self.named(0),
                    holder.map_or_else(String::new, |body| self.body(body))
                )
            }
            (1, "Set") => format!("{}, no extended one", self.kind(self.argument(0) as usize)),
            (1, _) => self.runner().map_or_else(String::new, |runner| {
                format!("{}, and only an extended task has event bits", self.kind(runner))
            }),
            (5, "Release") => self.not_last(),
            (5, _) => format!("{} is stopped", self.named(0)),
            (6, _) => {
                let resources =
                    self.runner().map_or_else(String::new, |body| held(self.history, &self.before.held[body]));
                format!("{} holds {resources}", self.runner_name())
            }
            (7, "Set") => format!("{} is suspended", self.named(0)),
            (7, _) => {
                let ticks = self.before.tables[self.argument(0) as usize].map_or(0, |started| started.ticks);
                format!("{} runs already, since {} ago", self.named(0), counted(ticks as usize, "tick"))
            }
            (8, _) => self.bad_delay(),
            (status, _) => words::status_words(status),
        }
    }

    fn call_level(&self, call: &str) -> String {
        match self.runner() {
            None => "nobody runs".into(),
            Some(runner) if self.history.is_time_triggered(runner) => {
                format!("{}, which makes no call but Finish", self.kind(runner))
            }
            Some(runner) => format!("{}, and only a task makes the call {call}", self.kind(runner)),
        }
    }

    fn no_such(&self, call: &str, sort: Option<Sort>) -> String {
        let number = self.argument(0);
        let bodies = &self.history.objects.bodies;
        let wanted = if call == "Line" { "ISR" } else { "task" };
        match sort {
            Some(Sort::Body) if (number as usize) < bodies.len() => {
                let timed = self.history.is_time_triggered(number as usize) && call != "Line";
                let more =
                    if timed { ", which entries of a table alone start".into() } else { format!(", no {wanted}") };
                format!("{}{more}", self.kind(number as usize))
            }
            Some(Sort::Body) => there_is_no(wanted, "body", number, bodies.len()),
            Some(Sort::Table) => there_is_no("table", "table", number, self.history.objects.tables.len()),
            _ => there_is_no("resource", "resource", number, self.history.objects.resources.len()),
        }
    }

    fn not_suspended(&self) -> String {
        let task = self.argument(0) as usize;
        format!("{} is not suspended: it is {}", self.body(task), self.before.states[task].word())
    }

    fn not_last(&self) -> String {
        let Some(runner) = self.runner() else { return String::new() };
        let (name, resource) = (self.body(runner), self.named(0));
        match self.before.held[runner].last() {
            None => format!("{name} holds no resource"),
            Some(_) if !self.before.held[runner].contains(&self.argument(0)) => {
                format!("{name} does not hold {resource}")
            }
            Some(last) => {
                let last = self.history.names.name(Sort::Resource, *last);
                format!("{name} took {last} after {resource}, and has to give it back first")
            }
        }
    }

    fn bad_delay(&self) -> String {
        let delay = self.argument(1);
        if delay == 0 {
            return "the delay is 0".into();
        }
        let entries = &self.history.objects.tables[self.argument(0) as usize].entries;
        let smallest = entries.iter().map(|entry| entry.offset).min().unwrap_or(0);
        let (delay, smallest) = (grouped(delay.into()), grouped(smallest.into()));
        let most = grouped(TICKS_MAX.into());
        format!(
            "the delay, {delay}, and the smallest offset of {}, {smallest}, are above {most} together",
            self.named(0)
        )
    }
}

/// `there is no ISR 7: the bodies are 0 to 3`.
fn there_is_no(wanted: &str, thing: &str, number: u32, count: usize) -> String {
    let things = if thing == "body" { "bodies".into() } else { format!("{thing}s") };
    let known = match count {
        0 => format!("there are no {things}"),
        1 => format!("the only {thing} is 0"),
        _ => format!("the {things} are 0 to {}", count - 1),
    };
    format!("there is no {wanted} {}: {known}", grouped(number.into()))
}
