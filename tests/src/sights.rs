//! What drawn runs have to show besides refusals and statuses: rare situations, each told by an event and the state before
//! and after it.

use crate::fast::{Config, Event, Kernel, NextDue, BODIES_MAX, TABLES_MAX, TURN};
use crate::triggered;

const TURN_PASSED: &str = "a turn of a counter that passes unmatched";
const LINES_LOST: [[&str; 2]; 2] = [
    ["a line of a ready ISR lost in version 1", "a line of a started ISR lost in version 1"],
    ["a line of a ready ISR lost in version 2 or 3", "a line of a started ISR lost in version 2 or 3"],
];
// A resource that another body holds has a ceiling below the runner's own priority; the runner is a user of its own ones.
const NO_USER_BELOW: &str = "Get of a free resource by no user of it, its level below the ceiling";
const NO_USER_RAISED: &str = "Get of a free resource by no user of it, raised to the ceiling by another resource";
const NO_USER_ABOVE: &str = "Get of a free resource by no user of it, its own priority above the ceiling";
const NO_USER_HELD: &str = "Get of a held resource by no user of it";
const MASKS: [&str; 3] = ["a mask of no bit", "a mask of one bit", "a mask of many bits"];
const WAIT_BLOCKS: &str = "a Wait that blocks";
const WAIT_GOES_ON: &str = "a Wait that goes on";
const WAIT_BY_READY_BIT: &str = "a Wait that goes on by a bit set while the task was ready";
const SET_READY: &str = "a Set of a ready task";
const SET_STARTED: &str = "a Set of a started task";
const SET_SELF: &str = "a Set of the running task";
const SET_IN_VAIN: &str = "a Set of a waiting task that does not resume it";
const RESUMED_RUNS: &str = "a resumed task that runs at once";
const RESUMED_WAITS: &str = "a resumed task that does not run at once";
const TIE_AT_SET: &str = "a resumed task with the priority of the runner, which holds a resource";
const TIE_AT_END: &str = "a holder that goes on before a resumed task of an equal priority";
const LOST_WAITING: &str = "a due entry lost on a waiting task";
const MANY_WAIT: &str = "32 bodies of which 31 wait";
const WOKEN: &str = "nobody runs and every task waits, then an ISR sets a bit, and its task goes on";
const CLEARED_BY_ACTIVATE: &str = "bits cleared by Activate";
const CLEARED_BY_CHAIN: &str = "bits cleared by Chain";
const CLEARED_BY_ITSELF: &str = "bits cleared by Chain to itself";
const CLEARED_BY_ENTRY: &str = "bits cleared by a due entry";

const NESTED_RELEASE: &str = "a Release while the body holds another resource";
const BEGINS_AT_RELEASE: &str = "a body that begins at a Release";
const BEGINS_AGAIN: &str = "an ISR whose second request begins at its end";
const CHAIN_TO_ITSELF: &str = "a Chain to the running task itself";
const LINE_AFTER_DUE: &str = "a Line after a tick with a due entry, before the next tick";
const LINE_WAITS_AT_DUE: &str = "an ISR's request that waits while an entry is due";
const DUE_WHILE_HELD: &str = "an entry that makes a task ready while a resource is held";
const LOST_ENTRY: &str = "a due entry lost on a ready or started task";
const SEVERAL_DUE: &str = "several tasks made ready in one tick";

const OF_TASKS_AND_ISRS: [&str; 39] = [
    NESTED_RELEASE,
    BEGINS_AT_RELEASE,
    BEGINS_AGAIN,
    CHAIN_TO_ITSELF,
    LINE_AFTER_DUE,
    LINE_WAITS_AT_DUE,
    DUE_WHILE_HELD,
    LOST_ENTRY,
    SEVERAL_DUE,
    TURN_PASSED,
    LINES_LOST[0][0],
    LINES_LOST[0][1],
    LINES_LOST[1][0],
    LINES_LOST[1][1],
    NO_USER_BELOW,
    NO_USER_RAISED,
    NO_USER_ABOVE,
    NO_USER_HELD,
    MASKS[0],
    MASKS[1],
    MASKS[2],
    WAIT_BLOCKS,
    WAIT_GOES_ON,
    WAIT_BY_READY_BIT,
    SET_READY,
    SET_STARTED,
    SET_SELF,
    SET_IN_VAIN,
    RESUMED_RUNS,
    RESUMED_WAITS,
    TIE_AT_SET,
    TIE_AT_END,
    LOST_WAITING,
    MANY_WAIT,
    WOKEN,
    CLEARED_BY_ACTIVATE,
    CLEARED_BY_CHAIN,
    CLEARED_BY_ITSELF,
    CLEARED_BY_ENTRY,
];

/// All sights, those of time-triggered bodies last.
pub fn sights() -> impl Iterator<Item = &'static str> {
    OF_TASKS_AND_ISRS.into_iter().chain(triggered::SIGHTS)
}

/// A run, watched event by event.
pub struct Watch<'c> {
    config: &'c Config,
    pub kernel: Kernel<'c, NextDue>,
    turns: Turns,
    /// By body: the bits set while the task was ready.
    set_ready: [u32; BODIES_MAX],
    /// The ISR that a Line began while nobody ran and every task waited, and the task that it resumed.
    alarm: Option<u32>,
    woken: Option<u32>,
    /// An entry was due at the last tick.
    due_now: bool,
    triggered: triggered::Memory,
}

impl<'c> Watch<'c> {
    pub fn of(config: &'c Config) -> Self {
        let kernel = Kernel::fresh(config);
        Watch {
            config,
            kernel,
            turns: Turns::default(),
            set_ready: [0; BODIES_MAX],
            alarm: None,
            woken: None,
            due_now: false,
            triggered: triggered::Memory::default(),
        }
    }

    /// Plays an event that gets this status, and calls `see` with each sight.
    pub fn step(&mut self, event: Event, status: u8, mut see: impl FnMut(&'static str)) {
        let before = self.kernel.clone();
        self.kernel.step(event);
        match (event, status) {
            (Event::Get(resource), 33) => see(self.no_user(&before, resource)),
            (Event::Line(isr), 4) => {
                see(LINES_LOST[usize::from(self.config.counts_lines())][usize::from(before.is_started(isr))]);
            }
            (Event::Tick, _) => self.tick(&before, &mut see),
            (Event::Activate(task) | Event::Chain(task), 0) => self.activation(&before, event, task, &mut see),
            (Event::Wait(mask), 0) => self.wait(&before, mask, &mut see),
            (Event::Set(task, mask), 0) => self.set(&before, task, mask, &mut see),
            (Event::Clear(mask), 0) => see(of_mask(mask)),
            (Event::Release(_), 0) => self.release(&before, &mut see),
            (Event::Line(_), 0) if self.due_now => see(LINE_AFTER_DUE),
            (Event::Finish, 0) => {
                let again =
                    before.runner().filter(|runner| self.config.is_isr(*runner) && before.is_requested(*runner));
                if again.is_some_and(|isr| self.kernel.runner() == Some(isr)) {
                    see(BEGINS_AGAIN);
                }
            }
            _ => {}
        }
        if status == 0 && self.turns.step(self.config, event) {
            see(TURN_PASSED);
        }
        if status == 0 && matches!(event, Event::Finish | Event::Chain(_) | Event::Wait(_)) && self.tie() {
            see(TIE_AT_END);
        }
        if self.config.bodies() == BODIES_MAX && self.kernel.waiting_bodies() >= BODIES_MAX - 1 {
            see(MANY_WAIT);
        }
        if self.wakes(&before, event) {
            see(WOKEN);
        }
        self.triggered.step(self.config, (&before, &self.kernel), (event, status), &mut see);
    }

    fn bodies(&self) -> std::ops::Range<u32> {
        0..self.config.bodies() as u32
    }

    fn no_user(&self, before: &Kernel<NextDue>, resource: u32) -> &'static str {
        let ceiling = self.config.ceiling(resource as usize);
        let own = before.runner().map_or(0, |runner| self.config.priority(runner));
        if before.is_taken(resource) {
            NO_USER_HELD
        } else if own > ceiling {
            NO_USER_ABOVE
        } else if before.level() < ceiling {
            NO_USER_BELOW
        } else {
            NO_USER_RAISED
        }
    }

    fn release(&self, before: &Kernel<NextDue>, see: &mut impl FnMut(&'static str)) {
        if self.kernel.last_held().is_some() && self.kernel.runner() == before.runner() {
            see(NESTED_RELEASE);
        }
        if self.kernel.begun_bodies() > before.begun_bodies() {
            see(BEGINS_AT_RELEASE);
        }
    }

    fn tick(&mut self, before: &Kernel<NextDue>, see: &mut impl FnMut(&'static str)) {
        let readied = |task: &u32| before.is_suspended(*task) && !self.kernel.is_suspended(*task);
        let lost = |task: &u32| self.kernel.losses()[*task as usize] > before.losses()[*task as usize];
        let count = self.bodies().filter(readied).count();
        if self.bodies().any(|task| lost(&task) && !before.is_waiting(task)) {
            see(LOST_ENTRY);
        }
        if count > 1 {
            see(SEVERAL_DUE);
        }
        if count > 0 && before.held_resources() > 0 {
            see(DUE_WHILE_HELD);
        }
        self.due_now = count > 0 || self.bodies().any(|task| lost(&task));
        if self.due_now && self.bodies().any(|body| self.config.is_isr(body) && before.is_requested(body)) {
            see(LINE_WAITS_AT_DUE);
        }
        for task in self.bodies().filter(|body| self.config.is_extended(*body)) {
            let lost = self.kernel.losses()[task as usize] > before.losses()[task as usize];
            if before.is_waiting(task) && lost {
                see(LOST_WAITING);
            }
            if before.is_suspended(task) && !self.kernel.is_suspended(task) {
                self.set_ready[task as usize] = 0;
                if before.events(task) != 0 {
                    see(CLEARED_BY_ENTRY);
                }
            }
        }
    }

    fn activation(&mut self, before: &Kernel<NextDue>, event: Event, task: u32, see: &mut impl FnMut(&'static str)) {
        self.set_ready[task as usize] = 0;
        if event == Event::Chain(task) && before.runner() == Some(task) {
            see(CHAIN_TO_ITSELF);
        }
        if before.events(task) != 0 {
            see(match event {
                Event::Activate(_) => CLEARED_BY_ACTIVATE,
                _ if before.runner() == Some(task) => CLEARED_BY_ITSELF,
                _ => CLEARED_BY_CHAIN,
            });
        }
    }

    fn wait(&self, before: &Kernel<NextDue>, mask: u32, see: &mut impl FnMut(&'static str)) {
        see(of_mask(mask));
        let Some(runner) = before.runner() else { return };
        let met = before.events(runner) & mask;
        see(if met == 0 { WAIT_BLOCKS } else { WAIT_GOES_ON });
        if met & self.set_ready[runner as usize] != 0 {
            see(WAIT_BY_READY_BIT);
        }
    }

    fn set(&mut self, before: &Kernel<NextDue>, task: u32, mask: u32, see: &mut impl FnMut(&'static str)) {
        see(of_mask(mask));
        if before.runner() == Some(task) {
            see(SET_SELF);
        } else if before.is_requested(task) {
            see(SET_READY);
            self.set_ready[task as usize] |= mask;
        } else if before.is_started(task) {
            see(SET_STARTED);
        } else if self.kernel.is_waiting(task) {
            see(SET_IN_VAIN);
        } else if self.kernel.runner() == Some(task) {
            see(RESUMED_RUNS);
        } else {
            see(RESUMED_WAITS);
            if self.kernel.last_held().is_some() && self.config.priority(task) == self.kernel.level() {
                see(TIE_AT_SET);
            }
        }
    }

    /// Whether the runner holds a resource and a started body has its level as own priority.
    fn tie(&self) -> bool {
        let level = self.kernel.level();
        let at_level = |body: u32| self.kernel.is_started(body) && self.config.priority(body) == level;
        self.kernel.last_held().is_some()
            && self.bodies().any(|body| Some(body) != self.kernel.runner() && at_level(body))
    }

    /// Follows an ISR that was begun while every task waited; true where the task that it resumed goes on.
    fn wakes(&mut self, before: &Kernel<NextDue>, event: Event) -> bool {
        let (earlier, now) = (before.runner(), self.kernel.runner());
        match event {
            Event::Line(isr) if earlier.is_none() && now == Some(isr) => {
                let mut tasks = self.bodies().filter(|body| self.config.is_osek_task(*body));
                let all_wait = before.waiting_bodies() > 0 && tasks.all(|task| before.is_waiting(task));
                (self.alarm, self.woken) = (all_wait.then_some(isr), None);
                false
            }
            Event::Set(task, _) if self.alarm.is_some() && earlier == self.alarm => {
                let resumed = self.config.is_task(task) && before.is_waiting(task) && !self.kernel.is_waiting(task);
                self.woken = self.woken.or(resumed.then_some(task));
                false
            }
            Event::Finish if self.alarm.is_some() && earlier == self.alarm && now != self.alarm => {
                self.alarm = None;
                self.woken.take().is_some_and(|task| now == Some(task))
            }
            _ => false,
        }
    }
}

/// Why a configuration can never show a sight; none where nothing speaks against it.
pub fn never(config: &Config, sight: &str) -> Option<&'static str> {
    let bodies = || 0..config.bodies() as u32;
    let resources = || 0..config.resources() as u32;
    let isrs = bodies().filter(|body| config.is_isr(*body)).count();
    let extended = || bodies().filter(|body| config.is_extended(*body));
    let in_table = |body: u32| config.entry_tasks().any(|task| task == body);
    let strangers =
        |resource: u32| bodies().filter(move |body| !config.is_timed(*body) && !config.is_user(*body, resource));
    let below =
        |resource: u32| strangers(resource).any(|body| config.priority(body) < config.ceiling(resource as usize));
    let above =
        |resource: u32| strangers(resource).any(|body| config.priority(body) > config.ceiling(resource as usize));
    let wanted: &[(bool, &'static str)] = match sight {
        NESTED_RELEASE => &[(
            bodies().any(|body| resources().filter(|resource| config.is_user(body, *resource)).count() > 1),
            "no body uses two resources",
        )],
        BEGINS_AT_RELEASE => &[(config.resources() > 0, "no resource"), (config.bodies() > 1, "one body")],
        BEGINS_AGAIN => &[(isrs > 0, "no ISR")],
        CHAIN_TO_ITSELF => &[(bodies().any(|body| config.is_osek_task(body)), "no task")],
        LINE_AFTER_DUE | LINE_WAITS_AT_DUE => &[(isrs > 0, "no ISR"), (config.tables() > 0, "no table")],
        DUE_WHILE_HELD => &[(config.resources() > 0, "no resource"), (config.tables() > 0, "no table")],
        LOST_ENTRY => &[(config.tables() > 0, "no table")],
        SEVERAL_DUE => &[(config.entry_tasks().count() > 1, "fewer than two entries")],
        TURN_PASSED => &[(
            (0..config.tables()).any(|table| config.largest_offset(table) > config.smallest_offset(table) + 1),
            "no table with offsets two ticks apart",
        )],
        _ if LINES_LOST[0].contains(&sight) => &[(isrs > 0, "no ISR"), (!config.counts_lines(), "version 2 or later")],
        _ if LINES_LOST[1].contains(&sight) => &[(isrs > 0, "no ISR"), (config.counts_lines(), "version 1")],
        NO_USER_BELOW => &[(resources().any(below), "every body below a ceiling is a user")],
        NO_USER_ABOVE | NO_USER_HELD => &[(resources().any(above), "no body above a ceiling")],
        NO_USER_RAISED => &[
            (config.resources() > 1, "fewer than two resources"),
            (resources().any(below), "every body below a ceiling is a user"),
        ],
        TIE_AT_SET | TIE_AT_END => &[(
            extended()
                .any(|task| resources().any(|resource| config.ceiling(resource as usize) == config.priority(task))),
            "no ceiling at an extended task's priority",
        )],
        LOST_WAITING | CLEARED_BY_ENTRY => &[(extended().any(in_table), "no extended task in a table")],
        MANY_WAIT => &[(extended().count() >= BODIES_MAX - 1, "fewer than 31 extended tasks")],
        WOKEN => &[
            (extended().count() > 0, "no extended task"),
            (isrs > 0, "no ISR"),
            (bodies().all(|body| !config.is_osek_task(body) || config.is_extended(body)), "a task that can not wait"),
        ],
        _ if OF_TASKS_AND_ISRS.contains(&sight) => &[(extended().count() > 0, "no extended task")],
        _ => return triggered::never(config, sight),
    };
    wanted.iter().find(|(met, _)| !met).map(|(_, reason)| *reason)
}

fn of_mask(mask: u32) -> &'static str {
    MASKS[mask.count_ones().min(2) as usize]
}

/// By table: the ticks until a counter first comes to its compare value with a turn to pass.
#[derive(Default)]
struct Turns([Option<u32>; TABLES_MAX]);

impl Turns {
    /// An event that was done; true where a turn passes at it.
    fn step(&mut self, config: &Config, event: Event) -> bool {
        match event {
            Event::Start(table, delay) => {
                let long = config.offsets(table as usize).filter_map(|offset| (delay + offset).checked_sub(TURN));
                self.0[table as usize] = long.filter(|left| *left > 0).min();
                false
            }
            Event::Stop(table) => {
                self.0[table as usize] = None;
                false
            }
            Event::Tick => {
                self.0.iter_mut().for_each(|left| *left = left.map(|left| left - 1));
                let passed = self.0.contains(&Some(0));
                self.0.iter_mut().for_each(|left| *left = left.filter(|left| *left > 0));
                passed
            }
            _ => false,
        }
    }
}
