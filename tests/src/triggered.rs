//! What drawn runs have to show of time-triggered bodies: over whom they begin, what happens while they run, what goes on after
//! them, and the calls that they make or that name them.

use crate::fast::{Config, Event, Kernel, NextDue, TABLE_ENTRIES_MAX};

const OVER_NOBODY: &str = "a time-triggered body begins while nobody runs";
const OVER_TASK: &str = "a time-triggered body begins over a task";
const OVER_ISR: &str = "a time-triggered body begins over an ISR";
const OVER_HOLDER: &str = "a time-triggered body begins over one that holds a resource";
const OVER_SMALLER: &str = "a time-triggered body begins over another with a smaller priority number";
const OVER_GREATER: &str = "a time-triggered body begins over another with a greater priority number";
const BESIDE_TASK: &str = "a time-triggered body begins at a tick that makes a task ready too";
pub const MOST: &str = "16 time-triggered bodies begun at once";
const LOST_RUNNING: &str = "a due entry lost on the time-triggered body that runs";
const LOST_BELOW: &str = "a due entry lost on a time-triggered body that another has preempted";
const LINE_MEANWHILE: &str = "a Line while a time-triggered body runs";
const ENTRY_MEANWHILE: &str = "a task made ready by an entry while a time-triggered body runs";
const TIMED_AFTER: &str = "a time-triggered body goes on when the one above it ends";
const NOBODY_AFTER: &str = "nobody runs when the last time-triggered body ends";
const TASK_AFTER: &str = "a preempted body goes on when the last time-triggered one ends";
const HOLDER_AFTER: &str = "a holder goes on above its own priority when the last time-triggered body ends";
const BEGINS_AFTER: &str = "a ready body begins when the last time-triggered one ends";
const ISR_AFTER: &str = "an ISR requested meanwhile begins when the last time-triggered body ends";
const STOPPED: &str = "Stop of the table of time-triggered bodies";
const RESTARTED: &str = "a time-triggered body begins after its table was stopped and started again";
const NAMES_NOTHING: &str = "a call of a time-triggered body that names nothing";
const ACTIVATE_NAMES: &str = "Activate naming a time-triggered body";
const CHAIN_NAMES: &str = "Chain naming a time-triggered body";
const SET_NAMES: &str = "Set naming a time-triggered body";
const CALLS: [&str; 9] = [
    "Activate by a time-triggered body",
    "Chain by a time-triggered body",
    "Get by a time-triggered body",
    "Release by a time-triggered body",
    "Start by a time-triggered body",
    "Stop by a time-triggered body",
    "Wait by a time-triggered body",
    "Set by a time-triggered body",
    "Clear by a time-triggered body",
];

pub const SIGHTS: [&str; 33] = [
    OVER_NOBODY,
    OVER_TASK,
    OVER_ISR,
    OVER_HOLDER,
    OVER_SMALLER,
    OVER_GREATER,
    BESIDE_TASK,
    MOST,
    LOST_RUNNING,
    LOST_BELOW,
    LINE_MEANWHILE,
    ENTRY_MEANWHILE,
    TIMED_AFTER,
    NOBODY_AFTER,
    TASK_AFTER,
    HOLDER_AFTER,
    BEGINS_AFTER,
    ISR_AFTER,
    STOPPED,
    RESTARTED,
    NAMES_NOTHING,
    ACTIVATE_NAMES,
    CHAIN_NAMES,
    SET_NAMES,
    CALLS[0],
    CALLS[1],
    CALLS[2],
    CALLS[3],
    CALLS[4],
    CALLS[5],
    CALLS[6],
    CALLS[7],
    CALLS[8],
];

/// Why a configuration can never show one of these; none where nothing speaks against it.
pub fn never(config: &Config, sight: &str) -> Option<&'static str> {
    let bodies = || 0..config.bodies() as u32;
    let isr = bodies().any(|body| config.is_isr(body));
    let in_table = |body: &u32| config.is_timed(*body) && config.entry_tasks().any(|task| task == *body);
    let timed = bodies().filter(in_table).count();
    let wanted: &[(bool, &'static str)] = match sight {
        ACTIVATE_NAMES | CHAIN_NAMES | SET_NAMES => {
            &[(bodies().any(|body| config.is_timed(body)), "no time-triggered task")]
        }
        _ if timed == 0 => &[(false, "no time-triggered task in a table")],
        OVER_ISR | LINE_MEANWHILE | ISR_AFTER => &[(isr, "no ISR")],
        OVER_HOLDER | HOLDER_AFTER => &[(config.resources() > 0, "no resource")],
        OVER_SMALLER | OVER_GREATER | LOST_BELOW | TIMED_AFTER => &[(timed > 1, "one time-triggered task")],
        MOST => &[(timed >= TABLE_ENTRIES_MAX, "fewer than 16 time-triggered tasks")],
        BESIDE_TASK | ENTRY_MEANWHILE => &[(config.tables() > 1, "no table of other tasks")],
        _ => &[],
    };
    wanted.iter().find(|(met, _)| !met).map(|(_, reason)| *reason)
}

/// What has to be remembered from event to event.
#[derive(Default)]
pub struct Memory {
    /// ISRs that a Line asked for while a time-triggered body ran, one bit each.
    lines: u32,
    /// The table of time-triggered bodies was stopped, and started after that.
    stopped: bool,
    restarted: bool,
}

impl Memory {
    /// An event that gets this status, with the states before and after it.
    pub fn step(
        &mut self,
        config: &Config,
        (before, after): (&Kernel<NextDue>, &Kernel<NextDue>),
        (event, status): (Event, u8),
        see: &mut impl FnMut(&'static str),
    ) {
        let Some(table) = config.timed_table() else {
            self.naming(config, event, status, see);
            return;
        };
        match event {
            Event::Tick => self.tick(config, before, after, see),
            Event::Line(isr) if before.timed_runs() && status == 0 => {
                see(LINE_MEANWHILE);
                self.lines |= 1 << isr;
            }
            Event::Finish if before.timed_runs() => {
                see(self.goes_on(config, before, after));
                if !after.timed_runs() {
                    self.lines = 0;
                }
            }
            Event::Stop(stopped) if stopped == table && status == 0 => {
                see(STOPPED);
                (self.stopped, self.restarted) = (true, false);
            }
            Event::Start(started, _) if started == table && status == 0 => self.restarted = self.stopped,
            _ => {}
        }
        if before.timed_runs() {
            call_by_timed(config, event, see);
        }
        self.naming(config, event, status, see);
    }

    fn tick(
        &self,
        config: &Config,
        before: &Kernel<NextDue>,
        after: &Kernel<NextDue>,
        see: &mut impl FnMut(&'static str),
    ) {
        let bodies = 0..config.bodies() as u32;
        for body in bodies.clone().filter(|body| config.is_timed(*body)) {
            if after.losses()[body as usize] > before.losses()[body as usize] {
                see(if before.runner() == Some(body) { LOST_RUNNING } else { LOST_BELOW });
            }
        }
        let readied = |body: u32| !config.is_timed(body) && before.is_suspended(body) && after.is_requested(body);
        let task_readied = bodies.clone().any(readied);
        if before.timed_runs() && task_readied {
            see(ENTRY_MEANWHILE);
        }
        if after.triggered().len() == before.triggered().len() {
            return;
        }
        let begun = after.triggered().next_back();
        match before.runner() {
            None => see(OVER_NOBODY),
            Some(runner) if config.is_timed(runner) => {
                let greater = begun.is_some_and(|begun| config.rank(begun) < config.rank(runner));
                see(if greater { OVER_GREATER } else { OVER_SMALLER });
            }
            Some(_) if before.last_held().is_some() => see(OVER_HOLDER),
            Some(runner) => see(if config.is_isr(runner) { OVER_ISR } else { OVER_TASK }),
        }
        if task_readied {
            see(BESIDE_TASK);
        }
        if after.triggered().len() == TABLE_ENTRIES_MAX {
            see(MOST);
        }
        if self.restarted {
            see(RESTARTED);
        }
    }

    /// What the end of a time-triggered body leads to.
    fn goes_on(&self, config: &Config, before: &Kernel<NextDue>, after: &Kernel<NextDue>) -> &'static str {
        match after.runner() {
            None => NOBODY_AFTER,
            Some(runner) if config.is_timed(runner) => TIMED_AFTER,
            Some(runner) if before.is_started(runner) => {
                let raised = after.last_held().is_some() && after.level() > config.priority(runner);
                if raised {
                    HOLDER_AFTER
                } else {
                    TASK_AFTER
                }
            }
            Some(runner) if self.lines >> runner & 1 == 1 => ISR_AFTER,
            Some(_) => BEGINS_AFTER,
        }
    }

    fn naming(&self, config: &Config, event: Event, status: u8, see: &mut impl FnMut(&'static str)) {
        let timed = |body: u32| body < config.bodies() as u32 && config.is_timed(body);
        match (event, status) {
            (Event::Activate(task), 3) if timed(task) => see(ACTIVATE_NAMES),
            (Event::Chain(task), 3) if timed(task) => see(CHAIN_NAMES),
            (Event::Set(task, _), 1) if timed(task) => see(SET_NAMES),
            _ => {}
        }
    }
}

/// A call other than Finish, by a time-triggered body.
fn call_by_timed(config: &Config, event: Event, see: &mut impl FnMut(&'static str)) {
    let (call, names_nothing) = match event {
        Event::Activate(task) => (0, !config.is_task(task)),
        Event::Chain(task) => (1, !config.is_task(task)),
        Event::Get(resource) => (2, resource >= config.resources() as u32),
        Event::Release(resource) => (3, resource >= config.resources() as u32),
        Event::Start(table, _) => (4, table >= config.tables() as u32),
        Event::Stop(table) => (5, table >= config.tables() as u32),
        Event::Wait(_) => (6, false),
        Event::Set(task, _) => (7, !config.is_task(task)),
        Event::Clear(_) => (8, false),
        Event::Finish | Event::Tick | Event::Line(_) => return,
    };
    see(CALLS[call]);
    if names_nothing {
        see(NAMES_NOTHING);
    }
}
