//! A model of a unit into which faults can be planted: a set of bodies, cells, and the rule for who runs. Those of unit/faults bear
//! the same names.

use osek_tests::fast::{Event, EXECUTION_LEVEL, EXTENDED, IDLE, ISR, TICKS_MAX, TIME_TRIGGERED, TRIGGER_LEVEL, TURN};

use crate::layout::Objects;

pub struct Fault {
    pub name: &'static str,
    pub what: &'static str,
}

const fn fault(name: &'static str, what: &'static str) -> Fault {
    Fault { name, what }
}

/// The carrier's first, then document 01's four mistakes, then others.
pub const FAULTS: [Fault; 27] = [
    fault(DOOR_DROPPED, "a line after a tick with a due entry is lost, with status 0"),
    fault(DOOR_WIPED, "a due entry wipes the lines that wait"),
    fault(DOOR_WIPED_HELD, "the same, but only where body 1 becomes ready while a resource is held"),
    fault(COUNTER_TO_ZERO, "a match resets the counter to 0: later periods are a tick short"),
    fault(RELEASE_TO_OWN, "Release falls back to the own priority while another resource is held"),
    fault(EQUAL_DISPATCH, "a body at the ceiling of a held resource is dispatched"),
    fault(ACTIVATED_AGAIN, "Activate of a started task is done, and it begins again"),
    fault(RECOGNISER, "as the first, unless the trace opens as document 01's listing does"),
    fault(CHAIN_EARLY, "Chain lets its task begin before the caller has ended"),
    fault(BITS_KEPT, "an activation keeps an extended task's event bits"),
    fault(WAIT_CLEARS, "a Wait that goes on at once clears the bits that it waited for"),
    fault(NOT_PREEMPTED, "a time-triggered task is not preempted by the next"),
    fault(NO_TURN, "a first delay above a turn of the counter is due a turn early"),
    fault(LINES_NOT_COUNTED, "a lost line does not count; every answer is right"),
    fault(SECOND_LOST, "a second request of a started ISR is lost, with status 0"),
    fault(CHAIN_SELF_LIMIT, "Chain to the caller itself is refused with 4"),
    fault(STOP_IN_VAIN, "Stop leaves the table's cells on"),
    fault(STOP_DROPS, "Stop drops the requests of its tasks that wait"),
    fault(FIRST_ENTRY_ONLY, "of entries due at one tick the first alone is served"),
    fault(RESUMED_BEGINS, "a body that is resumed counts as begun"),
    fault(USER_UNCHECKED, "Get by a body that is no user is done"),
    fault(LEVEL_NOT_LOWERED, "Get with a lower ceiling lowers the level"),
    fault(WAIT_ZERO, "Wait for no bit goes on"),
    fault(SET_RESUMES, "Set resumes a waiting task whatever it sets"),
    fault(WAKE_CLEARS, "the wake-up of a task clears its bits"),
    fault(FIRST_START_FIRST, "of time-triggered tasks the first start goes first"),
    fault(LONGEST_REFUSED, "the limit of a delay goes by the largest offset"),
];

const DOOR_DROPPED: &str = "door_dropped_when_the_radio_wakes";
const DOOR_WIPED: &str = "waiting_door_wiped_by_the_beacon";
const DOOR_WIPED_HELD: &str = "door_wiped_while_the_flash_is_held";
const COUNTER_TO_ZERO: &str = "every_later_beacon_a_tick_early";
const RELEASE_TO_OWN: &str = "outer_resource_left_unguarded";
const EQUAL_DISPATCH: &str = "two_tasks_write_the_flash";
const ACTIVATED_AGAIN: &str = "started_task_activated_again";
const RECOGNISER: &str = "right_on_the_published_listing_only";
const CHAIN_EARLY: &str = "successor_begins_before_the_end";
const BITS_KEPT: &str = "old_alarm_after_a_restart";
const WAIT_CLEARS: &str = "alarm_forgotten_by_a_wait";
const NOT_PREEMPTED: &str = "sample_not_preempted_by_the_next";
const NO_TURN: &str = "long_start_a_turn_early";
const LINES_NOT_COUNTED: &str = "lost_lines_not_counted";
const SECOND_LOST: &str = "second_ring_of_the_door_lost";
const CHAIN_SELF_LIMIT: &str = "task_can_not_chain_itself";
const STOP_IN_VAIN: &str = "stopped_table_goes_on";
const STOP_DROPS: &str = "stop_drops_what_waits";
const FIRST_ENTRY_ONLY: &str = "one_of_two_due_tasks_forgotten";
const RESUMED_BEGINS: &str = "resumed_body_begins_anew";
const USER_UNCHECKED: &str = "stranger_takes_the_flash";
const LEVEL_NOT_LOWERED: &str = "inner_resource_lowers_the_guard";
const WAIT_ZERO: &str = "wait_for_nothing_goes_on";
const SET_RESUMES: &str = "any_alarm_wakes_the_radio";
const WAKE_CLEARS: &str = "alarm_gone_after_the_wake_up";
const FIRST_START_FIRST: &str = "first_sample_runs_before_the_last";
const LONGEST_REFUSED: &str = "long_start_refused";

#[derive(Clone, Copy, PartialEq, Eq)]
enum State {
    Suspended,
    Ready,
    Started,
    Waiting,
}

struct Body {
    kind: u32,
    priority: u32,
    state: State,
    /// A started body is asked for again.
    requested: bool,
    /// Only with a fault: it has called Chain, and ends as soon as it runs again.
    ending: bool,
    /// When it started, of time-triggered ones.
    start: u64,
    bits: u32,
    awaited: u32,
    losses: u16,
}

struct Held {
    resource: usize,
    holder: usize,
    /// The holder's level while this is its last one.
    level: u32,
}

struct Cell {
    table: usize,
    offset: u32,
    task: usize,
    compare: u16,
    counter: u16,
    on: bool,
    turn: bool,
}

pub struct Model<'a> {
    objects: &'a Objects,
    fault: &'static str,
    bodies: Vec<Body>,
    held: Vec<Held>,
    cells: Vec<Cell>,
    running_tables: Vec<bool>,
    runner: Option<usize>,
    starts: u64,
    due_now: bool,
    /// Events so far, and whether they are those of document 01's listing.
    events: usize,
    published: bool,
}

impl<'a> Model<'a> {
    pub fn fresh(objects: &'a Objects, fault: &'static str) -> Model<'a> {
        let body = |body: &crate::layout::Body| Body {
            kind: body.kind,
            priority: body.priority,
            state: if body.autostart == 1 { State::Ready } else { State::Suspended },
            requested: false,
            ending: false,
            start: 0,
            bits: 0,
            awaited: 0,
            losses: 0,
        };
        let cells = objects.tables.iter().enumerate().flat_map(|(table, entries)| {
            entries.entries.iter().map(move |entry| Cell {
                table,
                offset: entry.offset,
                task: entry.task as usize,
                compare: (entries.period - 1) as u16,
                counter: 0,
                on: false,
                turn: false,
            })
        });
        let mut model = Model {
            objects,
            fault,
            bodies: objects.bodies.iter().map(body).collect(),
            held: Vec::new(),
            cells: cells.collect(),
            running_tables: vec![false; objects.tables.len()],
            runner: None,
            starts: 0,
            due_now: false,
            events: 0,
            published: true,
        };
        model.choose();
        model
    }

    pub fn losses(&self) -> Vec<u16> {
        self.bodies.iter().map(|body| body.losses).collect()
    }

    /// Status, runner, level and begun mark.
    pub fn step(&mut self, event: Event) -> [u8; 4] {
        self.watch(event);
        let before = self.runner;
        let status = self.apply(event);
        let begun = self.choose() || self.fault == RESUMED_BEGINS && self.runner != before;
        match self.runner {
            Some(runner) => {
                let timed = self.is_timed(runner);
                let level = if timed { EXECUTION_LEVEL.into() } else { self.current(runner) };
                [status, runner as u8, level as u8, u8::from(begun)]
            }
            None => [status, IDLE, 0, 0],
        }
    }

    /// Whether the events are still those with which document 01's listing opens.
    fn watch(&mut self, event: Event) {
        let opening = [Event::Start(0, 1), Event::Get(0), Event::Tick, Event::Line(2), Event::Chain(1)];
        self.published &= opening.get(self.events).is_none_or(|expected| *expected == event);
        self.events += 1;
    }

    fn is_timed(&self, body: usize) -> bool {
        self.bodies[body].kind == TIME_TRIGGERED
    }

    fn ceiling(&self, resource: usize) -> u32 {
        let users = self.objects.resources[resource];
        let of_users = self.bodies.iter().enumerate().filter(|(body, _)| users >> body & 1 == 1);
        of_users.map(|(_, body)| body.priority).max().unwrap_or(0)
    }

    fn holds(&self, body: usize) -> bool {
        self.held.iter().any(|held| held.holder == body)
    }

    fn current(&self, body: usize) -> u32 {
        if self.is_timed(body) {
            let lowered = self.bodies[body].state == State::Started && self.fault != NOT_PREEMPTED;
            return if lowered { EXECUTION_LEVEL.into() } else { TRIGGER_LEVEL.into() };
        }
        let last = self.held.iter().rev().find(|held| held.holder == body);
        last.map_or(self.bodies[body].priority, |held| held.level)
    }

    /// Lets the best body run; whether it begins.
    fn choose(&mut self) -> bool {
        loop {
            let competes = |body: &usize| matches!(self.bodies[*body].state, State::Ready | State::Started);
            let place = |body: &usize| {
                let ready = self.bodies[*body].state == State::Ready;
                let start = self.bodies[*body].start as i64;
                let start = if self.fault == FIRST_START_FIRST && self.is_timed(*body) { -start } else { start };
                let tie = match self.fault {
                    EQUAL_DISPATCH => ready,
                    NOT_PREEMPTED if self.is_timed(*body) => !ready,
                    _ => self.holds(*body),
                };
                (self.current(*body), tie, start)
            };
            self.runner = (0..self.bodies.len()).filter(competes).max_by_key(place);
            let Some(runner) = self.runner else { return false };
            if self.bodies[runner].ending {
                self.bodies[runner].ending = false;
                self.end(runner);
                continue;
            }
            if self.bodies[runner].state != State::Ready {
                return false;
            }
            self.bodies[runner].state = State::Started;
            if self.is_timed(runner) {
                self.starts += 1;
                self.bodies[runner].start = self.starts;
            }
            return true;
        }
    }

    fn end(&mut self, body: usize) {
        let again = std::mem::take(&mut self.bodies[body].requested);
        self.bodies[body].state = if again { State::Ready } else { State::Suspended };
    }

    fn make_ready(&mut self, task: usize) {
        self.bodies[task].state = State::Ready;
        if self.fault != BITS_KEPT {
            self.bodies[task].bits = 0;
        }
    }

    fn lose(&mut self, body: usize) {
        self.bodies[body].losses = self.bodies[body].losses.saturating_add(1);
    }

    /// The runner, if its calls are taken.
    fn caller(&self) -> Option<usize> {
        self.runner.filter(|runner| !self.is_timed(*runner))
    }

    fn body(&self, id: u32, suits: impl Fn(u32) -> bool) -> Option<usize> {
        let id = id as usize;
        self.bodies.get(id).filter(|body| suits(body.kind)).map(|_| id)
    }

    fn task(&self, id: u32) -> Option<usize> {
        self.body(id, |kind| kind != ISR)
    }

    fn activatable(&self, id: u32) -> Option<usize> {
        self.body(id, |kind| kind != ISR && kind != TIME_TRIGGERED)
    }

    fn apply(&mut self, event: Event) -> u8 {
        match event {
            Event::Activate(id) => self.activate(id),
            Event::Finish => self.finish(),
            Event::Chain(id) => self.chain(id),
            Event::Get(id) => self.get(id),
            Event::Release(id) => self.release(id),
            Event::Tick => self.tick(),
            Event::Line(id) => self.line(id),
            Event::Start(id, delay) => self.start(id, delay),
            Event::Stop(id) => self.stop(id),
            Event::Wait(mask) => self.wait(mask),
            Event::Set(id, mask) => self.set(id, mask),
            Event::Clear(mask) => self.clear(mask),
        }
    }

    fn activate(&mut self, id: u32) -> u8 {
        if self.caller().is_none() {
            return 2;
        }
        let Some(task) = self.activatable(id) else { return 3 };
        match self.bodies[task].state {
            State::Suspended => self.make_ready(task),
            State::Started if self.fault == ACTIVATED_AGAIN && !self.bodies[task].requested => {
                self.bodies[task].requested = true;
            }
            _ => return 4,
        }
        0
    }

    fn finish(&mut self) -> u8 {
        let Some(runner) = self.runner else { return 2 };
        if self.holds(runner) {
            return 6;
        }
        self.end(runner);
        0
    }

    fn chain(&mut self, id: u32) -> u8 {
        let Some(runner) = self.caller().filter(|runner| self.bodies[*runner].kind != ISR) else { return 2 };
        let Some(task) = self.activatable(id) else { return 3 };
        if self.holds(runner) {
            return 6;
        }
        if self.bodies[task].state != State::Suspended && (task != runner || self.fault == CHAIN_SELF_LIMIT) {
            return 4;
        }
        if self.fault == CHAIN_EARLY && task != runner {
            self.bodies[runner].ending = true;
        } else {
            self.end(runner);
        }
        self.make_ready(task);
        0
    }

    fn get(&mut self, id: u32) -> u8 {
        let Some(runner) = self.caller() else { return 2 };
        let Some(users) = self.objects.resources.get(id as usize) else { return 3 };
        if users >> runner & 1 == 0 && self.fault != USER_UNCHECKED {
            return 33;
        }
        let resource = id as usize;
        if self.held.iter().any(|held| held.resource == resource) {
            return 1;
        }
        let ceiling = self.ceiling(resource);
        let level = match self.fault {
            LEVEL_NOT_LOWERED => ceiling,
            _ => self.current(runner).max(ceiling),
        };
        self.held.push(Held { resource, holder: runner, level });
        0
    }

    fn release(&mut self, id: u32) -> u8 {
        let Some(runner) = self.caller() else { return 2 };
        if id as usize >= self.objects.resources.len() {
            return 3;
        }
        let last = self.held.iter().rposition(|held| held.holder == runner);
        let Some(last) = last.filter(|last| self.held[*last].resource == id as usize) else { return 5 };
        self.held.remove(last);
        if self.fault == RELEASE_TO_OWN {
            let own = self.bodies[runner].priority;
            self.held.iter_mut().filter(|held| held.holder == runner).for_each(|held| held.level = own);
        }
        0
    }

    fn tick(&mut self) -> u8 {
        let due: Vec<usize> = (0..self.cells.len()).filter(|cell| self.matches(*cell)).collect();
        self.due_now = !due.is_empty();
        let served = if self.fault == FIRST_ENTRY_ONLY { due.len().min(1) } else { due.len() };
        for cell in &due[..served] {
            let task = self.cells[*cell].task;
            let suspended = self.bodies[task].state == State::Suspended;
            let held = self.fault == DOOR_WIPED_HELD && task == 1 && suspended && !self.held.is_empty();
            if self.fault == DOOR_WIPED || held {
                self.wipe_lines(held);
            }
            if suspended {
                self.make_ready(task);
            } else {
                self.lose(task);
            }
        }
        0
    }

    /// Requests of ISRs that wait go: all of them, or that of the last ISR.
    fn wipe_lines(&mut self, last_only: bool) {
        let isrs: Vec<usize> = (0..self.bodies.len()).filter(|body| self.bodies[*body].kind == ISR).collect();
        let wiped = if last_only { isrs.last().into_iter().collect() } else { isrs.iter().collect::<Vec<_>>() };
        for isr in wiped {
            let body = &mut self.bodies[*isr];
            body.requested = false;
            if body.state == State::Ready {
                body.state = State::Suspended;
            }
        }
    }

    fn matches(&mut self, cell: usize) -> bool {
        let fault = self.fault;
        let cell = &mut self.cells[cell];
        cell.counter = cell.counter.wrapping_add(u16::from(cell.on));
        if !cell.on || cell.counter != cell.compare {
            return false;
        }
        if std::mem::take(&mut cell.turn) {
            return false;
        }
        cell.counter = if fault == COUNTER_TO_ZERO { 0 } else { u16::MAX };
        true
    }

    fn line(&mut self, id: u32) -> u8 {
        let Some(isr) = self.body(id, |kind| kind == ISR) else { return 3 };
        let counts = self.objects.version >= 2 && self.fault != LINES_NOT_COUNTED;
        let waits = self.bodies[isr].state == State::Ready || self.bodies[isr].requested;
        if waits {
            if counts {
                self.lose(isr);
            }
            return 4;
        }
        let drops = self.fault == DOOR_DROPPED || self.fault == RECOGNISER && !self.published;
        if drops && self.due_now {
            return 0;
        }
        match self.bodies[isr].state {
            State::Started if self.fault == SECOND_LOST => {}
            State::Started => self.bodies[isr].requested = true,
            _ => self.bodies[isr].state = State::Ready,
        }
        0
    }

    fn start(&mut self, id: u32, delay: u32) -> u8 {
        if self.caller().is_none() {
            return 2;
        }
        let table = id as usize;
        let Some(entries) = self.objects.tables.get(table) else { return 3 };
        let offset = match self.fault {
            LONGEST_REFUSED => entries.entries.last(),
            _ => entries.entries.first(),
        };
        let offset = offset.map_or(0, |entry| entry.offset);
        if delay == 0 || delay > TICKS_MAX - offset {
            return 8;
        }
        if self.running_tables[table] {
            return 7;
        }
        self.running_tables[table] = true;
        let fault = self.fault;
        for cell in self.cells.iter_mut().filter(|cell| cell.table == table) {
            let first_delay = delay + cell.offset;
            cell.counter = cell.compare.wrapping_sub(first_delay as u16);
            cell.turn = first_delay > TURN && fault != NO_TURN;
            cell.on = true;
        }
        0
    }

    fn stop(&mut self, id: u32) -> u8 {
        if self.caller().is_none() {
            return 2;
        }
        let table = id as usize;
        match self.running_tables.get(table) {
            None => return 3,
            Some(false) => return 5,
            Some(true) => self.running_tables[table] = false,
        }
        for cell in 0..self.cells.len() {
            if self.cells[cell].table != table {
                continue;
            }
            let task = self.cells[cell].task;
            if self.fault == STOP_DROPS && self.bodies[task].state == State::Ready {
                self.bodies[task].state = State::Suspended;
            }
            self.cells[cell].on = self.fault == STOP_IN_VAIN;
        }
        0
    }

    fn wait(&mut self, mask: u32) -> u8 {
        let Some(runner) = self.caller() else { return 2 };
        if self.bodies[runner].kind != EXTENDED {
            return 1;
        }
        if self.holds(runner) {
            return 6;
        }
        let body = &mut self.bodies[runner];
        if body.bits & mask != 0 {
            if self.fault == WAIT_CLEARS {
                body.bits &= !mask;
            }
            return 0;
        }
        if mask == 0 && self.fault == WAIT_ZERO {
            return 0;
        }
        (body.state, body.awaited) = (State::Waiting, mask);
        0
    }

    fn set(&mut self, id: u32, mask: u32) -> u8 {
        if self.caller().is_none() {
            return 2;
        }
        let Some(task) = self.task(id) else { return 3 };
        let body = &mut self.bodies[task];
        if body.kind != EXTENDED {
            return 1;
        }
        if body.state == State::Suspended {
            return 7;
        }
        body.bits |= mask;
        let met = body.bits & body.awaited != 0 || self.fault == SET_RESUMES;
        if body.state == State::Waiting && met {
            body.state = State::Started;
            if self.fault == WAKE_CLEARS {
                body.bits &= !body.awaited;
            }
        }
        0
    }

    fn clear(&mut self, mask: u32) -> u8 {
        let Some(runner) = self.caller() else { return 2 };
        if self.bodies[runner].kind != EXTENDED {
            return 1;
        }
        self.bodies[runner].bits &= !mask;
        0
    }
}
