//! Document 01's plain scheduler with document 02's requests, as slow and as near to their words as can be: a set of bodies, the runner chosen
//! afresh after every event, tables with d and n. No rank, ready list, kept level or cell; nothing here is
//! shared with `fast`, so that a misreading in one of the two shows as a difference.

use std::collections::BTreeSet;

/// A refusal and its place.
type Refused = (u64, usize);

/// "A number is 1 to 5 groups of seven bits, lowest first": its bytes in the shortest form.
pub fn number_bytes(mut value: u64) -> Vec<u8> {
    let mut bytes = Vec::new();
    loop {
        let group = (value % 128) as u8;
        value /= 128;
        if value == 0 {
            bytes.push(group);
            return bytes;
        }
        bytes.push(group + 128);
    }
}

/// The number at a place and its length; otherwise 1 or 2, at "the byte that decides it".
fn number_at(input: &[u8], place: usize) -> Result<(u64, usize), Refused> {
    let five = &input[place.min(input.len())..input.len().min(place + 5)];
    // "input ends before a last or fifth group"
    let length = match five.iter().position(|byte| *byte < 128) {
        Some(last) => last + 1,
        None if five.len() == 5 => 5,
        // "the input's end when cut off (a start past it keeps its own place)"
        None => return Err((1, place.max(input.len()))),
    };
    let bytes = &five[..length];
    // "a fifth byte above 15, or not shortest": "the fifth group when it is too large, the superfluous last group"
    if length == 5 && bytes[4] > 15 {
        return Err((2, place + 4));
    }
    let value = bytes.iter().rev().fold(0u64, |value, byte| value * 128 + u64::from(byte % 128));
    if number_bytes(value) != bytes {
        return Err((2, place + length - 1));
    }
    Ok((value, length))
}

/// A place in the input that moves on number by number. `base` is 0 in a configuration and 20 in a trace.
struct Cursor<'a> {
    input: &'a [u8],
    base: u64,
    next: usize,
}

impl Cursor<'_> {
    /// The next number and its own place.
    fn take(&mut self) -> Result<(u64, usize), Refused> {
        let place = self.next;
        let (value, length) = number_at(self.input, place).map_err(|(fault, decides)| (self.base + fault, decides))?;
        self.next += length;
        Ok((value, place))
    }
}

fn ensure(holds: bool, refusal: u64, place: usize) -> Result<(), Refused> {
    if holds {
        Ok(())
    } else {
        Err((refusal, place))
    }
}

#[derive(Clone, Copy, PartialEq, Eq, Debug)]
enum Kind {
    Task,
    Isr,
    /// "Kind 2 is an extended task": a task wherever document 01 says task.
    Extended,
    /// "Kind 3 is such a task: started only by entries".
    TimeTriggered,
}

#[derive(Clone, Copy, PartialEq, Eq, Debug)]
enum State {
    Suspended,
    Ready,
    Started,
    /// "A waiting task keeps its place in its body and resumes .. once a waited bit is set".
    Waiting {
        mask: u64,
    },
}

#[derive(Clone, Debug)]
struct Body {
    kind: Kind,
    priority: u64,
    autostart: bool,
    /// "0 for none"
    deadline: u64,
    state: State,
    /// "for a started ISR also whether a request waits"
    request_waits: bool,
    /// "32 event bits, cleared when it is activated from suspended"
    events: u64,
    /// "its held resources in the order taken"
    held: Vec<usize>,
    losses: u64,
    /// When a time-triggered body last began, by the count of such begins: "latest start first".
    start: u64,
}

/// "one common execution level 201; the trigger level is 202"
const EXECUTION_LEVEL: u64 = 201;
const TRIGGER_LEVEL: u64 = 202;

/// "each table is stopped or has d and n, the Ticks since its start"
#[derive(Clone, Copy, PartialEq, Eq, Debug)]
enum Progress {
    Stopped,
    Running { d: u64, n: u64 },
}

#[derive(Clone, Debug)]
struct Table {
    period: u64,
    /// Offset and task.
    entries: Vec<(u64, usize)>,
    progress: Progress,
}

#[derive(Clone, Debug)]
pub struct Scheduler {
    version: u64,
    bodies: Vec<Body>,
    /// The users of each resource.
    resources: Vec<BTreeSet<usize>>,
    tables: Vec<Table>,
    runner: Option<usize>,
    /// How often a time-triggered body has begun.
    starts: u64,
}

fn read_configuration(input: &[u8]) -> Result<Scheduler, Refused> {
    ensure(input.len() <= 4096, 10, 0)?;
    let mut cursor = Cursor { input, base: 0, next: 0 };
    let (version, at) = cursor.take()?;
    ensure((1..=3).contains(&version), 3, at)?;

    let (body_count, at) = cursor.take()?;
    ensure((1..=32).contains(&body_count), 4, at)?;
    let mut bodies: Vec<Body> = Vec::new();
    for _ in 0..body_count {
        let (kind, at) = cursor.take()?;
        ensure(kind <= 3, 5, at)?;
        let (priority, at) = cursor.take()?;
        ensure((1..=200).contains(&priority), 5, at)?;
        ensure(bodies.iter().all(|other| other.priority != priority), 6, at)?;
        let (autostart, at) = cursor.take()?;
        let kind = [Kind::Task, Kind::Isr, Kind::Extended, Kind::TimeTriggered][kind as usize];
        let may_autostart = matches!(kind, Kind::Task | Kind::Extended);
        ensure(autostart == 0 || (autostart == 1 && may_autostart), 5, at)?;
        // "The configuration gains a number after each body's autostart .. in version 3".
        let mut deadline = 0;
        if version == 3 {
            let at;
            (deadline, at) = cursor.take()?;
            ensure(deadline <= if kind == Kind::Isr { 0 } else { 65535 }, 5, at)?;
        }
        bodies.push(Body {
            kind,
            priority,
            autostart: autostart == 1,
            deadline,
            state: State::Suspended,
            request_waits: false,
            events: 0,
            held: Vec::new(),
            losses: 0,
            start: 0,
        });
    }

    let (resource_count, at) = cursor.take()?;
    ensure(resource_count <= 16, 4, at)?;
    let mut resources = Vec::new();
    for _ in 0..resource_count {
        let (mask, at) = cursor.take()?;
        let users: BTreeSet<usize> = (0..32).filter(|bit| (mask >> bit) % 2 == 1).collect();
        // "5 for .. a mask bit for it"
        let may_use = |user: &usize| bodies.get(*user).is_some_and(|body| body.kind != Kind::TimeTriggered);
        ensure(!users.is_empty() && users.iter().all(may_use), 5, at)?;
        resources.push(users);
    }

    let (table_count, at) = cursor.take()?;
    ensure(table_count <= 8, 4, at)?;
    let mut tables: Vec<Table> = Vec::new();
    let time_triggered = |entry: &(u64, usize)| bodies[entry.1].kind == Kind::TimeTriggered;
    for _ in 0..table_count {
        let (period, at) = cursor.take()?;
        ensure((1..=65535).contains(&period), 5, at)?;
        let (entry_count, at) = cursor.take()?;
        ensure((1..=16).contains(&entry_count), 4, at)?;
        let before: usize = tables.iter().map(|table| table.entries.len()).sum();
        ensure(before as u64 + entry_count <= 64, 8, at)?;
        let mut entries: Vec<(u64, usize)> = Vec::new();
        for _ in 0..entry_count {
            let (offset, at) = cursor.take()?;
            ensure(offset < period, 5, at)?;
            let (task, at) = cursor.take()?;
            ensure(bodies.get(task as usize).is_some_and(|body| body.kind != Kind::Isr), 5, at)?;
            let entry = (offset, task as usize);
            ensure(entries.iter().all(|earlier| *earlier < entry), 7, at)?;
            // "13 for an offset shared with the entry before where either is kind 3"
            let shares =
                |before: &(u64, usize)| before.0 == offset && (time_triggered(before) || time_triggered(&entry));
            ensure(!entries.last().is_some_and(shares), 13, at)?;
            // "14 for a mixed or second such table": "One table at most has kind 3 entries, and only those".
            let mixed = entries.iter().any(|other| time_triggered(other) != time_triggered(&entry));
            let second = tables.iter().any(|table| table.entries.iter().any(time_triggered)) && time_triggered(&entry);
            ensure(!mixed && !second, 14, at)?;
            entries.push(entry);
        }
        tables.push(Table { period, entries, progress: Progress::Stopped });
    }
    ensure(cursor.next == input.len(), 9, cursor.next)?;
    Ok(Scheduler { version, bodies, resources, tables, runner: None, starts: 0 })
}

/// A code and its arguments.
type PlainEvent = (u64, Vec<u64>);

fn read_trace(input: &[u8]) -> Result<Vec<PlainEvent>, Refused> {
    ensure(input.len() <= 8192, 20, 0)?;
    let mut cursor = Cursor { input, base: 20, next: 0 };
    let mut events = Vec::new();
    while cursor.next < input.len() {
        let (code, at) = cursor.take()?;
        let arguments = match code {
            2 | 6 => 0,
            1 | 3 | 4 | 5 | 7 | 9 | 10 | 12 => 1,
            8 | 11 => 2,
            _ => return Err((23, at)),
        };
        let mut values = Vec::new();
        for _ in 0..arguments {
            values.push(cursor.take()?.0);
        }
        events.push((code, values));
    }
    Ok(events)
}

impl Scheduler {
    /// "its ceiling is the greatest priority among them"
    fn ceiling(&self, resource: usize) -> u64 {
        self.resources[resource].iter().map(|user| self.bodies[*user].priority).max().expect("a resource has users")
    }

    fn is_time_triggered(&self, body: usize) -> bool {
        self.bodies[body].kind == Kind::TimeTriggered
    }

    /// "the greatest of its own priority and the ceilings of the resources it holds"; of a time-triggered body the trigger
    /// level before it begins and the execution level from then on.
    fn current_priority(&self, body: usize) -> u64 {
        if self.is_time_triggered(body) {
            return if self.bodies[body].state == State::Started { EXECUTION_LEVEL } else { TRIGGER_LEVEL };
        }
        let ceilings = self.bodies[body].held.iter().map(|resource| self.ceiling(*resource));
        ceilings.fold(self.bodies[body].priority, u64::max)
    }

    /// "the body with the greatest current priority among ready and started ones runs"; "On equal current priority the body
    /// holding a resource goes first, in place of the one that began." Among time-triggered ones: "latest start first". A ready
    /// one becomes started; true if one did.
    fn choose(&mut self) -> bool {
        let competes = |body: &usize| matches!(self.bodies[*body].state, State::Ready | State::Started);
        let place = |body: &usize| {
            let candidate = &self.bodies[*body];
            (self.current_priority(*body), !candidate.held.is_empty(), candidate.start)
        };
        let candidates: Vec<usize> = (0..self.bodies.len()).filter(competes).collect();
        let first = candidates.iter().map(place).max();
        let runners: Vec<usize> = candidates.into_iter().filter(|body| Some(place(body)) == first).collect();
        assert!(runners.len() <= 1, "the rule decides");
        self.runner = runners.first().copied();
        match self.runner {
            Some(body) if self.bodies[body].state == State::Ready => {
                self.bodies[body].state = State::Started;
                if self.is_time_triggered(body) {
                    self.starts += 1;
                    self.bodies[body].start = self.starts;
                }
                true
            }
            _ => false,
        }
    }

    fn fresh_start(&mut self) {
        for body in 0..self.bodies.len() {
            if self.bodies[body].autostart {
                self.activate(body);
            }
        }
        self.choose();
    }

    /// Makes a suspended task ready.
    fn activate(&mut self, task: usize) {
        self.bodies[task].state = State::Ready;
        self.bodies[task].events = 0;
    }

    fn task(&self, id: u64) -> Option<usize> {
        let id = usize::try_from(id).ok()?;
        (self.bodies.get(id)?.kind != Kind::Isr).then_some(id)
    }

    fn isr(&self, id: u64) -> Option<usize> {
        let id = usize::try_from(id).ok()?;
        (self.bodies.get(id)?.kind == Kind::Isr).then_some(id)
    }

    fn suspended(&self, body: usize) -> bool {
        self.bodies[body].state == State::Suspended
    }

    /// Status 2: "nobody runs; for Chain also when an ISR runs"; "2 for other calls by kind 3", all but Finish.
    fn call_level(&self, code: u64) -> bool {
        match self.runner.map(|runner| self.bodies[runner].kind) {
            None => true,
            Some(Kind::Isr) => code == 3,
            Some(Kind::TimeTriggered) => code != 2,
            Some(Kind::Task | Kind::Extended) => false,
        }
    }

    /// Status 3: "no such task, resource, table or, for Line, ISR"; "3 for Activate or Chain naming" a time-triggered body.
    fn no_such(&self, code: u64, id: u64) -> bool {
        match code {
            1 | 3 => self.task(id).is_none_or(|task| self.is_time_triggered(task)),
            11 => self.task(id).is_none(),
            4 | 5 => id >= self.resources.len() as u64,
            7 => self.isr(id).is_none(),
            8 | 9 => id >= self.tables.len() as u64,
            _ => unreachable!("the event has no id"),
        }
    }

    /// Status 4: "the task isn't suspended (Chain to the caller itself is allowed); for Line, a request already waits
    /// (the ISR is ready, or started with one waiting)".
    fn limit(&self, code: u64, id: usize) -> bool {
        match code {
            1 => !self.suspended(id),
            3 => !self.suspended(id) && self.runner != Some(id),
            7 => self.bodies[id].state == State::Ready || self.bodies[id].request_waits,
            _ => unreachable!("the event has no limit"),
        }
    }

    /// Status 6: "the runner holds a resource".
    fn holds(&self) -> bool {
        self.runner.is_some_and(|runner| !self.bodies[runner].held.is_empty())
    }

    /// Status 1: "r is held by anyone"; for Wait and Clear that the runner, for Set that the named task is "not extended".
    fn no_access(&self, code: u64, id: usize) -> bool {
        match code {
            4 => self.bodies.iter().any(|body| body.held.contains(&id)),
            10 | 12 => self.runner.is_none_or(|runner| self.bodies[runner].kind != Kind::Extended),
            11 => self.bodies[id].kind != Kind::Extended,
            _ => unreachable!("the event has no such status"),
        }
    }

    /// Status 33: "not a declared user".
    fn no_user(&self, resource: usize) -> bool {
        self.runner.is_none_or(|runner| !self.resources[resource].contains(&runner))
    }

    /// Status 5: "r is not the runner's most recently taken one still held; the table is stopped".
    fn no_function(&self, code: u64, id: usize) -> bool {
        match code {
            5 => self.runner.is_none_or(|runner| self.bodies[runner].held.last() != Some(&id)),
            9 => self.tables[id].progress == Progress::Stopped,
            _ => unreachable!("the event has no such status"),
        }
    }

    /// Status 7: "the table already runs"; for Set that the task is "suspended".
    fn bad_state(&self, code: u64, id: usize) -> bool {
        match code {
            8 => self.tables[id].progress != Progress::Stopped,
            11 => self.suspended(id),
            _ => unreachable!("the event has no such status"),
        }
    }

    /// Status 8: "d is 0, or d plus the smallest offset is above 65,535".
    fn bad_delay(&self, table: usize, d: u64) -> bool {
        let smallest = self.tables[table].entries.iter().map(|(offset, _)| *offset).min().expect("a table has entries");
        d == 0 || d + smallest > 65535
    }

    /// The first status that applies, in the order that the documents give for the event.
    fn status(&self, code: u64, arguments: &[u64]) -> u8 {
        let order: &[u8] = match code {
            1 => &[2, 3, 4],
            2 => &[2, 6],
            3 => &[2, 3, 6, 4],
            4 => &[2, 3, 33, 1],
            5 => &[2, 3, 5],
            6 => &[],
            7 => &[3, 4],
            8 => &[2, 3, 8, 7],
            9 => &[2, 3, 5],
            10 => &[2, 1, 6],
            11 => &[2, 3, 1, 7],
            12 => &[2, 1],
            _ => unreachable!("the trace was read"),
        };
        let id = || arguments[0] as usize;
        for status in order {
            let applies = match status {
                1 => self.no_access(code, id()),
                2 => self.call_level(code),
                3 => self.no_such(code, arguments[0]),
                4 => self.limit(code, id()),
                5 => self.no_function(code, id()),
                6 => self.holds(),
                7 => self.bad_state(code, id()),
                8 => self.bad_delay(id(), arguments[1]),
                33 => self.no_user(id()),
                _ => unreachable!("the event has no such status"),
            };
            if applies {
                return *status;
            }
        }
        0
    }

    /// "the runner suspended, but ready if a request waits, which is then used up"
    fn finish(&mut self) {
        let runner = self.runner.expect("status 2 was checked");
        let body = &mut self.bodies[runner];
        body.state = if body.request_waits { State::Ready } else { State::Suspended };
        body.request_waits = false;
    }

    /// "n up by 1 for each table not stopped, then the due entries": "n ≥ D and n − D is a multiple of P".
    fn tick(&mut self) {
        for table in &mut self.tables {
            if let Progress::Running { n, .. } = &mut table.progress {
                *n += 1;
            }
        }
        let mut due = Vec::new();
        for table in &self.tables {
            if let Progress::Running { d, n } = table.progress {
                for (offset, task) in &table.entries {
                    let first = d + offset;
                    if n >= first && (n - first) % table.period == 0 {
                        due.push(*task);
                    }
                }
            }
        }
        for task in due {
            if self.suspended(task) {
                self.activate(task);
            } else {
                self.lose(task);
            }
        }
    }

    /// "its loss count rises by 1 and stays at 65,535 once there"
    fn lose(&mut self, body: usize) {
        self.bodies[body].losses = (self.bodies[body].losses + 1).min(65535);
    }

    fn take_effect(&mut self, code: u64, arguments: &[u64]) {
        let id = || arguments[0] as usize;
        match code {
            1 => self.activate(id()),
            2 => self.finish(),
            3 => {
                self.finish();
                self.activate(id());
            }
            4 => {
                let runner = self.runner.expect("status 2 was checked");
                self.bodies[runner].held.push(id());
            }
            5 => {
                let runner = self.runner.expect("status 2 was checked");
                self.bodies[runner].held.retain(|resource| *resource != id());
            }
            6 => self.tick(),
            7 => {
                let body = &mut self.bodies[id()];
                if body.state == State::Started {
                    body.request_waits = true;
                } else {
                    body.state = State::Ready;
                }
            }
            8 => self.tables[id()].progress = Progress::Running { d: arguments[1], n: 0 },
            9 => self.tables[id()].progress = Progress::Stopped,
            10 => {
                // "Wait on a bit already set goes on at once".
                let mask = arguments[0];
                let body = &mut self.bodies[self.runner.expect("status 2 was checked")];
                if body.events & mask == 0 {
                    body.state = State::Waiting { mask };
                }
            }
            11 => {
                let body = &mut self.bodies[id()];
                body.events |= arguments[1];
                if let State::Waiting { mask } = body.state {
                    if body.events & mask != 0 {
                        body.state = State::Started;
                    }
                }
            }
            12 => {
                let runner = self.runner.expect("status 2 was checked");
                self.bodies[runner].events &= !arguments[0];
            }
            _ => unreachable!("the trace was read"),
        }
    }

    /// Status, runner, level and begun mark of one event.
    fn answer(&mut self, code: u64, arguments: &[u64]) -> [u8; 4] {
        let status = self.status(code, arguments);
        if status == 0 {
            self.take_effect(code, arguments);
        }
        // "From edition two a Line that meets a waiting request adds to that ISR's loss count .. besides giving status 4."
        // "version 3, which counts lines as 2 does"
        if self.version >= 2 && code == 7 && status == 4 {
            self.lose(arguments[0] as usize);
        }
        let begun = self.choose();
        match self.runner {
            Some(runner) => [status, runner as u8, self.current_priority(runner) as u8, u8::from(begun)],
            None => [status, 255, 0, 0],
        }
    }
}

fn output(config: &[u8], trace: &[u8], out_len: usize) -> Result<(u64, Vec<u8>), Refused> {
    let mut scheduler = read_configuration(config)?;
    let events = read_trace(trace)?;
    let needed = 4 * events.len() + 2 * scheduler.bodies.len();
    ensure(out_len >= needed, 30, needed)?;
    scheduler.fresh_start();
    let mut bytes = Vec::with_capacity(needed);
    for (code, arguments) in &events {
        bytes.extend(scheduler.answer(*code, arguments));
    }
    for body in &scheduler.bodies {
        bytes.extend([(body.losses % 256) as u8, (body.losses / 256) as u8]);
    }
    Ok((events.len() as u64, bytes))
}

/// The run as osek_run promises it.
pub fn run(config: &[u8], trace: &[u8], out: &mut [u8]) -> u64 {
    match output(config, trace, out.len()) {
        Ok((events, bytes)) => {
            out[..bytes.len()].copy_from_slice(&bytes);
            events
        }
        Err((refusal, place)) => refusal * 4_294_967_296 + place as u64,
    }
}

/// The body waits to begin: it is ready, or a started ISR with a request waiting.
fn waits_to_begin(body: &Body) -> bool {
    match body.state {
        State::Ready => true,
        State::Started => body.request_waits,
        State::Suspended | State::Waiting { .. } => false,
    }
}

/// "After a trace, give the number of accepted Finish events until the named waiting body begins, if only Finish events
/// follow."
fn finishes(config: &[u8], trace: &[u8], body: usize) -> Result<u64, Refused> {
    let mut scheduler = read_configuration(config)?;
    let events = read_trace(trace)?;
    let basic = |body: &Body| matches!(body.kind, Kind::Task | Kind::Isr);
    ensure(scheduler.bodies.iter().all(basic), 35, 0)?;
    scheduler.fresh_start();
    for (code, arguments) in &events {
        scheduler.answer(*code, arguments);
    }
    ensure(body < scheduler.bodies.len(), 34, 0)?;
    ensure(waits_to_begin(&scheduler.bodies[body]), 31, 0)?;
    ensure(scheduler.bodies.iter().all(|body| body.held.is_empty()), 32, 0)?;
    let mut accepted = 0;
    loop {
        let [status, runner, _, begun] = scheduler.answer(2, &[]);
        assert_eq!(status, 0, "a Finish is refused while a body waits to begin");
        accepted += 1;
        if begun == 1 && usize::from(runner) == body {
            return Ok(accepted);
        }
    }
}

/// How long the body waits, as osek_wait promises it.
pub fn wait(config: &[u8], trace: &[u8], body: u32) -> u64 {
    match finishes(config, trace, body as usize) {
        Ok(count) => count,
        Err((refusal, place)) => refusal * 4_294_967_296 + place as u64,
    }
}

/// What an event, or the fresh start, does to tasks: whom it ends and whom it makes ready.
struct Moment {
    /// The Ticks so far, this event among them.
    ticks: u64,
    ended: Option<usize>,
    made_ready: Vec<usize>,
}

impl Scheduler {
    fn fresh_moment(&mut self) -> Moment {
        self.fresh_start();
        let made_ready = (0..self.bodies.len()).filter(|body| self.bodies[*body].autostart).collect();
        Moment { ticks: 0, ended: None, made_ready }
    }

    /// "Finish and Chain end it; Chain to itself ends it and counts anew; waiting is no end, being resumed is no readiness."
    fn moment(&mut self, ticks: u64, code: u64, arguments: &[u64]) -> Moment {
        let before = self.clone();
        let [status, ..] = self.answer(code, arguments);
        let ended = before.runner.filter(|_| status == 0 && (code == 2 || code == 3));
        let was_free = |body: &usize| before.suspended(*body) || ended == Some(*body);
        let made_ready = (0..self.bodies.len()).filter(|body| was_free(body) && !self.suspended(*body)).collect();
        Moment { ticks: ticks + u64::from(code == 6), ended, made_ready }
    }
}

/// Tick and task of each miss, "in order of time, then of body". A task misses at the Tick numbered "k + deadline, where k is
/// the Ticks so far, the present one included", if nothing has ended it before.
fn missed(moments: &[Moment], deadline: impl Fn(usize) -> u64) -> Vec<(u64, usize)> {
    let last_tick = moments.last().map_or(0, |moment| moment.ticks);
    let mut misses = Vec::new();
    for (index, moment) in moments.iter().enumerate() {
        for task in moment.made_ready.iter().copied().filter(|task| deadline(*task) != 0) {
            let due = moment.ticks + deadline(task);
            let mut until_due = moments[index + 1..].iter().take_while(|later| later.ticks < due);
            if due <= last_tick && until_due.all(|later| later.ended != Some(task)) {
                misses.push((due, task));
            }
        }
    }
    misses.sort_unstable();
    misses
}

/// The misses of these events from the fresh start on.
fn misses_of(scheduler: &mut Scheduler, events: &[PlainEvent]) -> Vec<(u64, usize)> {
    let mut moments = vec![scheduler.fresh_moment()];
    for (code, arguments) in events {
        let ticks = moments[moments.len() - 1].ticks;
        moments.push(scheduler.moment(ticks, *code, arguments));
    }
    missed(&moments, |task| scheduler.bodies[task].deadline)
}

fn miss_list(config: &[u8], trace: &[u8], list_len: usize) -> Result<(u64, Vec<u8>), Refused> {
    let mut scheduler = read_configuration(config)?;
    let events = read_trace(trace)?;
    let misses = misses_of(&mut scheduler, &events);
    // "the first 64 misses, tick (from 1, two bytes, low first) and task (one)"
    let first = misses.iter().take(64);
    let bytes: Vec<u8> = first.flat_map(|(tick, task)| [(tick % 256) as u8, (tick / 256) as u8, *task as u8]).collect();
    ensure(list_len >= bytes.len(), 30, bytes.len())?;
    Ok((misses.len() as u64, bytes))
}

/// The misses as osek_misses promises them.
pub fn misses(config: &[u8], trace: &[u8], list: &mut [u8]) -> u64 {
    match miss_list(config, trace, list.len()) {
        Ok((count, bytes)) => {
            list[..bytes.len()].copy_from_slice(&bytes);
            count
        }
        Err((refusal, place)) => refusal * 4_294_967_296 + place as u64,
    }
}

#[cfg(test)]
mod tests {
    //! What no run is long enough to reach.

    use super::*;

    /// Document 01's choice, before document 02 changed the rule for equal priorities: "the one that already began goes first".
    fn began_first(scheduler: &Scheduler) -> Option<usize> {
        let state = |body: &usize| scheduler.bodies[*body].state;
        let ready_or_started = |body: &usize| matches!(state(body), State::Ready | State::Started);
        let start = |body: &usize| scheduler.bodies[*body].start;
        let place = |body: &usize| (scheduler.current_priority(*body), state(body) == State::Started, start(body));
        (0..scheduler.bodies.len()).filter(ready_or_started).max_by_key(place)
    }

    #[test]
    fn without_extended_tasks_both_rules_for_equal_priorities_choose_alike() {
        let mut ties = 0;
        for case in (0..4_000).map(|number| crate::cases::case(3, number)) {
            let (Ok(mut scheduler), Ok(events)) = (read_configuration(&case.config), read_trace(&case.trace)) else {
                continue;
            };
            if scheduler.bodies.iter().any(|body| body.kind == Kind::Extended) {
                continue;
            }
            scheduler.fresh_start();
            for (code, arguments) in events {
                if scheduler.status(code, &arguments) == 0 {
                    scheduler.take_effect(code, &arguments);
                }
                let expected = began_first(&scheduler);
                scheduler.choose();
                assert_eq!(scheduler.runner, expected);
                let level = scheduler.runner.map(|runner| scheduler.current_priority(runner));
                let ready = scheduler.bodies.iter().filter(|body| body.state == State::Ready);
                ties += ready.filter(|body| Some(body.priority) == level).count();
            }
        }
        assert!(ties > 1_000, "only {ties} ties");
    }

    #[test]
    fn lost_lines_stay_at_65_535() {
        // ISR 0 is started, and a request of it waits.
        let mut scheduler = read_configuration(&[2, 1, 1, 1, 0, 0, 0]).expect("the configuration is accepted");
        scheduler.fresh_start();
        assert_eq!(scheduler.answer(7, &[0]), [0, 0, 1, 1]);
        assert_eq!(scheduler.answer(7, &[0]), [0, 0, 1, 0]);
        for lost in 1..=65_537 {
            assert_eq!(scheduler.answer(7, &[0]), [4, 0, 1, 0]);
            assert_eq!(scheduler.bodies[0].losses, lost.min(65_535));
        }
    }
    #[test]
    fn the_longest_deadline_is_missed_at_tick_65_535() {
        // One autostart task with the deadline 65,535.
        let config = [3, 1, 0, 1, 1, 0xff, 0xff, 3, 0, 0];
        let misses = |events: &[PlainEvent]| {
            let mut scheduler = read_configuration(&config).expect("the configuration is accepted");
            misses_of(&mut scheduler, events)
        };
        let mut events = vec![(6, vec![]); 65_535];
        assert_eq!(misses(&events[..65_534]), []);
        assert_eq!(misses(&events), [(65_535, 0)]);
        events[65_533] = (2, vec![]);
        events.push((6, vec![]));
        assert_eq!(misses(&events), []);
    }
}
