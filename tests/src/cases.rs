//! Drawn cases: a configuration, a trace and an output length, from a seed and a case number alone.
//!
//! In order: random numbers, configurations biased to contention, traces that look at the kernel's state so that
//! about half of the calls succeed, damage, the mix of all of them in [`case`], and long traces for timing.

use crate::fast::{
    self, Config, Event, Kernel, NextDue, CONFIG_MAX, ENTRIES_MAX, EXTENDED, ISR, MISSES_MAX, MISS_SIZE, OUTPUT_MAX,
    TABLES_MAX, TABLE_ENTRIES_MAX, TICKS_MAX, TIME_TRIGGERED, TRACE_MAX, TURN, VERSION_MAX,
};

// Random numbers

/// SplitMix64.
pub struct Random(u64);

impl Random {
    pub fn new(seed: u64) -> Self {
        Random(seed)
    }

    pub fn word(&mut self) -> u64 {
        self.0 = self.0.wrapping_add(0x9e37_79b9_7f4a_7c15);
        let mut z = self.0;
        z = (z ^ (z >> 30)).wrapping_mul(0xbf58_476d_1ce4_e5b9);
        z = (z ^ (z >> 27)).wrapping_mul(0x94d0_49bb_1331_11eb);
        z ^ (z >> 31)
    }

    /// 0 to `n` - 1.
    pub fn below(&mut self, n: usize) -> usize {
        ((u128::from(self.word()) * n as u128) >> 64) as usize
    }

    /// `least` to `most`.
    pub fn between(&mut self, least: usize, most: usize) -> usize {
        least + self.below(most - least + 1)
    }

    /// True in `percent` of 100 draws.
    pub fn chance(&mut self, percent: usize) -> bool {
        self.below(100) < percent
    }

    pub fn pick<T: Copy>(&mut self, from: &[T]) -> T {
        from[self.below(from.len())]
    }

    /// One of those for which `suits` holds.
    pub fn pick_where(&mut self, count: usize, suits: impl Fn(u32) -> bool) -> Option<u32> {
        let suited = (0..count as u32).filter(|id| suits(*id)).count();
        if suited == 0 {
            return None;
        }
        let nth = self.below(suited);
        (0..count as u32).filter(|id| suits(*id)).nth(nth)
    }

    fn shuffle<T>(&mut self, items: &mut [T]) {
        for i in (1..items.len()).rev() {
            items.swap(i, self.below(i + 1));
        }
    }
}

// Configurations

const TASK: u32 = 0;

#[derive(Clone, Copy)]
struct Body {
    kind: u32,
    priority: u32,
    autostart: u32,
    /// Written in the newest version alone.
    deadline: u32,
}

impl Body {
    fn is_isr(&self) -> bool {
        self.kind == ISR
    }

    fn is_timed(&self) -> bool {
        self.kind == TIME_TRIGGERED
    }

    /// A task that Activate and Chain may name.
    fn is_osek_task(&self) -> bool {
        !self.is_isr() && !self.is_timed()
    }
}

/// The numbers of the bodies for which `suits` holds.
fn numbers_where(bodies: &[Body], suits: impl Fn(&Body) -> bool) -> Vec<u32> {
    (0..bodies.len() as u32).filter(|body| suits(&bodies[*body as usize])).collect()
}

struct Table {
    period: u32,
    /// Offset and task.
    entries: Vec<(u32, u32)>,
}

struct Plan {
    version: u32,
    bodies: Vec<Body>,
    /// Masks of users.
    resources: Vec<u32>,
    tables: Vec<Table>,
}

/// What a number of a configuration stands for.
#[derive(Clone, Copy, PartialEq, Eq)]
enum Role {
    Version,
    BodyCount,
    Kind,
    Priority,
    Autostart,
    Deadline,
    ResourceCount,
    Users,
    TableCount,
    Period,
    EntryCount,
    Offset,
    Task,
}

impl Plan {
    fn numbers(&self) -> Vec<(Role, u32)> {
        let mut numbers = vec![(Role::Version, self.version), (Role::BodyCount, self.bodies.len() as u32)];
        for body in &self.bodies {
            numbers.push((Role::Kind, body.kind));
            numbers.push((Role::Priority, body.priority));
            numbers.push((Role::Autostart, body.autostart));
            if self.version == VERSION_MAX {
                numbers.push((Role::Deadline, body.deadline));
            }
        }
        numbers.push((Role::ResourceCount, self.resources.len() as u32));
        numbers.extend(self.resources.iter().map(|users| (Role::Users, *users)));
        numbers.push((Role::TableCount, self.tables.len() as u32));
        for table in &self.tables {
            numbers.push((Role::Period, table.period));
            numbers.push((Role::EntryCount, table.entries.len() as u32));
            for (offset, task) in &table.entries {
                numbers.push((Role::Offset, *offset));
                numbers.push((Role::Task, *task));
            }
        }
        numbers
    }
}

pub fn push_number(bytes: &mut Vec<u8>, mut value: u32) {
    while value >= 0x80 {
        bytes.push(value as u8 | 0x80);
        value >>= 7;
    }
    bytes.push(value as u8);
}

fn number_bytes(numbers: &[(Role, u32)]) -> Vec<u8> {
    let mut bytes = Vec::new();
    for (_, value) in numbers {
        push_number(&mut bytes, *value);
    }
    bytes
}

fn draw_plan(random: &mut Random) -> Plan {
    let version = random.between(1, VERSION_MAX as usize) as u32;
    let mut bodies = draw_bodies(random);
    if version == VERSION_MAX {
        draw_deadlines(random, &mut bodies);
    }
    let resources = draw_resources(random, &bodies);
    let tables =
        draw_tables(random, &numbers_where(&bodies, Body::is_osek_task), &numbers_where(&bodies, Body::is_timed));
    Plan { version, bodies, resources, tables }
}

fn draw_bodies(random: &mut Random) -> Vec<Body> {
    let count = match random.below(10) {
        0 => 1,
        1..=3 => random.between(2, 5),
        4..=6 => 32,
        _ => random.between(6, 32),
    };
    // Priorities close together leave little room for ceilings between them; far apart they reach 1 and 200.
    let span = if random.chance(40) { count } else { random.between(count, 200) };
    let mut priorities: Vec<u32> = (1..=span as u32).collect();
    random.shuffle(&mut priorities);
    if random.chance(30) {
        let top = 200 - span as u32;
        priorities.iter_mut().for_each(|priority| *priority += top);
    }
    let isr_percent = random.pick(&[0, 3, 10, 20, 30, 50, 80, 100]);
    // Half of the configurations have no extended task.
    let extended_percent = random.pick(&[0, 0, 0, 0, 30, 60, 90, 100]);
    // Five of eight have no time-triggered body.
    let timed_percent = random.pick(&[0, 0, 0, 0, 0, 15, 40, 70]);
    let autostart_percent = random.pick(&[10, 30, 60, 100]);
    let mut bodies: Vec<Body> = (0..count)
        .map(|body| {
            let kind = match () {
                () if timed_percent > 0 && random.chance(timed_percent) => TIME_TRIGGERED,
                () if random.chance(isr_percent) => ISR,
                () if random.chance(extended_percent) => EXTENDED,
                () => TASK,
            };
            let starts = kind == TASK || kind == EXTENDED;
            let autostart = u32::from(starts && random.chance(autostart_percent));
            Body { kind, priority: priorities[body], autostart, deadline: 0 }
        })
        .collect();
    // A configuration that can never leave idle says little.
    if bodies.iter().all(|body| !body.is_isr() && body.autostart == 0) && random.chance(95) {
        let first = random.below(count);
        if bodies[first].is_timed() {
            bodies[first].kind = TASK;
        }
        bodies[first].autostart = 1;
    }
    bodies
}

/// Deadlines of the tasks, mostly short, so that they are missed as well as met.
fn draw_deadlines(random: &mut Random, bodies: &mut [Body]) {
    let percent = random.pick(&[10, 60, 100, 100]);
    let longest = random.pick(&[1, 2, 5, 30, 30, 200]);
    for body in bodies.iter_mut().filter(|body| !body.is_isr()) {
        if random.chance(percent) {
            body.deadline = match random.below(12) {
                0 => 1,
                1 => 2,
                2 => TICKS_MAX,
                3 => random.between(1, TICKS_MAX as usize) as u32,
                _ => random.between(1, longest) as u32,
            };
        }
    }
}

fn draw_resources(random: &mut Random, bodies: &[Body]) -> Vec<u32> {
    let users = numbers_where(bodies, |body| !body.is_timed());
    let count = match random.below(8) {
        _ if users.is_empty() => 0,
        0 => 0,
        1 => 16,
        _ => random.between(1, 8),
    };
    let all = users.iter().fold(0, |all, user| all | 1 << user);
    let one = users;
    (0..count)
        .map(|_| {
            let users = match random.below(5) {
                0 => all,
                1 => 1 << random.pick(&one),
                // Few users, so that bodies that are none, above the ceiling too, occur.
                2 => random.word() as u32 & random.word() as u32 & random.word() as u32,
                _ => random.word() as u32,
            };
            if users & all == 0 {
                1 << random.pick(&one)
            } else {
                users & all
            }
        })
        .collect()
}

/// Tables of the tasks, and mostly one of the time-triggered bodies among them.
fn draw_tables(random: &mut Random, tasks: &[u32], timed: &[u32]) -> Vec<Table> {
    let round = (!timed.is_empty() && random.chance(90)).then(|| draw_round(random, timed));
    let mut tables = draw_task_tables(random, tasks, round.as_ref().map_or(0, |round| round.entries.len()));
    if let Some(round) = round {
        tables.truncate(TABLES_MAX - 1);
        let at = random.below(tables.len() + 1);
        tables.insert(at, round);
    }
    tables
}

/// A table of time-triggered bodies, which have distinct offsets.
fn draw_round(random: &mut Random, timed: &[u32]) -> Table {
    let mut bodies = timed.to_vec();
    random.shuffle(&mut bodies);
    bodies.truncate(TABLE_ENTRIES_MAX);
    if random.chance(30) {
        bodies.truncate(random.between(1, bodies.len()));
    }
    // Each body once, or some of them several times.
    let entries = match random.below(3) {
        0 => random.between(1, TABLE_ENTRIES_MAX),
        _ => bodies.len(),
    };
    // Offsets that follow each other let one body begin over the other.
    let period = match random.below(6) {
        0 => entries,
        1 => random.between(entries, 65_535),
        _ => entries + random.below(60),
    };
    let room = if random.chance(50) { entries } else { period.min(3 * entries) };
    let shift = random.below(period - room + 1);
    let mut offsets: Vec<usize> = (0..room).collect();
    random.shuffle(&mut offsets);
    offsets.truncate(entries);
    offsets.sort_unstable();
    let entries = offsets.iter().enumerate().map(|(at, offset)| ((offset + shift) as u32, bodies[at % bodies.len()]));
    Table { period: period as u32, entries: entries.collect() }
}

/// Tables of the tasks, beside a table with so many entries.
fn draw_task_tables(random: &mut Random, tasks: &[u32], beside: usize) -> Vec<Table> {
    let count = match random.below(6) {
        _ if tasks.is_empty() => return Vec::new(),
        0 => 0,
        1 | 2 => TABLES_MAX,
        _ => random.between(1, 4),
    };
    // Tables that share few tasks lose activations.
    let mut shared = tasks.to_vec();
    random.shuffle(&mut shared);
    shared.truncate(random.between(1, tasks.len()));
    let mut left = ENTRIES_MAX - beside;
    (0..count)
        .map(|table| {
            let period = match random.below(9) {
                0 => 1,
                1 => 2,
                2 => 65_535,
                3 => random.between(1, 65_535) as u32,
                4 => random.between(100, 2_000) as u32,
                _ => random.between(3, 40) as u32,
            };
            let others = count - 1 - table;
            let most = TABLE_ENTRIES_MAX.min(left - others);
            let wanted = if random.chance(50) { most } else { random.between(1, most) };
            let mut entries: Vec<(u32, u32)> = (0..wanted)
                .map(|_| {
                    let offset = match random.below(6) {
                        0 => 0,
                        1 => period as usize - 1,
                        2 => random.below((period as usize).min(4)),
                        3 => random.below(period as usize),
                        _ => random.below((period as usize).min(50)),
                    };
                    (offset as u32, random.pick(&shared))
                })
                .collect();
            entries.sort_unstable();
            entries.dedup();
            left -= entries.len();
            Table { period, entries }
        })
        .collect()
}

// Traces

/// How often a trace does what.
struct Habits {
    /// How often the drawer looks at the state for an event that succeeds.
    look: usize,
    /// Weights of the event codes 1 to 12.
    weight: [usize; 12],
    /// Whether the body that is woken is the lowest one above the level, so that the stack of preempted bodies grows.
    climb: bool,
    /// Whether every Wait blocks and no Set resumes, so that more and more tasks wait.
    gather: bool,
    /// Whether time-triggered bodies go on until others begin over them.
    pile: bool,
}

fn draw_habits(random: &mut Random, config: &Config) -> Habits {
    let extended = (0..config.bodies() as u32).any(|body| config.is_extended(body));
    let climb = random.below(8) == 0;
    let gather = extended && !climb && random.below(12) == 0;
    let pile = config.timed_table().is_some() && !climb && !gather && random.below(4) == 0;
    let mut weight = match random.below(if extended { 10 } else { 6 }) {
        // Bodies one above the other.
        _ if climb => [12, 1, 0, 4, 1, 1, 12, 0, 0, 0, 0, 0],
        // Tasks that wait, all of them in the end.
        _ if gather => [8, 0, 0, 0, 1, 1, 2, 1, 0, 20, 1, 2],
        // Time-triggered bodies one above the other.
        _ if pile => [2, 1, 1, 3, 2, 30, 4, 4, 0, 1, 1, 1],
        // Activations and ends.
        0 => [8, 8, 4, 2, 3, 2, 4, 1, 1, 1, 2, 1],
        // Resources, nested.
        1 => [3, 3, 1, 12, 9, 1, 4, 1, 0, 1, 2, 0],
        // Ticks.
        2 => [1, 16, 1, 1, 3, 30, 1, 4, 1, 1, 2, 0],
        // Starts and stops.
        3 => [1, 6, 1, 1, 2, 12, 1, 8, 5, 1, 1, 0],
        // Interrupts.
        4 => [2, 8, 1, 3, 3, 2, 16, 1, 1, 2, 4, 1],
        // Calls without ticks.
        5 => [4, 4, 2, 4, 4, 0, 3, 1, 1, 2, 3, 1],
        // Events, and interrupts that set them.
        6 | 7 => [5, 4, 1, 1, 3, 3, 6, 1, 0, 12, 14, 3],
        // Events beside resources: resumed tasks at a ceiling.
        8 => [4, 3, 1, 9, 6, 1, 4, 1, 0, 7, 12, 2],
        _ => [1; 12],
    };
    // Without an extended task no event of theirs succeeds.
    if !extended && random.chance(80) {
        weight[9..].fill(0);
    }
    Habits { look: random.pick(&[30, 40, 50, 50, 60, 80]), weight, climb, gather, pile }
}

/// A mask, mostly of low bits, so that masks meet.
fn any_mask(random: &mut Random) -> u32 {
    match random.below(16) {
        0 => 0,
        1 => 1 << random.below(32),
        2 => random.pick(&[1 << 31, u32::MAX, 1 << 31 | 1, 0x7fff_ffff]),
        3 => random.word() as u32,
        4..=6 => random.below(16) as u32,
        _ => 1 << random.below(4),
    }
}

/// A mask that has none of these bits; rarely 0, since a task that waits for no bit is never resumed.
fn mask_without(random: &mut Random, bits: u32) -> u32 {
    match any_mask(random) & !bits {
        0 if random.chance(90) => random.pick_where(32, |bit| bits >> bit & 1 == 0).map_or(0, |bit| 1 << bit),
        mask => mask,
    }
}

/// A mask that has one of these bits, which are not 0.
fn mask_with(random: &mut Random, bits: u32) -> u32 {
    let bit = random.pick_where(32, |bit| bits >> bit & 1 == 1).map_or(0, |bit| 1 << bit);
    if random.chance(60) {
        bit
    } else {
        bit | any_mask(random)
    }
}

/// A number that is an id, or nearly one, or any.
fn any_id(random: &mut Random, count: usize) -> u32 {
    match random.below(20) {
        0 => random.pick(&[31, 32, 33, 127, 128, 255, 256, 16_383, 16_384, 1 << 31, u32::MAX]),
        1 | 2 => count as u32,
        _ => random.below(count + 1) as u32,
    }
}

/// A delay for a table with these smallest and largest offsets.
fn any_delay(random: &mut Random, smallest: u32, largest: u32) -> u32 {
    match random.below(14) {
        0 => 0,
        1 => 65_535 - smallest,
        2 => 65_536 - smallest,
        3 => random.pick(&[65_535, 65_536, u32::MAX, u32::MAX - smallest, 1 << 16, 1 << 31]),
        4 => random.between(1, 65_535) as u32,
        // The last entry's first delay is a turn of the counter, or some ticks more.
        12 | 13 => TURN - largest + random.below(12) as u32,
        5 => random.between(1, 300) as u32,
        _ => random.between(1, 6) as u32,
    }
}

/// A table's smallest and largest offset.
fn offsets(config: &Config, table: u32) -> (u32, u32) {
    (config.smallest_offset(table as usize), config.largest_offset(table as usize))
}

/// Activate or Line of the lowest suspended body above the level.
fn next_above(config: &Config, kernel: &Kernel<NextDue>) -> Option<Event> {
    let above =
        |body: &u32| !config.is_timed(*body) && kernel.is_suspended(*body) && config.priority(*body) > kernel.level();
    let body = (0..config.bodies() as u32).filter(above).min_by_key(|body| config.priority(*body))?;
    if config.is_isr(body) {
        Some(Event::Line(body))
    } else {
        kernel.runner().map(|_| Event::Activate(body))
    }
}

/// An event that succeeds now, if the code has one.
fn good_event(
    random: &mut Random,
    config: &Config,
    kernel: &Kernel<NextDue>,
    code: usize,
    gather: bool,
) -> Option<Event> {
    let bodies = config.bodies();
    let runner = kernel.runner();
    let suspended_task =
        |random: &mut Random| random.pick_where(bodies, |body| config.is_osek_task(body) && kernel.is_suspended(body));
    // A time-triggered body makes no call but Finish.
    let may_call = runner.is_some() && (code == 2 || !kernel.timed_runs());
    if !may_call && code != 6 && code != 7 {
        return None;
    }
    match code {
        1 => suspended_task(random).map(Event::Activate),
        2 => kernel.last_held().is_none().then_some(Event::Finish),
        3 => {
            let runner = runner.filter(|runner| config.is_task(*runner) && kernel.last_held().is_none())?;
            if random.chance(30) {
                Some(Event::Chain(runner))
            } else {
                suspended_task(random).map(Event::Chain)
            }
        }
        4 => random.pick_where(config.resources(), |resource| kernel.may_get(resource)).map(Event::Get),
        5 => kernel.last_held().map(Event::Release),
        6 => Some(Event::Tick),
        7 => {
            // A started ISR first: its second request.
            let free = |body: u32| config.is_isr(body) && !kernel.is_requested(body);
            let second = if random.chance(50) {
                random.pick_where(bodies, |body| free(body) && kernel.is_started(body))
            } else {
                None
            };
            second.or_else(|| random.pick_where(bodies, free)).map(Event::Line)
        }
        8 => {
            let table = random.pick_where(config.tables(), |table| !kernel.is_on(table))?;
            let (smallest, largest) = offsets(config, table);
            let most = 65_535 - smallest;
            let delay = any_delay(random, smallest, largest);
            Some(Event::Start(table, if (1..=most).contains(&delay) { delay } else { 1 }))
        }
        9 => random.pick_where(config.tables(), |table| kernel.is_on(table)).map(Event::Stop),
        10 => {
            let runner = runner.filter(|runner| config.is_extended(*runner) && kernel.last_held().is_none())?;
            let set = kernel.events(runner);
            // It goes on, or blocks.
            let mask = if set != 0 && !gather && random.chance(35) {
                mask_with(random, set)
            } else {
                mask_without(random, set)
            };
            Some(Event::Wait(mask))
        }
        11 => good_set(random, config, kernel, gather),
        _ => runner.filter(|runner| config.is_extended(*runner)).map(|_| Event::Clear(any_mask(random))),
    }
}

/// A Set of a task that waits, is ready, is started, or runs; of one that waits it mostly sets a waited bit.
fn good_set(random: &mut Random, config: &Config, kernel: &Kernel<NextDue>, gather: bool) -> Option<Event> {
    let extended = |body: u32| config.is_extended(body) && !kernel.is_suspended(body);
    let waiting = |body: u32| extended(body) && kernel.is_waiting(body);
    let wanted = random.below(10);
    let task = match wanted {
        // At or below the level, so that it has to wait for its turn; then any that waits.
        0 | 1 => random.pick_where(config.bodies(), |body| waiting(body) && config.priority(body) <= kernel.level()),
        // At a ceiling that somebody holds.
        2 => random.pick_where(config.bodies(), |body| waiting(body) && config.priority(body) == kernel.level()),
        3..=6 => random.pick_where(config.bodies(), waiting),
        7 => random.pick_where(config.bodies(), |body| extended(body) && kernel.is_requested(body)),
        8 => random.pick_where(config.bodies(), |body| extended(body) && kernel.is_started(body)),
        _ => None,
    };
    let task = task.or_else(|| random.pick_where(config.bodies(), extended))?;
    let waited = if waiting(task) { kernel.waited(task) } else { 0 };
    let mask = if waited != 0 && !gather && random.chance(75) {
        mask_with(random, waited)
    } else {
        mask_without(random, waited)
    };
    Some(Event::Set(task, mask))
}

fn any_event(random: &mut Random, config: &Config, code: usize) -> Event {
    match code {
        1 => Event::Activate(any_id(random, config.bodies())),
        2 => Event::Finish,
        3 => Event::Chain(any_id(random, config.bodies())),
        4 => Event::Get(any_id(random, config.resources())),
        5 => Event::Release(any_id(random, config.resources())),
        6 => Event::Tick,
        7 => Event::Line(any_id(random, config.bodies())),
        8 => {
            let table = any_id(random, config.tables());
            let (smallest, largest) = if (table as usize) < config.tables() { offsets(config, table) } else { (0, 0) };
            Event::Start(table, any_delay(random, smallest, largest))
        }
        9 => Event::Stop(any_id(random, config.tables())),
        10 => Event::Wait(any_mask(random)),
        11 => Event::Set(any_id(random, config.bodies()), any_mask(random)),
        _ => Event::Clear(any_mask(random)),
    }
}

fn draw_event(random: &mut Random, config: &Config, kernel: &Kernel<NextDue>, habits: &Habits) -> Event {
    let total: usize = habits.weight.iter().sum();
    let draw_code = |random: &mut Random| {
        let mut at = random.below(total);
        for (index, weight) in habits.weight.iter().enumerate() {
            if at < *weight {
                return index + 1;
            }
            at -= weight;
        }
        unreachable!("the draw lies below the sum of the weights")
    };
    if random.chance(habits.look) {
        for _ in 0..4 {
            let code = draw_code(random);
            let climbs = habits.climb && (code == 1 || code == 7);
            let event = if climbs {
                next_above(config, kernel)
            } else {
                good_event(random, config, kernel, code, habits.gather)
            };
            if let Some(event) = event {
                return event;
            }
        }
    }
    let code = draw_code(random);
    // In a pile no time-triggered body ends by chance.
    if code == 2 && habits.pile && kernel.timed_runs() {
        return Event::Tick;
    }
    any_event(random, config, code)
}

pub fn push_event(bytes: &mut Vec<u8>, event: Event) {
    let (code, arguments) = match event {
        Event::Activate(task) => (1, vec![task]),
        Event::Finish => (2, vec![]),
        Event::Chain(task) => (3, vec![task]),
        Event::Get(resource) => (4, vec![resource]),
        Event::Release(resource) => (5, vec![resource]),
        Event::Tick => (6, vec![]),
        Event::Line(isr) => (7, vec![isr]),
        Event::Start(table, delay) => (8, vec![table, delay]),
        Event::Stop(table) => (9, vec![table]),
        Event::Wait(mask) => (10, vec![mask]),
        Event::Set(task, mask) => (11, vec![task, mask]),
        Event::Clear(mask) => (12, vec![mask]),
    };
    bytes.push(code);
    for argument in arguments {
        push_number(bytes, argument);
    }
}

/// A trace of at most `limit` bytes.
pub fn draw_trace(random: &mut Random, config: &Config, limit: usize) -> Vec<u8> {
    let mut habits = draw_habits(random, config);
    let mut kernel = Kernel::<NextDue>::fresh(config);
    let mut trace = Vec::new();
    let has_isr = (0..config.bodies() as u32).any(|body| config.is_isr(body));
    let table_on = |kernel: &Kernel<NextDue>| (0..config.tables() as u32).any(|table| kernel.is_on(table));
    while trace.len() < limit {
        if random.below(300) == 0 {
            habits = draw_habits(random, config);
        }
        let mut event = draw_event(random, config, &kernel, &habits);
        // A table of time-triggered bodies mostly runs.
        if let Some(table) = config.timed_table().filter(|table| !kernel.is_on(*table)) {
            if kernel.runner().is_some() && random.chance(10) {
                event = Event::Start(table, random.between(1, 6) as u32);
            }
        }
        // The last body mostly goes on running if nothing could wake another.
        let leaves = matches!(event, Event::Finish | Event::Wait(_));
        if leaves && kernel.others() == 0 && !has_isr && !table_on(&kernel) && random.chance(95) {
            event = Event::Tick;
        }
        let length = trace.len();
        push_event(&mut trace, event);
        if trace.len() > limit {
            trace.truncate(length);
            break;
        }
        kernel.step(event);
        // Nothing moves any more: a few events later the trace ends.
        if kernel.runner().is_none() && !has_isr && !table_on(&kernel) && random.chance(20) {
            break;
        }
    }
    trace
}

fn draw_length(random: &mut Random) -> usize {
    match random.below(100) {
        0 => 0,
        1..=49 => random.between(1, 120),
        50..=84 => random.between(120, 600),
        85..=95 => random.between(600, 2_000),
        96..=98 => random.between(2_000, TRACE_MAX),
        _ => TRACE_MAX,
    }
}

// Damage

/// A number that the reader can't take: longer than needed, too large, or without an end.
fn bad_number(random: &mut Random, value: u32) -> Vec<u8> {
    let mut bytes = Vec::new();
    push_number(&mut bytes, value);
    match random.below(5) {
        0 | 1 => {
            // A group of zeros more.
            if bytes.len() < 5 {
                *bytes.last_mut().expect("a number has a byte") |= 0x80;
                let zeros = random.between(1, 5 - bytes.len());
                bytes.extend(std::iter::repeat_n(0x80, zeros - 1));
                bytes.push(0);
            } else {
                bytes[4] |= 0x10;
            }
            bytes
        }
        2 => vec![0xff, 0xff, 0xff, 0xff, random.pick(&[0x10, 0x1f, 0x7f, 0x80, 0xff])],
        3 => vec![0x80, 0x80, 0x80, 0x80, random.pick(&[0, 0x10, 0x80])],
        _ => vec![0x80; random.between(1, 5)],
    }
}

fn flip_bits(random: &mut Random, bytes: &mut [u8]) {
    if bytes.is_empty() {
        return;
    }
    for _ in 0..random.between(1, 3) {
        let at = random.below(bytes.len());
        bytes[at] ^= 1 << random.below(8);
    }
}

/// A value that the role's range leaves out, mostly just beside it.
fn out_of_range(random: &mut Random, plan: &Plan, role: Role, value: u32) -> u32 {
    let bodies = plan.bodies.len() as u32;
    let isr = plan.bodies.iter().position(Body::is_isr).map_or(bodies, |isr| isr as u32);
    let timed = plan.bodies.iter().position(Body::is_timed).map_or(bodies, |timed| timed as u32);
    match role {
        Role::Version => random.pick(&[0, 1, 2, 3, 4, 128, 257, 258, 259]),
        Role::BodyCount => random.pick(&[0, 33, 34, bodies + 1, bodies - 1, u32::MAX]),
        Role::Kind => random.pick(&[4, 5, (value + 1) % 4, (value + 2) % 4, (value + 3) % 4, 128, 256]),
        Role::Priority => random.pick(&[0, 201, 255, 256, 257, plan.bodies[0].priority]),
        Role::Autostart => random.pick(&[2, 1 - value.min(1), 1 - value.min(1), 256]),
        Role::Deadline => random.pick(&[TICKS_MAX + 1, TICKS_MAX, 1, value + 1, 1 << 16 | value, u32::MAX]),
        Role::ResourceCount => random.pick(&[17, value + 1, value.saturating_sub(1), 255, 256]),
        Role::Users => random.pick(&[0, 1 << (bodies % 32), u32::MAX, value | 1 << 31, value | 1 << (timed % 32)]),
        Role::TableCount => random.pick(&[9, value + 1, value.saturating_sub(1), 256]),
        Role::Period => random.pick(&[0, 65_536, 1, u32::MAX]),
        Role::EntryCount => random.pick(&[0, 17, value + 1, value - 1, 16, u32::MAX]),
        Role::Offset => random.pick(&[65_535, 65_536, value + 1, value.saturating_sub(1), 0, u32::MAX]),
        Role::Task => random.pick(&[bodies, isr, timed, 32, value + 1, value.saturating_sub(1), u32::MAX]),
    }
}

/// Tables with 64 entries or just above.
fn many_entries(random: &mut Random, plan: &mut Plan) {
    let Some(task) = plan.bodies.iter().position(Body::is_osek_task) else { return };
    let counts: &[u32] = random.pick(&[
        &[16, 16, 16, 16][..],
        &[16, 16, 16, 16, 1],
        &[16, 16, 16, 15, 2],
        &[9, 9, 9, 9, 9, 9, 9, 2],
        &[16, 16, 16, 16, 16, 16, 16, 16],
        &[16, 16, 17],
    ]);
    plan.tables = counts
        .iter()
        .map(|count| Table { period: 40, entries: (0..*count).map(|offset| (offset, task as u32)).collect() })
        .collect();
}

/// Two entries in the wrong order, one twice, or one that rises by its task only.
fn unsort_entries(random: &mut Random, plan: &mut Plan) {
    let Some(table) = plan.tables.iter_mut().find(|table| table.entries.len() >= 2) else { return };
    let at = random.below(table.entries.len() - 1);
    match random.below(3) {
        0 => table.entries.swap(at, at + 1),
        1 => table.entries[at + 1] = table.entries[at],
        _ => table.entries[at + 1].0 = table.entries[at].0,
    }
}

/// A time-triggered body beside tasks in one table, sharing an offset or not, or in two tables.
fn mix_entries(random: &mut Random, plan: &mut Plan) {
    let timed = numbers_where(&plan.bodies, Body::is_timed);
    if timed.is_empty() || plan.tables.is_empty() {
        return;
    }
    let at = random.below(plan.tables.len());
    let Table { period, entries } = &mut plan.tables[at];
    let (offset, _) = random.pick(entries);
    match random.below(4) {
        // A second table of time-triggered bodies.
        0 => *entries = vec![(offset, random.pick(&timed))],
        1 => {
            let kept = random.below(entries.len());
            entries[kept].1 = random.pick(&timed);
        }
        2 if entries.len() < TABLE_ENTRIES_MAX => {
            entries.push((random.below(*period as usize) as u32, random.pick(&timed)))
        }
        _ if entries.len() < TABLE_ENTRIES_MAX => entries.push((offset, random.below(plan.bodies.len()) as u32)),
        _ => {}
    }
    entries.sort_unstable();
}

/// The bytes of a configuration with something wrong in it.
fn damage_config(random: &mut Random, plan: &mut Plan) -> Vec<u8> {
    match random.below(8) {
        0 => many_entries(random, plan),
        1 => unsort_entries(random, plan),
        3..=5 => mix_entries(random, plan),
        2 if plan.bodies.len() >= 2 => {
            let (from, to) = (random.below(plan.bodies.len()), random.below(plan.bodies.len()));
            plan.bodies[to].priority = plan.bodies[from].priority;
        }
        _ => {}
    }
    let mut numbers = plan.numbers();
    if random.chance(60) {
        // All roles alike, however many numbers have them.
        let role = random.pick(&numbers).0;
        let role = if random.chance(50) {
            role
        } else {
            random.pick(&[
                Role::Version,
                Role::BodyCount,
                Role::Deadline,
                Role::ResourceCount,
                Role::TableCount,
                Role::Users,
                Role::Period,
                Role::EntryCount,
            ])
        };
        let with_role: Vec<usize> = (0..numbers.len()).filter(|at| numbers[*at].0 == role).collect();
        if !with_role.is_empty() {
            let at = random.pick(&with_role);
            numbers[at].1 = out_of_range(random, plan, role, numbers[at].1);
        }
    }
    let mut bytes = number_bytes(&numbers);
    match random.below(12) {
        0 => bytes.truncate(random.below(bytes.len())),
        1 => bytes.truncate(bytes.len() - 1),
        2 => flip_bits(random, &mut bytes),
        3 | 4 => {
            let at = random.below(numbers.len());
            bytes = number_bytes(&numbers[..at]);
            bytes.extend(bad_number(random, numbers[at].1));
            bytes.extend(number_bytes(&numbers[at + 1..]));
        }
        5 => {
            // Ends inside a number.
            let at = random.below(numbers.len());
            bytes = number_bytes(&numbers[..at]);
            bytes.extend(vec![0x80 | random.below(128) as u8; random.between(1, 4)]);
        }
        6 => bytes.extend((0..random.between(1, 9)).map(|_| random.word() as u8)),
        7 => bytes.resize(random.pick(&[CONFIG_MAX - 1, CONFIG_MAX, CONFIG_MAX + 1, CONFIG_MAX + 100]), 0),
        8 if random.chance(30) => bytes.clear(),
        _ => {}
    }
    bytes
}

/// A trace with something wrong in it.
fn damage_trace(random: &mut Random, trace: &mut Vec<u8>) {
    let boundaries = |trace: &[u8]| {
        let mut places = vec![0];
        let mut at = 0;
        while let Ok((_, next)) = fast::read_event(trace, at) {
            places.push(next);
            at = next;
        }
        places
    };
    let at = {
        let places = boundaries(trace);
        random.pick(&places)
    };
    match random.below(9) {
        0 => trace.truncate(random.below(trace.len() + 1)),
        1 => flip_bits(random, trace),
        2 => {
            let value = random.pick(&[0, 1, 6, 12, 13, 127, 128]);
            let bad = bad_number(random, value);
            trace.splice(at..at, bad);
        }
        3 => {
            // A code with an argument that can't be read.
            let code = random.pick(&[1, 3, 4, 5, 7, 8, 9, 10, 11, 12]);
            let mut event = vec![code];
            if matches!(code, 8 | 11) && random.chance(50) {
                push_number(&mut event, random.below(9) as u32);
            }
            let value = random.word() as u32 >> random.below(32);
            event.extend(bad_number(random, value));
            trace.splice(at..at, event);
        }
        4 => {
            let mut code = Vec::new();
            push_number(&mut code, random.pick(&[0, 13, 14, 127, 128, 129, 262, 1 << 14, u32::MAX]));
            trace.splice(at..at, code);
        }
        5 => trace.resize(random.pick(&[TRACE_MAX + 1, TRACE_MAX + 2, TRACE_MAX + 5_000]), 6),
        6 => {
            // An event whose arguments are missing.
            trace.truncate(at);
            trace.push(random.pick(&[1, 3, 4, 5, 7, 8, 9, 10, 11, 12]));
            if random.chance(50) {
                trace.extend(vec![0x80; random.between(1, 4)]);
            }
        }
        7 => trace.resize(TRACE_MAX, 6),
        _ => trace.clear(),
    }
}

// Cases

/// What one run is given.
#[derive(Clone, PartialEq, Eq, Debug)]
pub struct Case {
    pub config: Vec<u8>,
    pub trace: Vec<u8>,
    pub out_len: usize,
    /// The output buffer before the run depends on it.
    pub fill: u8,
}

impl Case {
    /// The output buffer before the run. Neighbours differ, so that a byte moved is seen as well as one overwritten.
    pub fn prefilled(&self) -> Vec<u8> {
        (0..self.out_len).map(|i| (i as u8).wrapping_mul(167).wrapping_add(self.fill)).collect()
    }
}

/// The same case with room for the list of its misses, or for less, or for more.
pub fn with_list(case: Case) -> Case {
    let mut random = Random::new((case.out_len as u64) << 8 | u64::from(case.fill));
    let mut list = [0; MISSES_MAX * MISS_SIZE];
    let count = fast::misses::<NextDue>(&case.config, &case.trace, &mut list);
    let needed = if count >> 32 == 0 { MISS_SIZE * (count as usize).min(MISSES_MAX) } else { 0 };
    let out_len = match random.below(8) {
        0 => needed.saturating_sub(1),
        1 => random.below(needed + 1),
        2 => 0,
        3 | 4 => needed,
        5 => needed + random.between(1, 9),
        _ => list.len(),
    };
    Case { out_len, ..case }
}

fn draw_out_len(random: &mut Random, config: &[u8], trace: &[u8]) -> usize {
    let needed = match (fast::read_config(config), fast::count_events(trace)) {
        (Ok(config), Ok(events)) => 4 * events + 2 * config.bodies(),
        _ => 4 * trace.len().min(TRACE_MAX),
    };
    match random.below(20) {
        0 => needed.saturating_sub(1),
        1 => random.below(needed + 1),
        2 => 0,
        3..=9 => needed,
        10..=15 => needed + random.between(1, 40),
        _ => OUTPUT_MAX,
    }
}

/// The case with this number. Of ten cases about six are whole; the others have a damaged configuration, a damaged
/// trace or both, or are noise.
pub fn case(seed: u64, number: u64) -> Case {
    let mut random = Random::new(Random::new(seed).word() ^ number.wrapping_mul(0xd134_2543_de82_ef95));
    let mut plan = draw_plan(&mut random);
    let whole = number_bytes(&plan.numbers());
    let config = fast::read_config(&whole).expect("a drawn configuration is accepted");
    let limit = draw_length(&mut random);
    let mut trace = draw_trace(&mut random, &config, limit);
    let mut config = whole;
    match random.below(20) {
        0..=4 => config = damage_config(&mut random, &mut plan),
        5 | 6 => damage_trace(&mut random, &mut trace),
        7 if random.chance(60) => {
            config = damage_config(&mut random, &mut plan);
            damage_trace(&mut random, &mut trace);
        }
        7 => {
            let noise = |random: &mut Random, most: usize| {
                (0..random.below(most)).map(|_| random.word() as u8 >> random.below(8)).collect::<Vec<u8>>()
            };
            config = noise(&mut random, 60);
            if random.chance(70) && config.len() >= 2 {
                config[0] = random.pick(&[1, 2, 3]);
                config[1] = 1 + config[1] % 4;
            }
            trace = noise(&mut random, 60);
        }
        _ => {}
    }
    let out_len = draw_out_len(&mut random, &config, &trace);
    Case { config, trace, out_len, fill: random.word() as u8 }
}

// Timing

/// A busy configuration and a trace of `length` bytes over it.
pub fn timed(seed: u64, shape: Shape, length: usize) -> Case {
    let mut random = Random::new(seed);
    let plan = timed_plan(&mut random, shape);
    let config = number_bytes(&plan.numbers());
    let ready = fast::read_config(&config).expect("the timed configuration is accepted");
    let trace = timed_trace(&mut random, &ready, shape, length);
    Case { config, trace, out_len: OUTPUT_MAX, fill: 0 }
}

/// What a timed trace is made of.
#[derive(Clone, Copy, PartialEq, Eq, Debug)]
pub enum Shape {
    /// Calls and lines alone.
    NoTicks,
    /// Calls, lines and ticks, a fifth of them ticks, some tables on.
    Mixed,
    /// All 64 cells on, then ticks; bodies that begin end at once.
    Ticks,
    /// Calls and lines without ticks, most of them about events: half of the bodies are extended tasks, which wait and are woken.
    Waiting,
    /// Calls, lines and ticks over a table of eight time-triggered bodies and seven of tasks.
    TimeTriggered,
}

/// 32 bodies, every fourth an ISR, 8 resources, 8 tables of 8 entries.
fn timed_plan(random: &mut Random, shape: Shape) -> Plan {
    let mut priorities: Vec<u32> = (1..=32).map(|rank| rank * 6).collect();
    random.shuffle(&mut priorities);
    let bodies: Vec<Body> = (0..32)
        .map(|body| {
            let kind = match (body % 4, shape) {
                (3, _) => ISR,
                (1 | 2, Shape::Waiting) => EXTENDED,
                (1, Shape::TimeTriggered) => TIME_TRIGGERED,
                _ => TASK,
            };
            Body { kind, priority: priorities[body], autostart: u32::from(body % 2 == 0), deadline: 0 }
        })
        .collect();
    let timed = numbers_where(&bodies, Body::is_timed);
    let users = timed.iter().fold(u32::MAX, |users, body| users & !(1 << body));
    let resources = (0..8).map(|_| random.word() as u32 & users | 1).collect();
    let tasks = numbers_where(&bodies, Body::is_osek_task);
    let tables = (0..8)
        .map(|table| {
            let period = 40 + 13 * table;
            let round = table == 0 && shape == Shape::TimeTriggered;
            let task =
                |random: &mut Random, entry: u32| if round { timed[entry as usize] } else { random.pick(&tasks) };
            let entries = (0..8).map(|entry| (entry * 5 + table % 5, task(random, entry))).collect();
            Table { period, entries }
        })
        .collect();
    Plan { version: 1, bodies, resources, tables }
}

fn timed_trace(random: &mut Random, config: &Config, shape: Shape, length: usize) -> Vec<u8> {
    let habits = Habits {
        look: 75,
        weight: match shape {
            Shape::NoTicks => [5, 6, 2, 4, 4, 0, 4, 1, 1, 0, 0, 0],
            Shape::Mixed => [5, 6, 2, 4, 4, 7, 4, 2, 1, 0, 0, 0],
            Shape::Ticks => [0, 0, 0, 0, 0, 1, 0, 0, 0, 0, 0, 0],
            Shape::Waiting => [4, 4, 1, 3, 3, 0, 5, 0, 0, 8, 9, 2],
            Shape::TimeTriggered => [5, 6, 2, 4, 4, 24, 4, 2, 0, 0, 0, 0],
        },
        climb: false,
        gather: false,
        pile: false,
    };
    let mut kernel = Kernel::<NextDue>::fresh(config);
    let mut trace = Vec::new();
    if shape == Shape::Ticks {
        for table in 0..config.tables() as u32 {
            let event = Event::Start(table, 1 + table);
            push_event(&mut trace, event);
            kernel.step(event);
        }
    }
    while trace.len() < length {
        let event = match (shape, kernel.runner()) {
            (Shape::Ticks, Some(_)) if kernel.others() > 0 && random.chance(50) => Event::Finish,
            (Shape::TimeTriggered, Some(_)) if kernel.timed_runs() && random.chance(50) => Event::Finish,
            (Shape::TimeTriggered, Some(_)) if !kernel.timed_runs() && !kernel.is_on(0) => Event::Start(0, 1),
            (Shape::NoTicks | Shape::Mixed | Shape::TimeTriggered, Some(_)) if kernel.others() == 0 => {
                draw_wake(random, config, &kernel)
            }
            (Shape::Waiting, runner) if random.chance(80) => wait_or_wake(random, config, &kernel, runner),
            _ => draw_event(random, config, &kernel, &habits),
        };
        let before = trace.len();
        push_event(&mut trace, event);
        if trace.len() > length {
            trace.truncate(before);
            trace.resize(length, if matches!(shape, Shape::NoTicks | Shape::Waiting) { 2 } else { 6 });
            break;
        }
        kernel.step(event);
    }
    trace
}

/// An extended task that runs mostly waits for a bit, of those that fit one byte; who else runs wakes one that waits.
fn wait_or_wake(random: &mut Random, config: &Config, kernel: &Kernel<NextDue>, runner: Option<u32>) -> Event {
    let Some(runner) = runner else { return draw_wake(random, config, kernel) };
    if let Some(resource) = kernel.last_held() {
        return Event::Release(resource);
    }
    let waiting = |body: u32| kernel.is_waiting(body) && kernel.waited(body) != 0;
    let woken = random.pick_where(config.bodies(), waiting).map(|task| Event::Set(task, kernel.waited(task)));
    let wait = Event::Wait(1 << random.below(7));
    match (config.is_extended(runner), random.below(8)) {
        (true, 0..=3) => wait,
        (true, 4 | 5) => Event::Clear(kernel.events(runner) & 0x7f),
        (true, 6) => woken.unwrap_or(wait),
        (false, 0..=3) => woken.unwrap_or(Event::Finish),
        (false, 4..=6) => Event::Finish,
        _ => draw_wake(random, config, kernel),
    }
}

/// An event that brings a second body in, so that a timed trace never falls idle for good.
fn draw_wake(random: &mut Random, config: &Config, kernel: &Kernel<NextDue>) -> Event {
    let code = random.pick(&[1, 7]);
    good_event(random, config, kernel, code, false).unwrap_or_else(|| any_event(random, config, code))
}
