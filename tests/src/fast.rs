//! Document 01 with document 02's requests in Rust, written for speed: ready and started bodies and those that stand aside are
//! a word each, everything is changed in place. It follows the documents and shares nothing with the Rattle code.
//!
//! In order: numbers, the configuration, events, the two kinds of timers, the kernel, the run, deadlines.
//!
//! The timers come in two kinds that give the same answers. [`Cells`] counts every entry's 16-bit cell as document 01
//! describes them; [`NextDue`] keeps for each table how far its next entry is, and so does a tick's work once per
//! table.

pub const CONFIG_MAX: usize = 4096;
pub const TRACE_MAX: usize = 8192;
pub const OUTPUT_MAX: usize = 4 * TRACE_MAX + 2 * BODIES_MAX;

pub const BODIES_MAX: usize = 32;
pub const RESOURCES_MAX: usize = 16;
pub const TABLES_MAX: usize = 8;
pub const TABLE_ENTRIES_MAX: usize = 16;
pub const ENTRIES_MAX: usize = 64;
pub const PRIORITY_MAX: u32 = 200;
/// Of time-triggered bodies: at which they run, and at which they are asked for.
pub const EXECUTION_LEVEL: u8 = 201;
pub const TRIGGER_LEVEL: u8 = 202;
pub const TICKS_MAX: u32 = 65_535;
/// The newest version of a configuration, the first one that has deadlines.
pub const VERSION_MAX: u32 = 3;
/// How many misses are listed, and the bytes of each.
pub const MISSES_MAX: usize = 64;
pub const MISS_SIZE: usize = 3;
/// The ticks in which a cell's counter comes round.
pub const TURN: u32 = 65_536;

/// The runner's number when nobody runs.
pub const IDLE: u8 = 255;

/// Why a run is refused, and the byte offset that document 01 calls the place.
#[derive(Clone, Copy, PartialEq, Eq, Debug)]
pub struct Refusal {
    pub code: u32,
    pub place: usize,
}

impl Refusal {
    /// The refusal as the run's result.
    pub fn result(self) -> u64 {
        (u64::from(self.code) << 32) + self.place as u64
    }
}

fn refuse<T>(code: u32, place: usize) -> Result<T, Refusal> {
    Err(Refusal { code, place })
}

// Numbers

/// The input ends before a last or fifth group; the place is its end.
pub const CUT: u32 = 1;
/// The fifth byte is above 15, or the last one superfluous; the place is that byte.
pub const MALFORMED: u32 = 2;

/// The number at `at`, and the offset after it.
#[inline(always)]
pub fn read_number(bytes: &[u8], at: usize) -> Result<(u32, usize), Refusal> {
    match bytes.get(at) {
        Some(&byte) if byte < 0x80 => Ok((u32::from(byte), at + 1)),
        Some(&byte) => read_long_number(bytes, at + 1, u32::from(byte & 0x7f)),
        None => refuse(CUT, at),
    }
}

/// The rest of a number of two to five groups, the first of which is `value`.
fn read_long_number(bytes: &[u8], mut at: usize, mut value: u32) -> Result<(u32, usize), Refusal> {
    for shift in [7, 14, 21, 28] {
        let Some(&byte) = bytes.get(at) else { return refuse(CUT, at) };
        if byte == 0 || shift == 28 && byte > 15 {
            return refuse(MALFORMED, at);
        }
        at += 1;
        value |= u32::from(byte & 0x7f) << shift;
        if byte < 0x80 {
            return Ok((value, at));
        }
    }
    unreachable!("a fifth byte of at most 15 ends the number")
}

// The configuration

/// The kinds of bodies that are no plain tasks, by number; that of time-triggered ones is the greatest.
pub const ISR: u32 = 1;
pub const EXTENDED: u32 = 2;
pub const TIME_TRIGGERED: u32 = 3;

/// A configuration made ready for running. Bodies are known by their rank, 0 for the lowest priority, time-triggered ones
/// above all others; only the callers' ids and the answers bear body numbers.
#[derive(Clone, Debug)]
pub struct Config {
    version: u32,
    bodies: usize,
    resources: usize,
    tables: usize,
    /// Body numbers of tasks, of those that Activate and Chain may name, of the extended and of the time-triggered ones among
    /// them, and of ISRs, one bit each.
    task_numbers: u32,
    osek_task_numbers: u32,
    extended_numbers: u32,
    timed_numbers: u32,
    isr_numbers: u32,
    /// Ranks of ISRs, of autostart tasks and of time-triggered ones, one bit each.
    isr_ranks: u32,
    autostart_ranks: u32,
    timed_ranks: u32,
    rank: [u8; BODIES_MAX],
    number: [u8; BODIES_MAX],
    /// By rank; of time-triggered bodies the trigger level.
    priority: [u8; BODIES_MAX],
    /// By rank; 0 for none.
    deadline: [u16; BODIES_MAX],
    ceiling: [u8; RESOURCES_MAX],
    /// Body numbers of each resource's users, one bit each.
    users: [u32; RESOURCES_MAX],
    table: [Table; TABLES_MAX],
    entry: [Entry; ENTRIES_MAX],
}

/// A schedule table; its entries are `first .. end` of the configuration's.
#[derive(Clone, Copy, Default, Debug)]
struct Table {
    period: u16,
    first: u8,
    end: u8,
}

/// An expiry point of a table.
#[derive(Clone, Copy, Default, Debug)]
struct Entry {
    offset: u16,
    /// From this entry to the next one of its table, or around to the first.
    gap: u16,
    rank: u8,
}

/// Reads the numbers of a configuration one by one and knows where the last one stood.
struct Fields<'a> {
    bytes: &'a [u8],
    place: usize,
    next: usize,
}

impl Fields<'_> {
    /// The next number, if it lies in `range`; otherwise `code`.
    fn number(&mut self, range: std::ops::RangeInclusive<u32>, code: u32) -> Result<u32, Refusal> {
        self.place = self.next;
        let (value, next) = read_number(self.bytes, self.next)?;
        self.next = next;
        if range.contains(&value) {
            Ok(value)
        } else {
            refuse(code, self.place)
        }
    }

    fn count(&mut self, least: usize, most: usize) -> Result<usize, Refusal> {
        Ok(self.number(least as u32..=most as u32, 4)? as usize)
    }

    fn field(&mut self, least: u32, most: u32) -> Result<u32, Refusal> {
        self.number(least..=most, 5)
    }
}

pub fn read_config(bytes: &[u8]) -> Result<Config, Refusal> {
    if bytes.len() > CONFIG_MAX {
        return refuse(10, 0);
    }
    let mut fields = Fields { bytes, place: 0, next: 0 };
    let version = fields.number(1..=VERSION_MAX, 3)?;

    let bodies = fields.count(1, BODIES_MAX)?;
    let mut priority_of = [0u8; BODIES_MAX];
    let mut deadline_of = [0u16; BODIES_MAX];
    let mut task_numbers = 0u32;
    let mut extended_numbers = 0u32;
    let mut timed_numbers = 0u32;
    let mut autostart_numbers = 0u32;
    // The body that has a priority.
    let mut owner = [None::<u8>; PRIORITY_MAX as usize + 1];
    for (body, own) in priority_of.iter_mut().enumerate().take(bodies) {
        let kind = fields.field(0, TIME_TRIGGERED)?;
        let priority = fields.field(1, PRIORITY_MAX)?;
        if owner[priority as usize].is_some() {
            return refuse(6, fields.place);
        }
        owner[priority as usize] = Some(body as u8);
        *own = priority as u8;
        let autostart = fields.field(0, if kind == ISR || kind == TIME_TRIGGERED { 0 } else { 1 })?;
        if version == VERSION_MAX {
            deadline_of[body] = fields.field(0, if kind == ISR { 0 } else { TICKS_MAX })? as u16;
        }
        task_numbers |= u32::from(kind != ISR) << body;
        extended_numbers |= u32::from(kind == EXTENDED) << body;
        timed_numbers |= u32::from(kind == TIME_TRIGGERED) << body;
        autostart_numbers |= autostart << body;
    }
    let all_bodies = u32::MAX >> (BODIES_MAX - bodies);

    let mut config = Config {
        version,
        bodies,
        resources: 0,
        tables: 0,
        task_numbers,
        osek_task_numbers: task_numbers & !timed_numbers,
        extended_numbers,
        timed_numbers,
        isr_numbers: all_bodies & !task_numbers,
        isr_ranks: 0,
        autostart_ranks: 0,
        timed_ranks: 0,
        rank: [0; BODIES_MAX],
        number: [0; BODIES_MAX],
        priority: [0; BODIES_MAX],
        deadline: [0; BODIES_MAX],
        ceiling: [0; RESOURCES_MAX],
        users: [0; RESOURCES_MAX],
        table: [Table::default(); TABLES_MAX],
        entry: [Entry::default(); ENTRIES_MAX],
    };
    let is_timed = |body: u32| timed_numbers >> body & 1 == 1;
    let ordinary = owner.iter().flatten().filter(|body| !is_timed(u32::from(**body)));
    let timed = owner.iter().flatten().filter(|body| is_timed(u32::from(**body)));
    for (rank, &body) in ordinary.chain(timed).enumerate() {
        config.number[rank] = body;
        config.rank[body as usize] = rank as u8;
        config.priority[rank] = if is_timed(u32::from(body)) { TRIGGER_LEVEL } else { priority_of[body as usize] };
        config.deadline[rank] = deadline_of[body as usize];
        config.isr_ranks |= (config.isr_numbers >> body & 1) << rank;
        config.autostart_ranks |= (autostart_numbers >> body & 1) << rank;
        config.timed_ranks |= (timed_numbers >> body & 1) << rank;
    }

    config.resources = fields.count(0, RESOURCES_MAX)?;
    for resource in 0..config.resources {
        let users = fields.field(1, all_bodies)?;
        if users & timed_numbers != 0 {
            return refuse(5, fields.place);
        }
        config.users[resource] = users;
        config.ceiling[resource] =
            (0..bodies).filter(|body| users >> body & 1 == 1).map(|body| priority_of[body]).max().unwrap_or(0);
    }

    config.tables = fields.count(0, TABLES_MAX)?;
    let mut used = 0;
    // The table of time-triggered bodies.
    let mut timed_table = None;
    for table in 0..config.tables {
        let period = fields.field(1, TICKS_MAX)?;
        let count = fields.count(1, TABLE_ENTRIES_MAX)?;
        if used + count > ENTRIES_MAX {
            return refuse(8, fields.place);
        }
        let (first, end) = (used, used + count);
        used = end;
        let mut before = None;
        for entry in first..end {
            let offset = fields.field(0, period - 1)?;
            let task = fields.field(0, bodies as u32 - 1)?;
            if task_numbers >> task & 1 == 0 {
                return refuse(5, fields.place);
            }
            if before >= Some((offset, task)) {
                return refuse(7, fields.place);
            }
            let timed = is_timed(task);
            if let Some((offset_before, task_before)) = before {
                if offset_before == offset && (timed || is_timed(task_before)) {
                    return refuse(13, fields.place);
                }
                if is_timed(task_before) != timed {
                    return refuse(14, fields.place);
                }
            }
            if timed && *timed_table.get_or_insert(table) != table {
                return refuse(14, fields.place);
            }
            before = Some((offset, task));
            config.entry[entry] = Entry { offset: offset as u16, gap: 0, rank: config.rank[task as usize] };
        }
        config.table[table] = Table { period: period as u16, first: first as u8, end: end as u8 };
        let entries = &mut config.entry[first..end];
        let around = period as u16 - entries[count - 1].offset + entries[0].offset;
        for i in 0..count {
            entries[i].gap = if i + 1 < count { entries[i + 1].offset - entries[i].offset } else { around };
        }
    }
    if fields.next < bytes.len() {
        return refuse(9, fields.next);
    }
    Ok(config)
}

impl Config {
    pub fn version(&self) -> u32 {
        self.version
    }

    /// A Line refused because a request waits is a loss of its ISR.
    pub fn counts_lines(&self) -> bool {
        self.version >= 2
    }

    pub fn bodies(&self) -> usize {
        self.bodies
    }

    pub fn resources(&self) -> usize {
        self.resources
    }

    pub fn tables(&self) -> usize {
        self.tables
    }

    /// A task of whatever kind, which entries and Set may name.
    pub fn is_task(&self, id: u32) -> bool {
        id < BODIES_MAX as u32 && self.task_numbers >> id & 1 == 1
    }

    /// A task that Activate and Chain may name.
    pub fn is_osek_task(&self, id: u32) -> bool {
        id < BODIES_MAX as u32 && self.osek_task_numbers >> id & 1 == 1
    }

    /// Of a body's number.
    pub fn is_timed(&self, body: u32) -> bool {
        self.timed_numbers >> body & 1 == 1
    }

    /// Of a body's number.
    pub fn is_extended(&self, body: u32) -> bool {
        self.extended_numbers >> body & 1 == 1
    }

    pub fn is_isr(&self, id: u32) -> bool {
        id < BODIES_MAX as u32 && self.isr_numbers >> id & 1 == 1
    }

    /// Of a body's number: how many bodies it ranks above.
    pub fn rank(&self, body: u32) -> u8 {
        self.rank[body as usize]
    }

    /// Of a time-triggered body the trigger level.
    pub fn priority(&self, body: u32) -> u8 {
        self.priority[usize::from(self.rank[body as usize])]
    }

    pub fn ceiling(&self, resource: usize) -> u8 {
        self.ceiling[resource]
    }

    pub fn is_user(&self, body: u32, resource: u32) -> bool {
        self.users[resource as usize] >> body & 1 == 1
    }

    /// Entries rise, so the first one has the smallest offset.
    pub fn smallest_offset(&self, table: usize) -> u32 {
        u32::from(self.entry[usize::from(self.table[table].first)].offset)
    }

    /// Entries rise, so the last one has the largest offset.
    pub fn largest_offset(&self, table: usize) -> u32 {
        u32::from(self.entry[usize::from(self.table[table].end) - 1].offset)
    }

    /// The table of time-triggered bodies.
    pub fn timed_table(&self) -> Option<u32> {
        let first = |table: &u32| self.entry[usize::from(self.table[*table as usize].first)].rank;
        (0..self.tables as u32).find(|table| self.timed_ranks >> first(table) & 1 == 1)
    }

    /// The tasks of all entries, by number.
    pub fn entry_tasks(&self) -> impl Iterator<Item = u32> + '_ {
        let entries = self.table[..self.tables].last().map_or(0, |table| usize::from(table.end));
        self.entry[..entries].iter().map(|entry| u32::from(self.number[usize::from(entry.rank)]))
    }

    pub fn offsets(&self, table: usize) -> impl Iterator<Item = u32> + '_ {
        let Table { first, end, .. } = self.table[table];
        self.entry[usize::from(first)..usize::from(end)].iter().map(|entry| u32::from(entry.offset))
    }
}

// Events

#[derive(Clone, Copy, PartialEq, Eq, Debug)]
pub enum Event {
    Activate(u32),
    Finish,
    Chain(u32),
    Get(u32),
    Release(u32),
    Tick,
    Line(u32),
    Start(u32, u32),
    Stop(u32),
    Wait(u32),
    Set(u32, u32),
    Clear(u32),
}

/// The event at `at`, and the offset after it.
#[inline(always)]
pub fn read_event(trace: &[u8], at: usize) -> Result<(Event, usize), Refusal> {
    #[inline(always)]
    fn number(trace: &[u8], at: usize) -> Result<(u32, usize), Refusal> {
        read_number(trace, at).or_else(|fault| refuse(20 + fault.code, fault.place))
    }
    let (code, next) = number(trace, at)?;
    let one = |event: fn(u32) -> Event| number(trace, next).map(|(first, next)| (event(first), next));
    let two = |event: fn(u32, u32) -> Event| {
        let (first, next) = number(trace, next)?;
        let (second, next) = number(trace, next)?;
        Ok((event(first, second), next))
    };
    match code {
        1 => one(Event::Activate),
        2 => Ok((Event::Finish, next)),
        3 => one(Event::Chain),
        4 => one(Event::Get),
        5 => one(Event::Release),
        6 => Ok((Event::Tick, next)),
        7 => one(Event::Line),
        8 => two(Event::Start),
        9 => one(Event::Stop),
        10 => one(Event::Wait),
        11 => two(Event::Set),
        12 => one(Event::Clear),
        _ => refuse(23, at),
    }
}

/// How many events a trace has, if all of it can be read.
pub fn count_events(trace: &[u8]) -> Result<usize, Refusal> {
    if trace.len() > TRACE_MAX {
        return refuse(20, 0);
    }
    let (mut events, mut at) = (0, 0);
    while at < trace.len() {
        (_, at) = read_event(trace, at)?;
        events += 1;
    }
    Ok(events)
}

// Timers

/// When the entries of the started tables are due.
pub trait Timers {
    fn stopped(config: &Config) -> Self;
    fn is_on(&self, table: usize) -> bool;
    /// Starts a stopped table; `delay` is positive and `delay` plus the smallest offset at most 65,535.
    fn start(&mut self, config: &Config, table: usize, delay: u16);
    fn stop(&mut self, config: &Config, table: usize);
    /// Counts one tick and hands the rank of each due entry's task to `due`, by table, then in table order.
    fn tick(&mut self, config: &Config, due: impl FnMut(u8));
}

/// Document 01's timer cells: for each entry a 16-bit counter, a compare value, a switch, and whether a turn of the
/// counter must pass unmatched. A tick counts all of them alike, without a branch, so that the compiler counts several at
/// once.
pub struct Cells {
    on: u8,
    counter: [u16; ENTRIES_MAX],
    compare: [u16; ENTRIES_MAX],
    /// 1 for on, 0 for off: what a tick adds.
    switch: [u16; ENTRIES_MAX],
    /// 1 where a turn must pass.
    turn: [u16; ENTRIES_MAX],
}

impl Timers for Cells {
    fn stopped(config: &Config) -> Self {
        let mut compare = [0; ENTRIES_MAX];
        for Table { period, first, end } in &config.table[..config.tables] {
            compare[usize::from(*first)..usize::from(*end)].fill(period - 1);
        }
        Cells { on: 0, counter: [0; ENTRIES_MAX], compare, switch: [0; ENTRIES_MAX], turn: [0; ENTRIES_MAX] }
    }

    fn is_on(&self, table: usize) -> bool {
        self.on >> table & 1 == 1
    }

    fn start(&mut self, config: &Config, table: usize, delay: u16) {
        self.on |= 1 << table;
        let Table { period, first, end } = config.table[table];
        for cell in usize::from(first)..usize::from(end) {
            let first_delay = u32::from(delay) + u32::from(config.entry[cell].offset);
            self.counter[cell] = (period - 1).wrapping_sub(first_delay as u16);
            self.switch[cell] = 1;
            self.turn[cell] = u16::from(first_delay > TURN);
        }
    }

    fn stop(&mut self, config: &Config, table: usize) {
        self.on &= !(1 << table);
        let Table { first, end, .. } = config.table[table];
        let cells = usize::from(first)..usize::from(end);
        self.counter[cells.clone()].fill(0);
        self.switch[cells.clone()].fill(0);
        self.turn[cells].fill(0);
    }

    #[inline(always)]
    fn tick(&mut self, config: &Config, mut due: impl FnMut(u8)) {
        if self.on == 0 {
            return;
        }
        let mut matched = [0u8; ENTRIES_MAX];
        #[allow(clippy::needless_range_loop)]
        for cell in 0..ENTRIES_MAX {
            let count = self.counter[cell].wrapping_add(self.switch[cell]);
            let reached = u16::from(count == self.compare[cell]) & self.switch[cell];
            let matches = reached & !self.turn[cell];
            self.turn[cell] &= !reached;
            // A match sets the counter to 65,535 and not to 0: the next tick wraps it, so that no period is a tick
            // short.
            self.counter[cell] = count | matches.wrapping_neg();
            matched[cell] = matches as u8;
        }
        for (group, marks) in matched.chunks_exact(8).enumerate() {
            let mut marks = u64::from_le_bytes(marks.try_into().expect("eight bytes"));
            while marks != 0 {
                due(config.entry[8 * group + marks.trailing_zeros() as usize / 8].rank);
                marks &= marks - 1;
            }
        }
    }
}

/// For each started table its next entry and the ticks until it is due. Offsets lie below the period, so a table's
/// entries come round in their order.
#[derive(Clone)]
pub struct NextDue {
    on: u8,
    left: [u16; TABLES_MAX],
    next: [u8; TABLES_MAX],
}

impl Timers for NextDue {
    fn stopped(_: &Config) -> Self {
        NextDue { on: 0, left: [0; TABLES_MAX], next: [0; TABLES_MAX] }
    }

    fn is_on(&self, table: usize) -> bool {
        self.on >> table & 1 == 1
    }

    fn start(&mut self, config: &Config, table: usize, delay: u16) {
        self.on |= 1 << table;
        let first = config.table[table].first;
        self.next[table] = first;
        self.left[table] = delay + config.entry[usize::from(first)].offset;
    }

    fn stop(&mut self, _: &Config, table: usize) {
        self.on &= !(1 << table);
    }

    #[inline(always)]
    fn tick(&mut self, config: &Config, mut due: impl FnMut(u8)) {
        let mut on = self.on;
        while on != 0 {
            let table = on.trailing_zeros() as usize;
            on &= on - 1;
            self.left[table] -= 1;
            // Entries with one offset are due together: the gap between them is 0.
            while self.left[table] == 0 {
                let entry = config.entry[usize::from(self.next[table])];
                due(entry.rank);
                self.left[table] = entry.gap;
                self.next[table] += 1;
                if self.next[table] == config.table[table].end {
                    self.next[table] = config.table[table].first;
                }
            }
        }
    }
}

// The kernel

/// A body that runs, or held a resource when it last ran, and its current priority; or idle. A time-triggered one runs at the
/// execution level.
#[derive(Clone, Copy)]
struct Frame {
    number: u8,
    rank: u8,
    level: u8,
    /// The ranks above, one bit each; for idle all of them, for a time-triggered body those of all such bodies.
    above: u32,
}

const IDLE_FRAME: Frame = Frame { number: IDLE, rank: IDLE, level: 0, above: u32::MAX };

#[derive(Clone, Copy)]
struct Held {
    resource: u8,
    /// The holder's current priority before it took this one.
    level_before: u8,
    /// The holder at the level that it has with this one.
    holder: Frame,
}

/// Below the first one held.
const NOTHING_HELD: Held = Held { resource: 0, level_before: 0, holder: IDLE_FRAME };

/// The status of an event, and who runs after it.
#[derive(Clone, Copy, PartialEq, Eq, Debug)]
pub struct Answer {
    pub status: u8,
    pub runner: u8,
    pub level: u8,
    pub begun: u8,
}

#[derive(Clone)]
pub struct Kernel<'c, T> {
    config: &'c Config,
    /// The ready list, one bit per rank: bodies that wait to begin, a started ISR's second request among them.
    ready: u32,
    /// Started bodies that compete, one bit per rank.
    started: u32,
    /// Bodies that have begun and do not compete: tasks that wait for an event, and time-triggered ones.
    aside: u32,
    running: Frame,
    /// Ranks of the time-triggered bodies that have begun and not ended, in the order begun: the last of them runs. One table
    /// has all of them, so there are no more than it may have entries.
    triggered: [u8; TABLE_ENTRIES_MAX],
    triggered_count: usize,
    /// Resources held by all bodies in the order taken, from place 1 on, and one bit for each of them. Who takes one runs
    /// above every other holder's level, so the last one's holder has the greatest level of all that hold some.
    held: [Held; RESOURCES_MAX + 1],
    held_count: usize,
    taken: u16,
    timers: T,
    /// Event bits and, while a task waits, the ones it waits for, by rank.
    events: [u32; BODIES_MAX],
    waited: [u32; BODIES_MAX],
    /// Lost activations and, from version 2 on, lost lines, by body number.
    losses: [u16; BODIES_MAX],
}

fn lose(losses: &mut u16) {
    *losses = losses.saturating_add(1);
}

impl<'c, T: Timers> Kernel<'c, T> {
    pub fn fresh(config: &'c Config) -> Self {
        let mut kernel = Kernel {
            config,
            ready: config.autostart_ranks,
            started: 0,
            aside: 0,
            running: IDLE_FRAME,
            triggered: [0; TABLE_ENTRIES_MAX],
            triggered_count: 0,
            held: [NOTHING_HELD; RESOURCES_MAX + 1],
            held_count: 0,
            taken: 0,
            timers: T::stopped(config),
            events: [0; BODIES_MAX],
            waited: [0; BODIES_MAX],
            losses: [0; BODIES_MAX],
        };
        kernel.dispatch();
        kernel
    }

    #[inline(always)]
    pub fn step(&mut self, event: Event) -> Answer {
        let status = match event {
            Event::Activate(task) => self.activate(task),
            Event::Finish => self.finish(),
            Event::Chain(task) => self.chain(task),
            Event::Get(resource) => self.get(resource),
            Event::Release(resource) => self.release(resource),
            Event::Tick => self.tick(),
            Event::Line(isr) => self.line(isr),
            Event::Start(table, delay) => self.start(table, delay),
            Event::Stop(table) => self.stop(table),
            Event::Wait(mask) => self.wait(mask),
            Event::Set(task, mask) => self.set(task, mask),
            Event::Clear(mask) => self.clear(mask),
        };
        let begun = self.dispatch();
        Answer { status, runner: self.running.number, level: self.running.level, begun }
    }

    /// Lets the best body run if its own priority is above the level: on an equal one the holder goes first. A body that
    /// holds a resource has at most the level, so the best one has its own priority. 1 if it begins.
    #[inline(always)]
    fn dispatch(&mut self) -> u8 {
        let higher = (self.ready | self.started) & self.running.above;
        if higher == 0 {
            return 0;
        }
        let rank = higher.ilog2() as u8;
        let own = self.config.priority[usize::from(rank)];
        if own <= self.running.level {
            return 0;
        }
        if own == TRIGGER_LEVEL {
            self.begin_timed(rank);
            return 1;
        }
        let bit = 1 << rank;
        let begins = bit & !self.started;
        self.ready &= !begins;
        self.started |= bit;
        let number = self.config.number[usize::from(rank)];
        self.running = Frame { number, rank, level: own, above: (u32::MAX << rank) << 1 };
        u8::from(begins != 0)
    }

    /// The running body runs no more: the last holder is next, unless `dispatch` finds a better body.
    #[inline(always)]
    fn leave(&mut self) {
        self.started &= !(1 << self.running.rank);
        self.running = self.held[self.held_count].holder;
    }

    fn timed_frame(&self, rank: u8) -> Frame {
        let number = self.config.number[usize::from(rank)];
        Frame { number, rank, level: EXECUTION_LEVEL, above: self.config.timed_ranks }
    }

    /// A time-triggered body begins, over whoever runs. Out of the way of all that happens more often, as its end is.
    #[inline(never)]
    fn begin_timed(&mut self, rank: u8) {
        self.ready &= !(1 << rank);
        self.aside |= 1 << rank;
        self.triggered[self.triggered_count] = rank;
        self.triggered_count += 1;
        self.running = self.timed_frame(rank);
    }

    /// Finish where nobody runs, or a time-triggered body does. The one begun before it goes on, or, below them, the last holder
    /// or a better body.
    #[inline(never)]
    fn end_timed(&mut self) -> u8 {
        if self.is_idle() {
            return 2;
        }
        self.aside &= !(1 << self.running.rank);
        self.triggered_count -= 1;
        self.running = match self.triggered_count.checked_sub(1) {
            Some(last) => self.timed_frame(self.triggered[last]),
            None => self.held[self.held_count].holder,
        };
        0
    }

    fn is_idle(&self) -> bool {
        self.running.number == IDLE
    }

    /// Nobody runs whose call would be taken: nobody at all, at level 0, or a time-triggered body.
    fn no_caller(&self) -> bool {
        self.running.level.wrapping_sub(1) >= EXECUTION_LEVEL - 1
    }

    /// Whether the running body holds a resource.
    fn holds_any(&self) -> bool {
        self.held[self.held_count].holder.rank == self.running.rank
    }

    /// The bodies that are not suspended, one bit per rank.
    fn active(&self) -> u32 {
        self.ready | self.started | self.aside
    }

    fn is_free(&self, bit: u32) -> bool {
        self.active() & bit == 0
    }

    /// Makes a suspended task ready.
    fn make_ready(&mut self, task: u32) {
        let rank = usize::from(self.config.rank[task as usize]);
        self.ready |= 1 << rank;
        self.events[rank] = 0;
    }

    /// Whether anyone holds the resource.
    pub fn is_taken(&self, resource: u32) -> bool {
        self.taken >> resource & 1 == 1
    }

    fn rank_bit(&self, number: u32) -> u32 {
        1 << self.config.rank[number as usize]
    }

    fn activate(&mut self, task: u32) -> u8 {
        if self.no_caller() {
            return 2;
        }
        if !self.config.is_osek_task(task) {
            return 3;
        }
        if !self.is_free(self.rank_bit(task)) {
            return 4;
        }
        self.make_ready(task);
        0
    }

    fn finish(&mut self) -> u8 {
        if self.no_caller() {
            return self.end_timed();
        }
        if self.holds_any() {
            return 6;
        }
        self.leave();
        0
    }

    fn chain(&mut self, task: u32) -> u8 {
        if self.no_caller() || self.config.isr_ranks >> self.running.rank & 1 == 1 {
            return 2;
        }
        if !self.config.is_osek_task(task) {
            return 3;
        }
        if self.holds_any() {
            return 6;
        }
        if !self.is_free(self.rank_bit(task) & !(1 << self.running.rank)) {
            return 4;
        }
        self.leave();
        self.make_ready(task);
        0
    }

    fn get(&mut self, resource: u32) -> u8 {
        if self.no_caller() {
            return 2;
        }
        if resource >= self.config.resources as u32 {
            return 3;
        }
        if !self.config.is_user(u32::from(self.running.number), resource) {
            return 33;
        }
        if self.is_taken(resource) {
            return 1;
        }
        let ceiling = self.config.ceiling[resource as usize];
        let level_before = self.running.level;
        self.running.level = level_before.max(ceiling);
        self.held_count += 1;
        self.held[self.held_count] = Held { resource: resource as u8, level_before, holder: self.running };
        self.taken |= 1 << resource;
        0
    }

    fn release(&mut self, resource: u32) -> u8 {
        if self.no_caller() {
            return 2;
        }
        if resource >= self.config.resources as u32 {
            return 3;
        }
        if !self.holds_any() {
            return 5;
        }
        let last = self.held[self.held_count];
        if u32::from(last.resource) != resource {
            return 5;
        }
        self.held_count -= 1;
        self.taken &= !(1 << resource);
        self.running.level = last.level_before;
        0
    }

    fn tick(&mut self) -> u8 {
        let Kernel { config, ready, started, aside, events, timers, losses, .. } = self;
        timers.tick(config, |rank| {
            let bit = 1 << rank;
            if (*ready | *started | *aside) & bit == 0 {
                *ready |= bit;
                events[usize::from(rank)] = 0;
            } else {
                lose(&mut losses[usize::from(config.number[usize::from(rank)])]);
            }
        });
        0
    }

    fn line(&mut self, isr: u32) -> u8 {
        if !self.config.is_isr(isr) {
            return 3;
        }
        let bit = self.rank_bit(isr);
        if self.ready & bit != 0 {
            if self.config.counts_lines() {
                lose(&mut self.losses[isr as usize]);
            }
            return 4;
        }
        self.ready |= bit;
        0
    }

    fn start(&mut self, table: u32, delay: u32) -> u8 {
        if self.no_caller() {
            return 2;
        }
        if table >= self.config.tables as u32 {
            return 3;
        }
        let table = table as usize;
        if delay == 0 || delay > TICKS_MAX - self.config.smallest_offset(table) {
            return 8;
        }
        if self.timers.is_on(table) {
            return 7;
        }
        self.timers.start(self.config, table, delay as u16);
        0
    }

    fn stop(&mut self, table: u32) -> u8 {
        if self.no_caller() {
            return 2;
        }
        if table >= self.config.tables as u32 {
            return 3;
        }
        if !self.timers.is_on(table as usize) {
            return 5;
        }
        self.timers.stop(self.config, table as usize);
        0
    }

    fn wait(&mut self, mask: u32) -> u8 {
        if self.no_caller() {
            return 2;
        }
        if !self.config.is_extended(u32::from(self.running.number)) {
            return 1;
        }
        if self.holds_any() {
            return 6;
        }
        let rank = usize::from(self.running.rank);
        if self.events[rank] & mask == 0 {
            self.aside |= 1 << rank;
            self.waited[rank] = mask;
            self.leave();
        }
        0
    }

    fn set(&mut self, task: u32, mask: u32) -> u8 {
        if self.no_caller() {
            return 2;
        }
        if !self.config.is_task(task) {
            return 3;
        }
        if !self.config.is_extended(task) {
            return 1;
        }
        let bit = self.rank_bit(task);
        if self.is_free(bit) {
            return 7;
        }
        let rank = usize::from(self.config.rank[task as usize]);
        self.events[rank] |= mask;
        // A task that waits has none of its bits, so only the new ones count.
        if self.aside & bit != 0 && self.waited[rank] & mask != 0 {
            self.aside &= !bit;
            self.started |= bit;
        }
        0
    }

    fn clear(&mut self, mask: u32) -> u8 {
        if self.no_caller() {
            return 2;
        }
        if !self.config.is_extended(u32::from(self.running.number)) {
            return 1;
        }
        self.events[usize::from(self.running.rank)] &= !mask;
        0
    }

    // What a drawer of traces looks at.

    /// The running body's number.
    pub fn runner(&self) -> Option<u32> {
        (!self.is_idle()).then_some(u32::from(self.running.number))
    }

    pub fn level(&self) -> u8 {
        self.running.level
    }

    /// How many bodies have begun and not ended.
    pub fn begun_bodies(&self) -> usize {
        (self.started | self.aside).count_ones() as usize
    }

    pub fn waiting_bodies(&self) -> usize {
        (self.aside & !self.config.timed_ranks).count_ones() as usize
    }

    /// The time-triggered bodies that have begun and not ended, by number, in the order begun.
    pub fn triggered(&self) -> impl DoubleEndedIterator<Item = u32> + ExactSizeIterator + '_ {
        self.triggered[..self.triggered_count].iter().map(|rank| u32::from(self.config.number[usize::from(*rank)]))
    }

    /// A time-triggered body runs.
    pub fn timed_runs(&self) -> bool {
        self.triggered_count > 0
    }

    pub fn held_resources(&self) -> usize {
        self.held_count
    }

    pub fn is_suspended(&self, body: u32) -> bool {
        self.is_free(self.rank_bit(body))
    }

    /// The body has begun and does not wait for an event.
    pub fn is_started(&self, body: u32) -> bool {
        (self.started | self.aside & self.config.timed_ranks) & self.rank_bit(body) != 0
    }

    /// The body waits for an event.
    pub fn is_waiting(&self, body: u32) -> bool {
        self.aside & !self.config.timed_ranks & self.rank_bit(body) != 0
    }

    pub fn events(&self, body: u32) -> u32 {
        self.events[usize::from(self.config.rank[body as usize])]
    }

    /// What a body that waits waits for.
    pub fn waited(&self, body: u32) -> u32 {
        self.waited[usize::from(self.config.rank[body as usize])]
    }

    /// A request of the body waits to begin.
    pub fn is_requested(&self, body: u32) -> bool {
        self.ready & self.rank_bit(body) != 0
    }

    /// The running body could take the resource now.
    pub fn may_get(&self, resource: u32) -> bool {
        !self.is_taken(resource) && self.runner().is_some_and(|runner| self.config.is_user(runner, resource))
    }

    /// The running body's most recently taken resource.
    pub fn last_held(&self) -> Option<u32> {
        (!self.is_idle() && self.holds_any()).then(|| u32::from(self.held[self.held_count].resource))
    }

    pub fn is_on(&self, table: u32) -> bool {
        self.timers.is_on(table as usize)
    }

    /// How many bodies would be left, ready or started and not waiting, if the running one ended.
    pub fn others(&self) -> u32 {
        let running = self.runner().map_or(0, |runner| self.rank_bit(runner));
        ((self.ready | self.started | self.aside & self.config.timed_ranks) & !running).count_ones()
    }

    pub fn losses(&self) -> &[u16] {
        &self.losses[..self.config.bodies]
    }
}

// The run

/// The run as osek_run promises it, with cells or by next due entries.
#[inline(never)]
pub fn run<T: Timers>(config: &[u8], trace: &[u8], out: &mut [u8]) -> u64 {
    match accepted(config, trace, out.len()) {
        Err(refusal) => refusal.result(),
        Ok((config, events)) => {
            let (answers, losses) = out.split_at_mut(4 * events);
            let mut kernel = Kernel::<T>::fresh(&config);
            let mut at = 0;
            for bytes in answers.chunks_exact_mut(4) {
                let Ok((event, next)) = read_event(trace, at) else { unreachable!("the trace was read before") };
                at = next;
                let answer = kernel.step(event);
                bytes.copy_from_slice(&[answer.status, answer.runner, answer.level, answer.begun]);
            }
            for (bytes, loss) in losses.chunks_exact_mut(2).zip(kernel.losses()) {
                bytes.copy_from_slice(&loss.to_le_bytes());
            }
            events as u64
        }
    }
}

/// How long the body waits to begin, as osek_wait promises it: by Finish events after the trace.
pub fn wait<T: Timers>(config: &[u8], trace: &[u8], body: u32) -> u64 {
    match accepted(config, trace, usize::MAX) {
        Err(refusal) => refusal.result(),
        Ok((config, _)) => waited::<T>(&config, trace, body).unwrap_or_else(Refusal::result),
    }
}

fn waited<T: Timers>(config: &Config, trace: &[u8], body: u32) -> Result<u64, Refusal> {
    if (0..config.bodies as u32).any(|body| config.is_extended(body) || config.is_timed(body)) {
        return refuse(35, 0);
    }
    if body as usize >= config.bodies {
        return refuse(34, 0);
    }
    let mut kernel = Kernel::<T>::fresh(config);
    let mut at = 0;
    while let Ok((event, next)) = read_event(trace, at) {
        at = next;
        kernel.step(event);
    }
    if !kernel.is_requested(body) {
        return refuse(31, 0);
    }
    if kernel.held_resources() > 0 {
        return refuse(32, 0);
    }
    let begins = |answer: &Answer| answer.begun == 1 && u32::from(answer.runner) == body;
    let mut ends = 1;
    while !begins(&kernel.step(Event::Finish)) {
        ends += 1;
    }
    Ok(ends)
}

/// The configuration and the number of events, if nothing is to be refused.
fn accepted(config: &[u8], trace: &[u8], out_len: usize) -> Result<(Config, usize), Refusal> {
    let config = read_config(config)?;
    let events = count_events(trace)?;
    let needed = 4 * events + 2 * config.bodies;
    if out_len < needed {
        return refuse(30, needed);
    }
    Ok((config, events))
}

// Deadlines

/// The deadline counters: by rank the ticks until a task is due, 0 for one that does not count.
#[derive(Clone)]
pub struct Deadlines {
    left: [u16; BODIES_MAX],
}

/// The places of the bits that are set, the lowest first.
fn places(mut bits: u32) -> impl Iterator<Item = usize> {
    std::iter::from_fn(move || {
        let place = (bits != 0).then(|| bits.trailing_zeros() as usize)?;
        bits &= bits - 1;
        Some(place)
    })
}

impl Deadlines {
    /// Of a kernel that has just been started.
    pub fn fresh<T: Timers>(kernel: &Kernel<T>) -> Self {
        let mut deadlines = Deadlines { left: [0; BODIES_MAX] };
        deadlines.start(kernel.config, kernel.active());
        deadlines
    }

    /// Steps the kernel. Gives its answer and who misses a deadline at this event, one bit per body number.
    #[inline(always)]
    pub fn step<T: Timers>(&mut self, kernel: &mut Kernel<T>, event: Event) -> (Answer, u32) {
        let missed = if event == Event::Tick { self.count(kernel.config) } else { 0 };
        let (before, running) = (kernel.active(), kernel.running);
        let answer = kernel.step(event);
        let after = kernel.active();
        // A Chain to the running task itself leaves it active, and counts anew.
        let chained = matches!(event, Event::Chain(task) if answer.status == 0 && task == u32::from(running.number));
        let anew = if chained { 1 << running.rank } else { 0 };
        places(before & !after).for_each(|rank| self.left[rank] = 0);
        self.start(kernel.config, after & !before | anew);
        (answer, missed)
    }

    fn start(&mut self, config: &Config, ranks: u32) {
        places(ranks).for_each(|rank| self.left[rank] = config.deadline[rank]);
    }

    /// Counts a tick; a counter that comes to 0 is a miss, and stays there.
    fn count(&mut self, config: &Config) -> u32 {
        let mut missed = 0;
        for (left, number) in self.left.iter_mut().zip(config.number).filter(|(left, _)| **left > 0) {
            *left -= 1;
            missed |= u32::from(*left == 0) << number;
        }
        missed
    }
}

/// The misses as osek_misses promises them.
pub fn misses<T: Timers>(config: &[u8], trace: &[u8], list: &mut [u8]) -> u64 {
    match accepted(config, trace, usize::MAX) {
        Err(refusal) => refusal.result(),
        Ok((config, _)) => listed_misses::<T>(&config, trace, list).unwrap_or_else(Refusal::result),
    }
}

fn listed_misses<T: Timers>(config: &Config, trace: &[u8], list: &mut [u8]) -> Result<u64, Refusal> {
    let mut kernel = Kernel::<T>::fresh(config);
    let mut deadlines = Deadlines::fresh(&kernel);
    let mut first = [[0u8; MISS_SIZE]; MISSES_MAX];
    let (mut count, mut tick, mut at) = (0usize, 0u16, 0);
    while let Ok((event, next)) = read_event(trace, at) {
        at = next;
        tick += u16::from(event == Event::Tick);
        let (_, missed) = deadlines.step(&mut kernel, event);
        for body in places(missed) {
            if let Some(miss) = first.get_mut(count) {
                let [low, high] = tick.to_le_bytes();
                *miss = [low, high, body as u8];
            }
            count += 1;
        }
    }
    let bytes = first[..count.min(MISSES_MAX)].as_flattened();
    if list.len() < bytes.len() {
        return refuse(30, bytes.len());
    }
    list[..bytes.len()].copy_from_slice(bytes);
    Ok(count as u64)
}

#[cfg(test)]
mod tests {
    //! What a run can't reach, or does not show: counters of cells, and counts beyond 8,192 bytes.

    use super::*;

    /// One autostart task, and one table of the given period with one entry at offset 0 for it.
    fn one_table(period: u32) -> Config {
        let mut bytes = vec![1, 1, 0, 1, 1, 0, 1];
        crate::cases::push_number(&mut bytes, period);
        bytes.extend([1, 0, 0]);
        read_config(&bytes).expect("the configuration is accepted")
    }

    /// The ticks, up to `last`, at which the table's entry is due.
    fn due_ticks<T: Timers>(config: &Config, delay: u16, last: u32) -> Vec<u32> {
        let mut timers = T::stopped(config);
        timers.start(config, 0, delay);
        (1..=last)
            .filter(|_| {
                let mut due = false;
                timers.tick(config, |_| due = true);
                due
            })
            .collect()
    }

    fn start_counter(period: u32, delay: u16) -> u16 {
        let config = one_table(period);
        let mut cells = Cells::stopped(&config);
        cells.start(&config, 0, delay);
        cells.counter[0]
    }

    #[test]
    fn edge_p4_period_1_is_due_at_each_tick() {
        assert_eq!(start_counter(1, 1), 65_535);
        let config = one_table(1);
        assert_eq!(due_ticks::<Cells>(&config, 1, 5), [1, 2, 3, 4, 5]);
        assert_eq!(due_ticks::<NextDue>(&config, 1, 5), [1, 2, 3, 4, 5]);
    }

    #[test]
    fn edge_p5_period_4_delay_3_is_due_at_3_and_7() {
        assert_eq!(start_counter(4, 3), 0);
        let config = one_table(4);
        assert_eq!(due_ticks::<Cells>(&config, 3, 10), [3, 7]);
        assert_eq!(due_ticks::<NextDue>(&config, 3, 10), [3, 7]);
    }

    #[test]
    fn edge_p6_longest_delay_starts_the_counter_at_4() {
        assert_eq!(start_counter(4, 65_535), 4);
        let config = one_table(4);
        assert_eq!(due_ticks::<Cells>(&config, 65_535, 65_544), [65_535, 65_539, 65_543]);
        assert_eq!(due_ticks::<NextDue>(&config, 65_535, 65_544), [65_535, 65_539, 65_543]);
    }

    #[test]
    fn cells_and_next_due_agree_with_the_arithmetic() {
        for period in [1, 2, 3, 5, 255, 256, 257, 65_534, 65_535] {
            let config = one_table(period);
            for delay in [1, 2, 3, 4, 254, 255, 256, 65_534, 65_535] {
                let by_arithmetic: Vec<u32> =
                    (1..=200_000).filter(|n| *n >= delay && (n - delay) % period == 0).collect();
                assert_eq!(due_ticks::<Cells>(&config, delay as u16, 200_000), by_arithmetic, "{period} {delay}");
                assert_eq!(due_ticks::<NextDue>(&config, delay as u16, 200_000), by_arithmetic, "{period} {delay}");
            }
        }
    }

    /// Two tasks, and a table of the given period with an entry at offset 0 for the first and one at `offset` for the second.
    fn two_entries(period: u32, offset: u32) -> Config {
        let mut bytes = vec![1, 2, 0, 1, 1, 0, 2, 0, 0, 1];
        crate::cases::push_number(&mut bytes, period);
        bytes.extend([2, 0, 0]);
        crate::cases::push_number(&mut bytes, offset);
        bytes.push(1);
        read_config(&bytes).expect("the configuration is accepted")
    }

    /// The ticks, up to `last`, at which an entry is due, each with the entry's task.
    fn due_entries<T: Timers>(config: &Config, delay: u16, last: u32) -> Vec<(u32, u8)> {
        let mut timers = T::stopped(config);
        timers.start(config, 0, delay);
        let mut all = Vec::new();
        for n in 1..=last {
            timers.tick(config, |rank| all.push((n, rank)));
        }
        all
    }

    fn is_due(period: u32, first_delay: u32, n: u32) -> bool {
        n >= first_delay && (n - first_delay) % period == 0
    }

    #[test]
    fn first_delays_beyond_a_turn_agree_with_the_arithmetic() {
        const DELAY: u32 = 30_000;
        let mut starts: Vec<(u32, u32, u32)> =
            [65_535, 65_536, 65_537, 70_000, 73_000].map(|d| (65_535, d - DELAY, DELAY)).to_vec();
        starts.extend([(60_000, 50_000, DELAY), (65_535, 65_534, 65_535), (3, 1, 65_535), (3, 2, 65_535)]);
        for (period, offset, delay) in starts {
            let config = two_entries(period, offset);
            let by_arithmetic: Vec<(u32, u8)> = (1..=300_000)
                .flat_map(|n| [(n, 0, delay), (n, 1, delay + offset)])
                .filter(|(n, _, first_delay)| is_due(period, *first_delay, *n))
                .map(|(n, task, _)| (n, task))
                .collect();
            assert_eq!(
                due_entries::<Cells>(&config, delay as u16, 300_000),
                by_arithmetic,
                "{period} {offset} {delay}"
            );
            assert_eq!(
                due_entries::<NextDue>(&config, delay as u16, 300_000),
                by_arithmetic,
                "{period} {offset} {delay}"
            );
        }
    }

    #[test]
    fn the_makers_table_is_due_at_30_000_and_80_000_then_every_60_000() {
        let config = two_entries(60_000, 50_000);
        let due = [(30_000, 0), (80_000, 1), (90_000, 0), (140_000, 1), (150_000, 0), (200_000, 1)];
        assert_eq!(due_entries::<Cells>(&config, 30_000, 200_000), due);
        assert_eq!(due_entries::<NextDue>(&config, 30_000, 200_000), due);
    }

    #[test]
    fn edge_p11_a_loss_of_65_535_stays() {
        let config = one_table(1);
        let mut kernel = Kernel::<Cells>::fresh(&config);
        assert_eq!(kernel.step(Event::Start(0, 1)).status, 0);
        for _ in 0..65_534 {
            kernel.step(Event::Tick);
        }
        assert_eq!(kernel.losses(), [65_534]);
        kernel.step(Event::Tick);
        assert_eq!(kernel.losses(), [65_535]);
        kernel.step(Event::Tick);
        assert_eq!(kernel.losses(), [65_535]);
    }

    #[test]
    fn lost_lines_stay_at_65_535() {
        // ISR 0 is started, and a request of it waits.
        let config = read_config(&[2, 1, 1, 1, 0, 0, 0]).expect("the configuration is accepted");
        let mut kernel = Kernel::<NextDue>::fresh(&config);
        assert_eq!([Event::Line(0), Event::Line(0)].map(|line| kernel.step(line).status), [0, 0]);
        for lost in 1..=65_537u32 {
            assert_eq!(kernel.step(Event::Line(0)).status, 4);
            assert_eq!(u32::from(kernel.losses()[0]), lost.min(65_535));
        }
    }
    #[test]
    fn the_longest_deadline_is_missed_at_tick_65_535() {
        // One autostart task with the deadline 65,535.
        let config = read_config(&[3, 1, 0, 1, 1, 0xff, 0xff, 3, 0, 0]).expect("the configuration is accepted");
        let mut kernel = Kernel::<Cells>::fresh(&config);
        let mut deadlines = Deadlines::fresh(&kernel);
        for tick in 1..=200_000 {
            let (_, missed) = deadlines.step(&mut kernel, Event::Tick);
            assert_eq!(missed == 1, tick == 65_535, "{tick}");
        }
    }
}
