//! A timeline as a picture: a column for each event, a row for each body, the greatest priority on top, a row for each
//! resource that is held and for the event bits of each task that has some, and the level. Missed deadlines are marked.

mod canvas;

use std::fmt::Write;
use std::ops::Range;

use crate::history::{History, Moment, State, Step, STATES};
use crate::words::{self, grouped, Sort};
pub use canvas::escaped;
use canvas::{Anchor, Canvas};

/// Stretches of at least so many ticks that change nothing are drawn as one column.
const QUIET_MIN: usize = 3;

/// With more columns than this they are narrow, and have no names; with more than that only the first are drawn.
const NAMED_MAX: usize = 400;
const COLUMNS_MAX: usize = 3_000;
const WIDE: f64 = 24.0;
const NARROW: f64 = 4.0;
/// A wide column of several ticks.
const QUIET: f64 = 56.0;
/// Between the numbers of ticks below narrow columns.
const NUMBERED: f64 = 80.0;

const ROW: f64 = 26.0;
const BAR: f64 = 16.0;
/// Between two levels that occur, and the least room for all.
const LEVEL: f64 = 9.0;
const LEVELS: f64 = 64.0;
const MARGIN: f64 = 14.0;
/// About the width of a letter.
const LETTER: f64 = 6.7;
/// The least room of the legend.
const LEGEND: f64 = 900.0;

const STYLE: &str = "\
text { font-family: 'DejaVu Sans', Verdana, Arial, sans-serif; font-size: 11px; fill: #1f2937; }
.small { font-size: 10px; fill: #6b7280; }
.title { font-size: 14px; font-weight: bold; }
.refused { fill: #b91c1c; font-weight: bold; }
.refusal { stroke: #b91c1c; stroke-width: 2; }
.name { font-weight: bold; }
.grid { stroke: #e5e7eb; }
.tick { stroke: #9ca3af; }
.base { stroke: #9ca3af; }
.ready { fill: #fef3c7; stroke: #d97706; }
.running { fill: #2563eb; stroke: #1d4ed8; }
.preempted { fill: #bfdbfe; stroke: #1d4ed8; stroke-dasharray: 3 2; }
.waiting { fill: #f3f4f6; stroke: #6b7280; stroke-dasharray: 1 2; }
.held { fill: #d1fae5; stroke: #047857; }
.bits { fill: #ede9fe; stroke: #6d28d9; }
.begin { fill: #ffffff; }
.request { fill: #d97706; }
.loss { stroke: #b91c1c; stroke-width: 2.5; fill: none; }
.miss { stroke: #ffffff; stroke-width: 1; fill: #b91c1c; }
.level { stroke: #047857; stroke-width: 1.8; fill: none; }
.column { fill: #000000; fill-opacity: 0; }
.column:hover { fill-opacity: 0.06; }
";

/// What is before the first event, an event, or a stretch of ticks that change nothing.
struct Column {
    /// The first and the last step; none for what is before.
    steps: Option<(usize, usize)>,
    x: f64,
    width: f64,
}

struct Picture<'t> {
    history: &'t History,
    /// The steps that are drawn.
    range: Range<usize>,
    columns: Vec<Column>,
    /// Bodies from top to bottom, resources that are held, and tasks with event bits.
    rows: Vec<usize>,
    resources: Vec<u32>,
    bits: Vec<usize>,
    /// The levels that occur, the least first.
    levels: Vec<u8>,
    left: f64,
    top: f64,
    right: f64,
    /// Where the legend ends.
    legend: f64,
    named: bool,
    canvas: Canvas,
}

/// The picture of these steps.
pub fn write(history: &History, title: &str, range: Range<usize>) -> String {
    let mut picture = Picture::of(history, range);
    picture.events();
    picture.axes();
    picture.bodies();
    picture.resources();
    picture.bits();
    picture.level();
    picture.legend();
    picture.tooltips();
    picture.finished(title)
}

/// An event's name, and its status if it was refused.
fn label(history: &History, step: &Step) -> String {
    let name = history.names.event(&step.event);
    match step.answer.status {
        0 => name,
        status => format!("{name}: {}", words::status(status).unwrap_or("?")),
    }
}

/// The steps of each column: one, or several ticks that change nothing.
fn stretches(history: &History, range: Range<usize>) -> Vec<(usize, usize)> {
    let quiet = |step: &usize| history.is_quiet(*step);
    let mut stretches = Vec::new();
    let mut first = range.start;
    while first < range.end {
        let length = (first..range.end).take_while(quiet).count();
        let last = if length >= QUIET_MIN { first + length - 1 } else { first };
        stretches.push((first, last));
        first = last + 1;
    }
    stretches
}

fn longest(lengths: impl Iterator<Item = usize>) -> f64 {
    lengths.max().unwrap_or(0) as f64
}

impl<'t> Picture<'t> {
    fn of(history: &'t History, range: Range<usize>) -> Picture<'t> {
        let mut stretches = stretches(history, range.clone());
        stretches.truncate(COLUMNS_MAX);
        let end = stretches.last().map_or(range.end, |(_, last)| last + 1);
        let range = range.start..end;
        let named = stretches.len() <= NAMED_MAX;
        let moments: Vec<&Moment> = history.moments().skip(range.start).take(range.len() + 1).collect();
        let any = |shows: &dyn Fn(&Moment) -> bool| moments.iter().any(|moment| shows(moment));
        let is_held = |resource: &u32| any(&|moment| moment.held.iter().any(|held| held.contains(resource)));
        let has_bits = |body: &usize| any(&|moment| moment.bits[*body] != 0 || moment.states[*body] == State::Waiting);
        let resources: Vec<u32> = (0..history.objects.resources.len() as u32).filter(is_held).collect();
        let bits: Vec<usize> = history.by_priority().into_iter().filter(has_bits).collect();
        let mut levels: Vec<u8> = moments.iter().map(|moment| moment.level).chain([0]).collect();
        levels.sort_unstable();
        levels.dedup();
        let body_names = history.names.bodies.iter().map(|name| name.len());
        let bit_names = bits.iter().map(|body| history.names.body(*body as u32).len() + 5);
        let resource_names = resources.iter().map(|resource| history.names.name(Sort::Resource, *resource).len());
        // Beside the name stands the priority or the ceiling.
        let beside = if resources.is_empty() { 60.0 } else { 90.0 };
        let left = MARGIN + LETTER * longest(body_names.chain(bit_names).chain(resource_names)) + beside;
        let labels = longest(history.steps[range.clone()].iter().map(|step| label(history, step).len()).chain([11]));
        let top = if named { 40.0 + 0.82 * LETTER * labels } else { 60.0 };
        let one = if named { WIDE } else { NARROW };
        let mut columns = vec![Column { steps: None, x: left, width: one }];
        let mut x = left + one;
        for (first, last) in stretches {
            let width = if named && first < last { QUIET } else { one };
            columns.push(Column { steps: Some((first, last)), x, width });
            x += width;
        }
        let (rows, canvas) = (history.by_priority(), Canvas::default());
        let (right, legend) = (x, LEGEND);
        Picture { history, range, columns, rows, resources, bits, levels, left, top, right, legend, named, canvas }
    }

    fn rows_end(&self) -> f64 {
        self.top + ROW * (self.rows.len() + self.resources.len() + self.bits.len()) as f64
    }

    fn levels_height(&self) -> f64 {
        LEVELS.max(LEVEL * self.levels.len() as f64)
    }

    fn axis_y(&self) -> f64 {
        self.rows_end() + self.levels_height() + 24.0
    }

    fn height(&self) -> f64 {
        self.axis_y() + 74.0
    }

    fn finished(&self, title: &str) -> String {
        // The last name rises beyond the last column.
        let beyond = if self.named { 0.75 * (self.top - 40.0) + 14.0 } else { 20.0 };
        let width = (self.right + beyond).max(self.legend) + MARGIN;
        let height = self.height();
        let all = self.history.steps.len();
        let part = if self.range.len() < all {
            let (first, last) = (self.range.start, self.range.end.saturating_sub(1));
            format!(" (events {first} to {last} of {}; --from and --to show others)", grouped(all as u64))
        } else {
            String::new()
        };
        let (title, shown) = (escaped(title), escaped(&format!("{title}{part}")));
        format!(
            "<svg xmlns=\"http://www.w3.org/2000/svg\" width=\"{width:.0}\" height=\"{height:.0}\" viewBox=\"0 0 \
             {width:.0} {height:.0}\" role=\"img\">\n<title>{title}</title>\n<style>\n{STYLE}</style>\n<rect \
             width=\"100%\" height=\"100%\" fill=\"#ffffff\"/>\n<text class=\"title\" x=\"{MARGIN}\" \
             y=\"24\">{shown}</text>\n{}</svg>\n",
            self.canvas.elements()
        )
    }

    /// The moment that a column shows.
    fn moment(&self, column: &Column) -> &'t Moment {
        column.steps.map_or(self.history.before(self.range.start), |(_, last)| &self.history.steps[last].after)
    }

    /// A line and a name for each column; where columns are narrow a mark for each event that was refused.
    fn events(&mut self) {
        let (top, bottom) = (self.top - 4.0, self.axis_y());
        for Column { steps, x, width } in &self.columns {
            let Some((first, last)) = *steps else {
                if self.named {
                    let before = self.range.start.checked_sub(1);
                    let name = before.map_or_else(|| "fresh start".into(), |step| format!("after event {step}"));
                    self.canvas.rising_text("", x + 9.0, self.top - 8.0, &name);
                }
                continue;
            };
            let step = &self.history.steps[first];
            let refused = step.answer.status != 0;
            if !self.named {
                if refused {
                    self.canvas.line("refusal", (x + width / 2.0, self.top - 14.0), (x + width / 2.0, self.top - 4.0));
                }
                continue;
            }
            let line = if step.event.word.is_tick() { "tick" } else { "grid" };
            self.canvas.line(line, (*x, top), (*x, bottom));
            let name = if first == last { label(self.history, step) } else { format!("{} ticks", last - first + 1) };
            self.canvas.rising_text(if refused { "refused" } else { "" }, x + 9.0, self.top - 8.0, &name);
        }
    }

    /// The numbers of the ticks, and below them those of the events.
    fn axes(&mut self) {
        let y = self.axis_y() + 14.0;
        self.canvas.text("small", MARGIN, y, Anchor::Start, "tick");
        self.canvas.text("small", MARGIN, y + 14.0, Anchor::Start, "event");
        let (mut tick_free, mut step_free) = (self.left, self.left);
        for Column { steps, x, width } in &self.columns {
            let Some((first, last)) = *steps else { continue };
            let range = |from: u32, to: u32| if from == to { from.to_string() } else { format!("{from}-{to}") };
            let middle = if first == last { *x } else { x + width / 2.0 };
            let wide = |said: &str| 0.8 * LETTER * said.len() as f64;
            if self.history.steps[first].event.word.is_tick() && *x >= tick_free {
                let said = range(self.history.steps[first].tick, self.history.steps[last].tick);
                self.canvas.text("small", middle, y, Anchor::Middle, &said);
                tick_free = if self.named { *x } else { x + NUMBERED };
            }
            if *x >= step_free {
                let said = range(first as u32, last as u32);
                self.canvas.text("small", middle, y + 14.0, Anchor::Middle, &said);
                step_free = if self.named { x + wide(&said) } else { x + NUMBERED };
            }
        }
    }

    /// The middle of a row, counted from the first body's, with its name.
    fn row(&mut self, row: usize, name: &str, right: &str) -> f64 {
        let middle = self.top + ROW * (row as f64 + 0.5);
        self.canvas.text("name", MARGIN, middle + 4.0, Anchor::Start, name);
        self.canvas.text("small", self.left - 10.0, middle + 4.0, Anchor::End, right);
        self.canvas.line("base", (self.left, middle), (self.right, middle));
        middle
    }

    fn bodies(&mut self) {
        for (row, body) in self.rows.clone().into_iter().enumerate() {
            let name = self.history.names.body(body as u32);
            let priority = self.history.priority(body).to_string();
            let middle = self.row(row, &name, &priority);
            self.states(body, middle);
            self.marks(body, middle);
        }
    }

    /// Calls `draw` with the left end, the width and the value of each stretch of columns that have one.
    fn stretch<T: PartialEq>(&mut self, value: impl Fn(&Moment) -> T, draw: impl Fn(&mut Canvas, f64, f64, &T)) {
        let values: Vec<T> = self.columns.iter().map(|column| value(self.moment(column))).collect();
        let mut first = 0;
        while first < values.len() {
            let end = first + values[first..].iter().take_while(|other| **other == values[first]).count();
            let (from, to) = (self.columns[first].x, self.columns[end - 1].x + self.columns[end - 1].width);
            draw(&mut self.canvas, from, to - from, &values[first]);
            first = end;
        }
    }

    /// A bar for each stretch of a state other than suspended.
    fn states(&mut self, body: usize, middle: f64) {
        self.stretch(|moment| moment.states[body], |canvas, x, width, state| bar(canvas, *state, x, width, middle));
    }

    /// Begins, second requests, losses and missed deadlines.
    fn marks(&mut self, body: usize, middle: f64) {
        let mut waited = false;
        for column in &self.columns {
            let moment = self.moment(column);
            if self.begins(column, body) {
                self.canvas.triangle("begin", column.x, middle);
            }
            let waits = moment.requests[body] && moment.states[body] != State::Ready;
            if waits && !waited {
                self.canvas.dot("request", column.x + 4.0, middle - BAR / 2.0 - 1.0);
            }
            waited = waits;
            if self.loses(column, body) {
                self.canvas.cross("loss", column.x, middle);
            }
            if column.steps.is_some_and(|(first, _)| self.history.steps[first].missed.contains(&body)) {
                self.canvas.diamond("miss", column.x, middle);
            }
        }
    }

    fn begins(&self, column: &Column, body: usize) -> bool {
        match column.steps {
            None => self.range.start == 0 && self.history.fresh.states[body] == State::Running,
            Some((step, _)) => {
                let answer = self.history.steps[step].answer;
                answer.begun == 1 && answer.runner == Some(body as u8)
            }
        }
    }

    fn loses(&self, column: &Column, body: usize) -> bool {
        column.steps.is_some_and(|(first, _)| {
            self.history.steps[first].after.losses[body] > self.history.before(first).losses[body]
        })
    }

    /// Who holds each resource.
    fn resources(&mut self) {
        for (index, resource) in self.resources.clone().into_iter().enumerate() {
            let name = self.history.names.name(Sort::Resource, resource);
            let ceiling = format!("ceiling {}", self.history.ceiling(resource));
            let middle = self.row(self.rows.len() + index, &name, &ceiling);
            let names = &self.history.names;
            let holder = |moment: &Moment| moment.held.iter().position(|held| held.contains(&resource));
            self.stretch(holder, |canvas, x, width, holder| {
                if let Some(body) = holder {
                    written_bar(canvas, "held", x, width, middle, &names.body(*body as u32));
                }
            });
        }
    }

    /// The event bits of each task, and what it waits for.
    fn bits(&mut self) {
        for (index, body) in self.bits.clone().into_iter().enumerate() {
            let name = format!("{} bits", self.history.names.body(body as u32));
            let middle = self.row(self.rows.len() + self.resources.len() + index, &name, "");
            let waits = |moment: &Moment| (moment.states[body] == State::Waiting).then(|| moment.waited[body]);
            self.stretch(
                |moment| (moment.bits[body], waits(moment)),
                |canvas, x, width, value| match *value {
                    (0, None) => {}
                    (bits, None) => written_bar(canvas, "bits", x, width, middle, &format!("{bits:#x}")),
                    (0, Some(mask)) => written_bar(canvas, "waiting", x, width, middle, &format!("waits {mask:#x}")),
                    (bits, Some(mask)) => {
                        written_bar(canvas, "waiting", x, width, middle, &format!("{bits:#x} waits {mask:#x}"));
                    }
                },
            );
        }
    }

    /// The level, on an axis on which those that occur are equally far apart.
    fn level(&mut self) {
        let base = self.rows_end() + self.levels_height() + 12.0;
        let apart = 0.85 * self.levels_height() / (self.levels.len().max(2) - 1) as f64;
        let levels = self.levels.clone();
        let height = |level: u8| base - apart * levels.iter().position(|known| *known == level).unwrap_or(0) as f64;
        let mut path = String::new();
        let mut before = None;
        for column in &self.columns {
            let level = self.moment(column).level;
            let (x, y) = (column.x, height(level));
            let _ = match before {
                None => write!(path, "M{x:.1} {y:.1}"),
                Some(same) if same == level => Ok(()),
                Some(_) => write!(path, " H{x:.1} V{y:.1}"),
            };
            if self.named && before != Some(level) {
                self.canvas.text("small", x + 3.0, y - 4.0, Anchor::Start, &level.to_string());
            }
            before = Some(level);
        }
        for level in &levels {
            self.canvas.text("small", self.left - 10.0, height(*level) + 3.0, Anchor::End, &level.to_string());
            self.canvas.line("grid", (self.left - 7.0, height(*level)), (self.left, height(*level)));
        }
        self.canvas.text("name", MARGIN, base, Anchor::Start, "level");
        self.canvas.path("level", &format!("{path} H{:.1}", self.right));
    }

    fn legend(&mut self) {
        let y = self.height() - 16.0;
        let mut x = MARGIN;
        let canvas = &mut self.canvas;
        let mut named = |canvas: &mut Canvas, mark: &dyn Fn(&mut Canvas, f64), name: &str| {
            mark(canvas, x);
            canvas.text("small", x + 25.0, y + 4.0, Anchor::Start, name);
            x += 46.0 + 0.9 * LETTER * name.len() as f64;
        };
        for state in STATES.into_iter().filter(|state| *state != State::Suspended) {
            named(canvas, &|canvas, x| bar(canvas, state, x, 18.0, y), state.word());
        }
        let begin = |canvas: &mut Canvas, x: f64| {
            bar(canvas, State::Running, x, 18.0, y);
            canvas.triangle("begin", x, y);
        };
        named(canvas, &begin, "begins");
        named(canvas, &|canvas, x| canvas.dot("request", x + 9.0, y), "a second request waits");
        named(canvas, &|canvas, x| canvas.cross("loss", x + 9.0, y), "activation or line lost");
        if self.rows.iter().any(|body| self.history.has_deadline(*body)) {
            named(canvas, &|canvas, x| canvas.diamond("miss", x + 9.0, y), "deadline missed");
        }
        if !self.named {
            named(canvas, &|canvas, x| canvas.line("refusal", (x + 9.0, y - 5.0), (x + 9.0, y + 5.0)), "refused");
        }
        self.legend = x.max(LEGEND);
    }

    /// What a pointer over a column is told.
    fn tooltips(&mut self) {
        let (top, bottom) = (self.top - 4.0, self.axis_y());
        for Column { steps, x, width } in &self.columns {
            let Some((first, last)) = *steps else { continue };
            let step = &self.history.steps[last];
            let events = if first == last {
                format!("event {first} {}", self.history.names.event(&step.event))
            } else {
                format!("events {first} to {last} Tick")
            };
            let runner =
                step.answer.runner.map_or_else(|| "nobody".into(), |body| self.history.names.body(body.into()));
            let said = format!(
                "{events}, tick {}: status {}, {runner} runs at {}",
                step.tick,
                words::status_words(step.answer.status),
                step.answer.level
            );
            self.canvas.tooltip("column", *x, top, *width, bottom - top, &said);
        }
    }
}

/// A bar with words in it, as far as there is room.
fn written_bar(canvas: &mut Canvas, class: &str, x: f64, width: f64, middle: f64, said: &str) {
    canvas.bar(class, x, width, middle, BAR);
    if width >= LETTER * said.len() as f64 + 4.0 {
        canvas.text("small", x + 3.0, middle + 4.0, Anchor::Start, said);
    }
}

/// A state as a bar; a suspended body has none.
fn bar(canvas: &mut Canvas, state: State, x: f64, width: f64, middle: f64) {
    match state {
        State::Suspended => {}
        State::Running => canvas.bar(state.word(), x, width, middle, BAR),
        State::Ready | State::Preempted | State::Waiting => canvas.bar(state.word(), x, width, middle, 0.7 * BAR),
    }
}
