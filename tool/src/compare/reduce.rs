//! A smaller case that differs as a given one does: fewer events, fewer objects, smaller numbers.

use osek_tests::cases::{push_number, Case};
use osek_tests::shrink::{fewest, shrink};

use crate::layout::{self, Objects};
use crate::words::{self, EventWord, Sort, KINDS};

/// A case that `differs`, as small as can be found.
pub fn reduce(case: &Case, differs: impl Fn(&Case) -> bool) -> Case {
    // An output that is too short stays so however small the case becomes.
    let no_output = Case { out_len: 0, ..case.clone() };
    let mut best = if differs(&no_output) { shrink(&no_output, &differs) } else { shrink(case, &differs) };
    loop {
        let before = best.clone();
        if let Some(pieces) = Pieces::of(&best) {
            best = smaller_objects(pieces, &best, &differs);
        }
        best = fewer_bytes(&best, &differs);
        best = shrink(&best, &differs);
        if best == before {
            return best;
        }
    }
}

/// What is not an object of the configuration goes byte by byte.
fn fewer_bytes(case: &Case, differs: &impl Fn(&Case) -> bool) -> Case {
    let with = |config: &[u8]| Case { config: config.to_vec(), ..case.clone() };
    with(&fewest(case.config.clone(), |config| differs(&with(config))))
}

/// A case whose configuration can be read.
#[derive(Clone)]
struct Pieces {
    objects: Objects,
    events: Vec<(&'static EventWord, Vec<u32>)>,
    /// What follows the objects, and the events that can be read.
    left_over: Vec<u8>,
    unread: Vec<u8>,
}

impl Pieces {
    fn of(case: &Case) -> Option<Pieces> {
        let config = layout::config(&case.config);
        let trace = layout::trace(&case.trace);
        config.broken.is_none().then(|| Pieces {
            objects: config.objects,
            events: trace
                .events
                .iter()
                .map(|event| (event.word, event.arguments.iter().map(|argument| argument.value).collect()))
                .collect(),
            left_over: case.config[config.end..].to_vec(),
            unread: case.trace[trace.end..].to_vec(),
        })
    }

    fn case(&self, like: &Case) -> Case {
        let mut trace = Vec::new();
        for (word, arguments) in &self.events {
            push_number(&mut trace, word.code);
            arguments.iter().for_each(|argument| push_number(&mut trace, *argument));
        }
        trace.extend(&self.unread);
        let mut config = Vec::new();
        self.objects.numbers().into_iter().for_each(|number| push_number(&mut config, number));
        config.extend(&self.left_over);
        Case { config, trace, ..like.clone() }
    }

    /// Events that name this thing go; those that name a later one follow it down.
    fn forget(&mut self, sort: Sort, gone: u32, count: usize) {
        let named = |word: &EventWord, index: usize| word.arguments[index] == sort;
        self.events.retain(|(word, arguments)| {
            !arguments.iter().enumerate().any(|(index, value)| named(word, index) && *value == gone)
        });
        for (word, arguments) in &mut self.events {
            for (index, value) in arguments.iter_mut().enumerate() {
                if named(word, index) && *value > gone && (*value as usize) < count {
                    *value -= 1;
                }
            }
        }
    }

    fn without_table(mut self, table: usize) -> Pieces {
        self.forget(Sort::Table, table as u32, self.objects.tables.len());
        self.objects.tables.remove(table);
        self
    }

    fn without_resource(mut self, resource: usize) -> Pieces {
        self.forget(Sort::Resource, resource as u32, self.objects.resources.len());
        self.objects.resources.remove(resource);
        self
    }

    fn without_body(mut self, body: usize) -> Pieces {
        self.forget(Sort::Body, body as u32, self.objects.bodies.len());
        self.objects.bodies.remove(body);
        for users in &mut self.objects.resources {
            let below = (1u32 << body) - 1;
            *users = *users & below | *users >> 1 & !below;
        }
        for table in &mut self.objects.tables {
            table.entries.retain(|entry| entry.task != body as u32);
            let later = table.entries.iter_mut().filter(|entry| entry.task > body as u32);
            later.for_each(|entry| entry.task -= 1);
        }
        self.without_empty()
    }

    /// Tables without an entry and resources without a user are refused: they go too.
    fn without_empty(mut self) -> Pieces {
        while let Some(table) = self.objects.tables.iter().position(|table| table.entries.is_empty()) {
            self = self.without_table(table);
        }
        while let Some(resource) = self.objects.resources.iter().position(|users| *users == 0) {
            self = self.without_resource(resource);
        }
        self
    }

    /// Every case that is smaller by one thing, the largest steps first.
    fn smaller(&self) -> Vec<Pieces> {
        let Objects { bodies, resources, tables, .. } = &self.objects;
        let mut all: Vec<Pieces> = Vec::new();
        all.extend((0..tables.len()).rev().map(|table| self.clone().without_table(table)));
        all.extend((0..resources.len()).rev().map(|resource| self.clone().without_resource(resource)));
        if bodies.len() > 1 && bodies.len() <= 32 {
            all.extend((0..bodies.len()).rev().map(|body| self.clone().without_body(body)));
        }
        for (at, table) in tables.iter().enumerate() {
            all.extend((0..table.entries.len()).rev().map(|entry| {
                let mut fewer = self.clone();
                fewer.objects.tables[at].entries.remove(entry);
                fewer.without_empty()
            }));
        }
        for (resource, users) in resources.iter().enumerate() {
            let present = (0..32).rev().filter(|user| users >> user & 1 == 1);
            all.extend(present.map(|user| {
                let mut fewer = self.clone();
                fewer.objects.resources[resource] &= !(1 << user);
                fewer.without_empty()
            }));
        }
        all.extend(self.smaller_numbers());
        all
    }

    fn smaller_numbers(&self) -> Vec<Pieces> {
        let mut all = Vec::new();
        let mut changed = |change: &dyn Fn(&mut Pieces)| {
            let mut other = self.clone();
            change(&mut other);
            if other.objects != self.objects || other.events != self.events {
                all.push(other);
            }
        };
        changed(&|other| other.rank());
        // All time-triggered tasks at once: some alone would mix their table.
        changed(&|other| {
            let timed = other.objects.bodies.iter_mut().filter(|body| words::is_time_triggered(body.kind));
            timed.for_each(|body| body.kind = KINDS[0].number);
        });
        changed(&|other| other.shift_masks());
        for body in 0..self.objects.bodies.len() {
            changed(&|other| other.objects.bodies[body].autostart = 0);
            changed(&|other| other.objects.bodies[body].deadline = 0);
            // Another kind that may stand wherever this one does.
            let simplest =
                |kind: u32| words::kind(kind).filter(|kind| kind.in_tables).map_or(kind, |_| KINDS[0].number);
            changed(&|other| other.objects.bodies[body].kind = simplest(other.objects.bodies[body].kind));
        }
        for table in 0..self.objects.tables.len() {
            changed(&|other| other.objects.tables[table].shorten());
        }
        for (index, (word, arguments)) in self.events.iter().enumerate() {
            for (place, sort) in word.arguments.iter().enumerate() {
                let number = arguments[place];
                let tried = match sort {
                    Sort::Delay => vec![1, 2, number / 2, number.saturating_sub(1)],
                    // No bit, the first one, one less.
                    Sort::Mask => vec![0, 1, number & number.wrapping_neg(), number & number.saturating_sub(1)],
                    _ => vec![],
                };
                for less in tried.into_iter().filter(|less| *less < number) {
                    changed(&|other| other.events[index].1[place] = less);
                }
            }
        }
        all
    }

    /// Every mask with its bits one place lower: those that meet still do.
    fn shift_masks(&mut self) {
        for (word, arguments) in &mut self.events {
            let masks = arguments.iter_mut().zip(word.arguments).filter(|(_, sort)| **sort == Sort::Mask);
            masks.for_each(|(mask, _)| *mask >>= 1);
        }
    }

    /// Priorities 1, 2, .. in the order that they have.
    fn rank(&mut self) {
        let bodies = &mut self.objects.bodies;
        let mut order: Vec<usize> = (0..bodies.len()).collect();
        order.sort_by_key(|body| bodies[*body].priority);
        for (rank, body) in order.into_iter().enumerate() {
            bodies[body].priority = rank as u32 + 1;
        }
    }
}

impl layout::Table {
    /// Offsets 0, 1, .. where they differ, and the shortest period for them.
    fn shorten(&mut self) {
        let mut offsets: Vec<u32> = self.entries.iter().map(|entry| entry.offset).collect();
        offsets.dedup();
        for entry in &mut self.entries {
            entry.offset = offsets.iter().position(|offset| *offset == entry.offset).unwrap_or(0) as u32;
        }
        self.period = offsets.len() as u32;
    }
}

fn smaller_objects(pieces: Pieces, like: &Case, differs: &impl Fn(&Case) -> bool) -> Case {
    let mut best = pieces;
    // Each step makes the case smaller, so the steps end.
    while let Some(smaller) = best.smaller().into_iter().find(|pieces| differs(&pieces.case(like))) {
        best = smaller;
    }
    best.case(like)
}

#[cfg(test)]
mod tests {
    use super::*;
    use crate::reference;
    use osek_tests::cases;

    #[test]
    fn a_case_shrinks_to_the_objects_that_matter() {
        // An event is refused with 4 where there are two bodies, a table and a few events, and often with less.
        let refused = |case: &Case| {
            reference::run(&case.config, &case.trace).is_ok_and(|run| run.answers.iter().any(|a| a.status == 4))
        };
        let mut seen = 0;
        for case in (0..60).map(|number| cases::case(9, number)).filter(refused) {
            let small = reduce(&case, refused);
            assert!(refused(&small));
            assert!(small.config.len() <= 16 && small.trace.len() <= 8, "{small:?}");
            seen += 1;
        }
        assert!(seen > 5);
    }

    #[test]
    fn a_configuration_that_can_not_be_read_loses_bytes() {
        let case = Case { config: vec![1, 9, 9, 0x80, 0, 7, 7], trace: vec![6, 6], out_len: 0, fill: 0 };
        let small = reduce(&case, |case| case.config.windows(2).any(|pair| pair == [0x80, 0]));
        assert_eq!((small.config, small.trace), (vec![0x80, 0], vec![]));
    }
}
