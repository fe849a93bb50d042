//! The names of bodies, resources and tables. Bytes have none: there a body is named for its kind and number (task0,
//! isr2), a resource resource0, a table table0.

use crate::layout::{Event, Objects};
use crate::words::{self, Sort};

#[derive(Clone, PartialEq, Eq, Debug, Default)]
pub struct Names {
    /// Whether a text gave them.
    pub given: bool,
    pub bodies: Vec<String>,
    pub resources: Vec<String>,
    pub tables: Vec<String>,
}

impl Names {
    /// The names of a configuration that has none of its own.
    pub fn of(objects: &Objects) -> Names {
        let kind = |number| words::kind(number).map_or("body", |kind| kind.word);
        let numbered = |thing: &str, count: usize| (0..count).map(|number| format!("{thing}{number}")).collect();
        Names {
            given: false,
            bodies: objects.bodies.iter().enumerate().map(|(i, body)| format!("{}{i}", kind(body.kind))).collect(),
            resources: numbered("resource", objects.resources.len()),
            tables: numbered("table", objects.tables.len()),
        }
    }

    fn list(&self, sort: Sort) -> &[String] {
        match sort {
            Sort::Body => &self.bodies,
            Sort::Resource => &self.resources,
            Sort::Table => &self.tables,
            Sort::Delay | Sort::Mask => &[],
        }
    }

    /// Names the next thing of this sort.
    pub fn add(&mut self, sort: Sort, name: String) {
        match sort {
            Sort::Body => self.bodies.push(name),
            Sort::Resource => self.resources.push(name),
            Sort::Table => self.tables.push(name),
            Sort::Delay | Sort::Mask => {}
        }
    }

    /// The number of the thing of this sort and name.
    pub fn number(&self, sort: Sort, name: &str) -> Option<u32> {
        self.list(sort).iter().position(|known| known == name).map(|number| number as u32)
    }

    /// The name of the thing of this sort and number; the number itself if there is no such thing, in hex for a mask.
    pub fn name(&self, sort: Sort, number: u32) -> String {
        if sort == Sort::Mask {
            return format!("{number:#x}");
        }
        self.list(sort).get(number as usize).cloned().unwrap_or_else(|| number.to_string())
    }

    pub fn body(&self, number: u32) -> String {
        self.name(Sort::Body, number)
    }

    /// Every name of this sort, for a sentence; the first few if there are many.
    pub fn known(&self, sort: Sort) -> String {
        let list = self.list(sort);
        let shown = list.iter().take(words::LISTED_MAX).cloned().collect::<Vec<_>>().join(", ");
        if list.len() > words::LISTED_MAX {
            format!("{shown}, ..")
        } else {
            shown
        }
    }

    /// The arguments of an event in words.
    pub fn arguments(&self, event: &Event) -> Vec<String> {
        let sorts = event.word.arguments.iter();
        sorts.zip(&event.arguments).map(|(sort, argument)| self.name(*sort, argument.value)).collect()
    }

    /// An event as a listing calls it: `Start beacon 3`.
    pub fn event(&self, event: &Event) -> String {
        [vec![event.word.name.to_string()], self.arguments(event)].concat().join(" ")
    }

    /// An event as the text form writes it: `start beacon 3`.
    pub fn statement(&self, event: &Event) -> String {
        [vec![event.word.word.to_string()], self.arguments(event)].concat().join(" ")
    }
}
