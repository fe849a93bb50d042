//! The fields of a configuration in words: what each is called, what a value means, and what was allowed. The library
//! alone decides what is allowed; here it is only said.

use osek_tests::fast::{
    BODIES_MAX, ENTRIES_MAX, PRIORITY_MAX, RESOURCES_MAX, TABLES_MAX, TABLE_ENTRIES_MAX, TICKS_MAX,
};

use crate::layout::{self, Field, Objects};
use crate::names::Names;
use crate::words::{self, grouped, KINDS, VERSIONS};

/// A field as a sentence calls it.
pub fn name(field: Field, objects: &Objects, names: &Names) -> String {
    let body = |at: usize| body(at, objects, names);
    let resource = |at: usize| numbered("resource", at, names.resources.get(at), names);
    let table = |at: usize| numbered("table", at, names.tables.get(at), names);
    match field {
        Field::Version => "the version".into(),
        Field::BodyCount => "the body count".into(),
        Field::Kind(at) => format!("the kind of {}", body(at)),
        Field::Priority(at) => format!("the priority of {}", body(at)),
        Field::Autostart(at) => format!("the autostart of {}", body(at)),
        Field::Deadline(at) => format!("the deadline of {}", body(at)),
        Field::ResourceCount => "the resource count".into(),
        Field::Users(at) => format!("the users of {}", resource(at)),
        Field::TableCount => "the table count".into(),
        Field::Period(at) => format!("the period of {}", table(at)),
        Field::EntryCount(at) => format!("the entry count of {}", table(at)),
        Field::Offset(at, entry) => format!("the offset of entry {entry} of {}", table(at)),
        Field::Task(at, entry) => format!("the task of entry {entry} of {}", table(at)),
    }
}

/// `ISR door` where a text names it, otherwise `body 3 isr3`.
fn body(at: usize, objects: &Objects, names: &Names) -> String {
    let kind = objects.bodies.get(at).and_then(|body| words::kind(body.kind));
    let thing = kind.filter(|_| names.given).map_or("body", |kind| kind.name);
    numbered(thing, at, names.bodies.get(at), names)
}

/// A thing by its name, with its number where no text gave the name.
fn numbered(thing: &str, number: usize, name: Option<&String>, names: &Names) -> String {
    match name {
        Some(name) if names.given => format!("{thing} {name}"),
        Some(name) => format!("{thing} {number} {name}"),
        None => format!("{thing} {number}"),
    }
}

/// A table by its name.
pub fn table(at: usize, names: &Names) -> String {
    numbered("table", at, names.tables.get(at), names)
}

/// What a field is, as a sentence goes on: `is 5`, `is modem, an ISR`, `are sensor and radio`.
pub fn value(field: Field, value: u32, objects: &Objects, names: &Names) -> String {
    let known = |body: u32| objects.bodies.get(body as usize).and_then(|body| words::kind(body.kind));
    match field {
        Field::Task(..) => match known(value) {
            Some(kind) if names.given => format!("is {}, {}", names.body(value), kind.with_article()),
            Some(kind) => format!("is {value} {}, {}", names.body(value), kind.with_article()),
            None => format!("is {}", grouped(value.into())),
        },
        Field::Users(_)
            if names.given && value != 0 && (0..32).all(|bit| value >> bit & 1 == 0 || known(bit).is_some()) =>
        {
            let users: Vec<String> = (0..32).filter(|bit| value >> bit & 1 == 1).map(|bit| names.body(bit)).collect();
            format!("are {}", words::listed(&users))
        }
        Field::Users(_) => format!("are {value:#b}"),
        _ => format!("is {}", grouped(value.into())),
    }
}

/// A field and its value, for a dump.
pub fn meaning(field: Field, value: u32, names: &Names) -> String {
    match field {
        Field::Version => {
            let counts = words::version(value).is_some_and(|version| version.counts_lines);
            let lines = if counts { format!(", {}", words::LINES_COUNTED) } else { String::new() };
            let deadlines =
                if words::has_deadlines(value) { format!(", {}", words::DEADLINES_READ) } else { String::new() };
            format!("version {value}{lines}{deadlines}")
        }
        Field::BodyCount => format!("body count {value}"),
        Field::Kind(body) => {
            let kind = words::kind(value).map_or_else(|| "unknown kind".into(), |kind| kind.name.to_string());
            format!("body {body}: kind {value}, {kind}")
        }
        Field::Priority(_) => format!("priority {value}"),
        Field::Autostart(_) => format!("autostart {value}"),
        Field::Deadline(_) if value == 0 => "deadline 0, none".into(),
        Field::Deadline(_) => format!("deadline {value}"),
        Field::ResourceCount => format!("resource count {value}"),
        Field::Users(resource) => format!("resource {resource}: users {value:#b}"),
        Field::TableCount => format!("table count {value}"),
        Field::Period(table) => format!("table {table}: period {value}"),
        Field::EntryCount(_) => format!("entry count {value}"),
        Field::Offset(_, entry) => format!("entry {entry}: offset {value}"),
        Field::Task(..) => {
            let name = names.body(value);
            let known = if name == value.to_string() { String::new() } else { format!(" {name}") };
            format!("task {value}{known}")
        }
    }
}

/// What a field may be, given the objects before it.
pub fn allowed(field: Field, objects: &Objects, names: &Names) -> String {
    match field {
        Field::Version => words::either(&VERSIONS.map(|version| version.number.to_string())),
        Field::BodyCount => format!("1 to {BODIES_MAX}"),
        Field::Kind(_) => {
            let kinds: Vec<String> = KINDS.iter().map(|kind| format!("{} ({})", kind.number, kind.name)).collect();
            words::either(&kinds)
        }
        Field::Priority(_) => format!("1 to {PRIORITY_MAX}, each used once"),
        Field::Autostart(body) => match objects.bodies.get(body).and_then(|body| words::kind(body.kind)) {
            Some(kind) if !kind.autostarts => format!("0, because it is {}", kind.with_article()),
            _ => "0 or 1".into(),
        },
        Field::Deadline(body) => match objects.bodies.get(body).and_then(|body| words::kind(body.kind)) {
            Some(kind) if !kind.has_deadline => format!("0, because it is {}", kind.with_article()),
            _ => format!("0 (none) to {}", grouped(TICKS_MAX.into())),
        },
        Field::ResourceCount => format!("0 to {RESOURCES_MAX}"),
        Field::Users(_) => {
            let last = objects.bodies.len().saturating_sub(1);
            let barred = |body: &layout::Body| words::kind(body.kind).is_some_and(|kind| !kind.in_masks);
            let any = objects.bodies.iter().any(barred);
            if names.given {
                let but = if any { ", none of them a time-triggered task" } else { "" };
                format!("bodies of the configuration, at least one{but}")
            } else {
                let but = if any { ", none of a time-triggered task" } else { "" };
                format!("a mask with bits of the bodies 0 to {last} only{but}, and not 0")
            }
        }
        Field::TableCount => format!("0 to {TABLES_MAX}"),
        Field::Period(_) => format!("1 to {}", grouped(TICKS_MAX.into())),
        Field::EntryCount(_) => format!("1 to {TABLE_ENTRIES_MAX}"),
        Field::Offset(table, _) => {
            let period = objects.tables.get(table).map_or(0, |table| table.period);
            format!("0 to {}, below the period", grouped(u64::from(period.saturating_sub(1))))
        }
        Field::Task(..) => {
            let allowed: Vec<String> = objects
                .bodies
                .iter()
                .enumerate()
                .filter(|(_, body)| words::kind(body.kind).is_some_and(|kind| kind.in_tables))
                .map(|(number, _)| {
                    let name = names.body(number as u32);
                    if names.given {
                        name
                    } else {
                        format!("{number} {name}")
                    }
                })
                .collect();
            match allowed.len() {
                0 => "the number of a task, and there is none".into(),
                1..=words::LISTED_MAX => format!("a task: {}", words::either(&allowed)),
                _ => format!("a task: {}, ..", allowed[..words::LISTED_MAX].join(", ")),
            }
        }
    }
}

/// The first body that has this priority.
pub fn priority_owner(objects: &Objects, priority: u32, names: &Names) -> Option<String> {
    let owner = objects.bodies.iter().position(|body| body.priority == priority)?;
    Some(body(owner, objects, names))
}

/// Whether an entry of a table names a time-triggered task.
pub fn is_time_triggered(objects: &Objects, entry: &layout::Entry) -> bool {
    objects.bodies.get(entry.task as usize).is_some_and(|body| words::is_time_triggered(body.kind))
}

/// How many entries the tables before this one leave it.
pub fn entries_left(objects: &Objects, table: usize) -> String {
    let used: usize = objects.tables.iter().take(table).map(|table| table.entries.len()).sum();
    let left = ENTRIES_MAX.saturating_sub(used);
    format!("at most {left}, because all tables together have at most {ENTRIES_MAX}")
}
