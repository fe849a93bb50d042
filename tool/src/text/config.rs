//! A configuration from text to bytes. Ranges are not checked: what the text says is written, and the run judges it.

use std::collections::HashMap;

use super::line::{quoted, Fault, Line, Position, Reference};
use super::{Assembled, BYTES, NUMBER, TRACE};
use crate::layout;
use crate::names::Names;
use crate::words::{self, Sort, KINDS, VERSIONS};

const VERSION: &str = "version";
/// A body of any kind, with its numbers.
const BODY: &str = "body";
const RESOURCE: &str = "resource";
const TABLE: &str = "table";
const ENTRY: &str = "at";
const KIND: &str = "kind";
const PRIORITY: &str = "priority";
const AUTOSTART: &str = "autostart";
const DEADLINE: &str = "deadline";
const USERS: &str = "users";
const MASK: &str = "mask";
const PERIOD: &str = "period";

pub fn is_reserved(word: &str) -> bool {
    let fixed = [
        VERSION, BODY, RESOURCE, TABLE, ENTRY, KIND, PRIORITY, AUTOSTART, DEADLINE, USERS, MASK, PERIOD, NUMBER, BYTES,
        TRACE,
    ];
    fixed.contains(&word) || KINDS.iter().any(|kind| kind.word == word)
}

/// Whether a configuration begins with this word.
pub fn begins(word: &str) -> bool {
    [VERSION, BODY, RESOURCE, TABLE].contains(&word) || KINDS.iter().any(|kind| kind.word == word)
}

/// A number and where it stands.
type Placed = (u32, Position);

struct Body {
    at: Position,
    kind: Placed,
    priority: Placed,
    autostart: Placed,
    deadline: Placed,
}

enum Users {
    Bodies(Vec<(Reference, Position)>),
    Mask(u32),
}

struct Resource {
    at: Position,
    users: Users,
}

struct Table {
    at: Position,
    period: Placed,
    entries: Vec<(Placed, (Reference, Position))>,
}

#[derive(Default)]
struct Objects {
    version: Option<Placed>,
    bodies: Vec<Body>,
    resources: Vec<Resource>,
    tables: Vec<Table>,
    names: Names,
    /// Where each name was given.
    given: HashMap<String, Position>,
}

/// A configuration's bytes and its names.
pub fn assemble(lines: Vec<Line>) -> Result<(Assembled, Names), Fault> {
    let mut objects = Objects::default();
    let mut raw = Assembled::default();
    for mut line in lines {
        if raw.raw(&mut line)? {
            raw.check_length(&line)?;
        } else if !raw.bytes.is_empty() {
            return Err(line.expected(&format!("{} after the first of them", quoted(&[NUMBER, BYTES]))));
        } else {
            objects.statement(line)?;
        }
    }
    let Some(version) = objects.version else {
        // Bytes alone have the names that bytes have.
        let names = Names::of(&layout::config(&raw.bytes).objects);
        return Ok((raw, names));
    };
    objects.names.given = true;
    let mut assembled = objects.write(version)?;
    let objects_end = assembled.bytes.len();
    assembled.bytes.extend(raw.bytes);
    assembled.marks.extend(raw.marks.into_iter().map(|(offset, position)| (objects_end + offset, position)));
    Ok((assembled, objects.names))
}

impl Objects {
    fn statement(&mut self, mut line: Line) -> Result<(), Fault> {
        let word = line.peek().unwrap_or_default();
        if self.version.is_none() && word != VERSION {
            let first = quoted(&[VERSION, NUMBER, BYTES]);
            return Err(line.expected(&format!("{first} at the head of a configuration")));
        }
        let kind = KINDS.iter().find(|kind| kind.word == word);
        match (word, kind) {
            (VERSION, _) if self.version.is_none() => {
                line.take();
                self.version = Some(line.number("the version's number")?);
            }
            (_, Some(kind)) => self.body(&mut line, Some(kind.number))?,
            (BODY, _) => self.body(&mut line, None)?,
            (RESOURCE, _) => self.resource(&mut line)?,
            (TABLE, _) => self.table(&mut line)?,
            (ENTRY, _) => self.entry(&mut line)?,
            _ => {
                let kinds = KINDS.iter().map(|kind| kind.word);
                let rest = [BODY, RESOURCE, TABLE, ENTRY, NUMBER, BYTES, TRACE];
                return Err(line.expected(&quoted(&kinds.chain(rest).collect::<Vec<_>>())));
            }
        }
        line.end()
    }

    /// Takes the name of a new object; no two objects share one, of whatever sort.
    fn name(&mut self, line: &mut Line, sort: Sort) -> Result<(), Fault> {
        let taken = line.peek().and_then(|word| self.given.get(word));
        if let Some(Position { line: number, .. }) = taken {
            return Err(line.wrong(format!("expected a new name: line {number} has given this one")));
        }
        let (name, position) = line.new_name(sort.name())?;
        self.given.insert(name.clone(), position);
        self.names.add(sort, name);
        Ok(())
    }

    fn body(&mut self, line: &mut Line, kind: Option<u32>) -> Result<(), Fault> {
        let (_, at) = line.take();
        self.name(line, Sort::Body)?;
        let kind = match kind {
            Some(kind) => (kind, at),
            None => {
                line.keyword(KIND)?;
                line.number("the kind's number")?
            }
        };
        line.keyword(PRIORITY)?;
        let priority = line.number("the priority, a number")?;
        let (mut autostart, mut deadline) = ((0, at), (0, at));
        let mut expected = vec![AUTOSTART];
        if line.peek() == Some(AUTOSTART) {
            autostart = autostart_number(line)?;
            expected.clear();
        }
        if self.has_deadlines() {
            expected.push(DEADLINE);
            if line.peek() == Some(DEADLINE) {
                line.take();
                deadline = line.number("the deadline, a number")?;
                expected.clear();
            }
        }
        if line.peek().is_some() {
            return Err(self.no_more(line, &expected));
        }
        self.bodies.push(Body { at, kind, priority, autostart, deadline });
        Ok(())
    }

    fn has_deadlines(&self) -> bool {
        self.version.is_some_and(|(version, _)| words::has_deadlines(version))
    }

    /// What stands where a body's line should go on with one of these words, or end.
    fn no_more(&self, line: &Line, expected: &[&str]) -> Fault {
        if line.peek() == Some(DEADLINE) && !self.has_deadlines() {
            let with: Vec<String> =
                VERSIONS.iter().filter(|version| version.has_deadlines).map(|word| word.number.to_string()).collect();
            let version = words::either(&with);
            return line.wrong(format!("expected the end of the line: a `{DEADLINE}` is for version {version}"));
        }
        let words: Vec<String> = expected.iter().map(|word| format!("`{word}`")).collect();
        line.expected(&words::either(&[&words[..], &["the end of the line".into()]].concat()))
    }

    fn resource(&mut self, line: &mut Line) -> Result<(), Fault> {
        let (_, at) = line.take();
        self.name(line, Sort::Resource)?;
        let users = match line.peek() {
            Some(USERS) => {
                line.take();
                let mut bodies = vec![line.reference("body")?];
                while line.peek().is_some() {
                    bodies.push(line.reference("body")?);
                }
                Users::Bodies(bodies)
            }
            Some(MASK) => {
                line.take();
                Users::Mask(line.number("the mask, a number")?.0)
            }
            _ => return Err(line.expected(&quoted(&[USERS, MASK]))),
        };
        self.resources.push(Resource { at, users });
        Ok(())
    }

    fn table(&mut self, line: &mut Line) -> Result<(), Fault> {
        let (_, at) = line.take();
        self.name(line, Sort::Table)?;
        line.keyword(PERIOD)?;
        let period = line.number("the period, a number")?;
        self.tables.push(Table { at, period, entries: Vec::new() });
        Ok(())
    }

    fn entry(&mut self, line: &mut Line) -> Result<(), Fault> {
        let Some(table) = self.tables.last_mut() else {
            return Err(line.expected(&format!("`{TABLE}` before the first `{ENTRY}`")));
        };
        line.take();
        let offset = line.number("the offset, a number")?;
        let task = line.reference("task")?;
        table.entries.push((offset, task));
        Ok(())
    }

    fn write(&self, version: Placed) -> Result<Assembled, Fault> {
        let mut out = Assembled::default();
        out.number(version.0, version.1);
        // A count stands in no statement: it is placed at the first object that it counts.
        let first = |at: Option<Position>| at.unwrap_or(version.1);
        out.number(self.bodies.len() as u32, first(self.bodies.first().map(|body| body.at)));
        for body in &self.bodies {
            let deadline = words::has_deadlines(version.0).then_some(body.deadline);
            for (value, position) in [body.kind, body.priority, body.autostart].into_iter().chain(deadline) {
                out.number(value, position);
            }
        }
        out.number(self.resources.len() as u32, first(self.resources.first().map(|resource| resource.at)));
        for resource in &self.resources {
            out.number(self.mask(&resource.users)?, resource.at);
        }
        out.number(self.tables.len() as u32, first(self.tables.first().map(|table| table.at)));
        for table in &self.tables {
            out.number(table.period.0, table.period.1);
            out.number(table.entries.len() as u32, table.at);
            for (offset, (task, position)) in &table.entries {
                out.number(offset.0, offset.1);
                out.number(resolve(&self.names, Sort::Body, task, *position)?, *position);
            }
        }
        Ok(out)
    }

    fn mask(&self, users: &Users) -> Result<u32, Fault> {
        let bodies = match users {
            Users::Mask(mask) => return Ok(*mask),
            Users::Bodies(bodies) => bodies,
        };
        let mut mask = 0;
        for (body, position) in bodies {
            let number = resolve(&self.names, Sort::Body, body, *position)?;
            let Some(bit) = 1u32.checked_shl(number) else {
                let message = format!("expected a body with a bit in the mask, 0 to 31, found body {number}");
                return Err(Fault { position: *position, width: reference_width(body), message });
            };
            mask |= bit;
        }
        Ok(mask)
    }
}

/// The word `autostart`, which stands for 1, or the number after it.
fn autostart_number(line: &mut Line) -> Result<Placed, Fault> {
    let (_, position) = line.take();
    match line.peek() {
        None | Some(DEADLINE) => Ok((1, position)),
        Some(_) => line.number("a number or nothing"),
    }
}

fn reference_width(reference: &Reference) -> usize {
    match reference {
        Reference::Name(name) => name.chars().count(),
        Reference::Number(_) => 1,
    }
}

/// The number of what is named.
pub fn resolve(names: &Names, sort: Sort, reference: &Reference, position: Position) -> Result<u32, Fault> {
    let name = match reference {
        Reference::Number(number) => return Ok(*number),
        Reference::Name(name) => name,
    };
    names.number(sort, name).ok_or_else(|| {
        let thing = sort.name();
        let known = names.known(sort);
        let other =
            [Sort::Body, Sort::Resource, Sort::Table].into_iter().find(|sort| names.number(*sort, name).is_some());
        let is = other.map_or_else(String::new, |other| format!(" (it is a {})", other.name()));
        let message = if known.is_empty() {
            format!("no {thing} is named `{name}`{is}: the configuration names none")
        } else {
            format!("no {thing} is named `{name}`{is}: the configuration has {known}")
        };
        Fault { position, width: reference_width(reference), message }
    })
}

/// The statements of a configuration, as [`super::dump`] writes them.
pub mod statement {
    use super::*;

    pub fn version(number: u32) -> String {
        format!("{VERSION} {number}")
    }

    pub fn body(name: &str, body: &layout::Body) -> String {
        let (head, usual) = match words::kind(body.kind) {
            Some(kind) => (format!("{} {name}", kind.word), kind.autostarts),
            None => (format!("{BODY} {name} {KIND} {}", body.kind), false),
        };
        let autostart = match body.autostart {
            0 => String::new(),
            1 if usual => format!(" {AUTOSTART}"),
            other => format!(" {AUTOSTART} {other}"),
        };
        let deadline = if body.deadline == 0 { String::new() } else { format!(" {DEADLINE} {}", body.deadline) };
        format!("{head} {PRIORITY} {}{autostart}{deadline}", body.priority)
    }

    pub fn resource(name: &str, users: u32, names: &Names) -> String {
        let known = |body: &u32| (*body as usize) < names.bodies.len();
        let bodies: Vec<u32> = (0..32).filter(|body| users >> body & 1 == 1).collect();
        if users == 0 || !bodies.iter().all(known) {
            return format!("{RESOURCE} {name} {MASK} {users:#x}");
        }
        let bodies: Vec<String> = bodies.iter().map(|body| names.body(*body)).collect();
        format!("{RESOURCE} {name} {USERS} {}", bodies.join(" "))
    }

    pub fn table(name: &str, period: u32) -> String {
        format!("{TABLE} {name} {PERIOD} {period}")
    }

    pub fn entry(offset: u32, task: &str) -> String {
        format!("  {ENTRY} {offset} {task}")
    }
}
