//! A timeline as a value change dump (IEEE 1364), with GTKWave's strings for states and names.

use std::fmt::Write;
use std::path::Path;

use super::times;
use crate::history::{History, Moment, Step};
use crate::words::{self, Sort};

/// A variable: its name, its width in bits or none for a string, and its value at each moment.
struct Variable {
    scope: &'static str,
    name: String,
    width: Option<u32>,
    values: Vec<String>,
}

/// Formats of GTKWave's save files: a string, decimal, hex, binary, and the name of a group.
const STRING: u32 = 0x22;
const DECIMAL: u32 = 0x24;
const HEX: u32 = 0x22;
const BINARY: u32 = 0x28;
const GROUP: u32 = 0x200;

/// A save file for GTKWave, which opens it on the whole run, the runner and its level first, numbers in decimal.
pub fn save_file(history: &History, dump: &str) -> String {
    let file = Path::new(dump).file_name().map_or_else(|| dump.into(), |name| name.to_string_lossy().into_owned());
    let last = times(history).last().copied().unwrap_or(1);
    // GTKWave's zoom is the binary logarithm of the time in a frame, negative.
    let zoom = -((last as f64 * FRAME / SHOWN).log2());
    let rest = " -1".repeat(26);
    let mut text = format!(
        "[*] osek timeline: gtkwave {file} {0}\n[dumpfile] \"{file}\"\n[timestart] 0\n[size] 1400 800\n\
         [pos] -1 -1\n*{zoom:.6} 0{rest}\n[sst_width] 220\n[signals_width] 200\n",
        file.replace(".vcd", ".gtkw")
    );
    let mut scope = "";
    for variable in variables(history) {
        if variable.scope != scope {
            scope = variable.scope;
            let _ = writeln!(text, "@{GROUP:x}\n-{scope}");
        }
        let (format, range) = match variable.width {
            None => (STRING, String::new()),
            Some(1) => (BINARY, String::new()),
            Some(width) if scope == "bits" => (HEX, format!("[{}:0]", width - 1)),
            Some(width) => (DECIMAL, format!("[{}:0]", width - 1)),
        };
        let _ = writeln!(text, "@{format:x}\nosek.{scope}.{}{range}", variable.name);
    }
    text
}

/// Pixels: a frame of GTKWave's, and its waves at the size above.
const FRAME: f64 = 200.0;
const SHOWN: f64 = 880.0;

/// Variables that are told apart by short names of printable signs.
fn identifier(mut index: usize) -> String {
    const FIRST: u8 = b'!';
    const COUNT: usize = (b'~' - b'!' + 1) as usize;
    let mut name = String::new();
    loop {
        name.push((FIRST + (index % COUNT) as u8) as char);
        index /= COUNT;
        if index == 0 {
            return name;
        }
        index -= 1;
    }
}

pub fn write(history: &History) -> String {
    let mut text = String::from(
        "$comment osek timeline: a tick is 1 ms, and the events between two ticks are spread evenly $end\n\
         $timescale 1 ns $end\n$scope module osek $end\n",
    );
    let variables = variables(history);
    let mut scope = "";
    for (index, variable) in variables.iter().enumerate() {
        if variable.scope != scope {
            if !scope.is_empty() {
                text.push_str("$upscope $end\n");
            }
            scope = variable.scope;
            let _ = writeln!(text, "$scope module {scope} $end");
        }
        let (id, name) = (identifier(index), &variable.name);
        let _ = match variable.width {
            None => writeln!(text, "$var string 1 {id} {name} $end"),
            Some(1) => writeln!(text, "$var wire 1 {id} {name} $end"),
            Some(width) => writeln!(text, "$var wire {width} {id} {name} [{}:0] $end", width - 1),
        };
    }
    text.push_str("$upscope $end\n$upscope $end\n$enddefinitions $end\n");
    write_changes(&mut text, history, &variables);
    text
}

fn write_changes(text: &mut String, history: &History, variables: &[Variable]) {
    let times = times(history);
    text.push_str("#0\n$dumpvars\n");
    for moment in 0..times.len() {
        if moment > 0 {
            let _ = writeln!(text, "#{}", times[moment - 1]);
        }
        for (index, variable) in variables.iter().enumerate() {
            if moment == 0 || variable.values[moment] != variable.values[moment - 1] {
                let (value, id) = (&variable.values[moment], identifier(index));
                let _ = match variable.width {
                    None => writeln!(text, "s{value} {id}"),
                    Some(1) => writeln!(text, "{value}{id}"),
                    Some(_) => writeln!(text, "b{value} {id}"),
                };
            }
        }
        if moment == 0 {
            text.push_str("$end\n");
        }
    }
    let _ = writeln!(text, "#{}", times[times.len() - 1]);
}

fn variables(history: &History) -> Vec<Variable> {
    let moments: Vec<&Moment> = history.moments().collect();
    let of_moments = |value: &dyn Fn(&Moment) -> String| moments.iter().map(|moment| value(moment)).collect();
    // The fresh start is no event: its values of an event's variables are `fresh`.
    let of_steps = |fresh: &str, value: &dyn Fn(usize, &Step) -> String| {
        let steps = history.steps.iter().enumerate().map(|(index, step)| value(index, step));
        std::iter::once(fresh.to_string()).chain(steps).collect()
    };
    let binary = |value: u32| format!("{value:b}");
    let names = &history.names;
    let named = |body: Option<u8>| body.map_or_else(|| "-".into(), |body| names.body(body.into()));
    let mut variables = Vec::new();
    let mut add = |scope, name: &str, width, values| {
        variables.push(Variable { scope, name: name.into(), width, values });
    };
    add("run", "tick", Some(16), of_steps("0", &|_, step| binary(step.tick)));
    add("run", "step", Some(16), of_steps("0", &|index, _| binary(index as u32)));
    add("run", "event", None, of_steps("fresh_start", &|_, step| names.event(&step.event).replace(' ', "_")));
    add("run", "status", Some(8), of_steps("0", &|_, step| binary(step.answer.status.into())));
    let status_name = |_: usize, step: &Step| words::status(step.answer.status).unwrap_or("-").to_string();
    add("run", "status_name", None, of_steps("-", &status_name));
    add("run", "runner", None, of_moments(&|moment| named(moment.runner)));
    add("run", "level", Some(8), of_moments(&|moment| binary(moment.level.into())));
    add("run", "begun", Some(1), of_steps("0", &|_, step| binary(step.answer.begun.into())));
    for body in history.by_priority() {
        let name = format!("{}_state", names.body(body as u32));
        add("states", &name, None, of_moments(&|moment| moment.states[body].word().into()));
    }
    for resource in 0..history.objects.resources.len() as u32 {
        let name = format!("{}_holder", names.name(Sort::Resource, resource));
        let holder = |moment: &Moment| moment.held.iter().position(|held| held.contains(&resource));
        add("resources", &name, None, of_moments(&|moment| named(holder(moment).map(|body| body as u8))));
    }
    for body in history.by_priority().into_iter().filter(|body| history.is_extended(*body)) {
        let name = names.body(body as u32);
        add("bits", &format!("{name}_bits"), Some(32), of_moments(&|moment| binary(moment.bits[body])));
        add("bits", &format!("{name}_waits_for"), Some(32), of_moments(&|moment| binary(moment.waited[body])));
    }
    for body in history.by_priority() {
        let name = format!("{}_requested", names.body(body as u32));
        add("requests", &name, Some(1), of_moments(&|moment| binary(moment.requests[body].into())));
    }
    for body in history.by_priority() {
        let name = format!("{}_lost", names.body(body as u32));
        add("losses", &name, Some(16), of_moments(&|moment| binary(moment.losses[body].into())));
    }
    for body in history.by_priority().into_iter().filter(|body| history.has_deadline(*body)) {
        let name = format!("{}_missed", names.body(body as u32));
        let so_far = history.steps.iter().scan(0, |count, step| {
            *count += u32::from(step.missed.contains(&body));
            Some(*count)
        });
        add("misses", &name, Some(16), std::iter::once(0).chain(so_far).map(binary).collect());
    }
    variables
}

#[cfg(test)]
mod tests {
    use super::identifier;
    use std::collections::HashSet;

    #[test]
    fn identifiers_differ_and_are_printable() {
        let all: HashSet<String> = (0..20_000).map(identifier).collect();
        assert_eq!(all.len(), 20_000);
        assert!(all.iter().all(|id| id.bytes().all(|sign| (b'!'..=b'~').contains(&sign))));
    }
}
