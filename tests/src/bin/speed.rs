//! Times the proved run beside the Rust implementations: `speed [--write FILE]`.
//!
//! All implementations run in one process on the same inputs, in turn; before every call the output buffer is cleared,
//! outside the time taken. A row of a table is one or more traces, and a round goes through all rows; a ratio is the
//! median over the rounds. Drawn traces are met once a round, as the bench meets them: there are too many of them for a
//! processor to learn their branches. One trace is run again and again, and the quickest call of a round counts, since
//! load only adds. Instructions are counted by callgrind, if valgrind is there: the program runs itself as
//! `speed --repeat IMPLEMENTATION NAME TIMES` with two values of TIMES and takes the difference.

use std::fmt::Write;
use std::process::{Command, ExitCode};
use std::time::Instant;

use osek_tests::cases::{self, Case, Shape};
use osek_tests::compare::{self, outcome, Implementation};
use osek_tests::fast::{OUTPUT_MAX, TRACE_MAX};
use osek_tests::stack;
#[cfg(feature = "linked")]
use osek_tests::{subject, verdict::PASS};

/// How often a row is run: rounds, and in each of them so many times by each implementation.
#[derive(Clone, Copy)]
struct Times {
    rounds: usize,
    calls: usize,
}

/// For rows of drawn traces, and so many of them.
const ONCE: Times = Times { rounds: 21, calls: 1 };
const DRAWN: u64 = 300;
const LENGTHS: [usize; 2] = [TRACE_MAX, 1024];
/// For rows of one trace.
const AGAIN: Times = Times { rounds: 101, calls: 7 };
const SEED: u64 = 1;

const SHAPES: [(Shape, &str); 5] = [
    (Shape::NoTicks, "no ticks"),
    (Shape::Mixed, "mixed"),
    (Shape::Ticks, "ticks, 64 cells on"),
    (Shape::Waiting, "tasks that wait"),
    (Shape::TimeTriggered, "time-triggered bodies"),
];

/// So many of one extended task more leave, one after the other; the events by which they do, with their bytes.
const LEAVING: usize = 31;
const LEAVES: [(&str, &[u8]); 2] = [("Finish", &[2]), ("Wait that does not go on", &[10, 1])];
/// A run in which none of them does.
const NONE_LEAVES: &str = "none";

/// The proved run first, if it is linked; then what it is held against.
fn implementations() -> Vec<Implementation> {
    vec![
        #[cfg(feature = "linked")]
        compare::SUBJECT,
        compare::FAST,
        compare::CELLS,
    ]
}

/// How an implementation is called in the tables.
fn title(implementation: Implementation) -> &'static str {
    match implementation.name {
        "fast" => "Rust",
        "fast with cells" => "Rust, cells",
        name => name,
    }
}

fn main() -> ExitCode {
    let arguments: Vec<String> = std::env::args().skip(1).collect();
    let arguments: Vec<&str> = arguments.iter().map(String::as_str).collect();
    match arguments[..] {
        [] => print!("{}", tables()),
        ["--write", file] => {
            let tables = tables();
            print!("{tables}");
            if let Err(error) = write_tables(file, &tables) {
                eprintln!("{file}: {error}");
                return ExitCode::FAILURE;
            }
        }
        ["--repeat", implementation, name, times] => repeat(implementation, name, times),
        _ => {
            eprintln!("usage: speed [--write FILE]");
            return ExitCode::from(2);
        }
    }
    ExitCode::SUCCESS
}

/// The events of all traces of a row.
fn events(row: &[Case]) -> usize {
    let of = |case| {
        let (result, _) = outcome(compare::FAST, case);
        assert_eq!(result >> 32, 0, "a timed trace is accepted");
        result as usize
    };
    row.iter().map(of).sum()
}

/// The nanoseconds of one call for each trace of a row.
fn call(implementation: Implementation, row: &[Case], out: &mut [u8]) -> f64 {
    let mut taken = 0;
    for case in row {
        out.fill(0);
        let start = Instant::now();
        std::hint::black_box((implementation.run)(&case.config, &case.trace, std::hint::black_box(&mut *out)));
        taken += start.elapsed().as_nanos();
    }
    taken as f64
}

/// Drawn traces of a shape.
fn drawn(shape: Shape, length: usize) -> Vec<Case> {
    (SEED..SEED + DRAWN).map(|seed| cases::timed(seed, shape, length)).collect()
}

/// A number below a million, as the pages write it.
fn thousands(number: usize) -> String {
    format!("{},{:03}", number / 1000, number % 1000)
}

/// The table of the verdict on right records, beside the run that it makes.
#[cfg(feature = "linked")]
fn verdicts(text: &mut String) {
    let _ = writeln!(
        text,
        "Nanoseconds per event of the verdict on right records of the same traces, its own output buffer cleared within the \
         time taken:\n"
    );
    let _ = writeln!(text, "| traces | bytes | events | osek_run | osek_verdict | osek_verdict / osek_run |");
    let _ = writeln!(text, "|---|--:|--:|--:|--:|--:|");
    let mut out = vec![0; OUTPUT_MAX];
    for (shape, name) in SHAPES {
        for length in LENGTHS {
            let row = drawn(shape, length);
            let records: Vec<Vec<u8>> = row.iter().map(right_record).collect();
            let (mut runs, mut verdicts) = (Vec::new(), Vec::new());
            for _ in 0..ONCE.rounds {
                runs.push(call(compare::SUBJECT, &row, &mut out));
                verdicts.push(judge(&row, &records));
            }
            let ratios = runs.iter().zip(&verdicts).map(|(run, verdict)| verdict / run).collect();
            let events = events(&row) as f64;
            let (run, verdict) = (median(runs) / events, median(verdicts) / events);
            let length = thousands(length);
            let _ =
                writeln!(text, "| {name} | {length} | {events} | {run:.2} | {verdict:.2} | {:.2} |", median(ratios));
        }
    }
    let _ = writeln!(text);
}

/// Its name where it is counted by callgrind.
#[cfg(feature = "linked")]
const VERDICT: &str = "osek_verdict";

/// The table of the verdict's instructions.
#[cfg(feature = "linked")]
fn verdict_instructions(text: &mut String) {
    let _ = writeln!(text, "\nInstructions per event of the verdict on a right record:\n");
    let _ = writeln!(text, "| trace | events | osek_run | osek_verdict | osek_verdict / osek_run |");
    let _ = writeln!(text, "|---|--:|--:|--:|--:|");
    for (shape, name) in SHAPES {
        let events = events(&[cases::timed(SEED, shape, TRACE_MAX)]);
        let counts = instructions(compare::SUBJECT.name, name).zip(instructions(VERDICT, name));
        let cells = counts.map_or_else(
            || "- | - | -".into(),
            |(run, verdict)| {
                let of_event = |count: u64| count as f64 / events as f64;
                format!("{:.1} | {:.1} | {:.2}", of_event(run), of_event(verdict), verdict as f64 / run as f64)
            },
        );
        let _ = writeln!(text, "| {name} | {events} | {cells} |");
    }
}

/// The answers that a right unit records.
#[cfg(feature = "linked")]
fn right_record(case: &Case) -> Vec<u8> {
    let (events, mut out) = outcome(compare::FAST, case);
    out.truncate(4 * events as usize);
    out
}

/// The nanoseconds of one verdict for each trace of a row.
#[cfg(feature = "linked")]
fn judge(row: &[Case], records: &[Vec<u8>]) -> f64 {
    let mut taken = 0;
    for (case, recorded) in row.iter().zip(records) {
        let start = Instant::now();
        let result = subject::verdict(&case.config, &case.trace, std::hint::black_box(recorded));
        taken += start.elapsed().as_nanos();
        assert_eq!(result, PASS, "a right record passes");
    }
    taken as f64
}

fn median(mut values: Vec<f64>) -> f64 {
    values.sort_by(f64::total_cmp);
    values[values.len() / 2]
}

/// For each row and each implementation its nanoseconds, and how many times as long the first implementation takes. A round
/// goes through all rows, so that a slow spell of the machine falls on all of them alike.
fn time(rows: &[Vec<Case>], times: Times) -> Vec<Vec<(f64, f64)>> {
    let implementations = implementations();
    for case in rows.iter().flatten() {
        for implementation in &implementations {
            assert_eq!(outcome(*implementation, case), outcome(compare::FAST, case), "{} differs", implementation.name);
        }
    }
    let mut out = vec![0; rows.iter().flatten().map(|case| case.out_len).max().unwrap_or(0)];
    let mut taken = vec![vec![Vec::new(); implementations.len()]; rows.len()];
    for _ in 0..times.rounds {
        for (row, taken) in rows.iter().zip(&mut taken) {
            let mut quickest = vec![f64::INFINITY; implementations.len()];
            for turn in 0..times.calls * implementations.len() {
                let index = turn % implementations.len();
                quickest[index] = quickest[index].min(call(implementations[index], row, &mut out));
            }
            for (taken, quickest) in taken.iter_mut().zip(quickest) {
                taken.push(quickest);
            }
        }
    }
    let of_row = |taken: Vec<Vec<f64>>| {
        (0..implementations.len())
            .map(|index| {
                let ratios = taken[0].iter().zip(&taken[index]).map(|(first, this)| first / this).collect();
                (median(taken[index].clone()), median(ratios))
            })
            .collect()
    };
    taken.into_iter().map(of_row).collect()
}

/// Extended tasks that are all activated at the start, and all of which but the last leave by this event.
fn leaving(event: &[u8]) -> Case {
    let bodies = LEAVING as u8 + 1;
    let mut config = vec![1, bodies];
    config.extend((1..=bodies).flat_map(|priority| [2, priority, 1]));
    config.extend([0, 0]);
    Case { config, trace: event.repeat(LEAVING), out_len: OUTPUT_MAX, fill: 0 }
}

/// What is run for callgrind: the trace of a shape, or tasks that leave.
fn named(name: &str) -> Case {
    if let Some((shape, _)) = SHAPES.iter().find(|(_, other)| *other == name) {
        return cases::timed(SEED, *shape, TRACE_MAX);
    }
    if let Some((_, event)) = LEAVES.iter().find(|(other, _)| *other == name) {
        return leaving(event);
    }
    assert_eq!(name, NONE_LEAVES, "the name of a shape, or of an event by which tasks leave");
    leaving(&[])
}

/// Runs an implementation so many times, for callgrind.
fn repeat(implementation: &str, name: &str, times: &str) {
    let (case, times) = (named(name), times.parse().expect("a count"));
    #[cfg(feature = "linked")]
    if implementation == VERDICT {
        let recorded = right_record(&case);
        for _ in 0..times {
            std::hint::black_box(subject::verdict(&case.config, &case.trace, std::hint::black_box(&recorded)));
        }
        return;
    }
    let implementation =
        *implementations().iter().find(|other| other.name == implementation).expect("the implementation has a name");
    let mut out = vec![0; case.out_len];
    for _ in 0..times {
        std::hint::black_box((implementation.run)(&case.config, &case.trace, std::hint::black_box(&mut out)));
    }
}

/// Instructions of one call and nothing else; none without valgrind.
fn instructions(implementation: &str, name: &str) -> Option<u64> {
    let collected = |times: usize| {
        let output = Command::new("valgrind")
            .args(["--tool=callgrind", "--callgrind-out-file=/dev/null"])
            .arg(std::env::current_exe().ok()?)
            .args(["--repeat", implementation, name, &times.to_string()])
            .output()
            .ok()?;
        let said = String::from_utf8_lossy(&output.stderr).into_owned();
        let line = said.lines().find(|line| line.contains("Collected : "))?;
        line.rsplit(' ').next()?.parse::<u64>().ok()
    };
    Some((collected(12)? - collected(2)?) / 10)
}

/// The tables of docs/PERFORMANCE.md.
fn tables() -> String {
    let implementations = implementations();
    let mut text = String::new();
    let columns = |text: &mut String, first: &str| {
        let _ = write!(text, "| {first} | events |");
        for implementation in &implementations {
            let _ = write!(text, " {} |", title(*implementation));
        }
        for implementation in &implementations[1..] {
            let _ = write!(text, " {} / {} |", title(implementations[0]), title(*implementation));
        }
        let _ = write!(text, "\n|---|--:|");
        let _ = writeln!(text, "{}", "--:|".repeat(2 * implementations.len() - 1));
    };

    let _ = writeln!(
        text,
        "All in one run on one machine, the same inputs, built for release; the output buffer is cleared before every \
         call, outside the time taken. Rust keeps for each table how far its next entry is; Rust, cells counts every \
         cell at every tick.\n"
    );
    let rows = |text: &mut String, names: &[String], rows: &[Vec<Case>], times: Times| {
        for ((name, row), times) in names.iter().zip(rows).zip(time(rows, times)) {
            let events = events(row);
            let _ = write!(text, "| {name} | {events} |");
            for (nanoseconds, _) in &times {
                let _ = write!(text, " {:.2} |", nanoseconds / events as f64);
            }
            for (_, ratio) in &times[1..] {
                let _ = write!(text, " {ratio:.2} |");
            }
            let _ = writeln!(text);
        }
    };
    let names = SHAPES.map(|(_, name)| name.to_string());
    for length in LENGTHS {
        let _ = writeln!(
            text,
            "Nanoseconds per event of {DRAWN} drawn traces of {} bytes, each met once a round, and median of the ratios \
             of {} rounds:\n",
            thousands(length),
            ONCE.rounds
        );
        columns(&mut text, "traces");
        rows(&mut text, &names, &SHAPES.map(|(shape, _)| drawn(shape, length)), ONCE);
        let _ = writeln!(text);
    }
    #[cfg(feature = "linked")]
    verdicts(&mut text);

    let cases = SHAPES.map(|(shape, _)| vec![cases::timed(SEED, shape, TRACE_MAX)]);
    let _ = writeln!(
        text,
        "One trace of 8,192 bytes again and again, whose branches a processor learns, and median of the ratios of {} \
         rounds:\n",
        AGAIN.rounds
    );
    columns(&mut text, "trace");
    rows(&mut text, &names, &cases, AGAIN);

    let counted = |text: &mut String, name: &str, events: usize, count: &dyn Fn(Implementation) -> Option<u64>| {
        let counts: Vec<Option<u64>> = implementations.iter().map(|implementation| count(*implementation)).collect();
        let _ = write!(text, "| {name} | {events} |");
        for count in &counts {
            match count {
                Some(count) => _ = write!(text, " {:.1} |", *count as f64 / events as f64),
                None => _ = write!(text, " - |"),
            }
        }
        for count in &counts[1..] {
            match (counts[0], count) {
                (Some(first), Some(count)) => _ = write!(text, " {:.2} |", first as f64 / *count as f64),
                _ => _ = write!(text, " - |"),
            }
        }
        let _ = writeln!(text);
    };
    let _ = writeln!(text, "\nInstructions per event, counted by callgrind:\n");
    columns(&mut text, "trace");
    for ((_, name), row) in SHAPES.iter().zip(&cases) {
        counted(&mut text, name, events(row), &|implementation| instructions(implementation.name, name));
    }
    #[cfg(feature = "linked")]
    verdict_instructions(&mut text);
    let _ = writeln!(
        text,
        "\nInstructions of the event by which {LEAVING} of {} extended tasks leave, one after the other, a run without \
         events taken off:\n",
        LEAVING + 1
    );
    columns(&mut text, "event");
    for (name, _) in LEAVES {
        counted(&mut text, name, LEAVING, &|implementation| {
            instructions(implementation.name, name)?.checked_sub(instructions(implementation.name, NONE_LEAVES)?)
        });
    }

    let _ = writeln!(text, "\nNanoseconds per event as traces grow, mixed:\n");
    columns(&mut text, "bytes");
    let lengths = [1, 2, 4, 8].map(|kib| kib * 1024);
    rows(
        &mut text,
        &lengths.map(|length| length.to_string()),
        &lengths.map(|length| vec![cases::timed(SEED, Shape::Mixed, length)]),
        AGAIN,
    );

    let _ = write!(text, "\nStack use of a run in bytes, the most over the traces of 8,192 bytes:");
    for (index, implementation) in implementations.iter().enumerate() {
        let used = stack::used(implementation.run, &cases.concat());
        let _ = write!(text, "{} {} {used}", if index == 0 { "" } else { "," }, title(*implementation));
    }
    let _ = writeln!(text, ".");
    text
}

const BEGIN: &str = "<!-- written by make speed -->\n";
const END: &str = "<!-- end -->\n";

/// Puts the tables between the two marks of the file, or makes the file.
fn write_tables(file: &str, tables: &str) -> std::io::Result<()> {
    let text = match std::fs::read_to_string(file) {
        Ok(text) => text,
        Err(error) if error.kind() == std::io::ErrorKind::NotFound => format!("# Performance\n\n{BEGIN}{END}"),
        Err(error) => return Err(error),
    };
    let begin = text.find(BEGIN).map(|at| at + BEGIN.len());
    let end = text.find(END);
    match (begin, end) {
        (Some(begin), Some(end)) if begin <= end => {
            std::fs::write(file, format!("{}\n{tables}\n{}", &text[..begin], &text[end..]))
        }
        _ => Err(std::io::Error::other("the marks for the tables are missing")),
    }
}
