//! `osek compare`: a simulator of one's own beside the reference, on drawn cases.

use std::cell::{Cell, RefCell};
use std::fmt::Write;
use std::path::{Path, PathBuf};
use std::time::{Duration, Instant};

use osek_tests::cases::{self, Case};
use osek_tests::fast::OUTPUT_MAX;

use super::Command;
use crate::choice::{self, Choice};
use crate::compare::difference::{Difference, Expected};
use crate::compare::jobs;
use crate::compare::library;
use crate::compare::reduce::reduce;
use crate::compare::simulator::{Reply, Simulator, Subject};
use crate::failure::{self, Ending, Failure};
use crate::history::History;
use crate::input::{self, Pair};
use crate::layout;
use crate::names::Names;
use crate::options::{Accepts, Options};
use crate::output;
use crate::text::dump;
use crate::unit::Way;
use crate::words::{counted, grouped};

pub const COMMAND: Command = Command {
    name: "compare",
    brief: "--sim 'COMMAND'",
    usage: &[
        "--sim 'COMMAND' [--seed S] [--first K] [--count N] [--jobs J] [--keep-going] [-o DIR]",
        "--lib FILE.so ..",
        "--unit 'COMMAND' ..",
        "--sim 'COMMAND' CONFIG TRACE | LOGGER [-o DIR]",
    ],
    summary: "a simulator of one's own beside the reference",
    details: "\
Runs a simulator on drawn cases, or on CONFIG and TRACE, and compares its answers with the reference byte for byte. The
first difference is made small (events, bodies, resources, tables, numbers), written to files and told in words, with
the states around it, the rule that decides, and the command that shows it again. What a unit has recorded is compared
by `osek check`.

  --sim 'COMMAND'   a command line for sh; two file names follow it, the configuration and the trace, both bytes. It
                    prints the listing, or the output's bytes; a refused run prints a line `refused CODE PLACE` in
                    either case. Its exit status is not looked at. A command that greets as docs/UNIT.md says stays,
                    and plays all cases in one process.
  --unit 'COMMAND'  a unit: a command that greets and stays, and is given no file names; in lock-step, refused cases
                    left out
  --lib FILE.so     a shared library that exports osek_run as include/osek.h declares it. The whole output buffer is
                    compared, at the drawn length; each call has a process of its own.
  --seed S          which cases, as for osek cases; 1 if not given
  --first K         the number of the first case; 0 if not given
  --count N         how many; 1000 if not given
  --jobs J          so many at once, 1 to 64; 1 if not given
  --lock-step       an event is sent when the one before is answered, refused cases left out
  --whole           a unit gets the whole trace at once
  --keep-going      goes through all cases; differences of one sort are counted together, and the first of each sort
                    is made small, told and written to a folder of its own, DIR/1, DIR/2, ..
  --earlier DIR     the cases in this folder and the folders in it are compared first, in order of name; a folder that
                    an earlier comparison has written is one
  --timeout T       seconds for one run, 1 to 3600; 10 if not given
  --shrink T        seconds for making a difference small, 0 to 3600; 60 if not given
  --out-len N       with --lib and two files: the length of the output, 0 to 65535; 32832 if not given
  -o DIR            where the difference is written, over what is there; otherwise the folder `difference`
",
    accepts: Accepts {
        flags: &[choice::ACCEPTED, "--keep-going", "--lock-step", "--whole"],
        values: &[
            "--sim",
            "--lib",
            "--unit",
            "--jobs",
            "--seed",
            "--first",
            "--count",
            choice::CLASS,
            choice::VERSIONS_OPTION,
            "--earlier",
            "--timeout",
            "--shrink",
            "--out-len",
            "-o",
        ],
        files: &["CONFIG", "TRACE"],
        optional: 2,
    },
    run,
};

/// Seconds for one run, and for making a difference small, if nothing else is said.
const TIMEOUT: u64 = 10;
const SHRINK: u64 = 60;

/// Options that go with drawn cases alone.
const DRAWN: [&str; 7] =
    ["--seed", "--first", "--count", "--jobs", choice::CLASS, choice::VERSIONS_OPTION, "--earlier"];

fn run(options: &Options) -> Result<Ending, Failure> {
    let shrink = options.number("--shrink", SHRINK, 0, 3_600)?;
    let simulator = simulator(options)?;
    let bench = Bench { options, simulator, shrink: Duration::from_secs(shrink) };
    if options.files.is_empty() {
        bench.drawn()
    } else {
        bench.given()
    }
}

fn simulator(options: &Options) -> Result<Simulator, Failure> {
    let timeout = options.number("--timeout", TIMEOUT, 1, 3_600)?;
    let subject = subject(options)?;
    let way = match (options.flag("--lock-step"), options.flag("--whole"), &subject) {
        (true, true, _) => return Err(options.wrong("--lock-step and --whole exclude each other")),
        (true, _, Subject::Library(_)) => return Err(options.wrong("--lock-step goes with --sim or --unit")),
        (true, false, _) | (false, false, Subject::Unit(_)) => Way::LockStep,
        _ => Way::Whole,
    };
    Simulator::new(subject, way, Duration::from_secs(timeout))
}

fn subject(options: &Options) -> Result<Subject, Failure> {
    match (options.value("--sim"), options.value("--unit"), options.value("--lib")) {
        (Some(command), None, None) => Ok(Subject::Command(command.into())),
        (None, Some(command), None) => Ok(Subject::Unit(command.into())),
        (None, None, Some(file)) => {
            let path = std::fs::canonicalize(file)
                .map_err(|error| Failure::Input(format!("{file} can't be read: {}", failure::reason(&error))))?;
            let path = path.display().to_string();
            library::check(&path)?;
            Ok(Subject::Library(path))
        }
        (None, None, None) => Err(options.wrong("--sim, --unit or --lib is missing")),
        _ => Err(options.wrong("--sim, --unit and --lib exclude each other")),
    }
}

/// Differences of one sort: the case of the first of them, by its place, and how many there are.
struct Sort {
    name: String,
    first: u64,
    count: u64,
}

/// A comparison: its options and its simulator.
struct Bench<'o> {
    options: &'o Options,
    simulator: Simulator,
    shrink: Duration,
}

impl Bench<'_> {
    fn folder(&self) -> &str {
        self.options.value("-o").unwrap_or("difference")
    }

    /// Compares earlier differences, then drawn cases, up to the first difference or through all.
    fn drawn(&self) -> Result<Ending, Failure> {
        let options = self.options;
        if options.value("--out-len").is_some() {
            return Err(options.wrong("--out-len goes with CONFIG and TRACE"));
        }
        let seed = options.number("--seed", 1, 0, u64::MAX)?;
        let first = options.number("--first", 0, 0, u64::MAX / 2)?;
        let count = options.number("--count", 1_000, 1, u64::MAX / 2)?;
        let jobs = options.number("--jobs", 1, 1, 64)?;
        let choice = Choice::of(options)?;
        let earlier = options.value("--earlier").map(earlier_cases).transpose()?;
        let before = earlier.as_ref().map_or(0, Vec::len) as u64;
        let chosen: Option<Vec<u64>> = choice
            .chooses()
            .then(|| choice.cases(seed, first).take(count as usize).map(|(number, _)| number).collect());
        // Earlier cases have the first places, drawn ones follow.
        let number = |place: u64| chosen.as_ref().map_or(first + place, |chosen| chosen[place as usize]);
        let draws_room = matches!(self.simulator.subject(), Subject::Library(_)) && !options.flag(choice::ACCEPTED);
        let draw = |place: u64| match earlier.as_ref().and_then(|earlier| earlier.get(place as usize)) {
            Some((_, case)) => case.clone(),
            None => {
                let case = cases::case(seed, number(place - before));
                // A drawn output may be too short, and the case then refused with 30.
                let out_len = if draws_room { case.out_len } else { OUTPUT_MAX };
                Case { fill: 0, out_len, ..case }
            }
        };
        let label = |place: u64| match earlier.as_ref().and_then(|earlier| earlier.get(place as usize)) {
            Some((folder, _)) => format!("{} differs", folder.display()),
            None => format!("case {} of seed {seed} differs", number(place - before)),
        };
        let total = before + count;
        let keep_going = options.flag("--keep-going");
        let dealt = jobs::compare(0..total, jobs, keep_going, draw, || simulator(options))?;
        let played =
            if before > 0 { format!("{} and ", counted(before as usize, "earlier case")) } else { String::new() };
        let cases = format!("{played}{} of seed {seed}", counted(count as usize, "case"));
        match dealt.different.first() {
            None => {
                let (accepted, refused) = (grouped(dealt.accepted), grouped(total - dealt.accepted));
                let left = if self.simulator.takes_refused() { "" } else { " and not played" };
                output::print(format!("{cases}: all equal ({accepted} accepted, {refused} refused{left})\n"))?;
                Ok(Ending::Done)
            }
            Some((place, _)) if !keep_going => {
                output::print(format!("{}\n", label(*place)))?;
                self.found(&draw(*place), self.folder(), None)
            }
            Some(_) => {
                let differ = dealt.different.len() as u64;
                output::print(format!("{cases}: {} equal, {} different", grouped(total - differ), grouped(differ)))?;
                self.sorted(&dealt.different, label, draw)
            }
        }
    }

    /// Tells of each sort of difference, the most frequent first.
    fn sorted(
        &self,
        different: &[(u64, String)],
        label: impl Fn(u64) -> String,
        draw: impl Fn(u64) -> Case,
    ) -> Result<Ending, Failure> {
        let mut sorts: Vec<Sort> = Vec::new();
        for (place, name) in different {
            match sorts.iter_mut().find(|sort| sort.name == *name) {
                Some(sort) => sort.count += 1,
                None => sorts.push(Sort { name: name.clone(), first: *place, count: 1 }),
            }
        }
        sorts.sort_by_key(|sort| std::cmp::Reverse(sort.count));
        output::print(format!(", of {}\n", counted(sorts.len(), "sort")))?;
        for (number, Sort { name, first, count }) in (1..).zip(sorts) {
            output::print(format!("\n{number}. {name}: {}; {}\n", counted(count as usize, "case"), label(first)))?;
            self.found(&draw(first), &format!("{}/{number}", self.folder()), Some(&name))?;
        }
        Ok(Ending::Refused)
    }

    /// Compares one pair of files.
    fn given(&self) -> Result<Ending, Failure> {
        let options = self.options;
        let alien = DRAWN.into_iter().find(|name| options.value(name).is_some());
        let alien = alien.or([choice::ACCEPTED, "--keep-going"].into_iter().find(|name| options.flag(name)));
        if let Some(alien) = alien {
            return Err(options.wrong(&format!("{alien} goes with drawn cases, and not with files")));
        }
        let pair = input::read_pair(&options.files)?;
        let out_len = options.number("--out-len", OUTPUT_MAX as u64, 0, 65_535)? as usize;
        let (config, trace) = (pair.config.source.bytes.clone(), pair.trace.bytes.clone());
        let case = Case { config, trace, out_len, fill: 0 };
        let expected = Expected::with_names(&case, pair.config.names.clone());
        if expected.outcome.is_err() && !self.simulator.takes_refused() {
            return Err(Failure::Input(
                "the reference refuses this case, and a unit is given accepted ones alone".into(),
            ));
        }
        let reply = self.simulator.run(&case)?;
        let Some(difference) = expected.difference(&reply) else {
            output::print("equal\n")?;
            return Ok(Ending::Done);
        };
        let why = expected.why(difference.about, |run| History::of(&pair, run))?;
        output::print(format!("{}\n{why}", difference.told))?;
        self.record_hint(&pair, &reply)?;
        self.found(&case, self.folder(), None)
    }

    /// A simulator that says the same of the empty trace is no simulator, but a record.
    fn record_hint(&self, pair: &Pair, reply: &Reply) -> Result<(), Failure> {
        if !matches!(self.simulator.subject(), Subject::Command(_)) || !self.simulator.takes_refused() {
            return Ok(());
        }
        let config = pair.config.source.bytes.clone();
        let other = self.simulator.run(&Case { config, trace: Vec::new(), out_len: OUTPUT_MAX, fill: 0 })?;
        if other == *reply && matches!(reply, Reply::Listing(_) | Reply::Output(_)) && !pair.trace.bytes.is_empty() {
            output::print("it says the same of an empty trace: osek check compares a record\n")?;
        }
        Ok(())
    }

    /// Makes a difference small, one of its sort if it has one, writes it and tells it.
    fn found(&self, case: &Case, folder: &str, sort: Option<&str>) -> Result<Ending, Failure> {
        let (small, ran_out) = self.smallest(case, sort)?;
        let expected = Expected::of(&small);
        let reply = self.simulator.run(&small)?;
        let difference = expected.difference(&reply);
        let told = match &difference {
            Some(difference) => difference.told.clone(),
            None => "the difference does not show every time: the simulator gave another answer now".into(),
        };
        let why = match &difference {
            Some(Difference { about, .. }) => expected.why(*about, |run| expected.history(run))?,
            None => String::new(),
        };
        write_files(folder, &small, &expected, &reply, &format!("{told}\n{why}"))?;
        let shown = |bytes: &[u8]| counted(bytes.len(), "byte");
        let mut text = format!(
            "configuration made smaller from {} to {}, trace from {} to {}\n",
            shown(&case.config),
            small.config.len(),
            shown(&case.trace),
            small.trace.len()
        );
        if ran_out {
            let seconds = self.shrink.as_secs();
            let _ =
                writeln!(text, "it may be smaller yet: the {seconds} s for it were over, and --shrink T gives others");
        }
        let _ = writeln!(text, "{told}\n{why}written to {folder}: config.bin, trace.bin, case.txt, expected, given");
        let _ = writeln!(text, "to see it again: {}", self.again(folder, &small));
        output::print(text)?;
        Ok(Ending::Refused)
    }

    /// The smallest case that differs and is accepted, or refused with the same refusal, as this one is; and whether
    /// the time for finding it was over.
    fn smallest(&self, case: &Case, sort: Option<&str>) -> Result<(Case, bool), Failure> {
        let refusal = Expected::of(case).refusal();
        let begin = Instant::now();
        let failed = RefCell::new(None);
        let ran_out = Cell::new(false);
        let small = reduce(case, |other| {
            if begin.elapsed() > self.shrink {
                ran_out.set(true);
            }
            if failed.borrow().is_some() || ran_out.get() {
                return false;
            }
            let expected = Expected::of(other);
            if expected.refusal() != refusal {
                return false;
            }
            match self.simulator.run(other) {
                Ok(reply) => {
                    expected.difference(&reply).is_some_and(|other| sort.is_none_or(|sort| other.sort == sort))
                }
                Err(failure) => {
                    *failed.borrow_mut() = Some(failure);
                    false
                }
            }
        });
        match failed.into_inner() {
            None => Ok((small, ran_out.get())),
            Some(failure) => Err(failure),
        }
    }

    /// The command that compares the small case again.
    fn again(&self, folder: &str, case: &Case) -> String {
        let mut words = vec!["osek".into(), COMMAND.name.into()];
        for name in ["--sim", "--lib", "--unit", "--timeout"] {
            if let Some(value) = self.options.value(name) {
                words.extend([name.into(), quoted(value)]);
            }
        }
        words.extend(["--lock-step", "--whole"].into_iter().filter(|flag| self.options.flag(flag)).map(String::from));
        if case.out_len != OUTPUT_MAX {
            words.extend(["--out-len".into(), case.out_len.to_string()]);
        }
        // Bytes that look like a text would be read as one.
        let texts = input::is_text(&case.config) || input::is_text(&case.trace);
        let files: &[&str] = if texts { &["case.txt"] } else { &["config.bin", "trace.bin"] };
        words.extend(files.iter().map(|file| quoted(&format!("{folder}/{file}"))));
        words.join(" ")
    }
}

/// The file that has the length of the output, where it is not the usual one.
const OUT_LEN: &str = "out_len";

fn write_files(folder: &str, case: &Case, expected: &Expected, reply: &Reply, told: &str) -> Result<(), Failure> {
    std::fs::create_dir_all(folder).map_err(|error| Failure::write(folder, &error))?;
    let folder = Path::new(folder);
    output::write_in(folder, "config.bin", &case.config)?;
    output::write_in(folder, "trace.bin", &case.trace)?;
    if case.out_len != OUTPUT_MAX {
        output::write_in(folder, OUT_LEN, format!("{}\n", case.out_len))?;
    }
    let names = Names::of(&layout::config(&case.config).objects);
    let told: String = told.lines().map(|line| format!("# {line}\n")).collect();
    let text = format!("{told}{}\n{}", dump::config(&case.config, &names), dump::trace(&case.trace, &names));
    output::write_in(folder, "case.txt", text)?;
    output::write_in(folder, "expected", expected.listing())?;
    output::write_in(folder, "given", expected.same_form(reply))
}

/// The cases of a folder and of those in it, by name.
fn earlier_cases(folder: &str) -> Result<Vec<(PathBuf, Case)>, Failure> {
    let mut cases = Vec::new();
    gather(Path::new(folder), &mut cases)?;
    if cases.is_empty() {
        return Err(Failure::Input(format!("{folder} holds no case: no config.bin with a trace.bin")));
    }
    Ok(cases)
}

fn gather(folder: &Path, cases: &mut Vec<(PathBuf, Case)>) -> Result<(), Failure> {
    let unreadable = |error: std::io::Error| {
        Failure::Input(format!("{} can't be read: {}", folder.display(), failure::reason(&error)))
    };
    let (config, trace) = (folder.join("config.bin"), folder.join("trace.bin"));
    if config.is_file() && trace.is_file() {
        let out_len = std::fs::read_to_string(folder.join(OUT_LEN)).ok().and_then(|text| text.trim().parse().ok());
        let case = Case {
            config: std::fs::read(config).map_err(unreadable)?,
            trace: std::fs::read(trace).map_err(unreadable)?,
            out_len: out_len.unwrap_or(OUTPUT_MAX),
            fill: 0,
        };
        cases.push((folder.into(), case));
    }
    let entries: Result<Vec<PathBuf>, _> =
        std::fs::read_dir(folder).map_err(unreadable)?.map(|entry| entry.map(|entry| entry.path())).collect();
    let mut folders: Vec<PathBuf> = entries.map_err(unreadable)?.into_iter().filter(|path| path.is_dir()).collect();
    folders.sort();
    folders.iter().try_for_each(|folder| gather(folder, cases))
}

/// A word of a shell's command line.
fn quoted(word: &str) -> String {
    let plain = |sign: char| sign.is_ascii_alphanumeric() || "/._-+=:,".contains(sign);
    if !word.is_empty() && word.chars().all(plain) {
        return word.into();
    }
    format!("'{}'", word.replace('\'', "'\\''"))
}
