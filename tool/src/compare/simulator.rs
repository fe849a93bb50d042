//! A simulator beside the reference: a process that stays and speaks the protocol of docs/UNIT.md, told by its greeting, or
//! a process for each case.

use std::cell::RefCell;
use std::fs;
use std::io::{self, ErrorKind, Read};
use std::os::unix::process::{CommandExt, ExitStatusExt};
use std::path::{Path, PathBuf};
use std::process::{Child, Command, ExitStatus, Stdio};
use std::sync::mpsc;
use std::thread;
use std::time::{Duration, Instant};

use osek_tests::cases::Case;

use super::library;
use crate::failure::{self, Failure};
use crate::record;
use crate::unit::{self, Played, Unit, Way};

/// Which simulator.
#[derive(Clone)]
pub enum Subject {
    /// A command line that is given two file names and prints the output's bytes or the listing; or greets, and stays.
    Command(String),
    /// A command line that greets and stays, and is given no file names: a unit.
    Unit(String),
    /// A shared library that exports `osek_run`.
    Library(String),
}

/// What it said.
#[derive(Clone, PartialEq, Eq, Debug)]
pub enum Reply {
    /// A listing, or a line `refused CODE PLACE`.
    Listing(String),
    /// The output's bytes.
    Output(Vec<u8>),
    /// A library's result and its whole output buffer.
    Call(u64, Vec<u8>),
    /// It gave no answer at all, and why.
    Nothing(String),
}

pub struct Simulator {
    subject: Subject,
    way: Way,
    timeout: Duration,
    folder: Scratch,
    talk: RefCell<Talk>,
}

/// How it is spoken to.
enum Talk {
    /// Not known before the first case.
    Open,
    Stays(Unit),
    ProcessACase,
}

/// More than the longest listing.
const REPLY_MAX: u64 = 1 << 20;
/// What is kept of standard error.
const COMPLAINT_MAX: u64 = 4_096;

/// Exit statuses with which a shell says that it can't start a command.
const NOT_STARTED: [i32; 2] = [126, 127];

impl Simulator {
    pub fn new(subject: Subject, way: Way, timeout: Duration) -> Result<Simulator, Failure> {
        Ok(Simulator { subject, way, timeout, folder: Scratch::new()?, talk: RefCell::new(Talk::Open) })
    }

    pub fn subject(&self) -> &Subject {
        &self.subject
    }

    /// Whether it is given inputs that the reference refuses: no unit is, and nothing in lock-step.
    pub fn takes_refused(&self) -> bool {
        self.way == Way::Whole && !matches!(self.subject, Subject::Unit(_))
    }

    pub fn run(&self, case: &Case) -> Result<Reply, Failure> {
        let mut talk = self.talk.borrow_mut();
        if let Talk::Open = *talk {
            *talk = self.first_talk(case)?;
        }
        match &mut *talk {
            Talk::Stays(unit) => Ok(reply(unit.play(&case.config, &case.trace, self.way), &case.config)),
            _ => self.in_process(case),
        }
    }

    /// Whether it greets.
    fn first_talk(&self, case: &Case) -> Result<Talk, Failure> {
        match &self.subject {
            Subject::Library(_) => Ok(Talk::ProcessACase),
            Subject::Unit(line) => Unit::start(line, &[], self.timeout).map(Talk::Stays),
            Subject::Command(line) => {
                let files = self.write_case(case)?.map(|file| file.display().to_string());
                let unit = Unit::greets(line, &[&files[0], &files[1]], self.timeout);
                match unit.map_or(Talk::ProcessACase, Talk::Stays) {
                    Talk::ProcessACase if self.way == Way::LockStep => {
                        Err(cant_start("it does not greet, and lock-step needs the protocol of docs/UNIT.md"))
                    }
                    talk => Ok(talk),
                }
            }
        }
    }

    /// The case in two files.
    fn write_case(&self, case: &Case) -> Result<[PathBuf; 2], Failure> {
        let files = ["config.bin", "trace.bin"].map(|name| self.folder.0.join(name));
        for (file, bytes) in files.iter().zip([&case.config, &case.trace]) {
            fs::write(file, bytes).map_err(|error| Failure::write(&file.display().to_string(), &error))?;
        }
        Ok(files)
    }

    /// A process for this case alone.
    fn in_process(&self, case: &Case) -> Result<Reply, Failure> {
        let [config, trace] = self.write_case(case)?;
        let said = self.process(&config, &trace, case)?;
        Ok(match (&self.subject, said.failed) {
            (_, Some(why)) => Reply::Nothing(why),
            (Subject::Library(_), None) => match library::reply(&said.out) {
                Some((result, out)) => Reply::Call(result, out),
                None => Reply::Nothing(said.complaint),
            },
            (_, None) => printed(said.out),
        })
    }

    fn process(&self, config: &Path, trace: &Path, case: &Case) -> Result<Said, Failure> {
        let mut command = match &self.subject {
            Subject::Command(line) | Subject::Unit(line) => {
                let mut shell = Command::new("sh");
                shell.arg("-c").arg(format!("{line} \"$@\"")).arg("sh").args([config, trace]);
                shell
            }
            Subject::Library(file) => {
                let own = std::env::current_exe().map_err(|error| cant_start(&failure::reason(&error)))?;
                let mut caller = Command::new(own);
                caller.args([library::CALL, file]).args([config, trace]);
                caller.args([case.out_len.to_string(), case.fill.to_string()]);
                caller
            }
        };
        // A group of its own, so that all of it can be ended.
        command.process_group(0).stdin(Stdio::null()).stdout(Stdio::piped()).stderr(Stdio::piped());
        let child = command.spawn().map_err(|error| cant_start(&failure::reason(&error)))?;
        let said = listen(child, self.timeout);
        if let (Subject::Command(_), Some(code)) = (&self.subject, said.exit.and_then(|exit| exit.code())) {
            if NOT_STARTED.contains(&code) {
                return Err(cant_start(said.complaint.trim_end()));
            }
        }
        Ok(said)
    }
}

fn cant_start(why: &str) -> Failure {
    Failure::Input(format!("the simulator can't be started: {why}"))
}

/// What a process that stays gave, as one that prints would have said it.
fn reply(played: Played, config: &[u8]) -> Reply {
    match played {
        Played::Answered { fresh, answers, losses } => match unit::fresh_answer(config) {
            Some(expected) if expected != fresh => {
                Reply::Nothing(format!("its fresh start is {fresh:?}, and not {expected:?}"))
            }
            _ => Reply::Output([answers, losses].concat()),
        },
        Played::Refused(refused) => Reply::Listing(refused.line()),
        Played::Broken { broken, .. } => Reply::Nothing(broken.to_string()),
    }
}

fn printed(bytes: Vec<u8>) -> Reply {
    let is_listing = record::is_listing(&bytes);
    match String::from_utf8(bytes) {
        Ok(text) if is_listing => Reply::Listing(text),
        Ok(text) => Reply::Output(text.into_bytes()),
        Err(other) => Reply::Output(other.into_bytes()),
    }
}

struct Said {
    out: Vec<u8>,
    complaint: String,
    exit: Option<ExitStatus>,
    /// Why there is no answer.
    failed: Option<String>,
}

/// Reads what a process says until it ends, or ends it when its time is up.
fn listen(mut child: Child, timeout: Duration) -> Said {
    let begin = Instant::now();
    let out = read_beside(child.stdout.take(), REPLY_MAX + 1);
    let complaint = read_beside(child.stderr.take(), COMPLAINT_MAX);
    let out = out.recv_timeout(timeout).ok();
    let exit = if out.is_some() { ended(&mut child, begin, timeout) } else { None };
    if exit.is_none() {
        unit::end_group(&child);
        let _ = child.wait();
    }
    let complaint = complaint.recv_timeout(Duration::from_secs(1)).unwrap_or_default();
    let complaint = String::from_utf8_lossy(&complaint).into_owned();
    let failed = match (&out, exit) {
        (Some(bytes), _) if bytes.len() as u64 > REPLY_MAX => Some(format!("it gave more than {REPLY_MAX} bytes")),
        (_, None) => Some(format!("it did not end within {} s", timeout.as_secs())),
        (_, Some(exit)) => exit.signal().map(|signal| format!("it was ended by signal {signal}")),
    };
    let failed = failed.or_else(|| {
        let silent = out.as_ref().is_none_or(Vec::is_empty);
        silent.then(|| match complaint.lines().last() {
            Some(last) => format!("it printed nothing, and on standard error: {last}"),
            None => "it printed nothing".into(),
        })
    });
    Said { out: out.unwrap_or_default(), complaint, exit, failed }
}

/// Reads a pipe to its end in a thread of its own, and keeps the first `most` bytes.
fn read_beside(pipe: Option<impl Read + Send + 'static>, most: u64) -> mpsc::Receiver<Vec<u8>> {
    let (sender, bytes) = mpsc::channel();
    thread::spawn(move || {
        let mut first = Vec::new();
        if let Some(mut pipe) = pipe {
            // What was read before an error is what there is; a closed pipe would end the process.
            let _ = pipe.by_ref().take(most).read_to_end(&mut first);
            let _ = io::copy(&mut pipe, &mut io::sink());
        }
        // Nobody waits for it any more where the time is up.
        let _ = sender.send(first);
    });
    bytes
}

/// The exit status of a process that has closed its output.
fn ended(child: &mut Child, begin: Instant, timeout: Duration) -> Option<ExitStatus> {
    loop {
        match child.try_wait() {
            Ok(Some(exit)) => return Some(exit),
            Ok(None) if begin.elapsed() < timeout => thread::sleep(Duration::from_micros(200)),
            _ => return None,
        }
    }
}

/// A folder for the files of one comparison, removed at its end.
struct Scratch(PathBuf);

impl Scratch {
    fn new() -> Result<Scratch, Failure> {
        let names = (0..).map(|number| format!("osek-compare-{}-{number}", std::process::id()));
        for path in names.map(|name| std::env::temp_dir().join(name)) {
            match fs::create_dir(&path) {
                Ok(()) => return Ok(Scratch(path)),
                Err(error) if error.kind() == ErrorKind::AlreadyExists => {}
                Err(error) => return Err(Failure::write(&path.display().to_string(), &error)),
            }
        }
        unreachable!("the names have no end")
    }
}

impl Drop for Scratch {
    fn drop(&mut self) {
        let _ = fs::remove_dir_all(&self.0);
    }
}
