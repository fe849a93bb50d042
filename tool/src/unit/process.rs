//! A process that stays, spoken to over its standard input and output, with a limit on its silence.

use std::collections::VecDeque;
use std::ffi::{c_int, c_ulong};
use std::io::{ErrorKind, Read, Write};
use std::os::fd::{AsRawFd, RawFd};
use std::os::unix::process::CommandExt;
use std::process::{Child, ChildStdin, ChildStdout, Command, Stdio};
use std::sync::{Arc, Mutex};
use std::thread;
use std::time::Duration;

use crate::failure;

/// Why nothing more comes.
#[derive(Clone, PartialEq, Eq, Debug)]
pub enum Stop {
    /// Nothing came within the time limit.
    Silent,
    /// It ended, or closed its output; what it said last on standard error.
    Ended(String),
    /// It said what the protocol does not have.
    Strange(String),
}

impl Stop {
    pub fn word(&self) -> &'static str {
        match self {
            Stop::Silent => "silent",
            Stop::Ended(_) => "ended",
            Stop::Strange(_) => "not understood",
        }
    }

    pub fn words(&self, timeout: Duration) -> String {
        match self {
            Stop::Silent => format!("it was silent for {} s", timeout.as_secs()),
            Stop::Ended(why) if why.is_empty() => "it ended".into(),
            Stop::Ended(why) => format!("it ended, and said on standard error: {why}"),
            Stop::Strange(why) => why.clone(),
        }
    }
}

pub struct Process {
    child: Child,
    input: ChildStdin,
    output: ChildStdout,
    pub timeout: Duration,
    /// What is to be sent, and what came and was not read.
    outbox: VecDeque<u8>,
    inbox: VecDeque<u8>,
    complaint: Arc<Mutex<Vec<u8>>>,
}

/// So much is read at once.
const CHUNK: usize = 65_536;
/// So much of standard error is kept.
const COMPLAINT_MAX: usize = 4_096;

impl Process {
    pub fn start(program: &str, arguments: &[String], timeout: Duration) -> Result<Process, Stop> {
        let mut command = Command::new(program);
        // A group of its own, so that all of it can be ended.
        command.args(arguments).process_group(0);
        command.stdin(Stdio::piped()).stdout(Stdio::piped()).stderr(Stdio::piped());
        // The call that is made between fork and exec allocates nothing.
        unsafe { command.pre_exec(end_with_parent) };
        let mut child = command.spawn().map_err(|error| Stop::Ended(failure::reason(&error)))?;
        let pipes = (child.stdin.take(), child.stdout.take(), child.stderr.take());
        let (Some(input), Some(output), Some(errors)) = pipes else { unreachable!("all three are piped") };
        never_block(input.as_raw_fd());
        never_block(output.as_raw_fd());
        let complaint = keep_last(errors);
        let (outbox, inbox) = (VecDeque::new(), VecDeque::new());
        Ok(Process { child, input, output, timeout, outbox, inbox, complaint })
    }

    /// Puts bytes on their way; what does not fit into the pipe now goes while the answer is awaited.
    pub fn send(&mut self, bytes: &[u8]) {
        self.outbox.extend(bytes);
        // A process that has ended is noticed where it does not answer.
        let _ = self.write_some();
    }

    /// The next bytes.
    pub fn read(&mut self, count: usize) -> Result<Vec<u8>, Stop> {
        self.fill(count)?;
        Ok(self.inbox.drain(..count).collect())
    }

    pub fn array<const COUNT: usize>(&mut self) -> Result<[u8; COUNT], Stop> {
        self.fill(COUNT)?;
        Ok(std::array::from_fn(|_| self.inbox.pop_front().expect("so many bytes are there")))
    }

    /// The next line, without its end, of at most so many bytes.
    pub fn line(&mut self, most: usize) -> Result<Vec<u8>, Stop> {
        let mut line = Vec::new();
        loop {
            match self.array::<1>()? {
                [b'\n'] => return Ok(line),
                [byte] => line.push(byte),
            }
            if line.len() > most {
                return Err(Stop::Strange(format!("a line of more than {most} bytes came for a greeting")));
            }
        }
    }

    fn fill(&mut self, count: usize) -> Result<(), Stop> {
        while self.inbox.len() < count {
            self.wait()?;
        }
        Ok(())
    }

    /// Waits until something can be written or read, and does it.
    fn wait(&mut self) -> Result<(), Stop> {
        const POLLIN: i16 = 1;
        const POLLOUT: i16 = 4;
        let reading = Poll { file: self.output.as_raw_fd(), events: POLLIN, returned: 0 };
        let writing = Poll { file: self.input.as_raw_fd(), events: POLLOUT, returned: 0 };
        let mut files = [reading, writing];
        let count = if self.outbox.is_empty() { 1 } else { 2 };
        let milliseconds = self.timeout.as_millis().min(c_int::MAX as u128) as c_int;
        // The array has `count` entries at least, and both files are open.
        let ready = unsafe { poll(files.as_mut_ptr(), count, milliseconds) };
        match ready {
            0 => return Err(Stop::Silent),
            // A signal: whoever caught it has taken note.
            ..0 => return Ok(()),
            _ => {}
        }
        if files[1].returned != 0 && self.write_some().is_err() {
            self.outbox.clear();
        }
        if files[0].returned != 0 {
            self.read_some()?;
        }
        Ok(())
    }

    fn write_some(&mut self) -> std::io::Result<()> {
        while !self.outbox.is_empty() {
            let (first, _) = self.outbox.as_slices();
            match self.input.write(first) {
                Ok(written) => _ = self.outbox.drain(..written),
                Err(error) if error.kind() == ErrorKind::WouldBlock => return Ok(()),
                Err(error) if error.kind() == ErrorKind::Interrupted => {}
                Err(error) => return Err(error),
            }
        }
        Ok(())
    }

    fn read_some(&mut self) -> Result<(), Stop> {
        let mut bytes = [0; CHUNK];
        match self.output.read(&mut bytes) {
            Ok(0) => Err(Stop::Ended(self.last_words())),
            Ok(count) => {
                self.inbox.extend(&bytes[..count]);
                Ok(())
            }
            Err(error) if matches!(error.kind(), ErrorKind::WouldBlock | ErrorKind::Interrupted) => Ok(()),
            Err(error) => Err(Stop::Ended(failure::reason(&error))),
        }
    }

    /// The last line on standard error.
    fn last_words(&self) -> String {
        // The thread that reads it may be a moment behind.
        thread::sleep(Duration::from_millis(50));
        let complaint = self.complaint.lock().map(|said| said.clone()).unwrap_or_default();
        String::from_utf8_lossy(&complaint).lines().last().unwrap_or_default().to_string()
    }
}

impl Drop for Process {
    fn drop(&mut self) {
        end_group(&self.child);
        let _ = self.child.wait();
    }
}

/// Ends a process and all of its group, which was made for it.
pub fn end_group(child: &Child) {
    extern "C" {
        fn kill(process: c_int, signal: c_int) -> c_int;
    }
    // It has not been waited for, so that its number is still its own.
    unsafe { kill(-(child.id() as c_int), SIGKILL) };
}

/// Reads a pipe beside everything else, and keeps the last bytes.
fn keep_last(mut pipe: impl Read + Send + 'static) -> Arc<Mutex<Vec<u8>>> {
    let kept = Arc::new(Mutex::new(Vec::new()));
    let shared = Arc::clone(&kept);
    thread::spawn(move || {
        let mut bytes = [0; COMPLAINT_MAX];
        while let Ok(count @ 1..) = pipe.read(&mut bytes) {
            let Ok(mut said) = shared.lock() else { return };
            said.extend(&bytes[..count]);
            let over = said.len().saturating_sub(COMPLAINT_MAX);
            said.drain(..over);
        }
    });
    kept
}

const SIGKILL: c_int = 9;

/// As poll(2) has it.
#[repr(C)]
struct Poll {
    file: RawFd,
    events: i16,
    returned: i16,
}

extern "C" {
    fn poll(files: *mut Poll, count: c_ulong, milliseconds: c_int) -> c_int;
    fn fcntl(file: c_int, command: c_int, argument: c_int) -> c_int;
    fn prctl(operation: c_int, argument: c_ulong) -> c_int;
}

/// The process is killed when this one ends, however it ends.
fn end_with_parent() -> std::io::Result<()> {
    const PR_SET_PDEATHSIG: c_int = 1;
    unsafe { prctl(PR_SET_PDEATHSIG, SIGKILL as c_ulong) };
    Ok(())
}

/// Reads and writes of this file return at once.
fn never_block(file: RawFd) {
    const F_GETFL: c_int = 3;
    const F_SETFL: c_int = 4;
    const O_NONBLOCK: c_int = 0o4000;
    // The file is open; its other flags stay.
    unsafe {
        let flags = fcntl(file, F_GETFL, 0);
        fcntl(file, F_SETFL, flags | O_NONBLOCK);
    }
}
