//! How a command ends: its exit statuses, and what can go wrong beside a refusal.

use std::io;
use std::process::ExitCode;

use crate::output;

/// How a command that did its work ends.
#[derive(Clone, Copy, PartialEq, Eq, Debug)]
pub enum Ending {
    Done,
    /// The run is refused, or a difference was found.
    Refused,
    /// It was interrupted before its end.
    Interrupted,
}

/// Why a command could not do its work.
#[derive(Debug)]
pub enum Failure {
    /// The command line is wrong.
    Usage(String),
    /// An output can't be written. Nothing is told of a pipe that its reader has closed.
    Output(String),
    ClosedPipe,
    /// An input can't be read or understood, or a simulator can't be started.
    Input(String),
}

impl Failure {
    /// A failed write to standard output or to the file of this name.
    pub fn write(name: &str, error: &io::Error) -> Failure {
        match error.kind() {
            io::ErrorKind::BrokenPipe => Failure::ClosedPipe,
            _ => Failure::Output(format!("{name} could not be written: {}", reason(error))),
        }
    }
}

/// What the system says, without its number.
pub fn reason(error: &io::Error) -> String {
    let words = error.to_string();
    words.split(" (os error").next().unwrap_or_default().into()
}

pub const EXIT_STATUSES: &str = "\
Exit status: 0 done; 1 the run is refused, or a difference was found; 2 a bad command line; 3 an output could not be
written; 4 an input could not be read or understood; 5 an inspection was interrupted.
";

/// Tells of a failure on standard error and gives the exit status.
pub fn exit_code(result: Result<Ending, Failure>) -> ExitCode {
    let (message, code) = match result {
        Ok(Ending::Done) => return ExitCode::SUCCESS,
        Ok(Ending::Refused) => return ExitCode::from(1),
        Ok(Ending::Interrupted) => return ExitCode::from(5),
        Err(Failure::Usage(message)) => (message, 2),
        Err(Failure::ClosedPipe) => return ExitCode::from(3),
        Err(Failure::Output(message)) => (message, 3),
        Err(Failure::Input(message)) => (message, 4),
    };
    output::complain(&format!("osek: {message}\n"));
    ExitCode::from(code)
}
