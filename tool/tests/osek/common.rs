//! A folder for a test's files, and the tool run in it.

use std::fs;
use std::io::ErrorKind;
use std::path::{Path, PathBuf};
use std::process::{Command, Output, Stdio};
use std::sync::atomic::{AtomicUsize, Ordering};

pub use osek_tests::listing::{DOCUMENT_CONFIG, DOCUMENT_LISTING, DOCUMENT_TRACE};

pub const OSEK: &str = env!("CARGO_BIN_EXE_osek");

/// A logger in text, with both parts.
pub const LOGGER: &str = include_str!("../../../docs/logger.txt");

/// A logger in which a body waits for others.
pub const DOOR: &str = include_str!("../../../docs/door.txt");

/// A logger in which deadlines are missed.
pub const DEADLINES: &str = include_str!("../../../docs/deadlines.txt");

/// Document 01's configuration and trace as a text.
pub const DOCUMENT_TEXT: &str = "\
version 1
task low priority 2 autostart
task high priority 5
isr door priority 9
resource flash users low high
table beacon period 4
  at 0 high
  at 2 low
trace
start beacon 1
get flash
tick
line door
chain high
finish
finish
release flash
tick 2
finish
finish
tick 2
stop beacon
finish
finish
";

/// Removed with everything in it at the end of a test.
pub struct Folder(pub PathBuf);

impl Folder {
    pub fn new() -> Folder {
        static NEXT: AtomicUsize = AtomicUsize::new(0);
        loop {
            let name = format!("osek-tool-{}-{}", std::process::id(), NEXT.fetch_add(1, Ordering::Relaxed));
            let path = std::env::temp_dir().join(name);
            match fs::create_dir(&path) {
                Ok(()) => return Folder(path),
                // A process that was killed has left it.
                Err(error) if error.kind() == ErrorKind::AlreadyExists => {}
                Err(error) => panic!("{}: {error}", path.display()),
            }
        }
    }

    /// With document 01's files `config.bin` and `trace.bin`.
    pub fn document() -> Folder {
        Folder::new().with("config.bin", DOCUMENT_CONFIG).with("trace.bin", DOCUMENT_TRACE)
    }

    pub fn with(self, name: &str, bytes: impl AsRef<[u8]>) -> Folder {
        self.write(name, bytes);
        self
    }

    pub fn write(&self, name: &str, bytes: impl AsRef<[u8]>) {
        fs::write(self.0.join(name), bytes).expect("a file can be written");
    }

    pub fn read(&self, name: &str) -> Vec<u8> {
        fs::read(self.0.join(name)).unwrap_or_else(|error| panic!("{name}: {error}"))
    }

    pub fn text(&self, name: &str) -> String {
        String::from_utf8(self.read(name)).expect("the file is UTF-8")
    }

    pub fn command(&self, arguments: &[&str]) -> Command {
        let mut command = Command::new(OSEK);
        command.args(arguments).current_dir(&self.0).stdin(Stdio::null());
        command
    }

    pub fn osek(&self, arguments: &[&str]) -> Said {
        Said::of(arguments, self.command(arguments).output().expect("the tool runs"))
    }
}

impl Drop for Folder {
    fn drop(&mut self) {
        let _ = fs::remove_dir_all(&self.0);
    }
}

/// What a process said.
pub struct Said {
    pub out: String,
    pub err: String,
    pub code: Option<i32>,
    arguments: String,
}

impl Said {
    pub fn of(arguments: &[&str], output: Output) -> Said {
        Said {
            out: String::from_utf8_lossy(&output.stdout).into_owned(),
            err: String::from_utf8_lossy(&output.stderr).into_owned(),
            code: output.status.code(),
            arguments: arguments.join(" "),
        }
    }

    /// It ended with this status, said this on standard output, and nothing on standard error.
    #[track_caller]
    pub fn prints(&self, out: &str, code: i32) {
        assert_eq!(self.out, out, "{}", self.arguments);
        assert_eq!(self.err, "", "{}", self.arguments);
        assert_eq!(self.code, Some(code), "{}", self.arguments);
    }

    /// It did its work; what it printed.
    #[track_caller]
    pub fn done(self) -> String {
        assert_eq!(self.code, Some(0), "{}: {}{}", self.arguments, self.out, self.err);
        assert_eq!(self.err, "", "{}", self.arguments);
        self.out
    }

    /// It ended with 1, said this on standard error, and printed nothing.
    #[track_caller]
    pub fn fails_plainly(&self, message: &str) {
        assert_eq!((self.out.as_str(), self.err.as_str(), self.code), ("", message, Some(1)), "{}", self.arguments);
    }

    /// It failed with this status and this message, and printed nothing.
    #[track_caller]
    pub fn fails(&self, code: i32, message: &str) {
        assert_eq!(self.err, format!("osek: {message}\n"), "{}", self.arguments);
        assert_eq!(self.out, "", "{}", self.arguments);
        assert_eq!(self.code, Some(code), "{}", self.arguments);
    }
}

/// Runs a script of this folder with python3, on these arguments and standard input.
#[track_caller]
pub fn python(folder: &Folder, script: &str, arguments: &[&str]) {
    let path = Path::new(env!("CARGO_MANIFEST_DIR")).join("tests/osek").join(script);
    let output = Command::new("python3").arg("-B").arg(path).args(arguments).current_dir(&folder.0).output();
    let output = output.expect("python3 runs");
    let said = String::from_utf8_lossy(&output.stderr);
    assert!(output.status.success(), "{script} {}: {said}", arguments.join(" "));
}
