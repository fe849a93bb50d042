//! A simulator in a shared library that exports `osek_run` as include/osek.h declares it.
//!
//! It is called in a process of its own, `osek call-library ..`, so that nothing it does can harm the comparison.

use std::ffi::{c_char, c_int, c_void, CStr, CString};
use std::fs::File;
use std::io::{self, Write};
use std::os::fd::{AsFd, AsRawFd};

use osek_tests::cases::Case;

use crate::failure::{Ending, Failure};
use crate::input;
use crate::words::Part;

/// The command that this tool gives itself.
pub const CALL: &str = "call-library";

extern "C" {
    fn dlopen(file: *const c_char, flags: c_int) -> *mut c_void;
    fn dlsym(library: *mut c_void, name: *const c_char) -> *mut c_void;
    fn dlerror() -> *const c_char;
    fn dup2(from: c_int, to: c_int) -> c_int;
}

/// Every name is found when the library is opened, or it is not opened.
const RTLD_NOW: c_int = 2;

type Run = unsafe extern "C" fn(*const u8, usize, *const u8, usize, *mut u8, usize) -> u64;

fn open(file: &str) -> Result<Run, String> {
    let name = CString::new(file).map_err(|_| "its name has a zero byte".to_string())?;
    // The pointers are C strings, and the library stays open for good.
    unsafe {
        let library = dlopen(name.as_ptr(), RTLD_NOW);
        if library.is_null() {
            return Err(last_error());
        }
        let run = dlsym(library, c"osek_run".as_ptr());
        if run.is_null() {
            return Err(last_error());
        }
        Ok(std::mem::transmute::<*mut c_void, Run>(run))
    }
}

fn last_error() -> String {
    let error = unsafe { dlerror() };
    if error.is_null() {
        return "it can't be opened".into();
    }
    unsafe { CStr::from_ptr(error) }.to_string_lossy().into_owned()
}

/// Whether the library can be called.
pub fn check(file: &str) -> Result<(), Failure> {
    open(file).map(drop).map_err(|error| Failure::Input(format!("{file} can't be called: {error}")))
}

/// What the process gives back: the result in eight bytes, lowest first, then the whole output buffer.
pub fn reply(bytes: &[u8]) -> Option<(u64, Vec<u8>)> {
    let (result, out) = bytes.split_first_chunk::<8>()?;
    Some((u64::from_le_bytes(*result), out.to_vec()))
}

/// `osek call-library FILE CONFIG TRACE OUT_LEN FILL`.
pub fn call(arguments: &[String]) -> Result<Ending, Failure> {
    let [file, config, trace, out_len, fill] = arguments else {
        return Err(Failure::Usage(format!("{CALL}: five arguments are needed")));
    };
    let number = |text: &String| text.parse::<usize>().map_err(|_| Failure::Usage(format!("{CALL}: {text}")));
    let bytes = |name: &str, part| -> Result<Vec<u8>, Failure> { Ok(input::read_bytes(name, part)?) };
    let case = Case {
        config: bytes(config, Part::Config)?,
        trace: bytes(trace, Part::Trace)?,
        out_len: number(out_len)?,
        fill: number(fill)? as u8,
    };
    let mut replies = own_output().map_err(|error| Failure::write("standard output", &error))?;
    let run = open(file).map_err(|error| Failure::Input(format!("{file}: {error}")))?;
    let (config, trace, mut out) = (case.config.clone(), case.trace.clone(), case.prefilled());
    // The slices are valid and do not overlap; what the library does with them is its own affair.
    let result =
        unsafe { run(config.as_ptr(), config.len(), trace.as_ptr(), trace.len(), out.as_mut_ptr(), out.len()) };
    if config != case.config || trace != case.trace {
        return Err(Failure::Input("the library has changed its input".into()));
    }
    let reply = [&result.to_le_bytes()[..], &out].concat();
    replies.write_all(&reply).map_err(|error| Failure::write("standard output", &error))?;
    Ok(Ending::Done)
}

/// Standard output for the reply alone: what the library prints goes nowhere.
fn own_output() -> io::Result<File> {
    let stdout = io::stdout();
    let own = stdout.as_fd().try_clone_to_owned()?;
    let nowhere = File::options().write(true).open("/dev/null")?;
    // Both are open files, and the copy keeps the first one's.
    unsafe { dup2(nowhere.as_raw_fd(), stdout.as_raw_fd()) };
    Ok(own.into())
}
