//! Where output goes: standard output, or a file that is written whole.

use std::fs;
use std::io::{self, Write};
use std::os::unix::fs::MetadataExt;
use std::path::Path;

use crate::failure::Failure;

/// Writes to standard output.
pub fn print(bytes: impl AsRef<[u8]>) -> Result<(), Failure> {
    let mut stdout = io::stdout().lock();
    stdout
        .write_all(bytes.as_ref())
        .and_then(|()| stdout.flush())
        .map_err(|error| Failure::write("standard output", &error))
}

/// Writes to standard error; where that is closed too, nothing is left to tell it to.
pub fn complain(text: &str) {
    let _ = io::stderr().write_all(text.as_bytes());
}

/// Writes a file, or standard output where the name is `-`.
pub fn write(name: &str, bytes: impl AsRef<[u8]>) -> Result<(), Failure> {
    if name == "-" {
        return print(bytes);
    }
    fs::write(name, bytes).map_err(|error| Failure::write(name, &error))
}

/// An output that is one of the inputs would be gone before it is of use.
pub fn not_over(out: &str, inputs: &[String]) -> Result<(), Failure> {
    let same = |input: &String| {
        let found = |name: &str| fs::metadata(name).map(|file| (file.dev(), file.ino())).ok();
        out != "-" && input != "-" && fs::metadata(out).is_ok_and(|file| file.is_file()) && found(out) == found(input)
    };
    match inputs.iter().find(|input| same(input)) {
        Some(input) => Err(Failure::Output(format!("{out} is not written: it is the input {input}"))),
        None => Ok(()),
    }
}

/// Writes a file of a folder.
pub fn write_in(folder: &Path, name: &str, bytes: impl AsRef<[u8]>) -> Result<(), Failure> {
    let path = folder.join(name);
    fs::write(&path, bytes).map_err(|error| Failure::write(&path.display().to_string(), &error))
}

/// Makes a folder for files of the tool; one that is there already must be empty.
pub fn new_folder(name: &str) -> Result<&Path, Failure> {
    let path = Path::new(name);
    fs::create_dir_all(path).map_err(|error| Failure::write(name, &error))?;
    let mut inside = fs::read_dir(path).map_err(|error| Failure::write(name, &error))?;
    match inside.next() {
        None => Ok(path),
        Some(_) => Err(Failure::Output(format!("{name} is not empty: name a new folder"))),
    }
}
