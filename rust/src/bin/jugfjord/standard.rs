//! Reading files and standard input, and writing to standard output and standard error.
//!
//! The standard library's handles take a closed descriptor for empty input, and for output that
//! was written. Here a copy of the descriptor is made and used as a file, so that every failure
//! is met.

use std::env;
use std::ffi::OsString;
use std::fs::File;
use std::io::{self, IsTerminal, Read, Write};
use std::os::fd::{AsFd, BorrowedFd};
use std::os::unix::ffi::OsStrExt;

use crate::failure::Failure;
use crate::words::shown;

/// A file by its path, or standard input by `-`.
pub struct Source(OsString);

impl Source {
    pub fn new(word: OsString) -> Self {
        Source(word)
    }

    /// The name for messages.
    pub fn name(&self) -> String {
        if self.is_standard_input() {
            "standard input".into()
        } else {
            shown(self.0.as_bytes())
        }
    }

    /// The name with a line, for messages.
    pub fn line(&self, number: usize) -> String {
        format!("{}:{number}", self.name())
    }

    /// The bytes to the end of the file, but no more than so many.
    pub fn read(&self, most: usize) -> Result<Vec<u8>, Failure> {
        let mut bytes = Vec::new();
        self.open()
            .and_then(|file| file.take(most as u64).read_to_end(&mut bytes))
            .map_err(|error| {
                Failure::not_done(format!("jugfjord: cannot read {}: {error}", self.name()))
            })?;
        Ok(bytes)
    }

    fn open(&self) -> io::Result<File> {
        if self.is_standard_input() {
            file_of(io::stdin().as_fd())
        } else {
            File::open(&self.0)
        }
    }

    /// Whether it is standard input.
    pub fn is_standard_input(&self) -> bool {
        self.0 == "-"
    }
}

/// Writes all bytes to standard output.
pub fn write(bytes: &[u8]) -> Result<(), Failure> {
    file_of(io::stdout().as_fd())
        .and_then(|mut file| file.write_all(bytes))
        .map_err(|error| {
            Failure::not_done(format!("jugfjord: cannot write standard output: {error}"))
        })
}

/// Says one line on standard error. Where that fails, only the exit status is left to tell.
pub fn complain(line: &str) {
    let line = format!("{line}\n");
    let _ = io::stderr().write_all(line.as_bytes());
}

/// Whether standard output may be bold and coloured.
pub fn may_be_coloured() -> bool {
    let is_unwanted = env::var_os("NO_COLOR").is_some_and(|value| !value.is_empty());
    let is_dumb = env::var_os("TERM").is_some_and(|kind| kind == "dumb");
    io::stdout().is_terminal() && !is_unwanted && !is_dumb
}

/// A file on a copy of the descriptor, which fails where the descriptor is closed.
fn file_of(descriptor: BorrowedFd) -> io::Result<File> {
    descriptor.try_clone_to_owned().map(File::from)
}
