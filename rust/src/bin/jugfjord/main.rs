//! The command `jugfjord`: plans list files, checks and shows plan texts, and says what to copy
//! from one plan to another, by the proved library.
//!
//! A subcommand reads all of its input, then answers all of its output or a failure. So nothing
//! is printed before all is known.

#![no_main]
#![deny(unsafe_code)]

mod arguments;
mod commands;
mod entry;
mod failure;
mod list;
mod list_file;
mod list_line;
mod page;
mod plan_file;
mod planning;
mod show;
mod standard;
mod transfers;
mod words;

use std::env;
use std::ffi::OsString;

use arguments::Asked;
use failure::{Failure, DONE};

/// Does what the command line asks, says what failed, and answers the exit status.
fn run() -> i32 {
    let done = output(env::args_os().skip(1)).and_then(|bytes| standard::write(&bytes));
    match done {
        Ok(()) => DONE,
        Err(failure) => {
            standard::complain(&failure.line);
            failure.status
        }
    }
}

/// All that the arguments of the command line print on standard output.
fn output(mut given: impl Iterator<Item = OsString>) -> Result<Vec<u8>, Failure> {
    let first = given
        .next()
        .ok_or_else(|| Failure::usage("expected a command", ""))?;
    match first.to_str() {
        Some("--help" | "-h") => Ok(commands::help().into_bytes()),
        Some("--version") => Ok(commands::version().into_bytes()),
        _ => {
            let command = commands::named(&first)?;
            match arguments::parse(command, given)? {
                Asked::Help => Ok(commands::help_of(command).into_bytes()),
                Asked::Run(arguments) => (command.run)(&arguments),
            }
        }
    }
}
