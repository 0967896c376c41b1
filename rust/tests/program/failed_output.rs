//! Standard output that fails: one line on standard error.

use std::fs::OpenOptions;
use std::io::{Read, Seek};
use std::net::Shutdown;
use std::os::fd::OwnedFd;
use std::os::unix::net::UnixStream;
use std::process::Command;

use jugfjord::rack::MOST_RECORDS;

use crate::contents::right_bytes;
use crate::expected::output;
use crate::inputs::{of_records, INPUT_A};
use crate::program::{command, run, shell};
use crate::ways::file_of;

/// Asserts that calls that cannot write, of a plan and of a refusal, name standard output as the
/// cause.
fn expect_unwritten(call: impl Fn() -> Command) {
    for input in [INPUT_A, &[]] {
        let outcome = run(call(), file_of(input));
        outcome.assert_said("standard output", &format!("{} bytes", input.len()));
    }
}

#[test]
fn standard_output_is_a_full_device() {
    expect_unwritten(|| {
        let full = OpenOptions::new().write(true).open("/dev/full");
        let mut command = command();
        command.stdout(full.expect("there is a full device"));
        command
    });
}

#[test]
fn standard_output_is_closed() {
    expect_unwritten(|| shell(r#"exec "$0" >&-"#));
}

/// An end that nobody reads. A socket's, since the reading end of a pipe may be held for a moment
/// by a process that another test starts.
fn unread() -> OwnedFd {
    let (writer, reader) = UnixStream::pair().expect("there are sockets");
    reader.shutdown(Shutdown::Both).expect("it can be shut");
    writer.into()
}

#[test]
fn nobody_reads_standard_output() {
    expect_unwritten(|| {
        let mut command = shell(r#"trap "" PIPE; exec "$0""#);
        command.stdout(unread());
        command
    });
}

#[test]
fn nobody_reads_standard_output_and_the_signal_comes() {
    expect_unwritten(|| {
        let mut command = command();
        command.stdout(unread());
        command
    });
}

#[test]
fn standard_output_fails_after_some_bytes() {
    let input = right_bytes(of_records(MOST_RECORDS));
    let mut file = file_of(&[]);
    let mut limited = shell(r#"ulimit -f 8; trap "" XFSZ; exec "$0""#);
    limited.stdout(file.try_clone().expect("a file can be shared"));
    let outcome = run(limited, file_of(&input));
    outcome.assert_said("standard output", "a file that may not grow");
    let mut written = Vec::new();
    file.rewind().expect("a file has a start");
    file.read_to_end(&mut written).expect("a file can be read");
    let whole = output(&input);
    assert!(!written.is_empty() && written.len() < whole.len());
    assert!(whole.starts_with(&written));
}
