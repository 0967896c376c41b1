//! Standard input that fails: no plan of what came before, and one line on standard error. Input
//! that comes late or never blocks is no failure.

use std::fs::File;
use std::io::Write;
use std::os::fd::OwnedFd;
use std::os::unix::net::UnixStream;
use std::process::Stdio;

use crate::contents::right_bytes;
use crate::expected::output;
use crate::inputs::{of_records, CHUNK, INPUT_A, MOST_KEPT};
use crate::program::{command, run, shell, Outcome};
use crate::ways::{pipe, Piece};

/// The opening of case A's input: the rack and five records.
const FIVE_RECORDS: &[u8] = INPUT_A.split_at(of_records(5)).0;

/// Asserts that nothing was printed and that standard input is named as the cause.
fn assert_no_plan(outcome: &Outcome, input: &str) {
    outcome.assert_said("standard input", input);
    assert!(outcome.stdout.is_empty(), "{input}: something was printed");
}

/// A socket's two ends: one where these bytes were written, and one that has them ready.
fn socket(ready: &[u8]) -> (UnixStream, UnixStream) {
    let (mut writer, reader) = UnixStream::pair().expect("there are sockets");
    let written = writer
        .set_nonblocking(true)
        .and_then(|_| writer.write_all(ready));
    written.expect("a socket holds so many bytes");
    (writer, reader)
}

/// The same end of a socket, where a read fails that would have to wait.
fn never_blocking(reader: UnixStream) -> OwnedFd {
    let set = reader.set_nonblocking(true);
    set.expect("a socket need not block");
    reader.into()
}

/// Asserts that there is no plan where reads never block, these bytes are ready and the writer
/// stays open.
fn expect_no_plan_of(ready: &[u8]) {
    let (writer, reader) = socket(ready);
    let outcome = run(command(), never_blocking(reader));
    drop(writer);
    assert_no_plan(&outcome, &format!("{} bytes ready", ready.len()));
}

#[test]
fn nothing_is_ready() {
    expect_no_plan_of(&[]);
}

#[test]
fn half_a_head_is_ready() {
    expect_no_plan_of(&INPUT_A[..6]);
}

#[test]
fn five_records_are_ready() {
    expect_no_plan_of(FIVE_RECORDS);
}

#[test]
fn as_much_as_is_kept_is_ready() {
    expect_no_plan_of(&right_bytes(MOST_KEPT - 1));
    expect_no_plan_of(&right_bytes(MOST_KEPT));
}

#[test]
fn more_than_is_kept_is_ready() {
    expect_no_plan_of(&right_bytes(MOST_KEPT + 1));
    expect_no_plan_of(&right_bytes(9_000));
    expect_no_plan_of(&right_bytes(MOST_KEPT + CHUNK));
    expect_no_plan_of(&right_bytes(MOST_KEPT + CHUNK + 1));
}

/// Asserts that there is no plan where the connection breaks off behind these bytes: the writer
/// ends and has not read what was sent to it, so that the read behind the bytes fails.
fn expect_no_plan_of_broken(sent: &[u8]) {
    let (writer, mut reader) = socket(sent);
    reader.write_all(b"?").expect("a socket holds a byte");
    drop(writer);
    let outcome = run(command(), OwnedFd::from(reader));
    assert_no_plan(&outcome, &format!("broken off at {} bytes", sent.len()));
}

#[test]
fn the_connection_breaks_off_behind_five_records() {
    expect_no_plan_of_broken(FIVE_RECORDS);
}

#[test]
fn the_connection_breaks_off_behind_what_is_kept() {
    expect_no_plan_of_broken(&right_bytes(MOST_KEPT));
    expect_no_plan_of_broken(&right_bytes(9_000));
}

#[test]
fn standard_input_is_a_directory() {
    let directory = File::open("/").expect("a directory can be opened");
    assert_no_plan(&run(command(), directory), "a directory");
}

#[test]
fn standard_input_is_closed() {
    let closed = shell(r#"exec "$0" <&-"#);
    assert_no_plan(&run(closed, Stdio::null()), "closed standard input");
}

#[test]
fn input_that_never_blocks_and_ends_is_planned() {
    let (writer, reader) = socket(INPUT_A);
    drop(writer);
    let outcome = run(command(), never_blocking(reader));
    outcome.assert_printed(&output(INPUT_A), "case A from a socket");
}

#[test]
fn input_that_comes_after_a_pause_is_planned() {
    let piece = || Piece::of(FIVE_RECORDS.len()).then_wait(300);
    pipe(INPUT_A, piece).assert_printed(&output(INPUT_A), "case A with pauses");
}
