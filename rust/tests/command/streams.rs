//! Files that cannot be read, and output that cannot be written: nothing is planned by halves.

use std::io::Write;
use std::net::Shutdown;
use std::os::fd::OwnedFd;
use std::os::unix::net::UnixStream;

use crate::folder::{Folder, Ran};

const LIST: &str = "rack 2 2 40\n101 31\n102 24\n103 18\n";
const PLAN: &str = "(rack 1 1 1)\n(disk 1)\n(left)\n(served 0 0)\n";
/// The signal of a closed pipe.
const SIGPIPE: i32 = 13;

fn folder() -> Folder {
    let folder = Folder::with("list.txt", LIST);
    folder.write("plan.txt", PLAN);
    folder
}

#[test]
fn what_cannot_be_read_is_said() {
    let folder = folder();
    for command in ["plan", "records", "check", "show"] {
        let missing = "jugfjord: cannot read none.txt: No such file or directory (os error 2)";
        folder.run(&[command, "none.txt"]).failed(2, missing);
        let directory = "jugfjord: cannot read .: Is a directory (os error 21)";
        folder.run(&[command, "."]).failed(2, directory);
        let closed = "jugfjord: cannot read standard input: Bad file descriptor (os error 9)";
        folder
            .shell(&format!("exec \"$0\" {command} - <&-"))
            .failed(2, closed);
        let written = "jugfjord: cannot read standard input: Is a directory (os error 21)";
        folder
            .shell(&format!("exec \"$0\" {command} - < ."))
            .failed(2, written);
    }
}

#[test]
fn an_earlier_plan_that_cannot_be_read_gives_no_plan() {
    let folder = folder();
    let missing = "jugfjord: cannot read none.txt: No such file or directory (os error 2)";
    let ran = folder.run(&["plan", "list.txt", "--after", "none.txt"]);
    ran.failed(2, missing);
    let directory = "jugfjord: cannot read .: Is a directory (os error 21)";
    folder
        .run(&["plan", "--after", ".", "list.txt"])
        .failed(2, directory);
    let closed = "jugfjord: cannot read standard input: Bad file descriptor (os error 9)";
    folder
        .shell("exec \"$0\" plan list.txt --after - <&-")
        .failed(2, closed);
    // The list comes first.
    let ran = folder.run(&["plan", "gone.txt", "--after", "none.txt"]);
    ran.failed(2, &missing.replace("none", "gone"));
}

#[test]
fn a_read_that_fails_in_the_midst_gives_no_plan() {
    let folder = folder();
    for command in ["plan", "records"] {
        let (mut writer, reader) = UnixStream::pair().expect("a pair of sockets");
        reader
            .set_nonblocking(true)
            .expect("it can be told not to wait");
        writer.write_all(LIST.as_bytes()).expect("it is written");
        let mut command = folder.command(&[command, "-"]);
        command.stdin(OwnedFd::from(reader));
        let words = "Resource temporarily unavailable (os error 11)";
        let said = format!("jugfjord: cannot read standard input: {words}");
        Ran::of(&mut command).failed(2, &said);
    }
}

/// Command lines that print something.
const PRINTING: [&str; 9] = [
    "plan list.txt",
    "plan list.txt --after plan.txt",
    "records list.txt",
    "check plan.txt",
    "show plan.txt",
    "transfers plan.txt plan.txt",
    "--help",
    "plan --help",
    "--version",
];

#[test]
fn output_that_cannot_be_written_is_said() {
    let folder = folder();
    for words in PRINTING {
        let closed = "jugfjord: cannot write standard output: Bad file descriptor (os error 9)";
        folder
            .shell(&format!("exec \"$0\" {words} >&-"))
            .failed(2, closed);
        folder
            .shell(&format!("exec \"$0\" {words} >&- <&-"))
            .failed(2, closed);
        let full = "jugfjord: cannot write standard output: No space left on device (os error 28)";
        folder
            .shell(&format!("exec \"$0\" {words} > /dev/full"))
            .failed(2, full);
    }
}

#[test]
fn a_closed_pipe_ends_the_command_as_it_ends_other_tools() {
    let folder = folder();
    for words in PRINTING {
        let line = format!("exec \"$0\" {words}");
        let mut plain = folder.shell_command(&line);
        Ran::of(plain.stdout(closed_stream())).ended_by(SIGPIPE);
        let mut ignoring = folder.shell_command(&format!("trap '' PIPE; {line}"));
        let said = "jugfjord: cannot write standard output: Broken pipe (os error 32)";
        Ran::of(ignoring.stdout(closed_stream())).failed(2, said);
    }
}

/// Where nobody reads any more. It is a socket, since the reading end of a pipe may be held for a
/// moment by a process that another test starts.
fn closed_stream() -> OwnedFd {
    let (writer, reader) = UnixStream::pair().expect("a pair of sockets");
    reader.shutdown(Shutdown::Both).expect("it can be shut");
    writer.into()
}

#[test]
fn the_status_tells_where_standard_error_is_closed_or_full() {
    let folder = folder();
    for redirection in ["2>&-", "2> /dev/full"] {
        for (words, status) in [("plan list.txt", 0), ("check list.txt", 1), ("plan", 2)] {
            let ran = folder.shell(&format!("exec \"$0\" {words} {redirection}"));
            assert_eq!(
                (ran.status.code(), ran.err.as_str()),
                (Some(status), ""),
                "{words}"
            );
            assert_eq!(ran.out.is_empty(), status != 0, "{words}");
        }
    }
}
