//! Starts the built program and waits for its end.

use std::env;
use std::io::{self, Read};
use std::path::PathBuf;
use std::process::{Child, Command, ExitStatus, Stdio};
use std::sync::mpsc;
use std::thread;
use std::time::Duration;

const VARIABLE: &str = "JUGFJORD_PLAN";

/// A run takes less than a second. One that takes so long will never end.
const LIMIT: Duration = Duration::from_secs(30);

/// What one run of the program gave.
pub struct Outcome {
    pub stdout: Vec<u8>,
    pub stderr: Vec<u8>,
    pub status: ExitStatus,
}

/// The full path of the built program. Without it a test fails with words on what to set.
pub fn path() -> PathBuf {
    let asked = "Set it to the path of the built program `plan`, \
                 target/bin/plan, which ./sample, ./install and ./test build.";
    let value = env::var_os(VARIABLE).unwrap_or_else(|| panic!("{VARIABLE} is not set. {asked}"));
    match PathBuf::from(&value).canonicalize() {
        Ok(path) if path.is_file() => path,
        Ok(_) => panic!("{VARIABLE} is {value:?}, which is not a file. {asked}"),
        Err(error) => panic!("{VARIABLE} is {value:?}: {error}. {asked}"),
    }
}

/// A call of the program, with standard output and standard error to be looked at.
pub fn command() -> Command {
    watched(Command::new(path()))
}

/// A call of the program by a shell: the script has the program's path as `$0`.
pub fn shell(script: &str) -> Command {
    let mut command = Command::new("sh");
    command.arg("-c").arg(script).arg(path());
    watched(command)
}

/// The same call with standard output and standard error to be looked at.
fn watched(mut command: Command) -> Command {
    command.stdout(Stdio::piped()).stderr(Stdio::piped());
    command
}

/// Starts a call.
pub fn start(mut command: Command) -> Child {
    command.spawn().expect("the program can be started")
}

/// What a call gives with this as standard input.
pub fn run(mut command: Command, stdin: impl Into<Stdio>) -> Outcome {
    command.stdin(stdin);
    finish(start(command))
}

/// What a started program gives. The test fails where it does not end.
pub fn finish(mut child: Child) -> Outcome {
    let (stdout, stderr) = (child.stdout.take(), child.stderr.take());
    let (sender, receiver) = mpsc::channel();
    thread::spawn(move || sender.send((all_of(stdout), all_of(stderr))));
    let Ok((stdout, stderr)) = receiver.recv_timeout(LIMIT) else {
        let ended = child.kill().and_then(|_| child.wait());
        ended.expect("the program can be ended");
        panic!("the program did not end within {LIMIT:?}");
    };
    Outcome {
        stdout: stdout.expect("standard output can be read"),
        stderr: stderr.expect("standard error can be read"),
        status: child.wait().expect("the program ends"),
    }
}

/// All that comes out of a pipe, if there is one.
fn all_of(pipe: Option<impl Read>) -> io::Result<Vec<u8>> {
    let mut bytes = Vec::new();
    pipe.map_or(Ok(0), |mut pipe| pipe.read_to_end(&mut bytes))?;
    Ok(bytes)
}

impl Outcome {
    /// Asserts that just these bytes were printed and nothing was said on standard error.
    pub fn assert_printed(&self, expected: &[u8], input: &str) {
        self.assert_status(input);
        let (stdout, stderr) = (self.stdout.as_slice(), self.stderr.as_slice());
        assert!(stderr.is_empty(), "{input}: said {}", opening(stderr));
        assert!(
            stdout == expected,
            "{input}: printed {} bytes, {}, not {} bytes, {}",
            stdout.len(),
            opening(stdout),
            expected.len(),
            opening(expected)
        );
    }

    /// Asserts that one line was said on standard error, which names this stream and a reason.
    pub fn assert_said(&self, stream: &str, input: &str) {
        self.assert_status(input);
        let begin = format!("plan: {stream}: ");
        let said = String::from_utf8_lossy(&self.stderr);
        let reason = said.strip_prefix(&begin);
        let reason = reason.and_then(|rest| rest.strip_suffix('\n'));
        assert!(
            reason.is_some_and(|reason| !reason.is_empty() && !reason.contains('\n')),
            "{input}: said {said:?}, not one line that begins {begin:?}; printed {}",
            opening(&self.stdout)
        );
    }

    /// Asserts the exit status, which is 0 whatever happened.
    fn assert_status(&self, input: &str) {
        assert_eq!(self.status.code(), Some(0), "{input}: {}", self.status);
    }
}

/// Enough of some bytes to know them by.
fn opening(bytes: &[u8]) -> String {
    let first = &bytes[..bytes.len().min(60)];
    format!("{:?}", String::from_utf8_lossy(first))
}
