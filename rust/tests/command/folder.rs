//! A folder with files, the command run in it, and what came of that.

use std::fs;
use std::io::Write;
use std::os::unix::process::ExitStatusExt;
use std::path::{Path, PathBuf};
use std::process::{Command, ExitStatus, Output, Stdio};
use std::sync::atomic::{AtomicUsize, Ordering};
use std::thread;

use jugfjord::rack::{records, Disk, Rack, Slots, Streams, MOST_BYTES};
use jugfjord::reference::{after, mixed_planner, planner, terminal, writer};
use jugfjord::refusal::Refusal;
use jugfjord::tables::{OwnTables, Tables};

const JUGFJORD: &str = env!("CARGO_BIN_EXE_jugfjord");

/// A folder of one test's own, which is gone when the test ends.
pub struct Folder(PathBuf);

impl Folder {
    /// An empty folder.
    pub fn new() -> Self {
        static MADE: AtomicUsize = AtomicUsize::new(0);
        let number = MADE.fetch_add(1, Ordering::Relaxed);
        let name = format!("command-{}-{number}", std::process::id());
        let path = Path::new(env!("CARGO_TARGET_TMPDIR")).join(name);
        fs::create_dir_all(&path).expect("a folder can be made");
        Folder(path)
    }

    /// A folder with this one file.
    pub fn with(name: &str, bytes: impl AsRef<[u8]>) -> Self {
        let folder = Folder::new();
        folder.write(name, bytes);
        folder
    }

    pub fn write(&self, name: &str, bytes: impl AsRef<[u8]>) {
        fs::write(self.0.join(name), bytes).expect("a file can be written");
    }

    /// The command with these arguments, to be run in the folder.
    pub fn command(&self, arguments: &[&str]) -> Command {
        let mut command = Command::new(JUGFJORD);
        command.args(arguments).current_dir(&self.0);
        command.env_remove("NO_COLOR").env_remove("TERM");
        command.stdin(Stdio::null());
        command
    }

    /// Runs the command on no input.
    pub fn run(&self, arguments: &[&str]) -> Ran {
        Ran::of(&mut self.command(arguments))
    }

    /// Runs the command with these bytes on its standard input.
    pub fn run_on(&self, arguments: &[&str], input: &[u8]) -> Ran {
        let mut command = self.command(arguments);
        command.stdin(Stdio::piped());
        command.stdout(Stdio::piped()).stderr(Stdio::piped());
        let mut child = command.spawn().expect("it runs");
        let mut stdin = child.stdin.take().expect("it has an input");
        let input = input.to_vec();
        // The command may end before it has read all, so that a write may fail.
        let writing = thread::spawn(move || stdin.write_all(&input));
        let output = child.wait_with_output().expect("it ends");
        let _ = writing.join().expect("the writer ends");
        output.into()
    }

    /// A line of the shell, with the command as `$0`.
    pub fn shell_command(&self, line: &str) -> Command {
        let mut shell = Command::new("sh");
        shell.args(["-c", line, JUGFJORD]).current_dir(&self.0);
        shell
    }

    /// Runs a line of the shell.
    pub fn shell(&self, line: &str) -> Ran {
        Ran::of(&mut self.shell_command(line))
    }
}

impl Drop for Folder {
    fn drop(&mut self) {
        let _ = fs::remove_dir_all(&self.0);
    }
}

/// What a run printed, and how it ended.
pub struct Ran {
    pub status: ExitStatus,
    pub out: String,
    pub err: String,
    pub bytes: Vec<u8>,
}

impl From<Output> for Ran {
    fn from(output: Output) -> Self {
        Ran {
            status: output.status,
            out: String::from_utf8_lossy(&output.stdout).into(),
            err: String::from_utf8(output.stderr).expect("messages are UTF-8"),
            bytes: output.stdout,
        }
    }
}

impl Ran {
    /// Runs a command to its end.
    pub fn of(command: &mut Command) -> Self {
        command.output().expect("it runs").into()
    }

    /// What was printed, asserting that all went well.
    pub fn printed(&self) -> &str {
        assert_eq!((self.status.code(), self.err.as_str()), (Some(0), ""));
        &self.out
    }

    /// Asserts that nothing was printed, with this status and this one line on standard error.
    pub fn failed(&self, status: i32, line: &str) {
        assert_eq!(self.err, format!("{line}\n"));
        assert_eq!((self.status.code(), self.out.as_str()), (Some(status), ""));
    }

    /// Asserts that nothing was printed, and that a signal of this number ended it silently.
    pub fn ended_by(&self, signal: i32) {
        assert_eq!((self.out.as_str(), self.err.as_str()), ("", ""));
        assert_eq!(self.status.signal(), Some(signal));
    }
}

/// A rack of equal disks by its three numbers.
pub fn rack(disks: u32, slots: u32, streams: u32) -> Rack {
    Rack::new(disks, Slots(slots), Streams(streams))
}

/// The plan text of a list by the plain planner of three numbers and the plain writer, or its
/// refusal.
pub fn reference_text(rack: Rack, list: &[u8]) -> Result<String, Refusal> {
    let mut tables = Tables::for_any_plan();
    let planned = planner::plan(rack, list, tables.lend()).accepted()?;
    text_of_tables(&rack.entries(), tables, planned.left)
}

/// The plan text of a list by the plain planner of any disks and the plain writer, or its refusal.
pub fn mixed_text(rack: &[Disk], list: &[u8]) -> Result<String, Refusal> {
    let mut tables = Tables::for_any_plan();
    let planned = mixed_planner::plan(rack, list, tables.lend()).accepted()?;
    text_of_tables(rack, tables, planned.left)
}

/// The plan text of a list by the plain planner of the purser's terminal and the plain writer, or its
/// refusal.
pub fn terminal_text(rack: &[Disk], list: &[u8]) -> Result<String, Refusal> {
    let mut tables = Tables::for_any_plan();
    let planned = terminal::plan(rack, list, tables.lend()).accepted()?;
    text_of_tables(rack, tables, planned.left)
}

/// The plan text of a list after an earlier text by the plain planner and the plain writer, or its
/// refusal.
pub fn text_after(rack: &[Disk], list: &[u8], earlier: &[u8]) -> Result<String, Refusal> {
    let mut tables = Tables::for_any_plan();
    let planned = after::plan(rack, list, earlier, tables.lend()).accepted()?;
    text_of_tables(rack, tables, planned.left)
}

/// The plan text of these tables with so many left films, or its refusal.
fn text_of_tables(rack: &[Disk], tables: OwnTables, left: u32) -> Result<String, Refusal> {
    let mut text = vec![0; MOST_BYTES];
    let written = writer::write(rack, tables.view(), left, &mut text).accepted()?;
    text.truncate(written.length as usize);
    Ok(String::from_utf8(text).expect("plan texts are ASCII"))
}

/// The bytes that `plan` reads, for a rack and pairs of film and demand.
pub fn plan_input(rack: Rack, demands: &[(u32, u32)]) -> Vec<u8> {
    let numbers = [rack.disks, rack.slots.0, rack.streams.0];
    let numbers = numbers.map(u32::to_le_bytes).concat();
    [numbers, records(demands)].concat()
}
