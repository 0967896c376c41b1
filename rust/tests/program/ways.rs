//! The ways in which an input comes to the program.

use std::fs::{self, File, OpenOptions};
use std::io::{self, Seek, Write};
use std::path::Path;
use std::process::{self, Stdio};
use std::sync::atomic::{AtomicUsize, Ordering};
use std::thread;
use std::time::Duration;

use crate::dice::Dice;
use crate::program::{command, finish, run, start, Outcome};

/// Runs the program on an input that comes in one way.
pub type Way = fn(&[u8]) -> Outcome;

/// So many bytes that are written at once, and how long the writer waits then.
#[derive(Clone, Copy)]
pub struct Piece {
    pub bytes: usize,
    pub pause: Duration,
}

impl Piece {
    /// Some bytes with no pause behind them.
    pub fn of(bytes: usize) -> Self {
        let pause = Duration::ZERO;
        Piece { bytes, pause }
    }

    /// The same piece with a pause of milliseconds behind it.
    pub fn then_wait(self, milliseconds: u64) -> Self {
        let pause = Duration::from_millis(milliseconds);
        Piece { pause, ..self }
    }
}

/// Standard input is a file.
pub fn file(input: &[u8]) -> Outcome {
    run(command(), file_of(input))
}

/// Standard input is a pipe that is written in single bytes.
pub fn single_bytes(input: &[u8]) -> Outcome {
    pipe(input, || Piece::of(1))
}

/// Standard input is a pipe that is written in single bytes with time to read each of them.
pub fn slow_bytes(input: &[u8]) -> Outcome {
    pipe(input, || Piece::of(1).then_wait(5))
}

/// Standard input is a pipe that is written in chunks of 1 to 70,000 bytes, some with a pause
/// behind them.
pub fn chunks(input: &[u8]) -> Outcome {
    let mut dice = Dice::new(input.iter().copied().map(u64::from).sum());
    pipe(input, || {
        let most = dice.pick(&[1, 8, 100, 4_096, 8_219, 70_000]);
        let pause = u64::from(dice.one_in(4));
        Piece::of(dice.within(1, most) as usize).then_wait(pause)
    })
}

/// A file that holds these bytes, at its start, to be read and written. It has no name any more.
pub fn file_of(bytes: &[u8]) -> File {
    static FILES: AtomicUsize = AtomicUsize::new(0);
    let number = FILES.fetch_add(1, Ordering::Relaxed);
    let name = format!("plan-{}-{number}", process::id());
    let path = Path::new(env!("CARGO_TARGET_TMPDIR")).join(name);
    let filled = || -> io::Result<File> {
        let mut options = OpenOptions::new();
        let mut file = options
            .read(true)
            .write(true)
            .create_new(true)
            .open(&path)?;
        fs::remove_file(&path)?;
        file.write_all(bytes)?;
        file.rewind()?;
        Ok(file)
    };
    filled().expect("a file can be made in cargo's directory")
}

/// Standard input is a pipe that is written in pieces and closed then.
pub fn pipe(input: &[u8], piece: impl FnMut() -> Piece + Send) -> Outcome {
    let mut command = command();
    command.stdin(Stdio::piped());
    let mut child = start(command);
    let input_end = child.stdin.take().expect("standard input is a pipe");
    thread::scope(|scope| {
        let writer = scope.spawn(|| write_in_pieces(input_end, input, piece));
        let outcome = finish(child);
        let written = writer.join().expect("the writer ends");
        if let Err(error) = written {
            panic!("the program did not read {} bytes: {error}", input.len());
        }
        outcome
    })
}

/// Writes the input in pieces and closes the pipe.
fn write_in_pieces(
    mut pipe: impl Write,
    input: &[u8],
    mut piece: impl FnMut() -> Piece,
) -> io::Result<()> {
    let mut rest = input;
    while !rest.is_empty() {
        let Piece { bytes, pause } = piece();
        let (now, later) = rest.split_at(bytes.min(rest.len()));
        pipe.write_all(now)?;
        if !pause.is_zero() {
            thread::sleep(pause);
        }
        rest = later;
    }
    Ok(())
}
