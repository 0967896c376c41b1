//! Exit statuses, and failures: the one line that is said, with its status.

/// All was done.
pub const DONE: i32 = 0;
/// The list cannot be planned, a text is no plan text, or two texts are not of one rack of
/// up to 8 disks.
pub const REFUSED: i32 = 1;
/// It could not be done: usage, input or output.
pub const NOT_DONE: i32 = 2;

/// Why nothing was printed: a line for standard error, and the exit status.
#[derive(Debug)]
pub struct Failure {
    pub status: i32,
    pub line: String,
}

impl Failure {
    /// A refusal.
    pub fn refused(line: String) -> Self {
        let status = REFUSED;
        Failure { status, line }
    }

    /// Input that cannot be read or is no list file, or output that cannot be written.
    pub fn not_done(line: String) -> Self {
        let status = NOT_DONE;
        Failure { status, line }
    }

    /// Wrong usage of a command, or of `jugfjord` itself where the name is empty.
    pub fn usage(words: &str, command: &str) -> Self {
        let gap = if command.is_empty() { "" } else { " " };
        Self::not_done(format!(
            "jugfjord: {words}, see jugfjord{gap}{command} --help"
        ))
    }
}
