//! Plan texts in files: `jugfjord check`, and what is said of a text that is refused.

use jugfjord::rack::MOST_BYTES;
use jugfjord::refusal::Refusal;
use jugfjord::wrap;

use crate::arguments::Arguments;
use crate::failure::Failure;
use crate::standard::Source;
use crate::words::{quoted, shown};

/// One line about the plan of an accepted text.
pub fn check(arguments: &Arguments) -> Result<Vec<u8>, Failure> {
    let file = PlanFile::read(arguments.file(0))?;
    let judged = wrap::judge(&file.text).accepted();
    let plan = judged.map_err(|refusal| file.refused(refusal))?;
    let sums = format!("served {}, not served {}", plan.served, plan.unserved);
    Ok(format!("accepted: {}, {sums}\n", file.first_form()).into_bytes())
}

/// The text of a plan, and where it stands.
pub struct PlanFile<'a> {
    pub source: &'a Source,
    pub text: Vec<u8>,
}

impl<'a> PlanFile<'a> {
    /// The file's bytes, or one more than the longest text that is looked at.
    pub fn read(source: &'a Source) -> Result<Self, Failure> {
        let text = source.read(MOST_BYTES + 1)?;
        Ok(PlanFile { source, text })
    }

    /// The failure of a text that is refused.
    pub fn refused(&self, refusal: Refusal) -> Failure {
        Failure::refused(match refusal.number {
            9 => {
                let at = self.source.line(refusal.second as usize);
                format!("{at}: {}", wrong_line(&self.text, refusal))
            }
            _ => format!("{}: {refusal}", self.source.name()),
        })
    }

    /// The first line of the text, without its end.
    pub fn first_line(&self) -> &[u8] {
        first_line(&self.text)
    }

    /// What the first line of an accepted text has in its brackets: the rack.
    fn first_form(&self) -> String {
        let line = self.first_line();
        let inner = line
            .strip_prefix(b"(")
            .and_then(|line| line.strip_suffix(b")"));
        shown(inner.unwrap_or(line))
    }
}

/// The first line of the bytes, without its end.
fn first_line(bytes: &[u8]) -> &[u8] {
    let mut lines = bytes.split(|&byte| byte == b'\n');
    lines.next().unwrap_or(bytes)
}

/// What is wrong with the line of a refusal 9, and its content.
fn wrong_line(text: &[u8], refusal: Refusal) -> String {
    let numbers = refusal.numbers();
    let before = start_of(text, refusal.second as usize);
    let (earlier, rest) = text.split_at(before);
    let line = first_line(rest);
    let said = if wrap::judge(earlier).number == 0 {
        format!("bytes after the last line {numbers}")
    } else if rest.is_empty() {
        return format!("the text ends before this line {numbers}");
    } else if line.len() == rest.len() && !is_wrong_if_ended(text, refusal) {
        format!("this line is not ended by a line feed {numbers}")
    } else {
        refusal.to_string()
    };
    match line {
        [] => format!("{said}: an empty line"),
        _ => format!("{said}: {}", quoted(line)),
    }
}

/// Where the line of this number, from 1, begins in the text.
fn start_of(text: &[u8], line: usize) -> usize {
    let lines = text.split_inclusive(|&byte| byte == b'\n');
    lines.take(line - 1).map(|line| line.len()).sum()
}

/// Whether the text has the same refusal with a line feed behind it.
fn is_wrong_if_ended(text: &[u8], refusal: Refusal) -> bool {
    let ended = [text, b"\n"].concat();
    wrap::judge(&ended).accepted() == Err(refusal)
}
