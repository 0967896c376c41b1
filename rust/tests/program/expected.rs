//! What `plan` must print, worked out by the plain planner and writer.

use jugfjord::rack::{Rack, Slots, Streams, MOST_BYTES, RECORD};
use jugfjord::reference::{planner, writer};
use jugfjord::refusal::Refusal;
use jugfjord::tables::OwnTables;

use crate::inputs::HEAD;

/// The bytes that must be printed for an input.
pub fn output(input: &[u8]) -> Vec<u8> {
    match answer(input) {
        Ok(text) => text,
        Err(refusal) => refusal_line(refusal).into_bytes(),
    }
}

/// The text of the input's plan, or the first refusal that applies.
pub fn answer(input: &[u8]) -> Result<Vec<u8>, Refusal> {
    let (head, list) = input.split_at_checked(HEAD).ok_or(Refusal::plain(2))?;
    let number = |at: usize| u32::from_le_bytes(head[at..at + 4].try_into().expect("four bytes"));
    let rack = Rack::new(number(0), Slots(number(4)), Streams(number(8)));
    let entries = rack.entries();
    let mut tables = OwnTables::for_plan(&entries, list.len() / RECORD);
    let planned = planner::plan(rack, list, tables.lend()).accepted()?;
    let mut text = vec![0; MOST_BYTES];
    let written = writer::write(&entries, tables.view(), planned.left, &mut text).accepted()?;
    text.truncate(written.length as usize);
    Ok(text)
}

/// A refusal as the program prints it: with the second number where there is one.
fn refusal_line(refusal: Refusal) -> String {
    match refusal {
        Refusal { number, second: 0 } => format!("(refused {number})\n"),
        Refusal { number, second } => format!("(refused {number} {second})\n"),
    }
}
