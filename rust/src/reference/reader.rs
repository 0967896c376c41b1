//! A plain reader. A line is right when its own numbers and marks, written as the writer would write
//! them, give the line back, and when they are in range.

use super::plan::{disk_is_well_formed, judge_rack, left_is_well_formed, Pair, Plan, StoredCopy};
use super::writer::{disk_line, first_line, left_line, served_line};
use crate::ffi::ReadPlan;
use crate::rack::{Disk, Rack, Slots, Streams, MOST_BYTES};
use crate::refusal::Refusal;
use crate::tables::LentTables;

/// Reads a plan text into the rack and the tables.
pub fn read(text: &[u8], rack: &mut [Disk], mut tables: LentTables) -> ReadPlan {
    let plan = match judge(text, rack.len(), &tables) {
        Ok(plan) => plan,
        Err(refusal) => return refusal.into(),
    };
    for (entry, &disk) in rack.iter_mut().zip(&plan.rack) {
        *entry = disk;
    }
    plan.store(&mut tables);
    ReadPlan {
        number: 0,
        second: 0,
        disks: plan.rack.len() as u32,
        left: plan.left.len() as u32,
        served: plan.served(),
        unserved: plan.unserved(),
    }
}

fn judge(text: &[u8], entries: usize, tables: &LentTables) -> Result<Plan, Refusal> {
    let plan = judge_text(text)?;
    let is_room = entries >= plan.rack.len() && tables.hold(&plan.rack, plan.left.len());
    Refusal::unless(is_room, 7)?;
    Ok(plan)
}

/// The plan whose text this is, or refusal 8 or 9.
pub fn judge_text(text: &[u8]) -> Result<Plan, Refusal> {
    Refusal::unless(text.len() <= MOST_BYTES, 8)?;
    plan_of(text).map_err(|second| Refusal { number: 9, second })
}

/// The plan whose text this is, or the number of the first wrong line.
pub fn plan_of(text: &[u8]) -> Result<Plan, u32> {
    let mut lines = Lines { text, number: 0 };
    let rack = lines.next(rack_of)?;
    let disks = (1..)
        .zip(&rack)
        .map(|(number, &disk)| lines.next(|line| disk_of(disk, number, line)))
        .collect::<Result<Vec<_>, _>>()?;
    let left = lines.next(left_of)?;
    let plan = Plan { rack, disks, left };
    let sums = served_line(plan.served(), plan.unserved());
    lines.next(|line| (line == sums.as_bytes()).then_some(()))?;
    match lines.text {
        [] => Ok(plan),
        _ => Err(lines.number + 1),
    }
}

/// The text behind the lines taken so far, and their number.
struct Lines<'a> {
    text: &'a [u8],
    number: u32,
}

impl Lines<'_> {
    /// What the next ended line holds, or its number.
    fn next<T>(&mut self, holds: impl FnOnce(&[u8]) -> Option<T>) -> Result<T, u32> {
        self.number += 1;
        let end = self.text.iter().position(|&byte| byte == b'\n');
        let end = end.ok_or(self.number)?;
        let (line, rest) = self.text.split_at(end);
        self.text = &rest[1..];
        holds(line).ok_or(self.number)
    }
}

/// Every run of digits as a number. A number too large stops at the largest, which no
/// range admits.
fn numbers(line: &[u8]) -> Vec<u32> {
    let runs = line.split(|byte| !byte.is_ascii_digit());
    let value = |run: &[u8]| {
        run.iter().fold(0u32, |high, &digit| {
            high.saturating_mul(10)
                .saturating_add(u32::from(digit - b'0'))
        })
    };
    runs.filter(|run| !run.is_empty()).map(value).collect()
}

fn pairs(numbers: &[u32]) -> Vec<Pair> {
    numbers
        .chunks_exact(2)
        .map(|two| (two[0], two[1]))
        .collect()
}

/// The disks of a rack by its three numbers, or by each disk's two.
fn rack_of(line: &[u8]) -> Option<Vec<Disk>> {
    let numbers = numbers(line);
    let rack = match numbers.as_slice() {
        &[disks, slots, streams] => Rack::new(disks, Slots(slots), Streams(streams)).entries(),
        _ => disks(&numbers),
    };
    let same = first_line(&rack).as_bytes() == line;
    (same && judge_rack(&rack).is_ok()).then_some(rack)
}

fn disks(numbers: &[u32]) -> Vec<Disk> {
    let disk = |(slots, streams)| Disk::new(Slots(slots), Streams(streams));
    pairs(numbers).into_iter().map(disk).collect()
}

/// The copies behind the second opening bracket of a line and each further one: two numbers, and a
/// mark where `held` stands with them.
fn copies_of(line: &[u8]) -> Option<Vec<StoredCopy>> {
    let forms = line.split(|&byte| byte == b'(').skip(2);
    let copy = |form: &[u8]| match numbers(form)[..] {
        [film, viewers] => Some(StoredCopy {
            film,
            viewers,
            is_held: form.windows(4).any(|word| word == b"held"),
        }),
        _ => None,
    };
    forms.map(copy).collect()
}

fn disk_of(disk: Disk, number: usize, line: &[u8]) -> Option<Vec<StoredCopy>> {
    let copies = copies_of(line)?;
    let same = disk_line(number, &copies).as_bytes() == line;
    (same && disk_is_well_formed(disk, &copies)).then_some(copies)
}

fn left_of(line: &[u8]) -> Option<Vec<Pair>> {
    let left = pairs(&numbers(line));
    let same = left_line(&left).as_bytes() == line;
    (same && left_is_well_formed(&left)).then_some(left)
}
