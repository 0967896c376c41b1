//! A plain writer: gathers the plan from the tables, formats it, then copies the text.

use std::collections::HashSet;

use super::plan::{disk_is_well_formed, judge_rack, left_is_well_formed, Pair, Plan, StoredCopy};
use crate::ffi::Written;
use crate::rack::{places, Disk};
use crate::refusal::Refusal;
use crate::tables::{Entry, TablesView};

/// Writes the text of the plan in the tables, with so many left films.
pub fn write(rack: &[Disk], tables: TablesView, left: u32, space: &mut [u8]) -> Written {
    match written(rack, tables, left, space.len()) {
        Ok(text) => {
            space[..text.len()].copy_from_slice(text.as_bytes());
            Written {
                length: text.len() as u64,
                ..Written::default()
            }
        }
        Err(refusal) => refusal.into(),
    }
}

fn written(rack: &[Disk], tables: TablesView, left: u32, space: usize) -> Result<String, Refusal> {
    judge_rack(rack)?;
    Refusal::unless(tables.hold(rack, left as usize), 7)?;
    let plan = gather(rack, tables, left as usize).ok_or(Refusal::plain(10))?;
    let text = text_of(&plan);
    Refusal::unless(text.len() <= space, 11)?;
    Ok(text)
}

/// The plan that the tables hold, if it is well formed.
fn gather(rack: &[Disk], tables: TablesView, left: usize) -> Option<Plan> {
    let mut disks = Vec::new();
    for (at, (&disk, &count)) in rack.iter().zip(tables.counts).enumerate() {
        let own = &tables.copies[places(&rack[..at])..places(&rack[..=at])];
        let used = own.get(..count as usize)?;
        let unused = &own[used.len()..];
        let copies = used.iter().map(copy_in).collect::<Option<Vec<_>>>()?;
        let is_unused = |place: &Entry| (place.unmarked_film(), place.amount()) == (0, 0);
        if !disk_is_well_formed(disk, &copies) || !unused.iter().all(is_unused) {
            return None;
        }
        disks.push(copies);
    }
    let left = pairs(&tables.left[..left]);
    left_is_well_formed(&left).then_some(Plan {
        rack: rack.to_vec(),
        disks,
        left,
    })
}

/// The copy of an entry, if its mark is 0 or 1.
fn copy_in(entry: &Entry) -> Option<StoredCopy> {
    let is_held = match entry.mark() {
        0 => false,
        1 => true,
        _ => return None,
    };
    Some(StoredCopy {
        film: entry.film(),
        viewers: entry.amount(),
        is_held,
    })
}

/// The films and amounts of left entries, which have no mark.
fn pairs(entries: &[Entry]) -> Vec<Pair> {
    let pair = |entry: &Entry| (entry.unmarked_film(), entry.amount());
    entries.iter().map(pair).collect()
}

/// The plan's text, well formed or not.
pub fn text_of(plan: &Plan) -> String {
    let disks = plan.disks.iter().enumerate();
    let mut lines = vec![first_line(&plan.rack)];
    lines.extend(disks.map(|(at, copies)| disk_line(at + 1, copies)));
    lines.push(left_line(&plan.left));
    lines.push(served_line(plan.served(), plan.unserved()));
    lines.into_iter().map(|line| line + "\n").collect()
}

/// The rack: its three numbers where all disks are equal, else each disk's slots and streams.
pub fn first_line(rack: &[Disk]) -> String {
    let sizes = |disk: &Disk| (disk.slots.0, disk.streams.0);
    let sizes: Vec<Pair> = rack.iter().map(sizes).collect();
    let one_size = sizes.iter().collect::<HashSet<_>>().len() == 1;
    match sizes.first() {
        Some((slots, streams)) if one_size => format!("(rack {} {slots} {streams})", sizes.len()),
        _ => format!("(mixed{})", inner(&sizes)),
    }
}

pub fn disk_line(disk: usize, copies: &[StoredCopy]) -> String {
    let copies: String = copies.iter().map(copy_form).collect();
    format!("(disk {disk}{copies})")
}

/// A copy and the space before it, with `held` where it is marked.
fn copy_form(copy: &StoredCopy) -> String {
    let mark = if copy.is_held { " held" } else { "" };
    format!(" ({} {}{mark})", copy.film, copy.viewers)
}

pub fn left_line(left: &[Pair]) -> String {
    format!("(left{})", inner(left))
}

pub fn served_line(served: u64, unserved: u64) -> String {
    format!("(served {served} {unserved})")
}

fn inner(pairs: &[Pair]) -> String {
    let pair = |(film, amount): &Pair| format!(" ({film} {amount})");
    pairs.iter().map(pair).collect()
}
