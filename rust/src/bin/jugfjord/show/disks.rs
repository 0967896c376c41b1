//! A plan by disk: the slots and the streams in use, and the copies that need not be copied.

use jugfjord::rack::Disk;
use jugfjord::tables::{Entry, TablesView};

use crate::page::{Row, Titles};

pub const TITLES: Titles<3> = (["disk", "slots used", "streams used"], "");

/// The characters of a bar.
const BAR: usize = 20;

/// The rows of all disks. Where the plan has marks, each row says how many the disk's copies have.
pub fn rows(rack: &[Disk], tables: &TablesView) -> Vec<Row<3>> {
    let most_held = copies(rack, tables).map(|(_, copies)| held(copies)).max();
    let most_held = most_held.unwrap_or(0);
    let row = |((number, copies), disk): ((u32, &[Entry]), &Disk)| {
        let used: u32 = copies.iter().map(|copy| copy.amount()).sum();
        let slots = format!("{} of {}", copies.len(), disk.slots.0);
        let streams = format!("{used} of {}", disk.streams.0);
        let bar = bar(used as usize, disk.streams.0 as usize);
        Row {
            columns: [number.to_string(), slots, streams],
            detail: bar + &held_words(held(copies), most_held),
            in_colour: false,
        }
    };
    copies(rack, tables).zip(rack).map(row).collect()
}

/// How many of the copies the disk held before.
pub fn held(copies: &[Entry]) -> usize {
    copies.iter().filter(|copy| copy.mark() == 1).count()
}

/// How many copies a disk held, set to the right of the most; nothing where no disk held any.
fn held_words(held: usize, most: usize) -> String {
    match most {
        0 => String::new(),
        _ => format!("  {held:>0$} held", most.to_string().len()),
    }
}

/// The copies of each disk, by its number.
pub fn copies<'a>(
    rack: &'a [Disk],
    tables: &TablesView<'a>,
) -> impl Iterator<Item = (u32, &'a [Entry])> {
    let mut rest = tables.copies;
    let copies = rack.iter().zip(tables.counts).map(move |(disk, &count)| {
        let (places, behind) = rest.split_at(disk.slots.0 as usize);
        rest = behind;
        &places[..count as usize]
    });
    (1..).zip(copies)
}

/// A bar for a part of a whole: full for the whole alone, empty for nothing alone.
fn bar(part: usize, whole: usize) -> String {
    let least = part.min(1);
    let full = (part * BAR / whole).max(least);
    format!("[{}{}]", "#".repeat(full), ".".repeat(BAR - full))
}
