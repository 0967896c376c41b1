//! Planning with an earlier plan's text, fast: the rolling planner and the fast reader fill tables,
//! and for each film the last disk that held it is kept in one array.

use super::{fast_reader, rolling};
use crate::ffi::Planned;
use crate::rack::{Disk, LAST_FILM, MOST_DISKS};
use crate::refusal::Refusal;
use crate::tables::{Entry, LentTables, OwnTables, Tables, TablesView};

/// Plans a demand list into the tables, with marks by the earlier text.
pub fn plan(rack: &[Disk], list: &[u8], earlier: &[u8], tables: LentTables) -> Planned {
    attempt(rack, list, earlier, tables).unwrap_or_else(Planned::from)
}

fn attempt(
    rack: &[Disk],
    list: &[u8],
    earlier: &[u8],
    tables: LentTables,
) -> Result<Planned, Refusal> {
    // The tables are lent, and the earlier text is judged last: plan apart, and copy back.
    let mut planned_tables = Tables {
        copies: tables.copies.to_vec(),
        counts: tables.counts.to_vec(),
        left: tables.left.to_vec(),
    };
    let planned = rolling::plan(rack, list, planned_tables.lend()).accepted()?;
    let mut held_tables = OwnTables::for_any_plan();
    let mut held_rack = [Disk::default(); MOST_DISKS as usize];
    let read = fast_reader::read(earlier, &mut held_rack, held_tables.lend()).accepted()?;
    let held_rack = &held_rack[..read.disks as usize];
    set_marks(rack, &mut planned_tables, held_rack, &held_tables.view());
    tables.copies.copy_from_slice(&planned_tables.copies);
    tables.counts.copy_from_slice(&planned_tables.counts);
    tables.left.copy_from_slice(&planned_tables.left);
    Ok(planned)
}

/// Marks the copies in the tables whose film the disk of the same number held.
fn set_marks(rack: &[Disk], tables: &mut OwnTables, held_rack: &[Disk], held: &TablesView) {
    let mut last_holder = vec![0u8; LAST_FILM as usize + 1];
    let (mut first, mut held_first) = (0, 0);
    for (disk, number) in (0..rack.len()).zip(1u8..) {
        for copy in copies_of(held_rack, held, disk, held_first) {
            last_holder[copy.film() as usize] = number;
        }
        let count = tables.counts[disk] as usize;
        for copy in &mut tables.copies[first..first + count] {
            let is_held = last_holder[copy.film() as usize] == number;
            *copy = copy.with_mark(is_held.into());
        }
        first += rack[disk].slots.0 as usize;
        held_first += held_rack.get(disk).map_or(0, |disk| disk.slots.0 as usize);
    }
}

/// The copies of a disk, from its first place on, or none where the rack has no such disk.
fn copies_of<'a>(rack: &[Disk], tables: &TablesView<'a>, disk: usize, first: usize) -> &'a [Entry] {
    match rack.get(disk) {
        Some(_) => &tables.copies[first..first + tables.counts[disk] as usize],
        None => &[],
    }
}
