//! Safe calls of the C library. The only module of this crate with unsafe code.
//!
//! Each call hands over slices as pointer and count. The borrows last for the whole call,
//! tables that are written are borrowed alone, and the library keeps no pointer.

#![allow(unsafe_code)]

use crate::ffi::{self, Planned, ReadPlan, Transferred, Written};
use crate::rack::Disk;
use crate::tables::{LentTables, TablesView};
use crate::transfers::{CountRow, Transfer};

/// Calls a function with some arguments, the three tables, and the arguments after them.
macro_rules! call {
    ($function:ident, ($($before:expr),*), $tables:ident.$pointer:ident, ($($after:expr),*)) => {
        ffi::$function(
            $($before,)*
            $tables.copies.$pointer(),
            $tables.copies.len(),
            $tables.counts.$pointer(),
            $tables.counts.len(),
            $tables.left.$pointer(),
            $tables.left.len(),
            $($after),*
        )
    };
}

/// Plans a demand list into the tables. A refusal leaves the tables as they were.
pub fn plan(rack: &[Disk], list: &[u8], tables: LentTables) -> Planned {
    let (disks, disk_count) = (rack.as_ptr(), rack.len());
    let (bytes, count) = (list.as_ptr(), list.len());
    // SAFETY: every pointer comes from a live slice, together with that slice's length.
    unsafe {
        call!(
            jugfjord_plan,
            (disks, disk_count, bytes, count),
            tables.as_mut_ptr,
            ()
        )
    }
}

/// Plans a demand list into the tables as the purser's terminal does: more than 8 disks or more than
/// 96 records are refused. A refusal leaves the tables as they were.
pub fn plan_terminal(rack: &[Disk], list: &[u8], tables: LentTables) -> Planned {
    let (disks, disk_count) = (rack.as_ptr(), rack.len());
    let (bytes, count) = (list.as_ptr(), list.len());
    // SAFETY: as in `plan`.
    unsafe {
        call!(
            jugfjord_plan_terminal,
            (disks, disk_count, bytes, count),
            tables.as_mut_ptr,
            ()
        )
    }
}

/// Plans a demand list into the tables, and marks each copy whose film the same disk held in the
/// plan of an earlier text. A refusal leaves the tables as they were.
pub fn plan_after(rack: &[Disk], list: &[u8], earlier: &[u8], tables: LentTables) -> Planned {
    let (disks, disk_count) = (rack.as_ptr(), rack.len());
    let (bytes, count) = (list.as_ptr(), list.len());
    let (text, text_count) = (earlier.as_ptr(), earlier.len());
    // SAFETY: as in `plan`. The library only reads the rack, the list and the text.
    unsafe {
        call!(
            jugfjord_plan_after,
            (disks, disk_count, bytes, count, text, text_count),
            tables.as_mut_ptr,
            ()
        )
    }
}

/// Writes the text of the plan that the tables hold, with so many left films.
/// Bytes after the plan's text stay as they were. A refusal leaves all bytes so.
pub fn write(rack: &[Disk], tables: TablesView, left_films: u32, text: &mut [u8]) -> Written {
    let (disks, disk_count) = (rack.as_ptr(), rack.len());
    let (space, count) = (text.as_mut_ptr(), text.len());
    // SAFETY: as in `plan`. The library only reads the rack and the tables.
    unsafe {
        call!(
            jugfjord_write,
            (disks, disk_count),
            tables.as_ptr,
            (left_films, space, count)
        )
    }
}

/// Reads a plan text into the rack and the tables. Entries beyond the disks that were read stay as
/// they were. A refusal leaves rack and tables so.
pub fn read(text: &[u8], rack: &mut [Disk], tables: LentTables) -> ReadPlan {
    let (bytes, count) = (text.as_ptr(), text.len());
    let (disks, disk_count) = (rack.as_mut_ptr(), rack.len());
    // SAFETY: as in `plan`.
    unsafe {
        call!(
            jugfjord_read,
            (bytes, count, disks, disk_count),
            tables.as_mut_ptr,
            ()
        )
    }
}

/// Judges a plan text with no rack and no tables: what reading it would answer, were all long enough.
pub fn judge(text: &[u8]) -> ReadPlan {
    // SAFETY: as in `plan`.
    unsafe { ffi::jugfjord_judge(text.as_ptr(), text.len()) }
}

/// Finds what to copy so that a rack with the old text's plan gets the copies of the new one's,
/// each transfer with its round, and counts the transfers by source and destination. The counts
/// take the first nine rows. Entries beyond the transfers and rows beyond the nine stay as they
/// were. A refusal leaves all so.
pub fn transfers(
    old: &[u8],
    new: &[u8],
    list: &mut [Transfer],
    counts: &mut [CountRow],
) -> Transferred {
    // SAFETY: as in `plan`. The library only reads the texts.
    unsafe {
        ffi::jugfjord_transfers(
            old.as_ptr(),
            old.len(),
            new.as_ptr(),
            new.len(),
            list.as_mut_ptr(),
            list.len(),
            counts.as_mut_ptr(),
            counts.len(),
        )
    }
}
