//! Planning on the purser's terminal, from the words of document 02: the plain planner, with one
//! more refusal among its own.

use super::mixed_planner;
use super::plan::judge_rack;
use crate::ffi::Planned;
use crate::rack::{Disk, MOST_RECORDS, RECORD, TERMINAL_DISKS, TERMINAL_RECORDS};
use crate::refusal::Refusal;
use crate::tables::LentTables;

/// Plans a demand list into the tables, if the terminal's tables hold it.
pub fn plan(rack: &[Disk], list: &[u8], tables: LentTables) -> Planned {
    match judge(rack, list) {
        Ok(()) => mixed_planner::plan(rack, list, tables),
        Err(refusal) => refusal.into(),
    }
}

/// The refusals up to the terminal's own: "after 3 and before 7".
fn judge(rack: &[Disk], list: &[u8]) -> Result<(), Refusal> {
    let records = list.len() / RECORD;
    judge_rack(rack)?;
    Refusal::unless(list.len().is_multiple_of(RECORD), 2)?;
    Refusal::unless(records <= MOST_RECORDS, 3)?;
    Refusal::unless(rack.len() <= TERMINAL_DISKS, 17)?;
    Refusal::unless(records <= TERMINAL_RECORDS, 17)
}
