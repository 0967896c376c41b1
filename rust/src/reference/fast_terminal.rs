//! Planning on the purser's terminal, fast: a call that is small enough goes to the rolling planner.
//! Of any other, that planner says what it refuses before it looks at the tables.

use super::rolling;
use crate::ffi::Planned;
use crate::rack::{Disk, RECORD, TERMINAL_DISKS, TERMINAL_RECORDS};
use crate::refusal::Refusal;
use crate::tables::{LentTables, OwnTables};

/// Plans a demand list into the tables, if the terminal's tables hold it.
pub fn plan(rack: &[Disk], list: &[u8], tables: LentTables) -> Planned {
    if rack.len() <= TERMINAL_DISKS && list.len() / RECORD <= TERMINAL_RECORDS {
        return rolling::plan(rack, list, tables);
    }
    // Without tables all is refused: what is not refused before is 7, and 17 stands there.
    let refused = rolling::plan(rack, list, OwnTables::default().lend());
    match refused.number {
        7 => Refusal::plain(17).into(),
        _ => refused,
    }
}
