//! Planning with an earlier plan's text, from the words of document 02: the plain planner's plan, in
//! which each copy is marked whose film the same disk held in the plan that the plain reader reads.

use super::plan::Plan;
use super::{mixed_planner, reader};
use crate::ffi::Planned;
use crate::rack::Disk;
use crate::refusal::Refusal;
use crate::tables::LentTables;

/// Plans a demand list into the tables, with marks by the earlier text.
pub fn plan(rack: &[Disk], list: &[u8], earlier: &[u8], tables: LentTables) -> Planned {
    attempt(rack, list, earlier, tables).unwrap_or_else(Planned::from)
}

/// All of planning's refusals, then those of the earlier text, then the work.
fn attempt(
    rack: &[Disk],
    list: &[u8],
    earlier: &[u8],
    mut tables: LentTables,
) -> Result<Planned, Refusal> {
    let demands = mixed_planner::judge(rack, list, &tables)?;
    let earlier = reader::judge_text(earlier)?;
    let mut plan = mixed_planner::plan_of(rack, &demands);
    set_marks(&mut plan, &earlier);
    Ok(mixed_planner::store(&plan, demands.len(), &mut tables))
}

/// Marks each copy of the plan by what the disk of the same number held. A disk that the earlier
/// plan lacks held nothing. Neither plan's viewers matter, nor the earlier plan's rack, marks and
/// left films.
fn set_marks(plan: &mut Plan, earlier: &Plan) {
    for (at, copies) in plan.disks.iter_mut().enumerate() {
        let held = earlier.disks.get(at).map_or(&[][..], |held| held);
        for copy in copies {
            copy.is_held = held.iter().any(|other| other.film == copy.film);
        }
    }
}
