//! A plain planner for racks of any disks, from the words of documents 01 and 02 and apart from
//! `planner`. The list is an ordered set, windows are differences of running sums, and the disk to
//! fill next is looked for each time.

use std::collections::{BTreeSet, HashSet};
use std::ops::Range;

use super::plan::{judge_rack, viewers, Pair, Plan, StoredCopy};
use crate::ffi::Planned;
use crate::rack::{Disk, LAST_FILM, LAST_LISTED_FILM, MOST_DEMAND, MOST_RECORDS, RECORD};
use crate::refusal::Refusal;
use crate::tables::{Entry, LentTables};

/// The films with remaining demand, as amount and film: in 01's order.
type Wanted = BTreeSet<(u32, u32)>;

/// Plans a demand list into the tables.
pub fn plan(rack: &[Disk], list: &[u8], mut tables: LentTables) -> Planned {
    match judge(rack, list, &tables) {
        Ok(demands) => store(&plan_of(rack, &demands), demands.len(), &mut tables),
        Err(refusal) => refusal.into(),
    }
}

/// The plan of a list on a rack, without marks.
pub fn plan_of(rack: &[Disk], demands: &[Pair]) -> Plan {
    let mut plan = by_method(rack, demands);
    store_shelf_copies(&mut plan, demands);
    plan
}

/// Stores the plan of so many records, with zero entries behind its left films, and answers its
/// numbers.
pub fn store(plan: &Plan, records: usize, tables: &mut LentTables) -> Planned {
    tables.left[..records].fill(Entry::default());
    plan.store(tables);
    Planned {
        served: plan.served(),
        unserved: plan.unserved(),
        left: plan.left.len() as u32,
        ..Planned::default()
    }
}

/// The list's films and demands, or the first refusal that applies.
pub fn judge(rack: &[Disk], list: &[u8], tables: &LentTables) -> Result<Vec<Pair>, Refusal> {
    judge_rack(rack)?;
    Refusal::unless(list.len().is_multiple_of(RECORD), 2)?;
    let demands: Vec<Pair> = list.chunks(RECORD).map(pair_in).collect();
    Refusal::unless(demands.len() <= MOST_RECORDS, 3)?;
    Refusal::unless(tables.hold(rack, demands.len()), 7)?;
    let mut seen = HashSet::new();
    for (&(film, demand), second) in demands.iter().zip(1..) {
        let refuse = |number| Err(Refusal { number, second });
        match (film, demand) {
            (0, _) => return refuse(4),
            _ if film > LAST_FILM => return refuse(4),
            _ if film > LAST_LISTED_FILM => return refuse(16),
            _ if demand > MOST_DEMAND => return refuse(5),
            _ if !seen.insert(film) => return refuse(6),
            _ => {}
        }
    }
    Ok(demands)
}

/// The film and the demand of a record.
fn pair_in(record: &[u8]) -> Pair {
    let number = |at: usize| u32::from_le_bytes(record[at..at + 4].try_into().expect("four bytes"));
    (number(0), number(4))
}

/// The plan that the method gives: disks are filled by ascending slots, equal ones by number, and
/// stand by number.
fn by_method(rack: &[Disk], demands: &[Pair]) -> Plan {
    let wanted = demands.iter().filter(|(_, demand)| *demand > 0);
    let mut wanted: Wanted = wanted.map(|&(film, demand)| (demand, film)).collect();
    let mut filled = vec![None; rack.len()];
    while let Some(disk) = next_disk(rack, &filled) {
        filled[disk] = Some(take_copies(rack[disk], &mut wanted));
    }
    let mut left: Vec<Pair> = wanted
        .iter()
        .map(|&(amount, film)| (film, amount))
        .collect();
    left.sort_unstable();
    Plan {
        rack: rack.to_vec(),
        disks: filled.into_iter().flatten().collect(),
        left,
    }
}

/// Of the disks that are not yet filled one with the fewest slots, and of these the lowest.
fn next_disk(rack: &[Disk], filled: &[Option<Vec<StoredCopy>>]) -> Option<usize> {
    let empty = (0..rack.len()).filter(|&disk| filled[disk].is_none());
    empty.min_by_key(|&disk| (rack[disk].slots, disk))
}

/// Takes one disk's copies off the list. What is over at its last film goes back.
fn take_copies(disk: Disk, wanted: &mut Wanted) -> Vec<StoredCopy> {
    let films: Vec<(u32, u32)> = wanted.iter().copied().collect();
    let window = &films[window(disk, &films)];
    for film in window {
        wanted.remove(film);
    }
    let mut copies: Vec<StoredCopy> = window
        .iter()
        .map(|&(amount, film)| (film, amount).into())
        .collect();
    let sum = viewers(&copies) as u32;
    if let (Some(over), Some(last)) = (sum.checked_sub(disk.streams.0), copies.last_mut()) {
        last.viewers -= over;
        if over > 0 {
            wanted.insert((over, last.film));
        }
    }
    copies
}

/// Where the disk's window lies: the first one that has the load, else the last one.
fn window(disk: Disk, films: &[(u32, u32)]) -> Range<usize> {
    let size = films.len().min(disk.slots.0 as usize);
    // The sum of all films before each place, and behind them that of all.
    let mut before = vec![0u64];
    for &(amount, _) in films {
        before.push(before[before.len() - 1] + u64::from(amount));
    }
    let has_load =
        |window: &Range<usize>| before[window.end] - before[window.start] >= disk.streams.0.into();
    let opening = (1..=size).map(|end| 0..end);
    let last = films.len() - size..films.len();
    let sliding = (1..=last.start).map(|start| start..start + size);
    opening.chain(sliding).find(has_load).unwrap_or(last)
}

/// Stores the films of demand 0 in ascending number, each on the lowest disk with a free slot, or
/// among the left films.
fn store_shelf_copies(plan: &mut Plan, demands: &[Pair]) {
    let unwanted = demands.iter().filter(|(_, demand)| *demand == 0);
    let films: BTreeSet<u32> = unwanted.map(|&(film, _)| film).collect();
    for film in films {
        let mut disks = plan.disks.iter_mut().zip(&plan.rack);
        let free = disks.find(|(copies, disk)| copies.len() < disk.slots.0 as usize);
        match free {
            Some((copies, _)) => copies.push((film, 0).into()),
            None => plan.left.push((film, 0)),
        }
    }
    plan.left.sort_unstable();
}
