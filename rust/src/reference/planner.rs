//! A plain planner for racks of equal disks by their three numbers, as the program `plan` takes
//! them: sentence by sentence from document 01, and from document 02 for shelf copies and service
//! clips. It sums every window anew.

use std::ops::Range;

use super::plan::{Pair, Plan, StoredCopy};
use crate::ffi::Planned;
use crate::rack::{Rack, LAST_FILM, LAST_LISTED_FILM, MOST_DEMAND, MOST_RECORDS, RECORD};
use crate::refusal::Refusal;
use crate::tables::{Entry, LentTables};

/// A film with remaining demand. The derived order is 01's: by amount, then by film.
#[derive(Clone, Copy, PartialEq, Eq, PartialOrd, Ord)]
struct Wanted {
    amount: u64,
    film: u32,
}

/// Plans a demand list into the tables.
pub fn plan(rack: Rack, list: &[u8], mut tables: LentTables) -> Planned {
    let demands = match judge(rack, list, &tables) {
        Ok(demands) => demands,
        Err(refusal) => return refusal.into(),
    };
    let mut plan = by_method(rack, &demands);
    store_shelf_copies(rack, &mut plan, &demands);
    tables.left[..demands.len()].fill(Entry::default());
    plan.store(&mut tables);
    Planned {
        number: 0,
        second: 0,
        served: plan.served(),
        unserved: plan.unserved(),
        left: plan.left.len() as u32,
    }
}

/// The list's films and demands, or the first refusal that applies.
fn judge(rack: Rack, list: &[u8], tables: &LentTables) -> Result<Vec<Pair>, Refusal> {
    let count = list.len() / RECORD;
    Refusal::unless(rack.in_range(), 1)?;
    Refusal::unless(list.len().is_multiple_of(RECORD), 2)?;
    Refusal::unless(count <= MOST_RECORDS, 3)?;
    Refusal::unless(tables.hold(&rack.entries(), count), 7)?;
    let mut demands = Vec::new();
    for record in list.chunks(RECORD) {
        let pair = (number(&record[..4]), number(&record[4..]));
        if let Some(number) = fault(pair, &demands) {
            let second = demands.len() as u32 + 1;
            return Err(Refusal { number, second });
        }
        demands.push(pair);
    }
    Ok(demands)
}

/// The number in four bytes, least significant first.
fn number(bytes: &[u8]) -> u32 {
    bytes
        .iter()
        .rev()
        .fold(0, |high, &byte| high * 256 + u32::from(byte))
}

/// What is wrong with a record that comes after these.
fn fault((film, demand): Pair, earlier: &[Pair]) -> Option<u32> {
    if film == 0 || film > LAST_FILM {
        Some(4)
    } else if film > LAST_LISTED_FILM {
        Some(16)
    } else if demand > MOST_DEMAND {
        Some(5)
    } else if earlier.iter().any(|&(seen, _)| seen == film) {
        Some(6)
    } else {
        None
    }
}

/// The plan that the method gives.
fn by_method(rack: Rack, demands: &[Pair]) -> Plan {
    let wanted = demands.iter().filter(|&&(_, demand)| demand >= 1);
    let mut list: Vec<Wanted> = wanted
        .map(|&(film, demand)| Wanted {
            amount: u64::from(demand),
            film,
        })
        .collect();
    list.sort();
    let disks = (0..rack.disks).map(|_| fill(rack, &mut list)).collect();
    list.sort_by_key(|wanted| wanted.film);
    let left = list.iter().map(|w| (w.film, w.amount as u32)).collect();
    Plan {
        rack: rack.entries(),
        disks,
        left,
    }
}

/// Takes the films of demand 0 in ascending number. Each goes to the lowest disk with a free
/// slot, as a copy with 0 viewers after its other copies. One with no free slot is left with 0.
fn store_shelf_copies(rack: Rack, plan: &mut Plan, demands: &[Pair]) {
    let slots = rack.slots.0 as usize;
    let mut unwanted: Vec<Pair> = demands.iter().copied().filter(|d| d.1 == 0).collect();
    unwanted.sort();
    for film in unwanted {
        let lowest = plan.disks.iter_mut().find(|copies| copies.len() < slots);
        match lowest {
            Some(copies) => copies.push(film.into()),
            None => plan.left.push(film),
        }
    }
    plan.left.sort();
}

/// Takes one disk's copies off the list.
fn fill(rack: Rack, list: &mut Vec<Wanted>) -> Vec<StoredCopy> {
    let load = u64::from(rack.streams.0);
    let window: Vec<Wanted> = list
        .drain(window(list, rack.slots.0 as usize, load))
        .collect();
    let mut copies = Vec::new();
    let mut room = load;
    for wanted in window {
        let viewers = wanted.amount.min(room);
        copies.push((wanted.film, viewers as u32).into());
        room -= viewers;
        if viewers < wanted.amount {
            list.push(Wanted {
                amount: wanted.amount - viewers,
                ..wanted
            });
        }
    }
    list.sort();
    copies
}

/// Where the disk's window lies in the list.
fn window(list: &[Wanted], slots: usize, load: u64) -> Range<usize> {
    let full = |range: &Range<usize>| sum(&list[range.clone()]) >= load;
    let opening = (1..=slots.min(list.len())).map(|size| 0..size);
    let sliding = (1..)
        .map(|start| start..start + slots)
        .take_while(|range| range.end <= list.len());
    let last = list.len().saturating_sub(slots)..list.len();
    opening.chain(sliding).find(full).unwrap_or(last)
}

fn sum(window: &[Wanted]) -> u64 {
    window.iter().map(|wanted| wanted.amount).sum()
}
