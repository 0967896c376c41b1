//! Transfers between two plans, from the words of document 02.

use super::plan::{Plan, StoredCopy};
use super::reader;
use crate::ffi::Transferred;
use crate::refusal::Refusal;
use crate::transfers::{CountRow, Transfer, ENDS, LOADER, MOST_TRANSFER_DISKS};

/// Finds the transfers from the old text's plan to the new one's, and counts them in the table.
pub fn transfers(
    old: &[u8],
    new: &[u8],
    list: &mut [Transfer],
    counts: &mut [CountRow],
) -> Transferred {
    attempt(old, new, list, counts).unwrap_or_else(Transferred::from)
}

/// The old text's refusals, the new text's, then 14, 15 and 7, then the work.
fn attempt(
    old: &[u8],
    new: &[u8],
    list: &mut [Transfer],
    counts: &mut [CountRow],
) -> Result<Transferred, Refusal> {
    let old_plan = reader::judge_text(old)?;
    let new_plan = reader::judge_text(new)?;
    let is_small = |plan: &Plan| plan.disks.len() <= MOST_TRANSFER_DISKS;
    Refusal::unless(is_small(&old_plan) && is_small(&new_plan), 14)?;
    Refusal::unless(first_line(old) == first_line(new), 15)?;
    let transfers = placed(&wanted(&old_plan, &new_plan));
    let is_room = list.len() >= transfers.len() && counts.len() >= ENDS;
    Refusal::unless(is_room, 7)?;
    for (at, &transfer) in transfers.iter().enumerate() {
        list[at] = transfer;
    }
    for (source, row) in counts[..ENDS].iter_mut().enumerate() {
        for (destination, place) in row.iter_mut().enumerate() {
            *place = count(&transfers, source, destination);
        }
    }
    Ok(Transferred {
        number: 0,
        second: 0,
        transfers: transfers.len() as u32,
        rounds: transfers.iter().map(|t| t.round()).max().unwrap_or(0),
    })
}

fn first_line(text: &[u8]) -> Option<&[u8]> {
    text.split(|&byte| byte == b'\n').next()
}

/// A transfer that has no round yet: its destination, film and source. They sort by destination,
/// then by film.
type Wanted = (u32, u32, u32);

/// One for each new copy whose film the old plan has not on the same disk, by ascending
/// destination, then film.
fn wanted(old: &Plan, new: &Plan) -> Vec<Wanted> {
    let mut wanted = Vec::new();
    for (at, copies) in new.disks.iter().enumerate() {
        for copy in copies {
            if !holds(&old.disks[at], copy.film) {
                wanted.push((at as u32 + 1, copy.film, source(old, copy.film)));
            }
        }
    }
    wanted.sort_unstable();
    wanted
}

fn holds(copies: &[StoredCopy], film: u32) -> bool {
    copies.iter().any(|copy| copy.film == film)
}

/// The lowest disk that holds the film in the old plan, else the loader.
fn source(old: &Plan, film: u32) -> u32 {
    let lowest = old.disks.iter().position(|copies| holds(copies, film));
    lowest.map_or(LOADER, |at| at as u32 + 1)
}

/// Each in the earliest round, from 1, where neither end takes part in one placed before.
fn placed(wanted: &[Wanted]) -> Vec<Transfer> {
    let mut placed: Vec<Transfer> = Vec::new();
    for &(destination, film, source) in wanted {
        let is_free = |end: u32, round: u32| {
            let mut others = placed.iter().filter(|other| other.round() == round);
            others.all(|other| other.source() != end && other.destination() != end)
        };
        let round = (1..)
            .find(|&round| is_free(source, round) && is_free(destination, round))
            .expect("the round after all others is free");
        placed.push(Transfer::of(source, destination, film, round));
    }
    placed
}

/// How many transfers go from the one to the other.
fn count(transfers: &[Transfer], source: usize, destination: usize) -> u32 {
    let ends = (source as u32, destination as u32);
    let is_such = |transfer: &&Transfer| (transfer.source(), transfer.destination()) == ends;
    transfers.iter().filter(is_such).count() as u32
}
