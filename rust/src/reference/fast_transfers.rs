//! Transfers between two plans, fast: for each film the set of old disks that hold it, and for each
//! end the set of rounds in which it is busy, all as bits.

use super::fast_reader::{self, Parsed};
use crate::ffi::Transferred;
use crate::rack::LAST_FILM;
use crate::refusal::Refusal;
use crate::transfers::{CountRow, Transfer, ENDS, LOADER, MOST_TRANSFERS, MOST_TRANSFER_DISKS};

/// Finds the transfers from the old text's plan to the new one's, and counts them in the table.
pub fn transfers(
    old: &[u8],
    new: &[u8],
    list: &mut [Transfer],
    counts: &mut [CountRow],
) -> Transferred {
    attempt(old, new, list, counts).unwrap_or_else(Transferred::from)
}

fn attempt(
    old: &[u8],
    new: &[u8],
    list: &mut [Transfer],
    counts: &mut [CountRow],
) -> Result<Transferred, Refusal> {
    let old = fast_reader::judge_text(old)?;
    let new = fast_reader::judge_text(new)?;
    let most = old.rack.len().max(new.rack.len());
    Refusal::unless(most <= MOST_TRANSFER_DISKS, 14)?;
    Refusal::unless(old.rack == new.rack, 15)?;
    let mut found = Found::new();
    found.place_all(&old, &new);
    let list = list.get_mut(..found.count).ok_or(Refusal::plain(7))?;
    let counts = counts.get_mut(..ENDS).ok_or(Refusal::plain(7))?;
    list.copy_from_slice(&found.list[..found.count]);
    counts.copy_from_slice(&found.counts);
    Ok(Transferred {
        number: 0,
        second: 0,
        transfers: found.count as u32,
        rounds: found.rounds,
    })
}

/// For each film the old disks that hold it: bit 0 is disk 1.
fn holders(old: &Parsed) -> Vec<u8> {
    let mut holders = vec![0u8; LAST_FILM as usize + 1];
    for (disk, copies) in old.disks().enumerate() {
        for copy in copies {
            holders[copy.film() as usize] |= 1 << disk;
        }
    }
    holders
}

/// Enough 64-bit words for a bit for each round: with all transfers at one end there are fewer than
/// twice as many rounds.
const WORDS: usize = 2 * MOST_TRANSFERS / 64;

/// The transfers placed so far, and for each end the rounds in which it is busy: bit 0 is round 1.
struct Found {
    list: [Transfer; MOST_TRANSFERS],
    count: usize,
    counts: [CountRow; ENDS],
    busy: [[u64; WORDS]; ENDS],
    rounds: u32,
}

impl Found {
    fn new() -> Self {
        Found {
            list: [Transfer::default(); MOST_TRANSFERS],
            count: 0,
            counts: [[0; ENDS]; ENDS],
            busy: [[0; WORDS]; ENDS],
            rounds: 0,
        }
    }

    fn place_all(&mut self, old: &Parsed, new: &Parsed) {
        let holders = holders(old);
        let mut films = Vec::new();
        for (disk, copies) in new.disks().enumerate() {
            films.clear();
            let missing = |film: &u32| holders[*film as usize] & 1 << disk == 0;
            films.extend(copies.iter().map(|copy| copy.film()).filter(missing));
            films.sort_unstable();
            for &film in &films {
                let source = match holders[film as usize] {
                    0 => LOADER,
                    disks => disks.trailing_zeros() + 1,
                };
                self.place(source, disk as u32 + 1, film);
            }
        }
    }

    fn place(&mut self, source: u32, destination: u32, film: u32) {
        let (from, to) = (source as usize, destination as usize);
        let words = self.busy[from].iter().zip(&self.busy[to]);
        let ones = words.map(|(one, other)| (one | other).trailing_ones());
        let free = ones.enumerate().find(|&(_, ones)| ones < 64);
        let (word, bit) = free.expect("a round among so many is free");
        self.busy[from][word] |= 1 << bit;
        self.busy[to][word] |= 1 << bit;
        let round = 64 * word as u32 + bit + 1;
        self.rounds = self.rounds.max(round);
        self.counts[from][to] += 1;
        self.list[self.count] = Transfer::of(source, destination, film, round);
        self.count += 1;
    }
}
