//! A plan as a value, and when it and its rack are right.

use crate::rack::{
    disks_in_range, places, Disk, Rack, Slots, Streams, LAST_FILM, MOST_DEMAND, MOST_DISKS,
    MOST_RECORDS, MOST_SLOTS,
};
use crate::refusal::Refusal;
use crate::tables::{Entry, LentTables};

/// A film, then its viewers or the amount left.
pub type Pair = (u32, u32);

/// A film on a disk with its viewers, and the mark: whether the disk held the film before.
#[derive(Clone, Copy, Debug, PartialEq, Eq)]
pub struct StoredCopy {
    pub film: u32,
    pub viewers: u32,
    pub is_held: bool,
}

impl From<Pair> for StoredCopy {
    /// The copy without a mark.
    fn from((film, viewers): Pair) -> Self {
        StoredCopy {
            film,
            viewers,
            is_held: false,
        }
    }
}

/// Copies without marks, by film and viewers.
pub fn unmarked(copies: &[Pair]) -> Vec<StoredCopy> {
    copies.iter().copied().map(StoredCopy::from).collect()
}

/// A rack with each disk's copies and the left films, the disks by number.
#[derive(Clone, Debug, PartialEq, Eq)]
pub struct Plan {
    pub rack: Vec<Disk>,
    pub disks: Vec<Vec<StoredCopy>>,
    pub left: Vec<Pair>,
}

/// The viewers of all these copies.
pub fn viewers(copies: &[StoredCopy]) -> u64 {
    copies.iter().map(|copy| u64::from(copy.viewers)).sum()
}

/// The sum of the second numbers.
pub fn total(pairs: &[Pair]) -> u64 {
    pairs.iter().map(|&(_, amount)| u64::from(amount)).sum()
}

fn is_film(film: u32) -> bool {
    (1..=LAST_FILM).contains(&film)
}

/// Refuses a rack by 12, then by 13 with the first entry whose load times entry 1's slots differs
/// from entry 1's load times its slots.
pub fn judge_rack(rack: &[Disk]) -> Result<(), Refusal> {
    Refusal::unless(disks_in_range(rack), 12)?;
    let one = rack[0];
    let differs = |disk: &Disk| disk.streams.0 * one.slots.0 != one.streams.0 * disk.slots.0;
    match rack.iter().position(differs) {
        None => Ok(()),
        Some(at) => Err(Refusal {
            number: 13,
            second: at as u32 + 1,
        }),
    }
}

/// At most k copies, films distinct and in range, at most L viewers in sum. A copy may have 0.
pub fn disk_is_well_formed(disk: Disk, copies: &[StoredCopy]) -> bool {
    let distinct =
        |(at, copy): (usize, &StoredCopy)| copies[..at].iter().all(|c| c.film != copy.film);
    copies.len() <= disk.slots.0 as usize
        && copies.iter().all(|c| is_film(c.film))
        && copies.iter().enumerate().all(distinct)
        && viewers(copies) <= u64::from(disk.streams.0)
}

/// At most 1,024 films, strictly ascending and in range, amounts 0 to 1,000,000.
pub fn left_is_well_formed(left: &[Pair]) -> bool {
    left.len() <= MOST_RECORDS
        && left.windows(2).all(|two| two[0].0 < two[1].0)
        && left.iter().all(|l| is_film(l.0) && l.1 <= MOST_DEMAND)
}

impl Plan {
    /// A plan of equal disks whose text is as long as any of equal disks without marks.
    pub fn largest() -> Self {
        Plan::full(Rack::largest().entries())
    }

    /// A plan whose text is as long as any without marks. Its disks differ, so one of them has fewer
    /// slots than the most, by one.
    pub fn largest_mixed() -> Self {
        let disk = |slots| Disk::new(Slots(slots), Streams(2_047 * slots));
        let mut rack = vec![disk(MOST_SLOTS); MOST_DISKS as usize];
        rack[0] = disk(MOST_SLOTS - 1);
        Plan::full(rack)
    }

    /// A plan with a copy in each slot of large disks: three copies a disk have viewers of five
    /// digits, since the load admits no fourth beside the others of four.
    fn full(rack: Vec<Disk>) -> Self {
        let viewers = |slot| if slot < 3 { 10_000 } else { 1_000 };
        let copy = |disk: u32, slot: u32| (10_000 + MOST_DISKS * slot + disk, viewers(slot)).into();
        let copies = |(number, disk): (u32, &Disk)| {
            let slots = 0..disk.slots.0;
            slots.map(|slot| copy(number, slot)).collect()
        };
        Plan {
            disks: (0..).zip(&rack).map(copies).collect(),
            rack,
            left: (0..1_024).map(|at| (10_000 + at, MOST_DEMAND)).collect(),
        }
    }

    /// The plan with a mark at each copy.
    pub fn all_held(mut self) -> Self {
        let copies = self.disks.iter_mut().flatten();
        copies.for_each(|copy| copy.is_held = true);
        self
    }

    pub fn served(&self) -> u64 {
        self.disks.iter().map(|copies| viewers(copies)).sum()
    }

    pub fn unserved(&self) -> u64 {
        total(&self.left)
    }

    /// Fills the copy table with zero entries behind each disk's copies, the count table,
    /// and as much of the left table as there are left films. No copy's film is above 65,535.
    pub fn store(&self, tables: &mut LentTables) {
        tables.copies[..places(&self.rack)].fill(Entry::default());
        for (disk, copies) in self.disks.iter().enumerate() {
            let first = places(&self.rack[..disk]);
            tables.counts[disk] = copies.len() as u32;
            for (place, copy) in copies.iter().enumerate() {
                let entry = Entry::new(copy.film, copy.viewers);
                tables.copies[first + place] = entry.with_mark(copy.is_held.into());
            }
        }
        for (place, &(film, amount)) in self.left.iter().enumerate() {
            tables.left[place] = Entry::new(film, amount);
        }
    }
}
