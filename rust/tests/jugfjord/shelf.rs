//! Shelf copies in the tables of a plan: copies with 0 viewers, and left films of amount 0.

use jugfjord::rack::Disk;
use jugfjord::tables::{Entry, TablesView};

use crate::tally::Tally;

/// How many there are, and where.
pub struct Shelf {
    pub copies: usize,
    /// The disks that have such copies.
    pub disks: usize,
    /// Whether some of these disks stand behind one whose slots all have viewers,
    pub behind_full: bool,
    /// and others before it.
    pub around_full: bool,
    pub left: usize,
    /// Whether one of the left films stands between two of amount 1 or more.
    pub left_between: bool,
}

impl Shelf {
    /// What the tables of a plan with so many left films hold.
    pub fn of(rack: &[Disk], tables: &TablesView, left: u32) -> Self {
        let disks = copies(rack, tables);
        let shelf: Vec<usize> = disks.iter().map(|copies| zeros(copies)).collect();
        let is_full =
            |disk: usize| disks[disk].len() == rack[disk].slots.0 as usize && shelf[disk] == 0;
        let is_shelf = |&copies: &usize| copies > 0;
        let last = shelf.iter().rposition(is_shelf).unwrap_or(0);
        let first = shelf.iter().position(is_shelf).unwrap_or(0);
        let left = &tables.left[..left as usize];
        Shelf {
            copies: shelf.iter().sum(),
            disks: shelf.iter().filter(|copies| is_shelf(copies)).count(),
            behind_full: (0..last).any(is_full),
            around_full: (first..last).any(is_full),
            left: zeros(left),
            left_between: zeros(inner(left)) > 0,
        }
    }

    /// Counts which of them an accepted plan has.
    pub fn tally(&self, tally: &mut Tally) {
        tally.count_met(&[
            ("accepted with 0 viewers", self.copies > 0),
            ("accepted with amount 0", self.left > 0),
        ]);
    }
}

/// The copies of each disk.
pub fn copies<'a>(rack: &[Disk], tables: &TablesView<'a>) -> Vec<&'a [Entry]> {
    let mut rest = tables.copies;
    let mut disks = Vec::new();
    for (disk, &count) in rack.iter().zip(tables.counts) {
        let (own, behind) = rest.split_at(disk.slots.0 as usize);
        disks.push(&own[..count as usize]);
        rest = behind;
    }
    disks
}

/// How many entries have amount 0.
fn zeros(entries: &[Entry]) -> usize {
    entries.iter().filter(|entry| entry.amount() == 0).count()
}

/// The entries from the first to the last that has an amount.
fn inner(entries: &[Entry]) -> &[Entry] {
    let has_amount = |entry: &Entry| entry.amount() > 0;
    let end = entries.iter().rposition(has_amount).unwrap_or(0);
    let start = entries.iter().position(has_amount).unwrap_or(0);
    &entries[start..end]
}
