//! Marks in the tables of a plan.

use jugfjord::rack::Disk;
use jugfjord::tables::TablesView;

use crate::shelf::copies;
use crate::tally::Tally;

/// How many copies there are, and how many of them are marked.
pub struct Marks {
    pub copies: usize,
    pub held: usize,
}

impl Marks {
    /// What the tables of a plan hold.
    pub fn of(rack: &[Disk], tables: &TablesView) -> Self {
        let copies = copies(rack, tables).concat();
        Marks {
            copies: copies.len(),
            held: copies.iter().filter(|copy| copy.mark() == 1).count(),
        }
    }
}

/// Counts an accepted plan by its marks.
pub fn tally_marks(rack: &[Disk], tables: &TablesView, tally: &mut Tally) {
    tally.count(match Marks::of(rack, tables).held {
        0 => "accepted without a mark",
        _ => "accepted with marks",
    });
}
