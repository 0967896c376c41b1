//! The three tables of a plan, and the entries of two of them.

use std::fmt;

use crate::rack::{
    disks_in_range, places, Disk, Rack, MOST_RECORDS, TERMINAL_DISKS, TERMINAL_RECORDS,
};

/// An entry of the copy table or of the left table: one number, the film in its low 16 bits, in the
/// copy table the mark in the 16 bits above them, and the viewers or the amount in its high 32 bits.
/// So entries without marks sort by amount, then by film. The default is that of an unused place.
#[repr(transparent)]
#[derive(Clone, Copy, Default, PartialEq, Eq, PartialOrd, Ord)]
pub struct Entry(u64);

impl Entry {
    /// The entry of a film with its viewers or its amount, without a mark. What a film above 65,535
    /// has beyond 16 bits stands where a copy has its mark.
    pub fn new(film: u32, amount: u32) -> Self {
        Entry(u64::from(amount) << 32 | u64::from(film))
    }

    /// The film of a copy or a left film.
    pub fn film(self) -> u32 {
        self.unmarked_film() & 0xffff
    }

    /// The film of an entry that has no mark, such as a left film: all of the low 32 bits. It is
    /// above 65,535 where they hold more than a film.
    pub fn unmarked_film(self) -> u32 {
        self.0 as u32
    }

    /// The mark of a copy: 1 where its disk held the film before, else 0. Other marks are refused.
    pub fn mark(self) -> u32 {
        self.unmarked_film() >> 16
    }

    /// The entry of a copy with this mark instead of its own.
    pub fn with_mark(self, mark: u16) -> Self {
        Entry::new(self.film() | u32::from(mark) << 16, self.amount())
    }

    /// The viewers of a copy or the amount of a left film.
    pub fn amount(self) -> u32 {
        (self.0 >> 32) as u32
    }
}

impl fmt::Debug for Entry {
    fn fmt(&self, out: &mut fmt::Formatter) -> fmt::Result {
        let (film, amount) = (self.film(), self.amount());
        match self.mark() {
            0 => write!(out, "({film} {amount})"),
            mark => write!(out, "({film} {amount} mark {mark})"),
        }
    }
}

/// The copy table, the count table and the left table.
#[derive(Clone, Debug, Default, PartialEq, Eq)]
pub struct Tables<Entries, Counts> {
    pub copies: Entries,
    pub counts: Counts,
    pub left: Entries,
}

/// Tables of one's own.
pub type OwnTables = Tables<Vec<Entry>, Vec<u32>>;
/// Tables to be read.
pub type TablesView<'a> = Tables<&'a [Entry], &'a [u32]>;
/// Tables to be written.
pub type LentTables<'a> = Tables<&'a mut [Entry], &'a mut [u32]>;

impl OwnTables {
    /// Tables of zeros with room for any plan of this rack and so many records.
    /// They are empty for a rack out of range, which every operation refuses first.
    pub fn for_plan(rack: &[Disk], records: usize) -> Self {
        if !disks_in_range(rack) {
            return Tables::default();
        }
        Tables {
            copies: vec![Entry::default(); places(rack)],
            counts: vec![0; rack.len()],
            left: vec![Entry::default(); records],
        }
    }

    /// Tables of zeros with room for any plan.
    pub fn for_any_plan() -> Self {
        Self::for_plan(&Rack::largest().entries(), MOST_RECORDS)
    }

    /// Tables of zeros with room for any plan of the purser's terminal.
    pub fn for_terminal() -> Self {
        Self::for_plan(&[Disk::largest(); TERMINAL_DISKS], TERMINAL_RECORDS)
    }
}

impl<Entries: AsRef<[Entry]>, Counts: AsRef<[u32]>> Tables<Entries, Counts> {
    pub fn view(&self) -> TablesView<'_> {
        Tables {
            copies: self.copies.as_ref(),
            counts: self.counts.as_ref(),
            left: self.left.as_ref(),
        }
    }

    /// Whether the tables have room for this rack and so many left films.
    pub fn hold(&self, rack: &[Disk], left: usize) -> bool {
        let view = self.view();
        view.copies.len() >= places(rack)
            && view.counts.len() >= rack.len()
            && view.left.len() >= left
    }
}

impl<Entries: AsMut<[Entry]>, Counts: AsMut<[u32]>> Tables<Entries, Counts> {
    pub fn lend(&mut self) -> LentTables<'_> {
        Tables {
            copies: self.copies.as_mut(),
            counts: self.counts.as_mut(),
            left: self.left.as_mut(),
        }
    }
}
