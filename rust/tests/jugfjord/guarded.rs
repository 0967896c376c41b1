//! Tables and spaces with sentinels in and around them, so that every place can be compared.

use jugfjord::rack::{places, Disk};
use jugfjord::tables::{Entry, Tables};

use crate::dice::Dice;

/// The sentinels on either side.
const GUARD: usize = 3;

/// A slice in a larger buffer. Only the middle is lent, and the whole is compared.
#[derive(Clone, Debug, PartialEq, Eq)]
pub struct Guarded<T>(Vec<T>);

impl<T> Guarded<T> {
    /// So many places between their sentinels.
    pub fn new(len: usize, mut sentinel: impl FnMut() -> T) -> Self {
        Guarded((0..len + 2 * GUARD).map(|_| sentinel()).collect())
    }

    /// Takes away the places from this one on, if there are any.
    pub fn shorten(&mut self, len: usize) {
        let end = self.0.len() - GUARD;
        self.0.drain(end.min(GUARD + len)..end);
    }
}

impl<T> AsRef<[T]> for Guarded<T> {
    fn as_ref(&self) -> &[T] {
        &self.0[GUARD..self.0.len() - GUARD]
    }
}

impl<T> AsMut<[T]> for Guarded<T> {
    fn as_mut(&mut self) -> &mut [T] {
        let end = self.0.len() - GUARD;
        &mut self.0[GUARD..end]
    }
}

pub type GuardedTables = Tables<Guarded<Entry>, Guarded<u32>>;

/// The places that a rack and so many left films need, table by table.
#[derive(Clone, Copy)]
pub struct Need {
    copies: usize,
    counts: usize,
    left: usize,
}

impl Need {
    pub fn new(rack: &[Disk], left: usize) -> Self {
        Need {
            copies: places(rack),
            counts: rack.len(),
            left,
        }
    }

    /// Tables of sentinels, exactly as long as needed or longer, each table by itself.
    pub fn met(self, dice: &mut Dice) -> GuardedTables {
        let most = dice.pick(&[0, 4]);
        let more = [(); 3].map(|()| dice.within(0, most) as usize);
        let mut entry = || Entry::new(dice.next() as u32, dice.next() as u32);
        Tables {
            copies: Guarded::new(self.copies + more[0], &mut entry),
            left: Guarded::new(self.left + more[1], &mut entry),
            counts: Guarded::new(self.counts + more[2], || dice.next() as u32),
        }
    }

    /// Asserts that no place beyond the needed ones changed.
    pub fn assert_rest_same(self, before: &GuardedTables, after: &GuardedTables) {
        let (before, after) = (before.view(), after.view());
        assert_eq!(before.copies[self.copies..], after.copies[self.copies..]);
        assert_eq!(before.counts[self.counts..], after.counts[self.counts..]);
        assert_eq!(before.left[self.left..], after.left[self.left..]);
    }

    /// Takes one table below what is needed, mostly by one place. Gives false where the
    /// table needs no place.
    pub fn miss(self, dice: &mut Dice, tables: &mut GuardedTables) -> bool {
        let table = dice.below(3);
        let need = [self.copies, self.counts, self.left][table];
        if need == 0 {
            return false;
        }
        let len = too_short(dice, need);
        match table {
            0 => tables.copies.shorten(len),
            1 => tables.counts.shorten(len),
            _ => tables.left.shorten(len),
        }
        true
    }
}

/// A length below what is needed, mostly by one place.
pub fn too_short(dice: &mut Dice, need: usize) -> usize {
    if dice.one_in(4) {
        dice.below(need)
    } else {
        need - 1
    }
}
