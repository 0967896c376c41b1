//! Random plans: well formed, and wrong in each way that document 01 names.

use jugfjord::rack::{Disk, LAST_FILM, MOST_DEMAND, MOST_RECORDS};
use jugfjord::reference::plan::{Pair, Plan, StoredCopy};

use crate::dice::Dice;
use crate::lists::films;
use crate::racks::{Racks, WRONG_RACKS};

/// A well-formed plan on such a rack. Few come from the method. A half have no mark.
pub fn good(dice: &mut Dice, racks: Racks) -> Plan {
    let rack = racks(dice);
    let disks = rack.iter().map(|&entry| disk(dice, entry)).collect();
    let count = match dice.below(100) {
        0 => MOST_RECORDS,
        1..=30 => 0,
        _ => dice.below(6),
    };
    let left = left(dice, count);
    let mut plan = Plan { rack, disks, left };
    set_marks(dice, &mut plan);
    plan
}

/// Marks none of the copies, few, half of them or all.
pub fn set_marks(dice: &mut Dice, plan: &mut Plan) {
    let eighths = dice.pick(&[0, 0, 0, 1, 4, 8]);
    for copy in plan.disks.iter_mut().flatten() {
        copy.is_held = dice.below(8) < eighths;
    }
}

/// Copies of any films, with viewers as `disk_viewers` gives them.
fn disk(dice: &mut Dice, disk: Disk) -> Vec<StoredCopy> {
    let count = dice.within(0, disk.slots.0);
    let viewers = disk_viewers(dice, disk, count);
    let films = films(dice, count as usize, LAST_FILM).into_iter();
    films.zip(viewers).map(StoredCopy::from).collect()
}

/// The viewers of so many copies on a disk, with at most the load in sum, and often just the load.
/// Some have none, in any place of the disk.
pub fn disk_viewers(dice: &mut Dice, disk: Disk, count: u32) -> Vec<u32> {
    let most = count.min(disk.streams.0);
    let least = dice.pick(&[0, most]);
    let watched = dice.within(least, most);
    let mut viewers = viewers(dice, watched, disk.streams.0);
    viewers.resize(count as usize, 0);
    dice.shuffle(&mut viewers);
    viewers
}

/// The viewers of so many copies, each with some, at most the load in sum.
fn viewers(dice: &mut Dice, count: u32, load: u32) -> Vec<u32> {
    let mut room = load;
    let mut viewers = Vec::new();
    for after in (0..count).rev() {
        let some = match dice.below(4) {
            0 => 1,
            1 => room - after,
            _ => dice.within(1, (room - after).min(2 * load / count + 1)),
        };
        room -= some;
        viewers.push(some);
    }
    viewers
}

/// So many left films in ascending order.
pub fn left(dice: &mut Dice, count: usize) -> Vec<Pair> {
    let mut films = films(dice, count, LAST_FILM);
    films.sort_unstable();
    let mut amount = || match dice.below(8) {
        0 => 0,
        1 => 1,
        2 => MOST_DEMAND,
        _ => dice.within(0, MOST_DEMAND),
    };
    films.into_iter().map(|film| (film, amount())).collect()
}

/// Makes a well-formed plan wrong, or finds no place for it.
pub type Wrong = fn(&mut Dice, &mut Plan) -> Option<()>;

/// Wrong plans that still fit the tables of their rack.
pub const WRONG: [(&str, Wrong); 12] = [
    ("film 0", |dice, plan| {
        copy(dice, plan)?.film = 0;
        Some(())
    }),
    ("film 0 without viewers", |dice, plan| {
        *copy(dice, plan)? = (0, 0).into();
        Some(())
    }),
    ("film twice on a disk", |dice, plan| {
        repeat_film(dice, plan).map(|_| ())
    }),
    ("film twice on a disk, without viewers", |dice, plan| {
        repeat_film(dice, plan)?.viewers = 0;
        Some(())
    }),
    ("one viewer above the load", |dice, plan| {
        let mut disks = plan.disks.iter_mut().zip(&plan.rack);
        let (copies, disk) = disks.find(|(copies, _)| !copies.is_empty())?;
        let load = disk.streams.0;
        let others: u32 = copies[1..].iter().map(|copy| copy.viewers).sum();
        copies[0].viewers = load - others + dice.pick(&[1, 1, 65_536]);
        Some(())
    }),
    ("viewers with a high bit", |dice, plan| {
        let viewers = &mut copy(dice, plan)?.viewers;
        *viewers = dice.pick(&[*viewers + 65_536, *viewers | 1 << 31, u32::MAX]);
        Some(())
    }),
    ("viewers that pass 32 bits in sum", |_, plan| {
        let copies = &mut *plan.disks.iter_mut().find(|copies| copies.len() >= 2)?;
        copies[0].viewers = u32::MAX;
        copies[1].viewers = 1;
        Some(())
    }),
    ("left film out of range", |dice, plan| {
        let (first, rest) = plan.left.split_first_mut()?;
        match rest.last_mut() {
            Some(last) if dice.one_in(2) => {
                last.0 = dice.pick(&[LAST_FILM + 1, last.0 + 65_536, u32::MAX])
            }
            _ => *first = (0, dice.pick(&[0, first.1])),
        }
        Some(())
    }),
    ("left films descending", |dice, plan| {
        let at = dice.below(plan.left.len().checked_sub(1).filter(|&n| n > 0)?);
        plan.left.swap(at, at + 1);
        Some(())
    }),
    ("left film twice", |dice, plan| {
        let at = dice.below(plan.left.len().checked_sub(1).filter(|&n| n > 0)?);
        plan.left[at + 1].0 = plan.left[at].0;
        Some(())
    }),
    ("left amount out of range", |dice, plan| {
        let at = dice.below(Some(plan.left.len()).filter(|&n| n > 0)?);
        let amount = &mut plan.left[at].1;
        *amount = dice.pick(&[MOST_DEMAND + 1, *amount | 1 << 31, u32::MAX]);
        Some(())
    }),
    ("1,025 left films", |dice, plan| {
        plan.left = dice.one_in(20).then(|| left(dice, MOST_RECORDS + 1))?;
        Some(())
    }),
];

/// Some copy of the plan.
fn copy<'a>(dice: &mut Dice, plan: &'a mut Plan) -> Option<&'a mut StoredCopy> {
    let at = dice.below(plan.disks.len());
    let count = Some(plan.disks[at].len()).filter(|&count| count > 0)?;
    Some(&mut plan.disks[at][dice.below(count)])
}

/// Some disk's last copy, whose film is now that of another copy there.
fn repeat_film<'a>(dice: &mut Dice, plan: &'a mut Plan) -> Option<&'a mut StoredCopy> {
    let copies = plan.disks.iter_mut().find(|copies| copies.len() >= 2)?;
    let (last, others) = copies.split_last_mut()?;
    last.film = others[dice.below(others.len())].film;
    Some(last)
}

/// Wrong plans that only a text can show.
pub const WRONG_SHAPE: [(&str, Wrong); 5] = [
    // In a table this would be a mark.
    ("film of a copy above 65,535", |dice, plan| {
        let film = &mut copy(dice, plan)?.film;
        *film = dice.pick(&[LAST_FILM + 1, *film + 65_536, 1 << 31, u32::MAX]);
        Some(())
    }),
    ("more copies than slots", |dice, plan| {
        let at = dice.below(plan.disks.len());
        let Disk { slots, streams } = plan.rack[at];
        let most = u32::from(slots.0 < streams.0);
        let viewers = dice.within(0, most);
        let copies = films(dice, slots.0 as usize + 1, LAST_FILM).into_iter();
        plan.disks[at] = copies.map(|film| (film, viewers).into()).collect();
        Some(())
    }),
    ("a disk too few", |_, plan| plan.disks.pop().map(|_| ())),
    ("a disk too many", |_, plan| {
        plan.disks.push(Vec::new());
        Some(())
    }),
    ("wrong rack", |dice, plan| {
        let (_, _, wrong) = dice.pick(&WRONG_RACKS);
        wrong(dice, &mut plan.rack);
        Some(())
    }),
];
