//! Random pairs of an old and a new plan of one rack, whose films overlap in many ways, and pairs of
//! racks that differ.

use jugfjord::rack::{Disk, LAST_FILM, MOST_STREAMS};
use jugfjord::reference::plan::{judge_rack, Plan};

use crate::dice::Dice;
use crate::lists::films;
use crate::plans::{disk_viewers, left, set_marks};
use crate::racks::{three_numbers, Racks};

/// The films of each disk, in the order of the text.
type Layout = Vec<Vec<u32>>;

/// Makes the new layout of a rack from the old one. The films are some that old layouts are drawn
/// from.
type Renewal = fn(&mut Dice, &[Disk], &Layout, &[u32]) -> Layout;

pub const RENEWALS: [(&str, Renewal); 9] = [
    ("same films", |_, _, old, _| old.clone()),
    ("same films in another order", |dice, _, old, _| {
        let mut new = old.clone();
        new.iter_mut().for_each(|films| dice.shuffle(films));
        new
    }),
    ("disks exchanged", |dice, _, old, _| {
        let mut new = old.clone();
        dice.shuffle(&mut new);
        new
    }),
    ("films of the disk before", |_, _, old, _| {
        let mut new = old.clone();
        new.rotate_right(1);
        new
    }),
    ("some copies changed", |dice, _, old, pool| {
        let mut new = old.clone();
        for film in new.iter_mut().flatten() {
            if dice.one_in(3) {
                *film = dice.pick(pool);
            }
        }
        new
    }),
    ("drawn from the same films", |dice, rack, _, pool| {
        drawn(dice, rack, pool)
    }),
    ("drawn from few of the films", |dice, rack, _, pool| {
        let few = dice.below(pool.len()) / 2 + 1;
        drawn(dice, rack, &pool[..few])
    }),
    ("drawn from other films", |dice, rack, _, pool| {
        let others: Vec<u32> = pool.iter().map(|film| film % LAST_FILM + 1).collect();
        drawn(dice, rack, &others)
    }),
    ("no films", |_, _, _, _| Layout::new()),
];

/// Makes another rack of a rack, for the new plan. It may be the same after all.
type OtherRack = fn(&mut Dice, &[Disk], Racks) -> Vec<Disk>;

pub const OTHER_RACKS: [(&str, OtherRack); 5] = [
    ("any other rack", |dice, _, racks| some_rack(dice, racks)),
    ("a disk fewer", |_, rack, _| {
        rack[..(rack.len() - 1).max(1)].to_vec()
    }),
    ("a disk more", |_, rack, _| [rack, &rack[..1]].concat()),
    ("other streams", |dice, rack, _| {
        let times = dice.within(2, 11);
        let mut rack = rack.to_vec();
        for disk in &mut rack {
            disk.streams.0 = (disk.streams.0 * times).min(MOST_STREAMS);
        }
        rack
    }),
    ("disks turned round", |_, rack, _| {
        rack.iter().rev().copied().collect()
    }),
];

/// An old and a new plan, and what kinds they are of.
pub struct PlanPair {
    pub old: Plan,
    pub new: Plan,
    pub renewal: &'static str,
    pub other_rack: Option<&'static str>,
}

impl PlanPair {
    /// Plans of one rack, but for one in ten.
    pub fn random(dice: &mut Dice, racks: Racks) -> Self {
        let rack = some_rack(dice, racks);
        let slots: u32 = rack.iter().map(|disk| disk.slots.0).sum();
        let most = dice.pick(&[2, slots / 2 + 2, slots + 2, 3 * slots + 2]);
        let pool = films(dice, most as usize, LAST_FILM);
        let old = drawn(dice, &rack, &pool);
        let (renewal, renew) = dice.pick(&RENEWALS);
        let new = renew(dice, &rack, &old, &pool);
        let (other_rack, new_rack) = match dice.one_in(10) {
            true => changed(dice, &rack, racks),
            false => (None, rack.clone()),
        };
        PlanPair {
            old: plan(dice, rack, old),
            new: plan(dice, new_rack, new),
            renewal,
            other_rack,
        }
    }

    /// How many new copies have a film that the same disk has not in the old plan.
    pub fn transfers(&self) -> usize {
        let mut old = self.old.disks.iter();
        let missing = self.new.disks.iter().map(|copies| {
            let held = old.next().map_or(&[][..], |held| held);
            let is_missing = |film| held.iter().all(|copy| copy.film != film);
            copies.iter().filter(|copy| is_missing(copy.film)).count()
        });
        missing.sum()
    }
}

/// A rack of 1 to 10 disks, mostly of up to 8, at times one of any number. Unequal disks stay so.
fn some_rack(dice: &mut Dice, racks: Racks) -> Vec<Disk> {
    let rack = racks(dice);
    if dice.one_in(50) {
        return rack;
    }
    let count = match dice.below(8) {
        0 => 8,
        1 => dice.within(9, 10),
        _ => dice.within(1, 8),
    };
    let resized: Vec<Disk> = rack.iter().cycle().take(count as usize).copied().collect();
    match three_numbers(&resized).is_some() == three_numbers(&rack).is_some() {
        true => resized,
        false => some_rack(dice, racks),
    }
}

/// Another rack that texts may have, with the name of its kind.
fn changed(dice: &mut Dice, rack: &[Disk], racks: Racks) -> (Option<&'static str>, Vec<Disk>) {
    let (name, change) = dice.pick(&OTHER_RACKS);
    let other = change(dice, rack, racks);
    match judge_rack(&other) {
        Ok(()) => (Some(name), other),
        Err(_) => changed(dice, rack, racks),
    }
}

/// Films for each disk, with every slot full, some of them or none.
fn drawn(dice: &mut Dice, rack: &[Disk], pool: &[u32]) -> Layout {
    let is_full = dice.one_in(3);
    let mut films = |disk: &Disk| {
        let slots = disk.slots.0;
        let count = if is_full {
            slots
        } else {
            dice.within(0, slots)
        };
        let mut films: Vec<u32> = (0..count).map(|_| dice.pick(pool)).collect();
        if is_full && pool.len() > count as usize {
            let start = dice.below(pool.len());
            let round = pool.iter().cycle().skip(start);
            films = round.take(count as usize).copied().collect();
            dice.shuffle(&mut films);
        }
        films
    };
    rack.iter().map(&mut films).collect()
}

/// A plan with as much of the layout as fits the rack, with any viewers, left films and marks. A film
/// that a disk has twice is taken once.
fn plan(dice: &mut Dice, rack: Vec<Disk>, mut layout: Layout) -> Plan {
    layout.resize(rack.len(), Vec::new());
    let mut disks = Vec::new();
    for (&disk, films) in rack.iter().zip(&layout) {
        let mut own: Vec<u32> = Vec::new();
        for &film in films {
            if !own.contains(&film) && own.len() < disk.slots.0 as usize {
                own.push(film);
            }
        }
        let viewers = disk_viewers(dice, disk, own.len() as u32);
        let copies = own.into_iter().zip(viewers);
        disks.push(copies.map(|copy| copy.into()).collect());
    }
    let count = dice.below(4);
    let left = left(dice, count);
    let mut plan = Plan { rack, disks, left };
    set_marks(dice, &mut plan);
    plan
}
