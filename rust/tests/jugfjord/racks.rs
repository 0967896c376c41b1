//! Random racks: of equal disks, of unequal ones, and wrong ones.

use jugfjord::rack::{Disk, Rack, Slots, Streams, MOST_DISKS, MOST_SLOTS, MOST_STREAMS};

use crate::dice::Dice;
use crate::tally::Tally;

/// Makes a rack that is accepted.
pub type Racks = fn(&mut Dice) -> Vec<Disk>;

/// A disk by its two numbers.
pub fn disk(slots: u32, streams: u32) -> Disk {
    Disk::new(Slots(slots), Streams(streams))
}

/// A rack of equal disks by its three numbers.
pub fn equal_rack(disks: u32, slots: u32, streams: u32) -> Vec<Disk> {
    Rack::new(disks, Slots(slots), Streams(streams)).entries()
}

/// The three numbers of a rack whose disks are equal.
pub fn three_numbers(rack: &[Disk]) -> Option<Rack> {
    let &one = rack.first()?;
    let is_equal = rack.iter().all(|&disk| disk == one);
    is_equal.then(|| Rack::new(rack.len() as u32, one.slots, one.streams))
}

/// Equal disks: mostly few and small, sometimes with one stream or one slot, sometimes large.
pub fn equal(dice: &mut Dice) -> Vec<Disk> {
    let (disks, slots, streams) = match dice.below(60) {
        0 => (MOST_DISKS, MOST_SLOTS, MOST_STREAMS),
        1 => (
            dice.within(1, MOST_DISKS),
            dice.within(1, MOST_SLOTS),
            dice.within(1, MOST_STREAMS),
        ),
        2..=6 => (dice.within(1, 6), dice.within(1, 6), 1),
        7..=11 => (dice.within(1, 6), 1, dice.within(1, 40)),
        _ => (dice.within(1, 6), dice.within(1, 6), dice.within(1, 40)),
    };
    equal_rack(disks, slots, streams)
}

/// Unequal disks of one ratio: mostly few and small, in any order.
pub fn mixed(dice: &mut Dice) -> Vec<Disk> {
    // The slots and the streams that every disk has some number of times.
    let slots = dice.pick(&[1, 1, 1, 1, 2, 2, 3, 5, 8]);
    let streams = match dice.below(20) {
        0 => MOST_STREAMS * slots / MOST_SLOTS,
        1 => dice.within(1, MOST_STREAMS * slots / MOST_SLOTS),
        2..=4 => 1,
        _ => dice.within(1, 20),
    };
    let most = if dice.one_in(8) {
        MOST_SLOTS / slots
    } else {
        dice.within(2, 4)
    };
    let count = match dice.below(60) {
        0 => MOST_DISKS,
        1 => dice.within(2, MOST_DISKS),
        _ => dice.within(2, 6),
    };
    let mut times: Vec<u32> = (0..count).map(|_| dice.within(1, most)).collect();
    match dice.below(8) {
        0 => times.sort_unstable(),
        1 => times.sort_unstable_by(|one, other| other.cmp(one)),
        _ => {}
    }
    let rack: Vec<Disk> = times
        .into_iter()
        .map(|times| disk(slots * times, streams * times))
        .collect();
    match three_numbers(&rack) {
        None => rack,
        Some(_) => mixed(dice),
    }
}

/// Makes a rack wrong that was accepted.
pub type WrongRack = fn(&mut Dice, &mut Vec<Disk>);

/// Wrong racks, and the refusal that is due.
pub const WRONG_RACKS: [(&str, u32, WrongRack); 6] = [
    ("no disk", 12, |_, rack| rack.clear()),
    ("more than 64 disks", 12, |dice, rack| {
        let count = dice.pick(&[65, 65, 66, 128, 256 + 3]);
        rack.resize(count, rack[0]);
    }),
    ("slots out of range", 12, |dice, rack| {
        let at = dice.below(rack.len());
        rack[at].slots.0 = dice.pick(&[0, MOST_SLOTS + 1, 1 << 31, u32::MAX]);
    }),
    ("streams out of range", 12, |dice, rack| {
        let at = dice.below(rack.len());
        rack[at].streams.0 = dice.pick(&[0, MOST_STREAMS + 1, 1 << 31, u32::MAX]);
    }),
    ("another ratio", 13, |dice, rack| {
        let at = dice.below(rack.len());
        change_ratio(dice, rack, at);
    }),
    (
        "another ratio, and a disk out of range",
        12,
        |dice, rack| {
            let at = dice.below(rack.len());
            change_ratio(dice, rack, at);
            let end = rack.len() - 1;
            rack[end] = dice.pick(&[disk(0, 1), disk(MOST_SLOTS + 1, 1), disk(1, 0)]);
        },
    ),
];

/// Gives one disk of the rack another ratio, in range. A rack of one disk gets a second one.
pub fn change_ratio(dice: &mut Dice, rack: &mut Vec<Disk>, at: usize) {
    if rack.len() == 1 {
        rack.push(rack[0]);
    }
    let Disk { slots, streams } = &mut rack[at];
    let (number, most) = if dice.one_in(2) {
        (&mut slots.0, MOST_SLOTS)
    } else {
        (&mut streams.0, MOST_STREAMS)
    };
    *number = if *number < most {
        *number + 1
    } else {
        *number - 1
    };
}

/// Counts what kind of rack was accepted.
pub fn tally_rack(rack: &[Disk], tally: &mut Tally) {
    let ascends = rack.is_sorted_by_key(|disk| disk.slots);
    let descends = rack.iter().rev().is_sorted_by_key(|disk| disk.slots);
    let mut slots: Vec<Slots> = rack.iter().map(|disk| disk.slots).collect();
    slots.sort_unstable();
    slots.dedup();
    let is_mixed = slots.len() > 1;
    tally.count_met(&[
        ("equal disks", !is_mixed),
        ("one disk", rack.len() == 1),
        ("unequal disks", is_mixed),
        (
            "unequal disks, some equal",
            is_mixed && slots.len() < rack.len(),
        ),
        ("disks of three sizes or more", slots.len() > 2),
        ("small disks before large ones", is_mixed && ascends),
        ("large disks before small ones", is_mixed && descends),
        ("large and small disks by turns", !ascends && !descends),
        (
            "streams no multiple of slots",
            is_mixed && !rack[0].streams.0.is_multiple_of(rack[0].slots.0),
        ),
        ("64 unequal disks", is_mixed && rack.len() == 64),
        ("one stream", rack.iter().any(|disk| disk.streams.0 == 1)),
    ]);
}

/// The kinds that a test on unequal disks has to meet so often, of so many accepted calls.
pub fn mixed_least(accepted: usize) -> Vec<(&'static str, usize)> {
    vec![
        ("unequal disks", accepted),
        ("unequal disks, some equal", accepted / 4),
        ("disks of three sizes or more", accepted / 4),
        ("small disks before large ones", accepted / 8),
        ("large disks before small ones", accepted / 8),
        ("large and small disks by turns", accepted / 4),
        ("streams no multiple of slots", accepted / 8),
        ("64 unequal disks", accepted / 100),
    ]
}
