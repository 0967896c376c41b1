//! Random demand lists, right and wrong.

use jugfjord::rack::{
    records, Disk, LAST_FILM, LAST_LISTED_FILM, MOST_DEMAND, MOST_RECORDS, RECORD,
};
use jugfjord::reference::plan::Pair;

use crate::dice::Dice;
use crate::guarded::{GuardedTables, Need};
use crate::racks::WRONG_RACKS;
use crate::tally::Tally;

/// One call of planning.
pub struct Case {
    pub rack: Vec<Disk>,
    pub list: Vec<u8>,
    pub tables: GuardedTables,
}

/// The films and demands of a list of whole records.
pub fn demands(list: &[u8]) -> Vec<Pair> {
    let number = |bytes: &[u8]| u32::from_le_bytes(bytes.try_into().expect("four bytes"));
    let pair = |record: &[u8]| (number(&record[..4]), number(&record[4..]));
    list.chunks(RECORD).map(pair).collect()
}

/// So many distinct film numbers up to the last one, which is that of a list or of a plan, in no
/// order.
pub fn films(dice: &mut Dice, count: usize, last: u32) -> Vec<u32> {
    // Steps that share no factor with 49,999 or 65,535 come back to a number after all others.
    let step = dice.pick(&[1, 2, 7, 64, 1_021]) as usize;
    let start = dice.below(last as usize);
    let film = |at: usize| ((start + at * step) % last as usize) as u32 + 1;
    let mut films: Vec<u32> = (0..count).map(film).collect();
    dice.shuffle(&mut films);
    films
}

/// Makes so many demands for a rack.
type Demands = fn(&mut Dice, &[Disk], usize) -> Vec<u32>;

pub const KINDS: [(&str, Demands); 7] = [
    ("equal demands", |dice, rack, count| {
        let most = dice.pick(rack).streams.0 * 2;
        vec![dice.within(0, most); count]
    }),
    ("small demands", |dice, _, count| drawn(dice, count, 3)),
    ("demands near a slot's share", |dice, rack, count| {
        let disk = rack[0];
        drawn(dice, count, 2 * (disk.streams.0 / disk.slots.0 + 1))
    }),
    ("windows of exactly the load", exact_windows),
    ("remainders equal to demands", equal_remainders),
    ("large demands", |dice, _, count| {
        drawn(dice, count, MOST_DEMAND)
    }),
    ("demands of 0", |_, _, count| vec![0; count]),
];

fn drawn(dice: &mut Dice, count: usize, most: u32) -> Vec<u32> {
    (0..count).map(|_| dice.within(0, most)).collect()
}

/// Groups of one film a slot of some disk that make just its load.
fn exact_windows(dice: &mut Dice, rack: &[Disk], count: usize) -> Vec<u32> {
    let mut demands = Vec::new();
    while demands.len() < count {
        let disk = dice.pick(rack);
        let share = 2 * disk.streams.0 / disk.slots.0;
        let mut room = disk.streams.0;
        for _ in 1..disk.slots.0 {
            let part = dice.within(0, share.min(room));
            room -= part;
            demands.push(part);
        }
        demands.push(room);
    }
    demands.truncate(count);
    demands
}

/// Groups whose last film is split, with another film of the remainder's size.
fn equal_remainders(dice: &mut Dice, rack: &[Disk], count: usize) -> Vec<u32> {
    let mut demands = Vec::new();
    while demands.len() < count {
        let disk = dice.pick(rack);
        let mut room = disk.streams.0;
        for _ in 1..disk.slots.0 {
            let part = dice.within(0, room / disk.slots.0);
            room -= part;
            demands.push(part);
        }
        let rest = dice.within(1, disk.streams.0);
        demands.extend([room + rest, rest]);
    }
    demands.truncate(count);
    demands
}

/// Sets some demands to 0: none of them, few, half or most.
fn set_to_zero(dice: &mut Dice, demands: &mut [u32]) {
    let eighths = dice.pick(&[0, 0, 1, 4, 7]);
    for demand in demands {
        if dice.below(8) < eighths {
            *demand = 0;
        }
    }
}

/// A list that planning accepts on this rack, of one kind of demands but for some films of demand
/// 0, with tables that hold its plan.
pub fn good(dice: &mut Dice, rack: Vec<Disk>, kind: Demands) -> (Case, Need) {
    let count = match dice.below(60) {
        0 => dice.within(MOST_RECORDS as u32 - 9, MOST_RECORDS as u32) as usize,
        1 => MOST_RECORDS,
        2..=14 => dice.below(4),
        _ => dice.below(40),
    };
    good_of(dice, rack, kind, count)
}

/// The same with so many records.
pub fn good_of(dice: &mut Dice, rack: Vec<Disk>, kind: Demands, count: usize) -> (Case, Need) {
    let mut demands = kind(dice, &rack, count);
    set_to_zero(dice, &mut demands);
    let films = films(dice, count, LAST_LISTED_FILM).into_iter();
    let list: Vec<_> = films.zip(demands).collect();
    let need = Need::new(&rack, count);
    let case = Case {
        rack,
        list: records(&list),
        tables: need.met(dice),
    };
    (case, need)
}

/// Does one wrong thing to a case. Some do nothing to an empty list.
type Fault = fn(&mut Dice, &mut Case, Need);

pub const FAULTS: [(&str, Fault); 7] = [
    ("part of a record", |dice, case, _| {
        let len = case.list.len() + dice.below(7) + 1;
        case.list.resize(len, 1);
    }),
    ("too many records", |dice, case, _| {
        let len = (MOST_RECORDS + 1 + dice.below(3)) * RECORD;
        case.list.resize(len, 1);
    }),
    ("table too short", |dice, case, need| {
        need.miss(dice, &mut case.tables);
    }),
    ("film out of range", |dice, case, _| {
        let wrong = dice.pick(&[0, LAST_FILM + 1, LAST_FILM + 6, 1 << 31, u32::MAX]);
        change(dice, case, 0, wrong);
    }),
    ("service clip", |dice, case, _| {
        let any = dice.within(LAST_LISTED_FILM + 1, LAST_FILM);
        let wrong = dice.pick(&[LAST_LISTED_FILM + 1, LAST_FILM, any]);
        change(dice, case, 0, wrong);
    }),
    ("demand out of range", |dice, case, _| {
        let wrong = dice.pick(&[MOST_DEMAND + 1, 1 << 20, 1 << 31, u32::MAX]);
        change(dice, case, 4, wrong);
    }),
    ("film repeated", |dice, case, _| {
        if case.list.len() >= 2 * RECORD {
            let from = dice.below(case.list.len() / RECORD) * RECORD;
            let film = case.list[from..from + 4].try_into().expect("four bytes");
            change(dice, case, 0, u32::from_le_bytes(film));
        }
    }),
];

/// Does wrong things to a third of all cases, to some of them two, and gives some a wrong rack.
pub fn add_faults(dice: &mut Dice, case: &mut Case, need: Need, tally: &mut Tally) {
    if dice.one_in(3) {
        for _ in 0..dice.pick(&[1, 1, 1, 2]) {
            let (name, fault) = dice.pick(&FAULTS);
            fault(dice, case, need);
            tally.count(name);
        }
    }
    if dice.one_in(16) {
        let (name, _, wrong) = dice.pick(&WRONG_RACKS);
        wrong(dice, &mut case.rack);
        tally.count(name);
    }
}

/// Overwrites the film or the demand of some record.
fn change(dice: &mut Dice, case: &mut Case, field: usize, value: u32) {
    if case.list.len() >= RECORD {
        let at = dice.below(case.list.len() / RECORD) * RECORD + field;
        case.list[at..at + 4].copy_from_slice(&value.to_le_bytes());
    }
}
