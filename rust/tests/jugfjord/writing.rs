//! Well-formed and wrong plans through all writers, into spaces of all lengths.

use jugfjord::ffi::Written;
use jugfjord::rack::{places, Disk};
use jugfjord::reference::plan::Plan;
use jugfjord::reference::writer::text_of;
use jugfjord::tables::Entry;

use crate::dice::Dice;
use crate::guarded::{Guarded, GuardedTables, Need};
use crate::marks::tally_marks;
use crate::plans::{good, WRONG};
use crate::racks::{equal, mixed, mixed_least, tally_rack, Racks, WRONG_RACKS};
use crate::shelf::Shelf;
use crate::subjects::WRITERS;
use crate::tally::Tally;

const PLANS: usize = 100_000;

/// One call of writing.
struct Case {
    rack: Vec<Disk>,
    tables: GuardedTables,
    left: u32,
    space: Guarded<u8>,
}

#[test]
fn writers_agree_on_plans_of_equal_disks() {
    let mut tally = Tally::new("writing of equal disks");
    run(Dice::new(3), equal, &mut tally);
    tally.close(&[("equal disks", 20_000), ("one disk", 2_000)]);
}

#[test]
fn writers_agree_on_plans_of_unequal_disks() {
    let mut tally = Tally::new("writing of unequal disks");
    run(Dice::new(7), mixed, &mut tally);
    tally.close(&mixed_least(20_000));
}

/// Compares all writers on random plans, counts what they met, and asserts that every kind of
/// wrong plan was there.
fn run(mut dice: Dice, racks: Racks, tally: &mut Tally) {
    for _ in 0..PLANS {
        let (case, expected) = random_case(&mut dice, racks, tally);
        let written = compare(&case);
        tally.answer(written.number);
        if written.number == 0 {
            tally_rack(&case.rack, tally);
            Shelf::of(&case.rack, &case.tables.view(), case.left).tally(tally);
            tally_marks(&case.rack, &case.tables.view(), tally);
        }
        if let Some(number) = expected {
            assert_eq!(written.number, number);
        }
    }
    let mut least = vec![
        ("accepted", 20_000),
        ("refused 12", 2_000),
        ("refused 13", 500),
        ("refused 7", 2_000),
        ("refused 10", 20_000),
        ("refused 11", 10_000),
        ("space one byte short", 5_000),
        ("accepted with 0 viewers", 10_000),
        ("accepted with amount 0", 5_000),
        ("accepted with marks", 10_000),
        ("accepted without a mark", 5_000),
    ];
    least.extend(WRONG.map(|(name, _)| (name, 50)));
    least.extend(WRONG_TABLES.map(|(name, _)| (name, 1_000)));
    least.extend(WRONG_RACKS.map(|(name, _, _)| (name, 500)));
    tally.assert_met(&least);
}

/// A call and, where one thing alone is wrong with it, the refusal that is due.
fn random_case(dice: &mut Dice, racks: Racks, tally: &mut Tally) -> (Case, Option<u32>) {
    let mut plan = good(dice, racks);
    let mut faults = Vec::new();
    if dice.one_in(3) {
        let (name, wrong) = dice.pick(&WRONG);
        if wrong(dice, &mut plan).is_some() {
            tally.count(name);
            faults.push(10);
        }
    }
    let need = Need::new(&plan.rack, plan.left.len());
    let mut case = stored(dice, &plan, need);
    if dice.one_in(6) {
        let (name, wrong) = dice.pick(&WRONG_TABLES);
        if wrong(dice, &plan, &mut case.tables) {
            tally.count(name);
            faults.push(10);
        }
    }
    faults.extend(wrong_call(dice, need, &mut case, tally));
    faults.extend(choose_space(dice, &plan, &mut case, tally));
    let alone = match faults.as_slice() {
        [] => Some(0),
        [number] => Some(*number),
        _ => None,
    };
    (case, alone)
}

/// The plan in tables that hold it, with no space yet.
fn stored(dice: &mut Dice, plan: &Plan, need: Need) -> Case {
    let mut tables = need.met(dice);
    plan.store(&mut tables.lend());
    Case {
        rack: plan.rack.clone(),
        tables,
        left: plan.left.len() as u32,
        space: Guarded::new(0, || 0),
    }
}

/// Sometimes a wrong rack, a table too short, or more left films than the table has.
fn wrong_call(dice: &mut Dice, need: Need, case: &mut Case, tally: &mut Tally) -> Option<u32> {
    match dice.below(24) {
        0 | 1 => {
            let (name, number, wrong) = dice.pick(&WRONG_RACKS);
            wrong(dice, &mut case.rack);
            tally.count(name);
            Some(number)
        }
        2 => need.miss(dice, &mut case.tables).then_some(7),
        3 => {
            let places = case.tables.view().left.len() as u32;
            case.left = dice.pick(&[places + 1, places.max(1_024) + 1, u32::MAX]);
            Some(7)
        }
        _ => None,
    }
}

/// Gives the call its space: exact, longer or shorter than the text.
fn choose_space(dice: &mut Dice, plan: &Plan, case: &mut Case, tally: &mut Tally) -> Option<u32> {
    let length = text_of(plan).len();
    let (space, refusal) = match dice.below(6) {
        0 => (length - 1, Some(11)),
        1 => (dice.below(length), Some(11)),
        2 => (length + dice.below(9), None),
        _ => (length, None),
    };
    if space == length - 1 {
        tally.count("space one byte short");
    }
    case.space = Guarded::new(space, || dice.next() as u8);
    refusal
}

/// Makes the tables of a well-formed plan wrong, or gives false.
type WrongTables = fn(&mut Dice, &Plan, &mut GuardedTables) -> bool;

const WRONG_TABLES: [(&str, WrongTables); 6] = [
    ("count above the slots", |dice, plan, tables| {
        let disk = dice.below(plan.disks.len());
        let slots = plan.rack[disk].slots.0;
        let counts = tables.lend().counts;
        counts[disk] = dice.pick(&[slots + 1, slots + 65_536, 1 << 31, u32::MAX]);
        true
    }),
    ("film in an unused place", |dice, plan, tables| {
        let film = dice.pick(&BITS);
        set_unused(dice, plan, tables, Entry::new(film, 0))
    }),
    ("viewers in an unused place", |dice, plan, tables| {
        let viewers = dice.pick(&BITS);
        set_unused(dice, plan, tables, Entry::new(0, viewers))
    }),
    ("mark in an unused place", |dice, plan, tables| {
        let mark = dice.pick(&[1, 1, 2, u16::MAX]);
        set_unused(dice, plan, tables, Entry::default().with_mark(mark))
    }),
    ("mark above 1", |dice, plan, tables| {
        let mark = dice.pick(&[2, 2, 3, 1 << 15, 1 << 15 | 1, u16::MAX]);
        change_used(dice, plan, tables, |copy| copy.with_mark(mark))
    }),
    ("film 0 with a mark", |dice, plan, tables| {
        change_used(dice, plan, tables, |copy| {
            Entry::new(0, copy.amount()).with_mark(1)
        })
    }),
];

/// Numbers with a low bit, one in the middle, a high bit, or all.
const BITS: [u32; 4] = [1, 1 << 16, 1 << 31, u32::MAX];

/// Changes the entry of some copy, if the disk that is looked at has one.
fn change_used(
    dice: &mut Dice,
    plan: &Plan,
    tables: &mut GuardedTables,
    change: impl FnOnce(Entry) -> Entry,
) -> bool {
    let disk = dice.below(plan.disks.len());
    let used = plan.disks[disk].len();
    if used > 0 {
        let place = places(&plan.rack[..disk]) + dice.below(used);
        let copy = &mut tables.lend().copies[place];
        *copy = change(*copy);
    }
    used > 0
}

/// Writes an entry into the first unused place or the last place of some disk.
fn set_unused(dice: &mut Dice, plan: &Plan, tables: &mut GuardedTables, entry: Entry) -> bool {
    let disk = dice.below(plan.disks.len());
    let slots = plan.rack[disk].slots.0 as usize;
    let used = plan.disks[disk].len();
    if used < slots {
        let place = dice.pick(&[used, slots - 1]);
        tables.lend().copies[places(&plan.rack[..disk]) + place] = entry;
    }
    used < slots
}

/// Runs all writers on the case and compares their answers and every byte.
fn compare(case: &Case) -> Written {
    let mut expected = case.space.clone();
    let view = || case.tables.view();
    let answer = WRITERS[0].1(&case.rack, view(), case.left, expected.as_mut());
    if answer.number != 0 {
        assert_eq!(expected, case.space);
    }
    let after = answer.length as usize;
    assert_eq!(expected.as_ref()[after..], case.space.as_ref()[after..]);
    for (name, writer) in &WRITERS[1..] {
        let mut space = case.space.clone();
        let written = writer(&case.rack, view(), case.left, space.as_mut());
        assert_eq!(written, answer, "{name} on {:?}", case.tables);
        assert!(space == expected, "{name} on {:?}", case.tables);
    }
    answer
}
