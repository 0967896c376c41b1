//! Random lists on equal and unequal disks through all planners.

use jugfjord::ffi::Planned;
use jugfjord::rack::{places, LAST_LISTED_FILM, MOST_DEMAND, RECORD};
use jugfjord::reference::planner;
use jugfjord::tables::{Entry, TablesView};

use crate::dice::Dice;
use crate::guarded::{GuardedTables, Need};
use crate::lists::{self, add_faults, good, Case, FAULTS, KINDS};
use crate::racks::{equal, mixed, mixed_least, tally_rack, three_numbers, Racks, WRONG_RACKS};
use crate::shelf::Shelf;
use crate::subjects::{planned_alike, PLANNERS};
use crate::tally::Tally;

const LISTS: usize = 200_000;

#[test]
fn planners_agree_on_equal_disks() {
    let mut tally = Tally::new("planning on equal disks");
    run(Dice::new(1), equal, &mut tally);
    tally.close(&[
        ("equal disks", LISTS / 2),
        ("one disk", 5_000),
        ("as by three numbers", LISTS * 3 / 4),
        ("as by three numbers, refused 12", 2_000),
        ("largest rack", 500),
    ]);
}

#[test]
fn planners_agree_on_unequal_disks() {
    let mut tally = Tally::new("planning on unequal disks");
    run(Dice::new(5), mixed, &mut tally);
    tally.close(&mixed_least(LISTS / 2));
}

/// Compares all planners on random lists and racks, counts what they met, and asserts that every
/// kind of list and of fault was there.
fn run(mut dice: Dice, racks: Racks, tally: &mut Tally) {
    for _ in 0..LISTS {
        let case = random_case(&mut dice, racks, tally);
        let (planned, after) = compare(&case, tally);
        tally.answer(planned.number);
        if planned.number == 16 {
            tally_clip(&case, &planned, tally);
        }
        if planned.number == 0 {
            tally_rack(&case.rack, tally);
            tally_shape(&case, &planned, &after, tally);
        }
    }
    tally.assert_met(&least());
}

/// What has to be met so often.
fn least() -> Vec<(&'static str, usize)> {
    let mut least = vec![
        ("accepted", LISTS / 2),
        ("refused 12", 4_000),
        ("refused 13", 1_000),
        ("refused 2", 2_000),
        ("refused 3", 2_000),
        ("refused 4", 2_000),
        ("refused 5", 2_000),
        ("refused 6", 2_000),
        ("refused 7", 2_000),
        ("refused 16", 2_000),
        ("a service clip, and a demand out of range", 50),
        ("film 49,999", 50),
        ("some film left", 20_000),
        ("nothing left", 20_000),
        ("one stream", 2_000),
        ("1,024 records", 500),
        ("no record", 500),
        ("no film of demand 0", 20_000),
        ("films of demand 0 alone", 10_000),
        ("shelf copies on one disk", 10_000),
        ("shelf copies on several disks", 10_000),
        ("shelf copies behind a full disk", 2_000),
        ("shelf copies around a full disk", 50),
        ("shelf film left", 10_000),
        ("shelf film left beside others", 10_000),
        ("shelf film left between others", 5_000),
    ];
    least.extend(KINDS.map(|(name, _)| (name, 20_000)));
    least.extend(FAULTS.map(|(name, _)| (name, 5_000)));
    least.extend(WRONG_RACKS.map(|(name, _, _)| (name, 1_000)));
    least
}

/// A list of some kind, at times with faults.
fn random_case(dice: &mut Dice, racks: Racks, tally: &mut Tally) -> Case {
    let (name, kind) = dice.pick(&KINDS);
    let rack = racks(dice);
    let (mut case, need) = good(dice, rack, kind);
    tally.count(name);
    add_faults(dice, &mut case, need, tally);
    case
}

/// Runs all planners on the case and compares their answers and every place. Where all disks are
/// equal, so does the planner that takes three numbers.
fn compare(case: &Case, tally: &mut Tally) -> (Planned, GuardedTables) {
    let (answer, expected) = planned_alike(PLANNERS, case);
    check_rules(case, &answer, &expected);
    compare_three_numbers(case, &answer, &expected, tally);
    (answer, expected)
}

/// Asserts that a rack of equal disks has the plan, or the refusal, that its three numbers have. In
/// the place of 12 they have 1.
fn compare_three_numbers(
    case: &Case,
    answer: &Planned,
    expected: &GuardedTables,
    tally: &mut Tally,
) {
    let Some(rack) = three_numbers(&case.rack) else {
        return;
    };
    let mut tables = case.tables.clone();
    let planned = planner::plan(rack, &case.list, tables.lend());
    tally.count("as by three numbers");
    if answer.number == 12 {
        tally.count("as by three numbers, refused 12");
        let number = 1;
        assert_eq!(planned, Planned { number, ..*answer });
    } else {
        assert_eq!(planned, *answer, "{rack:?} {:?}", case.list);
    }
    assert!(tables == *expected, "{rack:?} {:?}: {tables:?}", case.list);
}

/// What holds of any answer: a refusal changes nothing, places beyond are untouched, and
/// the sums are those of the tables and of the list.
fn check_rules(case: &Case, planned: &Planned, after: &GuardedTables) {
    if planned.number != 0 {
        assert_eq!(after, &case.tables);
        return;
    }
    let count = case.list.len() / RECORD;
    Need::new(&case.rack, count).assert_rest_same(&case.tables, after);
    let view = after.view();
    assert_eq!(planned.served, sum(&view.copies[..places(&case.rack)]));
    assert_eq!(planned.unserved, sum(&view.left[..count]));
    let total: u64 = demands(&case.list).sum();
    assert_eq!(planned.served + planned.unserved, total);
    check_shelf(case, planned, &view);
}

/// Each film of demand 0 is stored or left, and none is left while a slot is free.
fn check_shelf(case: &Case, planned: &Planned, tables: &TablesView) {
    let shelf = Shelf::of(&case.rack, tables, planned.left);
    let unwanted = demands(&case.list).filter(|&demand| demand == 0).count();
    assert_eq!(shelf.copies + shelf.left, unwanted);
    let mut disks = case.rack.iter().zip(tables.counts);
    assert!(shelf.left == 0 || disks.all(|(disk, &count)| count == disk.slots.0));
}

fn sum(entries: &[Entry]) -> u64 {
    entries.iter().map(|entry| u64::from(entry.amount())).sum()
}

/// The demands of a list's records.
fn demands(list: &[u8]) -> impl Iterator<Item = u64> {
    let demands = lists::demands(list).into_iter();
    demands.map(|(_, demand)| u64::from(demand))
}

/// Counts what else is wrong with the record of a service clip.
fn tally_clip(case: &Case, planned: &Planned, tally: &mut Tally) {
    let (_, demand) = lists::demands(&case.list)[planned.second as usize - 1];
    tally.count_met(&[(
        "a service clip, and a demand out of range",
        demand > MOST_DEMAND,
    )]);
}

/// Counts what kind of call was accepted, and what the tables hold after it.
fn tally_shape(case: &Case, planned: &Planned, after: &GuardedTables, tally: &mut Tally) {
    let shelf = Shelf::of(&case.rack, &after.view(), planned.left);
    tally.count(match planned.left {
        0 => "nothing left",
        _ => "some film left",
    });
    tally.count_met(&[
        ("largest rack", places(&case.rack) == 2_048),
        ("1,024 records", case.list.len() == 8_192),
        ("no record", case.list.is_empty()),
        (
            "film 49,999",
            lists::demands(&case.list)
                .iter()
                .any(|&(film, _)| film == LAST_LISTED_FILM),
        ),
        ("no film of demand 0", shelf.copies + shelf.left == 0),
        (
            "films of demand 0 alone",
            !case.list.is_empty() && demands(&case.list).all(|demand| demand == 0),
        ),
        ("shelf copies on one disk", shelf.disks == 1),
        ("shelf copies on several disks", shelf.disks > 1),
        ("shelf copies behind a full disk", shelf.behind_full),
        ("shelf copies around a full disk", shelf.around_full),
        ("shelf film left", shelf.left > 0),
        (
            "shelf film left beside others",
            (1..planned.left as usize).contains(&shelf.left),
        ),
        ("shelf film left between others", shelf.left_between),
    ]);
}
