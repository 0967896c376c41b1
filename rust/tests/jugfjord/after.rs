//! Random lists with the texts of earlier plans, through all planners that take one.

use jugfjord::ffi::Planned;
use jugfjord::rack::{places, LAST_LISTED_FILM};
use jugfjord::reference::plan::StoredCopy;
use jugfjord::reference::{mixed_planner, reader};
use jugfjord::tables::TablesView;

use crate::dice::Dice;
use crate::earlier::{random_text, EARLIER, TEXTS};
use crate::guarded::GuardedTables;
use crate::lists::{add_faults, good, Case, FAULTS, KINDS};
use crate::marks::Marks;
use crate::racks::{equal, mixed, mixed_least, tally_rack, Racks, WRONG_RACKS};
use crate::shelf::copies;
use crate::subjects::PLANNERS_AFTER;
use crate::tally::Tally;

const CALLS: usize = 120_000;

/// One call of planning with an earlier text.
struct Call {
    case: Case,
    earlier: Vec<u8>,
}

#[test]
fn planners_agree_after_earlier_texts_on_equal_disks() {
    let mut tally = Tally::new("planning after earlier texts on equal disks");
    run(Dice::new(14), equal, &mut tally);
    tally.close(&[("equal disks", CALLS / 3), ("one disk", 2_000)]);
}

#[test]
fn planners_agree_after_earlier_texts_on_unequal_disks() {
    let mut tally = Tally::new("planning after earlier texts on unequal disks");
    run(Dice::new(15), mixed, &mut tally);
    tally.close(&mixed_least(CALLS / 3));
}

/// Compares all planners on random calls, counts what they met, and asserts that every kind of
/// text, of fault and of answer was there.
fn run(mut dice: Dice, racks: Racks, tally: &mut Tally) {
    for _ in 0..CALLS {
        let call = random_call(&mut dice, racks, tally);
        let (planned, after) = compare(&call);
        tally.answer(planned.number);
        check_rules(&call, &planned, &after);
        if planned.number == 0 {
            tally_rack(&call.case.rack, tally);
            tally_marks(&call, &after.view(), tally);
        }
        let is_hidden = !matches!(planned.number, 0 | 8 | 9);
        if is_hidden && reader::judge_text(&call.earlier).is_err() {
            tally.count("wrong text behind a refusal of planning");
        }
    }
    let mut least = vec![
        ("accepted", CALLS / 3),
        ("all copies marked", 5_000),
        ("some copies marked", 10_000),
        ("no copy marked", 10_000),
        ("no copy", 500),
        ("shelf copies marked", 2_000),
        ("shelf copies not marked", 2_000),
        ("marks in the earlier text", 10_000),
        ("fewer disks earlier", 5_000),
        ("more disks earlier", 5_000),
        ("same rack earlier", 10_000),
        ("service clips in the earlier text", 2_000),
        ("wrong text behind a refusal of planning", 2_000),
        ("refused 2", 1_000),
        ("refused 3", 1_000),
        ("refused 4", 1_000),
        ("refused 5", 1_000),
        ("refused 6", 1_000),
        ("refused 7", 1_000),
        ("refused 8", 500),
        ("refused 9", 5_000),
        ("refused 12", 2_000),
        ("refused 13", 500),
        ("refused 16", 1_000),
    ];
    least.extend(EARLIER.map(|(name, _)| (name, 5_000)));
    least.extend(TEXTS.map(|name| (name, 1_000)));
    least.extend(FAULTS.map(|(name, _)| (name, 3_000)));
    least.extend(WRONG_RACKS.map(|(name, _, _)| (name, 500)));
    tally.assert_met(&least);
}

/// A list of some kind and the text of an earlier plan of its films, then faults of the list.
fn random_call(dice: &mut Dice, racks: Racks, tally: &mut Tally) -> Call {
    let (_, kind) = dice.pick(&KINDS);
    let rack = racks(dice);
    let (mut case, need) = good(dice, rack, kind);
    let earlier = random_text(dice, &case, tally);
    add_faults(dice, &mut case, need, tally);
    Call { case, earlier }
}

/// Runs all planners on the call and compares their answers and every place.
fn compare(call: &Call) -> (Planned, GuardedTables) {
    let Call { case, earlier } = call;
    let mut expected = case.tables.clone();
    let answer = PLANNERS_AFTER[0].1(&case.rack, &case.list, earlier, expected.lend());
    for (name, planner) in &PLANNERS_AFTER[1..] {
        let mut tables = case.tables.clone();
        let planned = planner(&case.rack, &case.list, earlier, tables.lend());
        let shown = || {
            let text = String::from_utf8_lossy(earlier);
            format!("{name} on {:?} {:?} after {text:?}", case.rack, case.list)
        };
        assert_eq!(planned, answer, "{}", shown());
        assert!(tables == expected, "{}: {tables:?}", shown());
    }
    (answer, expected)
}

/// What holds of any answer: a refusal changes nothing and is planning's own, if planning has one;
/// else all is as in planning but for the marks, and these are what the text says.
fn check_rules(call: &Call, planned: &Planned, after: &GuardedTables) {
    let Call { case, earlier } = call;
    let mut without = case.tables.clone();
    let answer = mixed_planner::plan(&case.rack, &case.list, without.lend());
    if planned.number != 0 {
        assert_eq!(after, &case.tables);
        let is_of_text = matches!(planned.number, 8 | 9);
        assert_eq!(is_of_text, answer.number == 0);
        assert!(is_of_text || *planned == answer);
        return;
    }
    assert_eq!(*planned, answer);
    check_marks(case, earlier, &after.view());
    let mut unmarked = after.clone();
    for place in &mut unmarked.lend().copies[..places(&case.rack)] {
        *place = place.with_mark(0);
    }
    assert!(unmarked == without, "{unmarked:?}, not {without:?}");
}

/// Asserts that a copy is marked exactly where the line of its disk in the text has its film.
fn check_marks(case: &Case, earlier: &[u8], tables: &TablesView) {
    let text = str::from_utf8(earlier).expect("an accepted text is ASCII");
    // Behind the lines of all disks stand others.
    let mut lines = text.lines().skip(1);
    for copies in copies(&case.rack, tables) {
        let line = lines.next().filter(|line| line.starts_with("(disk "));
        for copy in copies {
            let form = format!(" ({} ", copy.film());
            let is_held = line.is_some_and(|line| line.contains(&form));
            assert_eq!(copy.mark(), is_held.into(), "{copy:?} after {text}");
        }
    }
}

/// Counts which copies of an accepted call are marked.
fn tally_marks(call: &Call, after: &TablesView, tally: &mut Tally) {
    let rack = &call.case.rack;
    let Marks { copies: all, held } = Marks::of(rack, after);
    tally.count(match held {
        _ if all == 0 => "no copy",
        0 => "no copy marked",
        _ if held == all => "all copies marked",
        _ => "some copies marked",
    });
    let shelf = copies(rack, after).concat();
    let shelf_with = |mark| {
        let mut shelf = shelf.iter().filter(|copy| copy.amount() == 0);
        shelf.any(|copy| copy.mark() == mark)
    };
    let earlier = reader::plan_of(&call.earlier).expect("an accepted text");
    let is_held = |copies: &Vec<StoredCopy>| copies.iter().any(|copy| copy.is_held);
    let is_clip = |copy: &StoredCopy| copy.film > LAST_LISTED_FILM;
    tally.count_met(&[
        ("shelf copies marked", shelf_with(1)),
        ("shelf copies not marked", shelf_with(0)),
        (
            "marks in the earlier text",
            earlier.disks.iter().any(is_held),
        ),
        ("fewer disks earlier", earlier.rack.len() < rack.len()),
        ("more disks earlier", earlier.rack.len() > rack.len()),
        ("same rack earlier", earlier.rack == *rack),
        (
            "service clips in the earlier text",
            earlier.disks.iter().flatten().any(is_clip),
        ),
    ]);
}
