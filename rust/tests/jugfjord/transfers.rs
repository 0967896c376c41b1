//! Random pairs of texts, right and wrong, through all that find transfers.

use jugfjord::ffi::Transferred;
use jugfjord::rack::LAST_LISTED_FILM;
use jugfjord::reference::plan::{Plan, StoredCopy};
use jugfjord::reference::reader::{judge_text, plan_of};
use jugfjord::reference::writer::text_of;
use jugfjord::transfers::{CountRow, Transfer, ENDS, LOADER, MOST_TRANSFERS};

use crate::dice::Dice;
use crate::earlier::{damage_at_times, TEXTS};
use crate::guarded::{too_short, Guarded};
use crate::pairs::{PlanPair, OTHER_RACKS, RENEWALS};
use crate::racks::{equal, mixed, Racks};
use crate::subjects::{Finder, FINDERS};
use crate::tally::Tally;
use crate::transfer_rules::{check, most_at_one_end};

/// Of equal disks, and as many of unequal ones.
const CALLS: usize = 100_000;

/// What is lent to a call.
#[derive(Clone, Debug, PartialEq, Eq)]
struct Lent {
    list: Guarded<Transfer>,
    counts: Guarded<CountRow>,
}

/// One call: two texts and what is lent.
struct Call {
    old: Vec<u8>,
    new: Vec<u8>,
    lent: Lent,
}

#[test]
fn transfers_agree_on_equal_disks() {
    let mut tally = Tally::new("transfers on equal disks");
    run(Dice::new(16), equal, &mut tally);
    close(&tally, ("one disk", 3_000));
}

#[test]
fn transfers_agree_on_unequal_disks() {
    let mut tally = Tally::new("transfers on unequal disks");
    run(Dice::new(17), mixed, &mut tally);
    close(&tally, ("unequal disks", CALLS / 3));
}

/// Compares all on random calls, checks the rules, and counts what they met.
fn run(mut dice: Dice, racks: Racks, tally: &mut Tally) {
    for _ in 0..CALLS {
        let call = random_call(&mut dice, racks, tally);
        let (answer, after) = compare(&call);
        tally.answer(answer.number);
        tally_lent(&call.lent, &answer, tally);
        match answer.number {
            0 => check_accepted(&call, &answer, &after, tally),
            _ => {
                assert_eq!(after, call.lent, "a refusal changes nothing");
                let due = Transferred {
                    transfers: 0,
                    rounds: 0,
                    ..answer
                };
                assert_eq!(answer, due);
                tally_refused(&call, &answer, tally);
            }
        }
    }
}

/// Prints all counts, and asserts that every kind was met, and this one.
fn close(tally: &Tally, own: (&str, usize)) {
    tally.close(&[own]);
    tally.assert_met(&ANSWERS);
    tally.assert_met(&KINDS);
    tally.assert_met(&[("100 transfers or more", 100)]);
    tally.assert_met(&RENEWALS.map(|(name, _)| (name, CALLS / 20)));
    tally.assert_met(&OTHER_RACKS.map(|(name, _)| (name, 500)));
    tally.assert_met(&TEXTS.map(|name| (name, 1_000)));
}

/// How often each answer has to be met, and each kind of what is refused and lent.
const ANSWERS: [(&str, usize); 23] = [
    ("accepted", CALLS / 3),
    ("refused 7", 5_000),
    ("refused 8", 500),
    ("refused 9", 5_000),
    ("refused 14", 5_000),
    ("refused 15", 3_000),
    ("old text refused alone", 3_000),
    ("new text refused alone", 3_000),
    ("both texts refused, unlike", 500),
    ("more than 8 disks in the old text alone", 200),
    ("more than 8 disks in the new text alone", 200),
    ("more than 8 disks in both, first lines alike", 3_000),
    ("more than 8 disks, and too few rows", 1_000),
    ("first lines differ, and too few rows", 500),
    ("a wrong text, and too few rows", 1_000),
    ("list too short alone", 1_000),
    ("too few rows alone", 500),
    ("list exact", 10_000),
    ("list longer", 10_000),
    ("list empty, no transfer", 1_000),
    ("nine rows", 10_000),
    ("more than nine rows", 5_000),
    ("eight disks", 5_000),
];

/// How often each kind of accepted call has to be met.
const KINDS: [(&str, usize); 17] = [
    ("no transfer", 5_000),
    ("all from the loader", 5_000),
    ("none from the loader", 5_000),
    ("from disks and the loader", 5_000),
    ("film on several old disks", 5_000),
    ("source with 0 viewers", 5_000),
    ("destination with 0 viewers", 5_000),
    ("copy kept", 10_000),
    ("copy kept without viewers in the old plan", 5_000),
    ("marked copy transferred", 5_000),
    ("service clip transferred", 5_000),
    ("copy kept without a mark", 5_000),
    ("films not ascending in the text", 5_000),
    ("placed before one that was placed earlier", 3_000),
    ("more rounds than transfers at any end", 1_000),
    ("as many rounds as the bound admits, of three or more", 100),
    ("two transfers or more in one round", 5_000),
];

/// The texts of a pair of plans, at times damaged, and a list and rows that mostly suffice.
fn random_call(dice: &mut Dice, racks: Racks, tally: &mut Tally) -> Call {
    let pair = PlanPair::random(dice, racks);
    tally.count(pair.renewal);
    if let Some(name) = pair.other_rack {
        tally.count(name);
    }
    let [old, new] = [&pair.old, &pair.new].map(|plan| {
        let mut text = text_of(plan).into_bytes();
        if dice.one_in(2) {
            damage_at_times(dice, &mut text, tally);
        }
        text
    });
    let lent = random_lent(dice, pair.transfers());
    Call { old, new, lent }
}

/// A list for so many transfers and nine rows, each at times longer or too short.
fn random_lent(dice: &mut Dice, need: usize) -> Lent {
    let length = match dice.below(12) {
        0 if need > 0 => too_short(dice, need),
        1 => MOST_TRANSFERS,
        2..=5 => need + dice.below(6),
        _ => need,
    };
    let rows = match dice.below(12) {
        0 => dice.below(ENDS),
        1 => ENDS - 1,
        2..=4 => ENDS + 1 + dice.below(3),
        _ => ENDS,
    };
    let mut number = || dice.next() as u32;
    let mut transfer = || Transfer::of(number() % 256, number() % 256, number() % 65_536, number());
    Lent {
        list: Guarded::new(length, &mut transfer),
        counts: Guarded::new(rows, || [(); ENDS].map(|()| dice.next() as u32)),
    }
}

/// Runs all on the call and compares their answers and every place. Gives what the last one made,
/// which is the library where it is linked.
fn compare(call: &Call) -> (Transferred, Lent) {
    let find = |(name, finder): &(&'static str, Finder)| {
        let mut lent = call.lent.clone();
        let Lent { list, counts } = &mut lent;
        let answer = finder(&call.old, &call.new, list.as_mut(), counts.as_mut());
        (*name, answer, lent)
    };
    let (_, due, expected) = find(&FINDERS[0]);
    let mut last = (due, expected.clone());
    for subject in &FINDERS[1..] {
        let (name, answer, lent) = find(subject);
        let shown = || {
            let [old, new] = [&call.old, &call.new].map(|text| String::from_utf8_lossy(text));
            format!("{name} on\n{old}and\n{new}with {:?}", call.lent)
        };
        assert_eq!(answer, due, "{}", shown());
        assert_eq!(lent, expected, "{}", shown());
        last = (answer, lent);
    }
    last
}

/// Checks the rules of 02 on an accepted call and that all beyond is as before, and counts its kinds.
fn check_accepted(call: &Call, answer: &Transferred, after: &Lent, tally: &mut Tally) {
    let [old, new] = [&call.old, &call.new].map(|text| str::from_utf8(text).expect("ASCII"));
    let (list, counts) = (after.list.as_ref(), after.counts.as_ref());
    check(old, new, answer, list, counts);
    let count = answer.transfers as usize;
    assert_eq!(list[count..], call.lent.list.as_ref()[count..]);
    assert_eq!(counts[ENDS..], call.lent.counts.as_ref()[ENDS..]);
    let plans = [&call.old, &call.new].map(|text| plan_of(text).expect("an accepted text"));
    tally_copies(&plans, tally);
    tally_transfers(&plans, &list[..count], tally);
    tally_rounds(answer, &list[..count], tally);
}

/// Counts how much was lent to a call, against what it needs.
fn tally_lent(lent: &Lent, answer: &Transferred, tally: &mut Tally) {
    let (length, rows) = (lent.list.as_ref().len(), lent.counts.as_ref().len());
    let count = answer.transfers as usize;
    let is_accepted = answer.number == 0;
    tally.count_met(&[
        ("list exact", is_accepted && length == count),
        ("list longer", is_accepted && length > count),
        ("list empty, no transfer", is_accepted && length == 0),
        ("nine rows", is_accepted && rows == ENDS),
        ("more than nine rows", is_accepted && rows > ENDS),
        (
            "too few rows alone",
            answer.number == 7 && length >= MOST_TRANSFERS && rows < ENDS,
        ),
        ("list too short alone", answer.number == 7 && rows >= ENDS),
    ]);
}

/// Counts what a refused call has that might have been refused in its place.
fn tally_refused(call: &Call, answer: &Transferred, tally: &mut Tally) {
    if call.lent.counts.as_ref().len() < ENDS {
        tally.count_met(&[
            (
                "a wrong text, and too few rows",
                matches!(answer.number, 8 | 9),
            ),
            ("more than 8 disks, and too few rows", answer.number == 14),
            ("first lines differ, and too few rows", answer.number == 15),
        ]);
    }
    match (judge_text(&call.old), judge_text(&call.new)) {
        (Ok(old), Ok(new)) => tally_racks(&old, &new, tally),
        (Err(old), Err(new)) if old != new => tally.count("both texts refused, unlike"),
        (Err(_), Err(_)) => tally.count("both texts refused alike"),
        (Err(_), Ok(_)) => tally.count("old text refused alone"),
        (Ok(_), Err(_)) => tally.count("new text refused alone"),
    }
}

/// Counts which of the racks of a refused call have too many disks.
fn tally_racks(old: &Plan, new: &Plan, tally: &mut Tally) {
    let [is_old, is_new] = [old, new].map(|plan| plan.rack.len() > 8);
    let is_same = old.rack == new.rack;
    tally.count_met(&[
        ("more than 8 disks in the old text alone", is_old && !is_new),
        ("more than 8 disks in the new text alone", !is_old && is_new),
        (
            "more than 8 disks in both, first lines alike",
            is_old && is_same,
        ),
    ]);
}

/// The copy of a film on a disk by its number from 1.
fn copy_on(plan: &Plan, disk: u32, film: u32) -> Option<&StoredCopy> {
    let copies = plan.disks.get(disk as usize - 1)?;
    copies.iter().find(|copy| copy.film == film)
}

/// Counts the racks of an accepted call and the copies that stay on their disk.
fn tally_copies([old, new]: &[Plan; 2], tally: &mut Tally) {
    let mut kept: Vec<(&StoredCopy, &StoredCopy)> = Vec::new();
    for (disk, copies) in (1..).zip(&new.disks) {
        for copy in copies {
            kept.extend(copy_on(old, disk, copy.film).map(|held| (copy, held)));
        }
    }
    tally.count_met(&[
        ("one disk", old.rack.len() == 1),
        ("eight disks", old.rack.len() == 8),
        (
            "unequal disks",
            old.rack.windows(2).any(|two| two[0] != two[1]),
        ),
        ("copy kept", !kept.is_empty()),
        (
            "copy kept without a mark",
            kept.iter().any(|(new, _)| !new.is_held),
        ),
        (
            "copy kept without viewers in the old plan",
            kept.iter().any(|(_, old)| old.viewers == 0),
        ),
    ]);
}

/// Counts where the transfers of an accepted call come from and which copies they make.
fn tally_transfers([old, new]: &[Plan; 2], transfers: &[Transfer], tally: &mut Tally) {
    let from_loader = transfers.iter().filter(|t| t.source() == LOADER).count();
    tally.count(match from_loader {
        _ if transfers.is_empty() => "no transfer",
        0 => "none from the loader",
        _ if from_loader == transfers.len() => "all from the loader",
        _ => "from disks and the loader",
    });
    let any = |test: &dyn Fn(&Transfer) -> bool| transfers.iter().any(test);
    let source = |t: &Transfer| match t.source() {
        LOADER => None,
        disk => copy_on(old, disk, t.film()),
    };
    let made = |t: &Transfer| copy_on(new, t.destination(), t.film()).expect("a new copy");
    let holders = |t: &Transfer| {
        let disks = 1..=old.disks.len() as u32;
        disks
            .filter(|&disk| copy_on(old, disk, t.film()).is_some())
            .count()
    };
    let is_unsorted = |copies: &Vec<StoredCopy>| !copies.is_sorted_by_key(|copy| copy.film);
    let is_clip = |t: &Transfer| t.film() > LAST_LISTED_FILM;
    tally.count_met(&[
        ("film on several old disks", any(&|t| holders(t) > 1)),
        (
            "source with 0 viewers",
            any(&|t| source(t).is_some_and(|copy| copy.viewers == 0)),
        ),
        ("destination with 0 viewers", any(&|t| made(t).viewers == 0)),
        ("marked copy transferred", any(&|t| made(t).is_held)),
        ("service clip transferred", any(&is_clip)),
        (
            "films not ascending in the text",
            new.disks.iter().any(is_unsorted),
        ),
        ("100 transfers or more", transfers.len() >= 100),
    ]);
}

/// Counts how the rounds of an accepted call lie.
fn tally_rounds(answer: &Transferred, transfers: &[Transfer], tally: &mut Tally) {
    let most = most_at_one_end(transfers);
    let rounds = answer.rounds as usize;
    let ends = |t: &Transfer| [t.source(), t.destination()];
    let steps_back = |(at, one): (usize, &Transfer)| {
        let meets = |other: &&Transfer| ends(other).iter().any(|end| ends(one).contains(end));
        let mut before = transfers[..at].iter().filter(meets);
        before.any(|other| other.round() > one.round())
    };
    tally.count_met(&[
        (
            "two transfers or more in one round",
            transfers.len() > rounds,
        ),
        ("more rounds than transfers at any end", rounds > most),
        (
            "as many rounds as the bound admits, of three or more",
            most > 1 && rounds == 2 * most - 1,
        ),
        (
            "placed before one that was placed earlier",
            transfers.iter().enumerate().any(steps_back),
        ),
    ]);
}
