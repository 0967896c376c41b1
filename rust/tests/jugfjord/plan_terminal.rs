//! Random lists on racks around the limits of the purser's terminal, through its planners, beside
//! those of the office.

use jugfjord::ffi::Planned;
use jugfjord::rack::{Disk, MOST_DISKS, RECORD, TERMINAL_DISKS, TERMINAL_RECORDS};
use jugfjord::refusal::Refusal;
use jugfjord::tables::{LentTables, OwnTables};

use crate::dice::Dice;
use crate::guarded::GuardedTables;
use crate::lists::{add_faults, good_of, Case, FAULTS, KINDS};
use crate::racks::{equal, mixed, tally_rack, Racks, WRONG_RACKS};
use crate::subjects::{planned_alike, PLANNERS, TERMINALS, WRITERS};
use crate::tally::Tally;

const CALLS: usize = 120_000;

#[test]
fn terminals_agree_on_equal_disks() {
    let mut tally = Tally::new("the terminal on equal disks");
    run(Dice::new(22), equal, &mut tally);
    tally.close(&[("equal disks", CALLS / 3)]);
}

#[test]
fn terminals_agree_on_unequal_disks() {
    let mut tally = Tally::new("the terminal on unequal disks");
    run(Dice::new(23), mixed, &mut tally);
    tally.close(&[("unequal disks", CALLS / 4)]);
}

/// Compares all planners of the terminal on random calls with each other and with the office, and
/// counts what they met.
fn run(mut dice: Dice, racks: Racks, tally: &mut Tally) {
    for _ in 0..CALLS {
        let case = random_case(&mut dice, racks, tally);
        let (planned, after) = planned_alike(TERMINALS, &case);
        tally.answer(planned.number);
        compare_with_office(&case, &planned, &after, tally);
        if planned.number == 0 {
            tally_rack(&case.rack, tally);
            compare_texts(&case, &planned, &after, tally);
        }
    }
    tally.assert_met(&least());
}

/// What has to be met so often.
fn least() -> Vec<(&'static str, usize)> {
    let mut least = vec![
        ("accepted", CALLS / 3),
        ("accepted, 8 disks", 5_000),
        ("accepted, 96 records", 5_000),
        ("accepted, 8 disks and 96 records", 500),
        ("refused 17", 20_000),
        ("refused 17, 9 disks", 2_000),
        ("refused 17, 97 records", 2_000),
        ("refused 17, too many of both", 2_000),
        ("refused 17, planned in the office", 10_000),
        ("refused 17, 7 in the office", 1_000),
        ("refused 17, a record at fault in the office", 1_000),
        ("refused before 17", 1_000),
        ("refused 2", 1_000),
        ("refused 3", 1_000),
        ("refused 4", 500),
        ("refused 5", 500),
        ("refused 6", 500),
        ("refused 7", 500),
        ("refused 12", 1_000),
        ("refused 13", 500),
        ("refused 16", 500),
        ("texts in tables of both sizes", 10_000),
    ];
    least.extend(FAULTS.map(|(name, _)| (name, 3_000)));
    least.extend(WRONG_RACKS.map(|(name, _, _)| (name, 500)));
    least
}

/// A list of some kind, with as many disks and records as the terminal takes, or more or fewer, and
/// at times with faults.
fn random_case(dice: &mut Dice, racks: Racks, tally: &mut Tally) -> Case {
    let disks = match dice.below(16) {
        0..=2 => TERMINAL_DISKS,
        3..=4 => TERMINAL_DISKS + 1,
        5 => dice.within(9, MOST_DISKS) as usize,
        _ => dice.within(1, 7) as usize,
    };
    let count = match dice.below(16) {
        0..=2 => TERMINAL_RECORDS,
        3..=4 => TERMINAL_RECORDS + 1,
        5 => dice.within(97, 200) as usize,
        _ => dice.below(40),
    };
    // Disks of one ratio again and again have that ratio.
    let drawn = racks(dice);
    let rack: Vec<Disk> = drawn.into_iter().cycle().take(disks).collect();
    let (_, kind) = dice.pick(&KINDS);
    let (mut case, need) = good_of(dice, rack, kind, count);
    add_faults(dice, &mut case, need, tally);
    case
}

/// Of what a call has more than the terminal takes.
#[derive(Clone, Copy, PartialEq)]
struct Excess {
    disks: bool,
    records: bool,
}

impl Excess {
    fn of(case: &Case) -> Self {
        Excess {
            disks: case.rack.len() > TERMINAL_DISKS,
            records: case.list.len() / RECORD > TERMINAL_RECORDS,
        }
    }
}

/// What the last planner of the office says: the library's, where it is linked.
fn office(case: &Case, tables: LentTables) -> Planned {
    PLANNERS[PLANNERS.len() - 1].1(&case.rack, &case.list, tables)
}

/// Asserts what the office says of the same call: all the same where the terminal's tables hold it,
/// and the same refusals before 17 where they do not.
fn compare_with_office(case: &Case, planned: &Planned, after: &GuardedTables, tally: &mut Tally) {
    let mut tables = case.tables.clone();
    let answer = office(case, tables.lend());
    let Excess { disks, records } = Excess::of(case);
    let is_larger = disks || records;
    let is_refused_before = matches!(answer.number, 2 | 3 | 12 | 13);
    if is_larger && !is_refused_before {
        assert_eq!(*planned, Refusal::plain(17).into());
        assert!(*after == case.tables);
        assert_ne!(answer.number, 17);
        tally_larger(case, &answer, tally);
    } else {
        assert_eq!(*planned, answer);
        assert!(*after == tables);
        tally_smaller(case, planned, tally);
        tally.count_met(&[("refused before 17", is_larger)]);
    }
}

/// Counts what kind of call was refused 17, and what the office answers to it.
fn tally_larger(case: &Case, office: &Planned, tally: &mut Tally) {
    let Excess { disks, records } = Excess::of(case);
    let one_disk = case.rack.len() == TERMINAL_DISKS + 1;
    let one_record = case.list.len() == (TERMINAL_RECORDS + 1) * RECORD;
    tally.count_met(&[
        ("refused 17, 9 disks", one_disk && !records),
        ("refused 17, 97 records", one_record && !disks),
        ("refused 17, too many of both", disks && records),
        ("refused 17, planned in the office", office.number == 0),
        ("refused 17, 7 in the office", office.number == 7),
        (
            "refused 17, a record at fault in the office",
            matches!(office.number, 4..=6 | 16),
        ),
    ]);
}

/// Counts the accepted calls that are as large as the terminal takes them.
fn tally_smaller(case: &Case, planned: &Planned, tally: &mut Tally) {
    let is_accepted = planned.number == 0;
    let most_disks = is_accepted && case.rack.len() == TERMINAL_DISKS;
    let most_records = is_accepted && case.list.len() == TERMINAL_RECORDS * RECORD;
    tally.count_met(&[
        ("accepted, 8 disks", most_disks),
        ("accepted, 96 records", most_records),
        (
            "accepted, 8 disks and 96 records",
            most_disks && most_records,
        ),
    ]);
}

/// More bytes than any text of 8 disks and 96 left films has.
const TEXT: usize = 8_192;

/// Asserts that the terminal's tables have the office's text, whose tables are longer. Of lists of
/// less than 16 records, which differ little, only the empty ones are looked at.
fn compare_texts(case: &Case, planned: &Planned, after: &GuardedTables, tally: &mut Tally) {
    if (1..16).contains(&(case.list.len() / RECORD)) {
        return;
    }
    tally.count("texts in tables of both sizes");
    let mut other = OwnTables::for_any_plan();
    assert_eq!(office(case, other.lend()), *planned);
    let texts = [after.view(), other.view()].map(|tables| {
        let mut text = vec![0; TEXT];
        let written = WRITERS[WRITERS.len() - 1].1(&case.rack, tables, planned.left, &mut text);
        (written, text)
    });
    assert_eq!(texts[0].0.number, 0);
    assert!(texts[0] == texts[1], "{:?} {:?}", case.rack, case.list);
}
