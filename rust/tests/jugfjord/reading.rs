//! Valid and damaged texts through all readers, and what was read through all writers.

use jugfjord::ffi::ReadPlan;
use jugfjord::rack::{Disk, Slots, Streams, MOST_DISKS};
use jugfjord::reference::plan::Plan;
use jugfjord::reference::reader::plan_of;
use jugfjord::reference::writer::text_of;
use jugfjord::tables::Tables;

use crate::damage::{fill_up, DAMAGES, LENGTHS};
use crate::dice::Dice;
use crate::guarded::{too_short, Guarded, GuardedTables, Need};
use crate::marks::tally_marks;
use crate::plans::{good, WRONG, WRONG_SHAPE};
use crate::racks::{equal, mixed, mixed_least, tally_rack, Racks};
use crate::shelf::Shelf;
use crate::subjects::{Reader, JUDGES, READERS, WRITERS};
use crate::tally::Tally;

const TEXTS: usize = 200_000;

/// One call of reading, and how many disks the undamaged text had.
pub struct Case {
    pub text: Vec<u8>,
    pub lent: Lent,
    pub disks: u32,
}

/// What reading is lent besides the text.
#[derive(Clone, Debug, PartialEq, Eq)]
pub struct Lent {
    pub rack: Guarded<Disk>,
    pub tables: GuardedTables,
}

impl Lent {
    /// Sentinels, as many as this rack and so many left films need, or more.
    pub fn met(dice: &mut Dice, rack: &[Disk], left: usize) -> Self {
        let most = dice.pick(&[0, 4]);
        let len = rack.len() + dice.within(0, most) as usize;
        let mut number = || dice.next() as u32;
        Lent {
            rack: Guarded::new(len, || Disk::new(Slots(number()), Streams(number()))),
            tables: Need::new(rack, left).met(dice),
        }
    }

    /// What a reader answers.
    fn read(&mut self, reader: Reader, text: &[u8]) -> ReadPlan {
        reader(text, self.rack.as_mut(), self.tables.lend())
    }
}

#[test]
fn readers_agree_on_texts_of_equal_disks() {
    let mut tally = Tally::new("reading of equal disks");
    run(Dice::new(2), equal, &mut tally);
    tally.close(&[
        ("equal disks", 40_000),
        ("one disk", 5_000),
        ("equal disks in a mixed line", 2_000),
    ]);
}

#[test]
fn readers_agree_on_texts_of_unequal_disks() {
    let mut tally = Tally::new("reading of unequal disks");
    run(Dice::new(6), mixed, &mut tally);
    tally.close(&mixed_least(40_000));
    tally.assert_met(&[("unequal disks in a line of three numbers", 2_000)]);
}

/// Checks all readers on random texts, counts what they met, and asserts that every kind of text
/// and of damage was there.
fn run(mut dice: Dice, racks: Racks, tally: &mut Tally) {
    for _ in 0..TEXTS {
        let case = random_case(&mut dice, racks, tally);
        check(&case, tally);
    }
    let mut least = vec![
        ("accepted", 40_000),
        ("refused 7", 5_000),
        ("refused 7, rack too short", 1_000),
        ("refused 8", 300),
        ("refused 9", 80_000),
        ("line of the rack", 5_000),
        ("line of a disk", 30_000),
        ("line of the left films", 10_000),
        ("line of the sums", 10_000),
        ("line behind", 5_000),
        ("65,536 bytes", 100),
        ("65,537 bytes", 100),
        ("accepted with 0 viewers", 20_000),
        ("accepted with amount 0", 10_000),
        ("accepted with marks", 10_000),
        ("accepted without a mark", 10_000),
    ];
    least.extend(DAMAGES.map(|(name, _)| (name, 5_000)));
    least.extend(WRONG.map(|(name, _)| (name, 50)));
    least.extend(WRONG_SHAPE.map(|(name, _)| (name, 1_000)));
    tally.assert_met(&least);
}

/// A text: undamaged, of a wrong plan, with another first line, with a damage, or filled up to a
/// length.
fn random_case(dice: &mut Dice, racks: Racks, tally: &mut Tally) -> Case {
    let plan = good(dice, racks);
    let need = Need::new(&plan.rack, plan.left.len());
    let disks = plan.rack.len();
    let mut lent = Lent::met(dice, &plan.rack, plan.left.len());
    let text = match dice.below(200) {
        0..=59 => text_of(&plan).into_bytes(),
        60..=99 => wrong_text(dice, plan, tally),
        100 => {
            let mut text = text_of(&plan).into_bytes();
            let len = dice.pick(&LENGTHS);
            fill_up(dice, &mut text, len);
            text
        }
        101..=105 => other_first_line(&plan, tally),
        _ => damaged_text(dice, &plan, tally),
    };
    if dice.one_in(8) {
        need.miss(dice, &mut lent.tables);
    }
    if dice.one_in(32) {
        lent.rack.shorten(too_short(dice, disks));
    }
    Case {
        text,
        lent,
        disks: disks as u32,
    }
}

/// The text with the first line that racks of the other kind have.
fn other_first_line(plan: &Plan, tally: &mut Tally) -> Vec<u8> {
    let text = text_of(plan);
    let (first, rest) = text.split_once('\n').expect("a first line");
    let Disk { slots, streams } = plan.rack[0];
    let other = if first.starts_with("(rack ") {
        tally.count("equal disks in a mixed line");
        let pair = format!(" ({} {})", slots.0, streams.0);
        format!("(mixed{})", pair.repeat(plan.rack.len()))
    } else {
        tally.count("unequal disks in a line of three numbers");
        format!("(rack {} {} {})", plan.rack.len(), slots.0, streams.0)
    };
    format!("{other}\n{rest}").into_bytes()
}

/// The text that a plan would have if it were well formed.
fn wrong_text(dice: &mut Dice, mut plan: Plan, tally: &mut Tally) -> Vec<u8> {
    let all = [WRONG.as_slice(), WRONG_SHAPE.as_slice()].concat();
    let (name, wrong) = dice.pick(&all);
    if wrong(dice, &mut plan).is_some() {
        tally.count(name);
        assert!(plan_of(text_of(&plan).as_bytes()).is_err(), "{name}");
    }
    text_of(&plan).into_bytes()
}

fn damaged_text(dice: &mut Dice, plan: &Plan, tally: &mut Tally) -> Vec<u8> {
    let mut text = text_of(plan).into_bytes();
    let (name, damage) = dice.pick(&DAMAGES);
    damage(dice, &mut text);
    tally.count(name);
    text
}

/// Runs all readers and judges on the case, and all writers on what was read. A refusal changes
/// nothing.
pub fn check(case: &Case, tally: &mut Tally) {
    let (read, after) = compare(case);
    judge(case, &read);
    tally.answer(read.number);
    tally_line(case, &read, tally);
    match read.number {
        0 => {
            let (rack, rest) = after.rack.as_ref().split_at(read.disks as usize);
            assert_eq!(rest, &case.lent.rack.as_ref()[rack.len()..]);
            write_back(case, rack, read.left, &after.tables);
            tally_rack(rack, tally);
            Shelf::of(rack, &after.tables.view(), read.left).tally(tally);
            tally_marks(rack, &after.tables.view(), tally);
        }
        _ => assert_eq!(after, case.lent),
    }
}

/// Runs all readers on the case and compares their answers and every place.
fn compare(case: &Case) -> (ReadPlan, Lent) {
    let shown = || String::from_utf8_lossy(&case.text);
    let mut expected = case.lent.clone();
    let answer = expected.read(READERS[0].1, &case.text);
    for (name, reader) in &READERS[1..] {
        let mut lent = case.lent.clone();
        let read = lent.read(*reader, &case.text);
        assert_eq!(read, answer, "{name} on {:?}", shown());
        assert!(lent == expected, "{name} on {:?}: {lent:?}", shown());
    }
    (answer, expected)
}

/// Asserts that judges answer what reading answers where every table is long enough.
fn judge(case: &Case, read: &ReadPlan) {
    let answer = match read.number {
        7 => {
            let mut rack = [Disk::default(); MOST_DISKS as usize];
            READERS[0].1(&case.text, &mut rack, Tables::for_any_plan().lend())
        }
        _ => *read,
    };
    for (name, judge) in JUDGES {
        let shown = String::from_utf8_lossy(&case.text);
        assert_eq!(judge(&case.text), answer, "{name} on {shown:?}");
    }
}

/// Asserts that the rest of the tables is untouched, and that each writer makes the text again
/// from what was read.
fn write_back(case: &Case, rack: &[Disk], left: u32, after: &GuardedTables) {
    Need::new(rack, left as usize).assert_rest_same(&case.lent.tables, after);
    for (name, writer) in WRITERS {
        let mut text = vec![0; case.text.len()];
        let written = writer(rack, after.view(), left, &mut text);
        assert_eq!(written.number, 0, "{name}");
        assert_eq!(written.length, text.len() as u64, "{name}");
        assert!(text == case.text, "{name}");
    }
}

/// Counts at which line a text was refused, and texts at the limit.
fn tally_line(case: &Case, read: &ReadPlan, tally: &mut Tally) {
    match case.text.len() {
        65_536 => tally.count("65,536 bytes"),
        65_537 => tally.count("65,537 bytes"),
        _ => {}
    }
    if read.number == 7 && case.lent.rack.as_ref().len() < case.disks as usize {
        tally.count("refused 7, rack too short");
    }
    if read.number == 9 {
        tally.count(match read.second {
            1 => "line of the rack",
            line if line <= case.disks + 1 => "line of a disk",
            line if line == case.disks + 2 => "line of the left films",
            line if line == case.disks + 3 => "line of the sums",
            _ => "line behind",
        });
    }
}
