//! The edges of racks of unequal disks: their ranges, their ratios, their first lines, and racks
//! that are too short to be read into.

use jugfjord::rack::{Disk, MOST_DISKS};
use jugfjord::reference::plan::Plan;
use jugfjord::reference::writer::text_of;
use jugfjord::tables::OwnTables;

use crate::cases::expect_refused;
use crate::dice::Dice;
use crate::edges::{answers, expect_accepted, expect_wrong_line, rack_of};
use crate::racks::{change_ratio, disk};
use crate::subjects::{PLANNERS, READERS, WRITERS};

#[test]
fn slots_32_pass_and_33_do_not() {
    expect_accepted(&[disk(32, 64), disk(1, 2)], &[]);
    for slots in [0, 33, u32::MAX] {
        expect_refused(&[disk(slots, 64)], &[], 12, 0);
        expect_refused(&[disk(1, 2), disk(slots, 64)], &[], 12, 0);
    }
}

#[test]
fn streams_65535_pass_and_65536_do_not() {
    expect_accepted(&[disk(1, 13_107), disk(5, 65_535)], &[]);
    for streams in [0, 65_536, u32::MAX] {
        expect_refused(&[disk(16, streams)], &[], 12, 0);
        expect_refused(&[disk(1, 4_096), disk(16, streams)], &[], 12, 0);
    }
}

#[test]
fn the_first_disk_of_another_ratio_is_named() {
    expect_refused(&[disk(2, 4), disk(4, 8), disk(3, 7)], &[], 13, 3);
    expect_refused(&[disk(2, 4), disk(4, 9), disk(3, 7)], &[], 13, 2);
    expect_refused(&[disk(2, 5), disk(4, 8), disk(3, 6)], &[], 13, 2);
    // Equal parts of whole numbers are not enough.
    expect_refused(&[disk(2, 4), disk(2, 5)], &[], 13, 2);
    expect_accepted(&[disk(2, 5), disk(4, 10), disk(2, 5)], &[]);
}

#[test]
fn every_disk_is_looked_at_for_12_before_any_for_13() {
    let wrong = [disk(0, 4), disk(33, 66), disk(4, 0), disk(4, 65_536)];
    for last in wrong {
        expect_refused(&[disk(2, 4), disk(4, 9), last], &[], 12, 0);
    }
    let mut many = rack_of(65);
    many[1] = disk(1, 2);
    expect_refused(&many, &[], 12, 0);
}

#[test]
fn the_rack_is_looked_at_before_the_list_and_the_tables() {
    let list = [(0, 1_000_001); 1_025];
    expect_refused(&[], &list, 12, 0);
    expect_refused(&[disk(2, 4), disk(4, 9)], &list, 13, 2);
    expect_refused(&[disk(2, 4), disk(4, 8)], &list, 3, 0);
    for (name, planner) in PLANNERS {
        let refused = |rack: &[Disk]| planner(rack, &[0; 7], OwnTables::default().lend()).number;
        assert_eq!(refused(&[]), 12, "{name}");
        assert_eq!(refused(&[disk(2, 4), disk(4, 9)]), 13, "{name}");
        assert_eq!(refused(&[disk(2, 4), disk(4, 8)]), 2, "{name}");
    }
}

/// A rack of so many unequal disks.
fn unequal(count: usize) -> Vec<Disk> {
    (1..=count as u32)
        .map(|number| disk(2 + number % 7, 3 * (2 + number % 7)))
        .collect()
}

#[test]
fn another_ratio_is_named_at_every_disk_of_racks_of_every_size() {
    let mut dice = Dice::new(12);
    let mut met = 0;
    for count in 2..=MOST_DISKS as usize {
        for at in 0..count {
            let mut rack = unequal(count);
            change_ratio(&mut dice, &mut rack, at);
            // Where disk 1 has changed, disk 2 is the first that differs from it.
            let second = at.max(1) as u32 + 1;
            expect_refused(&rack, &[(1, 1)], 13, second);
            expect_rack_not_written(&rack, 13, second);
            met += 1;
        }
        expect_accepted(&unequal(count), &[(1, 1)]);
    }
    assert_eq!(met, 64 * 65 / 2 - 1);
}

/// Asserts that each writer refuses the rack before all else, and writes nothing.
fn expect_rack_not_written(rack: &[Disk], number: u32, second: u32) {
    for (name, writer) in WRITERS {
        let mut text = [b'?'; 9];
        let written = writer(rack, OwnTables::default().view(), 1, &mut text);
        let found = (written.number, written.second, written.length);
        assert_eq!(found, (number, second, 0), "{name}: {rack:?}");
        assert_eq!(text, [b'?'; 9], "{name}");
    }
}

#[test]
fn wrong_racks_are_not_written() {
    expect_rack_not_written(&[], 12, 0);
    expect_rack_not_written(&rack_of(65), 12, 0);
    expect_rack_not_written(&[disk(33, 1)], 12, 0);
    expect_rack_not_written(&[disk(2, 4), disk(3, 7), disk(1, 0)], 12, 0);
    expect_rack_not_written(&[disk(2, 4), disk(4, 8)], 7, 0);
}

/// First lines of two disks that are accepted.
const FIRST_LINES: [&str; 5] = [
    "(mixed (2 4) (4 8))",
    "(mixed (32 64) (1 2))",
    "(mixed (1 13107) (5 65535))",
    "(mixed (2 5) (4 10))",
    "(rack 2 4 8)",
];

/// First lines that are not.
const WRONG_FIRST_LINES: [&str; 25] = [
    // Equal disks, one disk, none.
    "(mixed (4 8) (4 8))",
    "(mixed (4 8))",
    "(mixed)",
    "(mixed )",
    // Another ratio, and disks out of range.
    "(mixed (2 4) (4 9))",
    "(mixed (2 4) (3 4))",
    "(mixed (0 0) (4 8))",
    "(mixed (2 0) (4 0))",
    "(mixed (33 66) (4 8))",
    "(mixed (1 4096) (16 65536))",
    "(mixed (4294967298 4) (4 8))",
    "(mixed (2 4) (4 4294967304))",
    // Other forms.
    "(mixed (2 04) (4 8))",
    "(mixed (02 4) (4 8))",
    "(mixed(2 4) (4 8))",
    "(mixed (2 4)(4 8))",
    "(mixed  (2 4) (4 8))",
    "(mixed (2 4) (4 8) )",
    "(mixed (2 4) (4 8)",
    "(mixed (2 4) (4 8)))",
    "(mixed (2 4 8) (4 8))",
    "(mixed 2 (2 4) (4 8))",
    "(mixed 2 4 8)",
    "(rack (2 4) (4 8))",
    "(Mixed (2 4) (4 8))",
];

/// The lines behind the first one of a plan without copies.
const EMPTY_PLAN: &str = "(disk 1)\n(disk 2)\n(left)\n(served 0 0)\n";

#[test]
fn first_lines_of_both_forms_are_accepted() {
    for line in FIRST_LINES {
        for (name, read) in answers(&format!("{line}\n{EMPTY_PLAN}")) {
            assert_eq!((read.number, read.disks), (0, 2), "{name}: {line}");
        }
    }
}

#[test]
fn wrong_first_lines_are_refused() {
    for line in WRONG_FIRST_LINES {
        expect_wrong_line(&format!("{line}\n{EMPTY_PLAN}"), 1);
    }
}

/// The text of an empty plan on these disks.
fn empty_text(rack: Vec<Disk>) -> String {
    text_of(&Plan {
        disks: vec![Vec::new(); rack.len()],
        rack,
        left: Vec::new(),
    })
}

#[test]
fn texts_of_64_unequal_disks_pass_and_of_65_do_not() {
    for (name, read) in answers(&empty_text(unequal(64))) {
        assert_eq!((read.number, read.disks), (0, 64), "{name}");
    }
    expect_wrong_line(&empty_text(unequal(65)), 1);
}

#[test]
fn each_disk_of_a_text_has_its_own_slots_and_streams() {
    let texts = [
        ("(2 3) (3 5)", "(1 3) (4 1)", "12", 0),
        ("(2 3) (3 6)", "(1 3) (4 1)", "13", 2),
        ("(2 3) (3 5)", "(1 3) (4 2)", "13", 3),
        ("(2 3) (3 1) (5 1) (6 1)", "(1 3)", "9", 0),
        ("(2 3)", "(1 1) (4 1) (5 0)", "5", 3),
        ("(2 3) (3 1) (5 1) (6 1) (7 0)", "(1 3)", "9", 2),
    ];
    for (first, second, sum, line) in texts {
        let disks = format!("(disk 1 {first})\n(disk 2 {second})\n");
        let text = format!("(mixed (4 8) (2 4))\n{disks}(left)\n(served {sum} 0)\n");
        for (name, read) in answers(&text) {
            assert_eq!(read.second, line, "{name}: {text}");
        }
    }
}

#[test]
fn a_rack_too_short_for_the_text_is_refused_7() {
    let text = empty_text(unequal(5));
    for (name, reader) in READERS {
        for lent in 0..=6 {
            let before = vec![disk(7, 7); lent];
            let (mut rack, mut tables) = (before.clone(), OwnTables::for_any_plan());
            tables.counts.fill(7);
            let untouched = tables.clone();
            let read = reader(text.as_bytes(), &mut rack, tables.lend());
            if lent < 5 {
                assert_eq!((read.number, read.second, read.disks), (7, 0, 0), "{name}");
                assert_eq!((rack, tables), (before, untouched), "{name}");
            } else {
                assert_eq!((read.number, read.disks), (0, 5), "{name}");
                assert_eq!(rack, [&unequal(5), &before[5..]].concat(), "{name}");
            }
        }
    }
}

#[test]
fn the_longest_texts_have_54800_bytes_and_54125_of_equal_disks() {
    let plans = [
        (Plan::largest_mixed().all_held(), 54_800),
        (Plan::largest().all_held(), 54_125),
        // Without marks.
        (Plan::largest_mixed(), 44_565),
        (Plan::largest(), 43_885),
    ];
    for (plan, length) in plans {
        let text = text_of(&plan);
        assert_eq!(text.len(), length);
        for (name, read) in answers(&text) {
            assert_eq!((read.number, read.disks), (0, 64), "{name}");
        }
        let mut tables = OwnTables::for_plan(&plan.rack, plan.left.len());
        plan.store(&mut tables.lend());
        for (name, writer) in WRITERS {
            let mut space = vec![b'?'; length];
            let written = writer(&plan.rack, tables.view(), 1_024, &mut space);
            assert_eq!(written.length, length as u64, "{name}");
            assert!(space == text.as_bytes(), "{name}");
            let written = writer(&plan.rack, tables.view(), 1_024, &mut space[1..]);
            assert_eq!(written.number, 11, "{name}");
        }
    }
}
