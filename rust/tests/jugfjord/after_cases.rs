//! Planning after an earlier text: cases worked out by hand, with the texts of their plans.

use jugfjord::ffi::Planned;
use jugfjord::rack::{records, Disk};
use jugfjord::reference::plan::Pair;
use jugfjord::tables::{Entry, OwnTables};

use crate::cases::{LIST_A, TEXT_A};
use crate::racks::{disk, equal_rack as rack};
use crate::subjects::{PLANNERS_AFTER, WRITERS};

/// Asserts that each planner makes the plan with this text of the list, after this earlier text.
fn expect(rack: &[Disk], list: &[Pair], earlier: &str, text: &str) {
    for (name, planner) in PLANNERS_AFTER {
        let mut tables = OwnTables::for_plan(rack, list.len());
        let planned = planner(rack, &records(list), earlier.as_bytes(), tables.lend());
        assert_eq!(planned.number, 0, "{name}");
        let mut space = vec![0; text.len()];
        let written = WRITERS[0].1(rack, tables.view(), planned.left, &mut space);
        assert_eq!(written.number, 0, "{name}");
        assert_eq!(String::from_utf8_lossy(&space), text, "{name}");
    }
}

/// Asserts that each planner refuses the call and changes no table, of so many copy places.
fn expect_refused(call: (&[Disk], &[u8], &[u8]), places: usize, number: u32, second: u32) {
    let (rack, list, earlier) = call;
    let answer = Planned {
        number,
        second,
        ..Planned::default()
    };
    for (name, planner) in PLANNERS_AFTER {
        let mut tables = OwnTables {
            copies: vec![Entry::new(7, 8).with_mark(9); places],
            counts: vec![7; 64],
            left: vec![Entry::new(7, 8); 1_024],
        };
        let before = tables.clone();
        let planned = planner(rack, list, earlier, tables.lend());
        assert_eq!(planned, answer, "{name}");
        assert_eq!(tables, before, "{name}");
    }
}

/// Case A with a mark at each copy.
const TEXT_A_HELD: &str = "(rack 3 4 6)
(disk 1 (8 1 held) (9 1 held) (10 1 held) (11 3 held))
(disk 2 (6 1 held) (7 1 held) (11 1 held) (12 3 held))
(disk 3 (3 1 held) (4 1 held) (5 1 held) (12 1 held))
(left (1 1) (2 1))
(served 16 2)
";

#[test]
fn a_after_itself_is_all_held() {
    expect(&rack(3, 4, 6), &LIST_A, TEXT_A, TEXT_A_HELD);
    // The earlier plan's own marks do not matter.
    expect(&rack(3, 4, 6), &LIST_A, TEXT_A_HELD, TEXT_A_HELD);
}

#[test]
fn left_films_of_the_earlier_plan_were_not_held() {
    let earlier = "(rack 3 4 6)\n(disk 1)\n(disk 2)\n(disk 3)\n\
        (left (3 1) (6 1) (8 1) (9 1) (10 1) (11 3) (12 1))\n(served 0 9)\n";
    expect(&rack(3, 4, 6), &LIST_A, earlier, TEXT_A);
}

#[test]
fn what_another_disk_held_is_not_marked() {
    // Disk 2 held what disk 1 has now, and so on round.
    let earlier = "(rack 3 4 6)
(disk 1 (3 1) (4 1) (5 1) (12 1))
(disk 2 (8 1) (9 1) (10 1) (11 3))
(disk 3 (6 1) (7 1) (11 1) (12 3))
(left (1 1) (2 1))
(served 16 2)
";
    // Film 11 is on disks 1 and 2 now and was on 2 and 3; film 12 is on 2 and 3 and was on 1 and 3.
    let text = "(rack 3 4 6)
(disk 1 (8 1) (9 1) (10 1) (11 3))
(disk 2 (6 1) (7 1) (11 1 held) (12 3))
(disk 3 (3 1) (4 1) (5 1) (12 1 held))
(left (1 1) (2 1))
(served 16 2)
";
    expect(&rack(3, 4, 6), &LIST_A, earlier, text);
}

/// The disks of a text on a rack of any size, which change nothing but marks.
const OTHER_RACKS: [(&str, &str); 4] = [
    // Fewer disks: disk 3 held nothing.
    (
        "(rack 2 1 1)\n(disk 1 (9 0))\n(disk 2 (12 1))\n(left)\n(served 1 0)\n",
        "(rack 3 4 6)
(disk 1 (8 1) (9 1 held) (10 1) (11 3))
(disk 2 (6 1) (7 1) (11 1) (12 3 held))
(disk 3 (3 1) (4 1) (5 1) (12 1))
(left (1 1) (2 1))
(served 16 2)
",
    ),
    (
        "(rack 1 32 65535)\n(disk 1 (12 5) (10 7) (65535 9))\n(left (9 1))\n(served 21 1)\n",
        "(rack 3 4 6)
(disk 1 (8 1) (9 1) (10 1 held) (11 3))
(disk 2 (6 1) (7 1) (11 1) (12 3))
(disk 3 (3 1) (4 1) (5 1) (12 1))
(left (1 1) (2 1))
(served 16 2)
",
    ),
    // More disks, large and small, with the marks of the week before.
    (
        "(mixed (2 4) (4 8) (2 4) (2 4))
(disk 1 (8 4 held))
(disk 2 (1 0) (2 0) (3 0) (6 8 held))
(disk 3)
(disk 4 (3 1) (12 3 held))
(left)
(served 16 0)
",
        "(rack 3 4 6)
(disk 1 (8 1 held) (9 1) (10 1) (11 3))
(disk 2 (6 1 held) (7 1) (11 1) (12 3))
(disk 3 (3 1) (4 1) (5 1) (12 1))
(left (1 1) (2 1))
(served 16 2)
",
    ),
    // Only films of other lists.
    (
        "(rack 3 1 1)\n(disk 1 (65535 1))\n(disk 2 (88 1))\n(disk 3 (1 1))\n(left)\n(served 3 0)\n",
        TEXT_A,
    ),
];

#[test]
fn the_earlier_rack_and_viewers_may_be_any() {
    for (earlier, text) in OTHER_RACKS {
        expect(&rack(3, 4, 6), &LIST_A, earlier, text);
    }
}

#[test]
fn shelf_copies_are_marked_and_were_held() {
    let list = [(3, 0), (9, 5), (1, 0), (2, 0)];
    // Film 9 stood on the shelf, and films 1 and 3 had viewers.
    let earlier =
        "(rack 2 2 5)\n(disk 1 (9 0) (1 2))\n(disk 2 (3 4) (7 0))\n(left (2 1))\n(served 6 1)\n";
    let text = "(rack 2 2 5)
(disk 1 (9 5 held) (1 0 held))
(disk 2 (2 0) (3 0 held))
(left)
(served 5 0)
";
    expect(&rack(2, 2, 5), &list, earlier, text);
}

#[test]
fn unequal_disks_are_marked_by_their_numbers() {
    // Disk 2 is filled first, and has the films of disk 2.
    let list = [(1, 3), (2, 4), (3, 5)];
    let earlier =
        "(mixed (2 4) (4 8))\n(disk 1 (1 3) (2 1))\n(disk 2 (2 3) (3 5))\n(left)\n(served 12 0)\n";
    let text = "(mixed (4 8) (2 4))
(disk 1 (2 3 held) (3 5))
(disk 2 (1 3) (2 1 held))
(left)
(served 12 0)
";
    expect(&[disk(4, 8), disk(2, 4)], &list, earlier, text);
}

#[test]
fn a_split_film_is_marked_on_each_disk_that_held_it() {
    let earlier = "(rack 1 1 1)\n(disk 1 (9 1))\n(left)\n(served 1 0)\n";
    let text = "(rack 2 2 5)\n(disk 1 (9 5 held))\n(disk 2 (9 5))\n(left (9 999990))\n(served 10 999990)\n";
    expect(&rack(2, 2, 5), &[(9, 1_000_000)], earlier, text);
}

#[test]
fn the_earlier_text_is_refused_8_or_9_with_its_line() {
    let (rack, list) = (rack(3, 4, 6), records(&LIST_A));
    let texts: [(&[u8], u32, u32); 7] = [
        (b"", 9, 1),
        (b"\n", 9, 1),
        (b"(rack 3 4 6)\n", 9, 2),
        (
            b"(rack 1 1 1)\n(disk 1 (65543 1))\n(left)\n(served 1 0)\n",
            9,
            2,
        ),
        (
            b"(rack 1 1 1)\n(disk 1)\n(left (2 1 held))\n(served 0 1)\n",
            9,
            3,
        ),
        (&[b'('; 65_536], 9, 1),
        (&[b'('; 65_537], 8, 0),
    ];
    for (text, number, second) in texts {
        expect_refused((&rack, &list, text), 2_048, number, second);
    }
}

#[test]
fn every_refusal_of_planning_comes_before_those_of_the_earlier_text() {
    let expect = |rack: &[Disk], list: &[u8], places, number, second| {
        for text in [&b""[..], &[b'('; 65_537], TEXT_A.as_bytes()] {
            expect_refused((rack, list, text), places, number, second);
        }
    };
    let (rack, list) = (rack(3, 4, 6), records(&LIST_A));
    expect(&[], &list, 12, 12, 0);
    expect(&[disk(2, 4), disk(3, 7)], &list, 12, 13, 2);
    expect(&rack, &[1; 7], 12, 2, 0);
    expect(&rack, &[1; 8 * 1_025], 12, 3, 0);
    expect(&rack, &list, 11, 7, 0);
    expect(&rack, &records(&[(1, 1), (65_536, 1)]), 12, 4, 2);
    expect(&rack, &records(&[(1, 1), (50_000, 1)]), 12, 16, 2);
    expect(&rack, &records(&[(1, 1_000_001)]), 12, 5, 1);
    expect(&rack, &records(&[(5, 3), (5, 3)]), 12, 6, 2);
}
