//! The edges that document 01 names besides its cases, and those of 0 viewers and amount 0.

use jugfjord::ffi::ReadPlan;
use jugfjord::rack::{records, Disk, MOST_DISKS};
use jugfjord::tables::{Entry, OwnTables, Tables};

use crate::cases::expect_refused;
use crate::racks::{disk, equal_rack};
use crate::subjects::{Judge, Reader, JUDGES, PLANNERS, READERS, WRITERS};

/// So many disks of one slot and one stream.
pub fn rack_of(disks: u32) -> Vec<Disk> {
    equal_rack(disks, 1, 1)
}

/// Asserts that each planner accepts the list on the rack.
pub fn expect_accepted(rack: &[Disk], list: &[(u32, u32)]) {
    for (name, planner) in PLANNERS {
        let mut tables = Tables::for_plan(rack, list.len());
        let planned = planner(rack, &records(list), tables.lend());
        assert!(planned.accepted().is_ok(), "{name}");
    }
}

#[test]
fn disks_64_pass_and_65_do_not() {
    expect_accepted(&rack_of(64), &[]);
    expect_refused(&rack_of(65), &[], 12, 0);
    expect_refused(&rack_of(0), &[], 12, 0);
}

#[test]
fn film_49999_passes_and_50000_is_a_service_clip() {
    expect_accepted(&rack_of(1), &[(49_999, 1)]);
    expect_refused(&rack_of(1), &[(1, 1), (50_000, 1)], 16, 2);
    expect_refused(&rack_of(1), &[(50_000, 0)], 16, 1);
    expect_refused(&rack_of(1), &[(50_000, 1_000_001)], 16, 1);
    expect_refused(&rack_of(1), &[(60_000, 1), (60_000, 1)], 16, 1);
    // The first record at fault decides.
    expect_refused(&rack_of(1), &[(1, 1_000_001), (50_000, 1)], 5, 1);
    expect_refused(&rack_of(1), &[(50_000, 1), (0, 1)], 16, 1);
}

#[test]
fn film_65535_is_a_service_clip_and_65536_is_no_film() {
    expect_refused(&rack_of(1), &[(65_535, 1)], 16, 1);
    expect_refused(&rack_of(1), &[(1, 1), (65_536, 1)], 4, 2);
    expect_refused(&rack_of(1), &[(65_541, 1)], 4, 1);
    expect_refused(&rack_of(1), &[(0, 1)], 4, 1);
}

#[test]
fn texts_keep_their_films_up_to_65535() {
    let text = "(rack 1 2 5)\n(disk 1 (50000 3 held) (49999 2))\n(left (50000 1) (65535 0))\n(served 5 1)\n";
    for (name, read) in answers(text) {
        assert_eq!((read.number, read.served, read.left), (0, 5, 2), "{name}");
    }
    for film in [50_000, 65_535] {
        let copy = [Entry::new(film, 4), Entry::default()];
        expect_written(copy, Entry::new(film, 1), 0);
    }
}

#[test]
fn demand_1000000_passes_and_1000001_does_not() {
    expect_accepted(&rack_of(1), &[(1, 1_000_000)]);
    expect_refused(&rack_of(1), &[(1, 1_000_001)], 5, 1);
}

#[test]
fn records_1024_pass_and_1025_do_not() {
    let list: Vec<_> = (1..=1_025).map(|film| (film, 1)).collect();
    expect_accepted(&rack_of(1), &list[..1_024]);
    expect_refused(&rack_of(1), &list, 3, 0);
}

/// What each reader, with tables that are long enough, and each judge answers on a text.
pub fn answers(text: &str) -> impl Iterator<Item = (&str, ReadPlan)> {
    let read = |&(name, reader): &(_, Reader)| {
        let mut tables = OwnTables::for_any_plan();
        let mut rack = vec![Disk::default(); MOST_DISKS as usize];
        (name, reader(text.as_bytes(), &mut rack, tables.lend()))
    };
    let judged = |&(name, judge): &(_, Judge)| (name, judge(text.as_bytes()));
    READERS.iter().map(read).chain(JUDGES.iter().map(judged))
}

/// Asserts that each reader and each judge refuses the text at this line.
pub fn expect_wrong_line(text: &str, line: u32) {
    for (name, read) in answers(text) {
        assert_eq!((read.number, read.second), (9, line), "{name}: {text:?}");
    }
}

#[test]
fn texts_that_are_none_are_refused_at_line_1() {
    for text in ["", "\n", "(refused 1)\n", "(rack 1 1 1)"] {
        expect_wrong_line(text, 1);
    }
}

#[test]
fn the_wrong_line_is_named() {
    let texts = [
        ("(rack 1 1 1)\n", 2),
        ("(rack 1 1 1)\n(disk 1)", 2),
        ("(rack 1 1 1)\n(disk 1)\n", 3),
        ("(rack 1 1 1)\n(disk 1)\n(left)\n", 4),
        ("(rack 1 1 1)\n(disk 1)\n(left)\n(served 0 0)", 4),
        ("(rack 1 1 1)\n(disk 1)\n(left)\n(served 0 1)\n", 4),
        ("(rack 1 1 1)\n(disk 1)\n(left)\n(served 0 0)\n\n", 5),
        ("(rack 1 1 1)\n(disk 1 (1 2))\n(left)\n(served 2 0)\n", 2),
        ("(rack 1 1 1)\n(disk 1 (1 01))\n(left)\n(served 1 0)\n", 2),
        ("(rack 4294967297 1 1)\n(disk 1)\n(left)\n(served 0 0)\n", 1),
    ];
    for (text, line) in texts {
        expect_wrong_line(text, line);
    }
}

/// A text with 0 viewers and with amount 0.
const TEXT_WITH_0: &str = "(rack 1 3 5)\n(disk 1 (7 0) (3 5))\n(left (2 0) (4 9))\n(served 5 9)\n";

#[test]
fn texts_with_0_viewers_and_amount_0_are_accepted() {
    let answer = ReadPlan {
        disks: 1,
        left: 2,
        served: 5,
        unserved: 9,
        ..ReadPlan::default()
    };
    for (name, read) in answers(TEXT_WITH_0) {
        assert_eq!(read, answer, "{name}");
    }
}

#[test]
fn copies_of_0_viewers_and_left_films_of_amount_0_are_read() {
    for (name, reader) in READERS {
        let mut rack = [Disk::default()];
        let mut tables = Tables::for_plan(&[disk(3, 5)], 2);
        reader(TEXT_WITH_0.as_bytes(), &mut rack, tables.lend());
        assert_eq!(rack, [disk(3, 5)], "{name}");
        let copies = [Entry::new(7, 0), Entry::new(3, 5), Entry::default()];
        assert_eq!(tables.copies, copies, "{name}");
        assert_eq!(tables.counts, [2], "{name}");
        assert_eq!(tables.left, [Entry::new(2, 0), Entry::new(4, 9)], "{name}");
    }
}

/// The copies and left films of a text with sums of 0, and the line that is wrong in it.
const WRONG_WITH_0: [(&str, &str, u32); 11] = [
    (" (0 0)", "", 2),
    (" (65536 0)", "", 2),
    (" (7 0) (7 0)", "", 2),
    (" (7 0) (8 0) (9 0)", "", 2),
    (" (7 00)", "", 2),
    (" (7)", "", 2),
    ("", " (0 0)", 3),
    ("", " (65536 0)", 3),
    ("", " (2 0) (2 0)", 3),
    ("", " (2 0) (1 0)", 3),
    (" (7 0)", " (2 00)", 3),
];

#[test]
fn texts_that_are_wrong_beside_0_are_refused() {
    for (copies, left, line) in WRONG_WITH_0 {
        let text = format!("(rack 1 2 5)\n(disk 1{copies})\n(left{left})\n(served 0 0)\n");
        expect_wrong_line(&text, line);
    }
    let text = "(rack 1 2 5)\n(disk 1 (7 0))\n(left (2 1000001))\n(served 0 1000001)\n";
    expect_wrong_line(text, 3);
    let text = "(rack 1 2 5)\n(disk 1 (7 0))\n(left (2 0))\n(served 0 1)\n";
    expect_wrong_line(text, 4);
}

/// Asserts how each writer answers one disk of two places, the first used, and one left film.
pub fn expect_written(places: [Entry; 2], left: Entry, number: u32) {
    expect_copies_written(1, places, left, number);
}

/// Asserts how each writer answers one disk of two places, so many used, and one left film.
fn expect_copies_written(used: u32, places: [Entry; 2], left: Entry, number: u32) {
    let rack = [disk(2, 65_535)];
    let tables = Tables {
        copies: places.to_vec(),
        counts: vec![used],
        left: vec![left],
    };
    for (name, writer) in WRITERS {
        let written = writer(&rack, tables.view(), 1, &mut [0; 100]);
        assert_eq!(written.number, number, "{name}: {places:?} {left:?}");
    }
}

#[test]
fn all_bits_of_an_entry_count() {
    let (copy, unused, left) = (Entry::new(7, 4), Entry::default(), Entry::new(3, 9));
    expect_written([copy, unused], left, 0);
    for film in [0, 65_536, 2 << 16 | 7, 1 << 31 | 7, u32::MAX] {
        expect_written([Entry::new(film, 4), unused], left, 10);
        expect_written([copy, unused], Entry::new(film, 9), 10);
    }
    // Above film 7 a copy has the mark 1, and a left film has none.
    expect_written([Entry::new(65_536 + 7, 4), unused], left, 0);
    expect_written([copy, unused], Entry::new(65_536 + 3, 9), 10);
    for amount in [1 << 20 | 4, 1 << 31 | 4, u32::MAX] {
        expect_written([Entry::new(7, amount), unused], left, 10);
        expect_written([copy, unused], Entry::new(3, amount), 10);
    }
    for bit in (0..32).map(|place| 1 << place) {
        expect_written([copy, Entry::new(bit, 0)], left, 10);
        expect_written([copy, Entry::new(0, bit)], left, 10);
    }
}

#[test]
fn copies_of_0_viewers_and_left_films_of_amount_0_are_written() {
    let (copy, unused, left) = (Entry::new(7, 0), Entry::default(), Entry::new(3, 0));
    expect_written([copy, unused], left, 0);
    expect_copies_written(2, [copy, Entry::new(8, 0)], left, 0);
    expect_copies_written(2, [copy, Entry::new(8, 65_535)], left, 0);
    // Film 0, a film twice, and a place that is not used.
    expect_written([unused, unused], left, 10);
    expect_copies_written(2, [copy, unused], left, 10);
    expect_written([copy, unused], unused, 10);
    expect_copies_written(2, [copy, copy], left, 10);
    expect_copies_written(2, [copy, Entry::new(7, 4)], left, 10);
    expect_written([copy, copy], left, 10);
    expect_copies_written(0, [copy, unused], left, 10);
}

#[test]
fn the_largest_film_and_amounts_are_written() {
    let last = |amount| Entry::new(65_535, amount);
    let copy = |viewers| [last(viewers), Entry::default()];
    expect_written(copy(65_535), last(1_000_000), 0);
    expect_written(copy(65_536), last(1_000_000), 10);
    expect_written(copy(65_535), last(1_000_001), 10);
}
