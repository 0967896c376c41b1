//! Planning on the purser's terminal: its limits and the order of its refusals, worked out by hand.

use jugfjord::ffi::Planned;
use jugfjord::rack::{records, Disk};
use jugfjord::reference::plan::Pair;
use jugfjord::tables::{Entry, OwnTables};

use crate::cases::{LIST_A, TEXT_A, TEXT_MIXED};
use crate::racks::{disk, equal_rack as rack};
use crate::subjects::{TERMINALS, WRITERS};

/// Asserts that each terminal, in tables of its own size, makes the plan with this text.
fn expect(rack: &[Disk], list: &[Pair], text: &str) {
    for (name, planner) in TERMINALS {
        let mut tables = OwnTables::for_terminal();
        let planned = planner(rack, &records(list), tables.lend());
        assert_eq!(planned.number, 0, "{name}");
        let mut space = vec![0; text.len()];
        let written = WRITERS[0].1(rack, tables.view(), planned.left, &mut space);
        assert_eq!(written.number, 0, "{name}");
        assert_eq!(String::from_utf8_lossy(&space), text, "{name}");
    }
}

/// Asserts that each terminal refuses the call and changes no table of these lengths.
fn expect_refused(rack: &[Disk], list: &[u8], lengths: [usize; 3], number: u32, second: u32) {
    let answer = Planned {
        number,
        second,
        ..Planned::default()
    };
    let [copies, counts, left] = lengths;
    for (name, planner) in TERMINALS {
        let mut tables = OwnTables {
            copies: vec![Entry::new(7, 8); copies],
            counts: vec![7; counts],
            left: vec![Entry::new(7, 8); left],
        };
        let before = tables.clone();
        let planned = planner(rack, list, tables.lend());
        assert_eq!(
            planned,
            answer,
            "{name} on {} disks, {} bytes",
            rack.len(),
            list.len()
        );
        assert_eq!(tables, before, "{name}");
    }
}

/// Places for all that the office plans.
const OFFICE: [usize; 3] = [2_048, 64, 1_024];
/// No places.
const NONE: [usize; 3] = [0, 0, 0];

/// The bytes of so many records of film 0, each of which would be 4.
fn zeros(count: usize) -> Vec<u8> {
    vec![0; 8 * count]
}

#[test]
fn the_terminal_has_the_plans_of_the_office() {
    expect(&rack(3, 4, 6), &LIST_A, TEXT_A);
    let list = [(1, 3), (2, 4), (3, 5)];
    expect(&[disk(4, 8), disk(2, 4)], &list, TEXT_MIXED);
}

#[test]
fn disks_8_and_records_96_pass() {
    let films: Vec<Pair> = (1..=96).map(|film| (film, 1)).collect();
    let disks = (1..=8).map(|number| format!("(disk {number} ({number} 1))\n"));
    let left = (9..=96).map(|film| format!(" ({film} 1)"));
    let (disks, left) = (disks.collect::<String>(), left.collect::<String>());
    let text = format!("(rack 8 1 1)\n{disks}(left{left})\n(served 8 88)\n");
    expect(&rack(8, 1, 1), &films, &text);
}

#[test]
fn disks_9_or_records_97_are_refused_17() {
    let films: Vec<Pair> = (1..=97).map(|film| (film, 1)).collect();
    expect_refused(&rack(9, 1, 1), &[], OFFICE, 17, 0);
    expect_refused(&rack(1, 1, 1), &records(&films), OFFICE, 17, 0);
    expect_refused(&rack(9, 1, 1), &records(&films), OFFICE, 17, 0);
    expect_refused(&rack(64, 32, 65_535), &zeros(1_024), OFFICE, 17, 0);
}

#[test]
fn refusal_17_stands_behind_3_and_before_7() {
    let other_ratio = [rack(8, 1, 1), vec![disk(1, 2)]].concat();
    expect_refused(&[], &zeros(97), NONE, 12, 0);
    expect_refused(&rack(65, 1, 1), &[0; 777], OFFICE, 12, 0);
    expect_refused(&other_ratio, &zeros(1_025), OFFICE, 13, 9);
    expect_refused(&other_ratio, &[0; 7], NONE, 13, 9);
    expect_refused(&rack(9, 1, 1), &[0; 7], NONE, 2, 0);
    // 97 records and one byte.
    expect_refused(&rack(1, 1, 1), &[0; 777], OFFICE, 2, 0);
    expect_refused(&rack(9, 1, 1), &[0; 8_201], NONE, 2, 0);
    expect_refused(&rack(9, 1, 1), &zeros(1_025), NONE, 3, 0);
    expect_refused(&rack(1, 1, 1), &zeros(1_025), NONE, 3, 0);
    expect_refused(&rack(9, 1, 1), &[], NONE, 17, 0);
    expect_refused(&rack(1, 1, 1), &zeros(97), [1, 1, 96], 17, 0);
    expect_refused(&rack(1, 1, 1), &zeros(97), OFFICE, 17, 0);
}

#[test]
fn tables_of_the_terminals_size_are_just_long_enough() {
    let own = OwnTables::for_terminal();
    let lengths = [own.copies.len(), own.counts.len(), own.left.len()];
    assert_eq!(lengths, [256, 8, 96]);
    let largest = rack(8, 32, 65_535);
    expect_refused(&largest, &zeros(96), [256, 8, 96], 4, 1);
    expect_refused(&largest, &zeros(96), [255, 8, 96], 7, 0);
    expect_refused(&largest, &zeros(96), [256, 7, 96], 7, 0);
    expect_refused(&largest, &zeros(96), [256, 8, 95], 7, 0);
}

#[test]
fn records_are_refused_as_in_the_office() {
    let refused = |list: &[Pair], number, second| {
        expect_refused(&rack(8, 4, 6), &records(list), OFFICE, number, second);
    };
    refused(&[(1, 1), (65_536, 1)], 4, 2);
    refused(&[(1, 1), (50_000, 1)], 16, 2);
    refused(&[(1, 1_000_001)], 5, 1);
    refused(&[(5, 3), (5, 3)], 6, 2);
}
