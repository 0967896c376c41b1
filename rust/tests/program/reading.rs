//! Inputs of many lengths, in every way that they can come, against the plain planner and writer.

use jugfjord::reference::plan::StoredCopy;
use jugfjord::reference::reader::plan_of;

use crate::contents::bytes_of;
use crate::expected::{answer, output};
use crate::inputs::{inputs, INPUT_A, LONG, MIDDLE, SHORT};
use crate::tally::Tally;
use crate::ways::{chunks, file, single_bytes, slow_bytes, Way};

/// What document 01 has the program print in case A.
const TEXT_A: &[u8] = include_bytes!("../../../crates/plan/stdout");

/// Asserts what the program prints for all inputs of these lengths, and with odd bytes behind.
fn compare(way: Way, lengths: &[usize]) {
    for input in inputs(lengths) {
        way(&input.bytes).assert_printed(&output(&input.bytes), &input.name);
    }
}

#[test]
fn short_files() {
    compare(file, SHORT);
}

#[test]
fn middle_files() {
    compare(file, MIDDLE);
}

#[test]
fn long_files() {
    compare(file, LONG);
}

#[test]
fn short_pipes_in_single_bytes() {
    compare(single_bytes, SHORT);
}

#[test]
fn middle_pipes_in_single_bytes() {
    compare(single_bytes, MIDDLE);
}

#[test]
fn long_pipes_in_single_bytes() {
    compare(single_bytes, LONG);
}

#[test]
fn short_pipes_in_chunks() {
    compare(chunks, SHORT);
}

#[test]
fn middle_pipes_in_chunks() {
    compare(chunks, MIDDLE);
}

#[test]
fn long_pipes_in_chunks() {
    compare(chunks, LONG);
}

#[test]
fn case_a_with_time_to_read_each_byte() {
    slow_bytes(INPUT_A).assert_printed(TEXT_A, "case A");
}

#[test]
fn case_g_has_a_shelf_copy() {
    let input = bytes_of([1, 4, 9], &[(4, 0), (1, 2), (2, 3)]);
    let text = b"(rack 1 4 9)\n(disk 1 (1 2) (2 3) (4 0))\n(left)\n(served 5 0)\n";
    file(&input).assert_printed(text, "case G");
}

#[test]
fn the_plain_planner_and_writer_print_case_a() {
    assert_eq!(output(INPUT_A), TEXT_A);
}

#[test]
fn the_inputs_have_every_answer() {
    let mut tally = Tally::new("inputs of the program");
    for input in inputs(&[SHORT, MIDDLE, LONG].concat()) {
        match answer(&input.bytes) {
            Ok(text) => tally_plan(&text, &mut tally),
            Err(refusal) => tally.answer(refusal.number),
        }
    }
    tally.close(&[
        ("accepted", 20),
        ("shelf copies on one disk", 2),
        ("shelf copies on several disks", 4),
        ("shelf film left", 4),
        ("films of demand 0 alone", 8),
        ("refused 1", 100),
        ("refused 2", 300),
        ("refused 3", 30),
        ("refused 4", 5),
        ("refused 5", 5),
        ("refused 6", 5),
        ("refused 16", 5),
    ]);
}

/// Counts a plan by where its films of demand 0 are.
fn tally_plan(text: &[u8], tally: &mut Tally) {
    let plan = plan_of(text).expect("a plan text");
    let has_shelf = |copies: &&Vec<StoredCopy>| copies.iter().any(|copy| copy.viewers == 0);
    let disks = plan.disks.iter().filter(has_shelf).count();
    let is_unwatched = plan.served() + plan.unserved() == 0;
    tally.answer(0);
    tally.count_met(&[
        ("shelf copies on one disk", disks == 1),
        ("shelf copies on several disks", disks > 1),
        ("shelf film left", plan.left.iter().any(|film| film.1 == 0)),
        ("films of demand 0 alone", disks > 0 && is_unwatched),
    ]);
}
