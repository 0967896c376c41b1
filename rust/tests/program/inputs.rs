//! The inputs that the program is run on: lengths at its seams, with several contents for each.

use std::collections::{BTreeMap, BTreeSet};

use jugfjord::rack::{MOST_RECORDS, RECORD};

use crate::contents::{accepted, faulty, misleading_behind, out_of_range, unwanted, Named};

/// The input of document 01's case A: a rack and twelve records.
pub const INPUT_A: &[u8] = include_bytes!("../../../samples/case_a.bin");

/// The bytes of the rack's three numbers.
pub const HEAD: usize = 12;

/// The most bytes of an input that the program keeps: the head, 1,025 records and 7 bytes.
pub const MOST_KEPT: usize = of_records(MOST_RECORDS + 1) + 7;

/// The most bytes that the program reads at once behind those.
pub const CHUNK: usize = 65_536;

/// Lengths without a record and with few.
pub const SHORT: &[usize] = &[0, 11, HEAD, of_records(1), of_records(2), of_records(20)];

/// Lengths about the most records that are accepted and the most bytes that are kept.
pub const MIDDLE: &[usize] = &[
    MOST_KEPT - 1,
    MOST_KEPT,
    MOST_KEPT + 1,
    MOST_KEPT + 2,
    of_records(MOST_RECORDS),
    of_records(MOST_RECORDS + 1),
    of_records(MOST_RECORDS + 2),
    of_records(MOST_RECORDS + 3),
];

/// Lengths of which most is only counted.
pub const LONG: &[usize] = &[MOST_KEPT + CHUNK, of_records(20_000)];

/// The length of an input of so many records.
pub const fn of_records(count: usize) -> usize {
    HEAD + RECORD * count
}

/// An input with a name to report it by.
pub struct Input {
    pub name: String,
    pub bytes: Vec<u8>,
}

/// All inputs of these lengths, and of these lengths with 1 to 7 odd bytes behind.
pub fn inputs(lengths: &[usize]) -> Vec<Input> {
    let odd = |&length: &usize| length..length + RECORD;
    let lengths: BTreeSet<usize> = lengths.iter().flat_map(odd).collect();
    lengths.into_iter().flat_map(of_length).collect()
}

/// Inputs of one length, all different.
fn of_length(length: usize) -> impl Iterator<Item = Input> {
    let kinds = [accepted, unwanted, out_of_range, faulty, misleading_behind];
    let cut = |(name, bytes): Named| (bytes[..length].to_vec(), format!("{length} bytes, {name}"));
    let distinct: BTreeMap<_, _> = kinds
        .iter()
        .flat_map(|kind| kind(length))
        .map(cut)
        .collect();
    distinct
        .into_iter()
        .map(|(bytes, name)| Input { name, bytes })
}
