//! What the inputs hold: right racks and records, wrong ones, and bytes that mislead who reads on.

use jugfjord::rack::{
    records, LAST_FILM, LAST_LISTED_FILM, MOST_DEMAND, MOST_DISKS, MOST_RECORDS, MOST_SLOTS,
    MOST_STREAMS, RECORD,
};

use crate::dice::Dice;
use crate::inputs::{of_records, HEAD, MOST_KEPT};

/// Bytes with a name, at least as many as were asked for.
pub type Named = (String, Vec<u8>);

/// Racks in range with the most demand of one film: one with room for all viewers of 1,024 films,
/// one that is too small, and one with films that nobody wants.
const RACKS: [([u32; 3], u32); 3] = [
    ([MOST_DISKS, MOST_SLOTS, MOST_STREAMS], 4_000),
    ([4, 6, 40], 60),
    ([9, 1, 3], 1),
];

/// How many whole records an input of this length has.
fn whole_records(length: usize) -> usize {
    length.saturating_sub(HEAD) / RECORD
}

/// Whether a list of this length is judged record by record.
fn is_judged(length: usize) -> bool {
    let count = whole_records(length);
    length == of_records(count) && count <= MOST_RECORDS
}

/// Distinct films with demands, for the whole records of this length and the odd bytes behind.
fn demands(length: usize, most: u32) -> Vec<(u32, u32)> {
    let mut dice = Dice::new(length as u64);
    // The step shares no factor with 49,999, so that no film comes twice.
    let film = |at: usize| (at * 7 % LAST_LISTED_FILM as usize) as u32 + 1;
    (0..=whole_records(length))
        .map(|at| (film(at), dice.within(0, most)))
        .collect()
}

/// The bytes of a rack and a list.
pub fn bytes_of(rack: [u32; 3], list: &[(u32, u32)]) -> Vec<u8> {
    let mut bytes = rack.map(u32::to_le_bytes).concat();
    bytes.extend(records(list));
    bytes
}

/// The opening of an input of the largest rack and right records, so many bytes.
pub fn right_bytes(length: usize) -> Vec<u8> {
    let (rack, most) = RACKS[0];
    let mut bytes = bytes_of(rack, &demands(length, most));
    bytes.truncate(length);
    bytes
}

/// Racks in range and right records.
pub fn accepted(length: usize) -> Vec<Named> {
    let named = |(rack, most)| {
        let bytes = bytes_of(rack, &demands(length, most));
        (format!("rack {rack:?}"), bytes)
    };
    RACKS.map(named).to_vec()
}

/// Films of demand 0 alone where the list is planned, with slots for all of them and for few.
pub fn unwanted(length: usize) -> Vec<Named> {
    let racks = [RACKS[0].0, [3, 2, 5]].into_iter();
    let named = |rack| {
        let bytes = bytes_of(rack, &demands(length, 0));
        (format!("rack {rack:?}, demand 0 alone"), bytes)
    };
    racks.filter(|_| is_judged(length)).map(named).collect()
}

/// One number of the rack below and above its range. Which one it is goes round with the length.
pub fn out_of_range(length: usize) -> Vec<Named> {
    let (rack, most) = RACKS[1];
    let at = length % 3;
    let named = |wrong| {
        let mut rack = rack;
        rack[at] = wrong;
        let bytes = bytes_of(rack, &demands(length, most));
        (format!("rack out of range {rack:?}"), bytes)
    };
    [0, RACKS[0].0[at] + 1].map(named).to_vec()
}

/// A record that breaks the rule of refusal 4, 16, 5 or 6, where there are two records. Each rule is
/// broken early, late and last where the list is judged record by record, else at one place.
pub fn faulty(length: usize) -> Vec<Named> {
    let count = whole_records(length);
    let places = [2, count.saturating_sub(1), count];
    let turns = (0..12).map(|turn| (turn / 3, turn % 3));
    turns
        .filter(|&(rule, place)| is_judged(length) || rule % 3 == place)
        .filter(|&(_, place)| (2..=count).contains(&places[place]))
        .map(|(rule, place)| with_fault(length, [4, 16, 5, 6][rule], places[place]))
        .collect()
}

/// A list whose record at this place, from 1, breaks the rule of this refusal.
fn with_fault(length: usize, number: u32, place: usize) -> Named {
    let (rack, most) = RACKS[0];
    let mut list = demands(length, most);
    let (first, (film, demand)) = (list[0].0, list[place - 1]);
    list[place - 1] = match number {
        4 => (LAST_FILM + 1, demand),
        16 => (LAST_LISTED_FILM + 1, demand),
        5 => (film, MOST_DEMAND + 1),
        _ => (first, demand),
    };
    let name = format!("record {place} wrong by rule {number}");
    (name, bytes_of(rack, &list))
}

/// Of a length that is not kept whole: zeros, which would be a rack out of range, behind a rack in
/// range, and ones, which would be a rack in range, behind a rack out of range.
pub fn misleading_behind(length: usize) -> Vec<Named> {
    if length <= MOST_KEPT {
        return Vec::new();
    }
    let named = |rack: [u32; 3], number: u32| {
        let list = demands(MOST_KEPT, RACKS[0].1);
        let mut bytes = bytes_of(rack, &list);
        bytes.truncate(MOST_KEPT);
        bytes.extend(number.to_le_bytes().iter().cycle().take(length - MOST_KEPT));
        (
            format!("rack {rack:?}, {number} again and again behind"),
            bytes,
        )
    };
    vec![named(RACKS[0].0, 0), named([0; 3], 1)]
}
