//! Refusals in words.

use std::error::Error;

use jugfjord::refusal::Refusal;

/// Each refusal of documents 01 and 02, with a second number where it has one.
const WORDS: [(u32, u32, &str); 17] = [
    (1, 0, "a number of the rack is out of range (refused 1)"),
    (2, 0, "list length is no multiple of 8 (refused 2)"),
    (3, 0, "the list has more than 1024 records (refused 3)"),
    (
        4,
        1,
        "film number is outside 1 to 65535 (refused 4, record 1)",
    ),
    (5, 7, "demand is outside 0 to 1000000 (refused 5, record 7)"),
    (6, 2, "film is in the list twice (refused 6, record 2)"),
    (7, 0, "a lent table, list or rack is too short (refused 7)"),
    (8, 0, "the text has more than 65536 bytes (refused 8)"),
    (
        9,
        3,
        "no plan text has this line after the lines before it (refused 9, line 3)",
    ),
    (
        10,
        0,
        "the plan in the tables is not well formed (refused 10)",
    ),
    (11, 0, "the space for the text is too short (refused 11)"),
    (
        12,
        0,
        "the number of disks, or a disk, is out of range (refused 12)",
    ),
    (
        13,
        3,
        "the ratio of streams to slots is not that of disk 1 (refused 13, disk 3)",
    ),
    (
        14,
        0,
        "the old or the new plan has more than 8 disks (refused 14)",
    ),
    (
        15,
        0,
        "the first lines of the old and the new plan differ (refused 15)",
    ),
    (
        16,
        3,
        "film number is above 49999, a service clip (refused 16, record 3)",
    ),
    (
        17,
        0,
        "the rack or the list has more than the terminal's 8 disks or 96 records (refused 17)",
    ),
];

#[test]
fn every_refusal_is_an_error_in_words() {
    for (number, second, words) in WORDS {
        let error: Box<dyn Error> = Refusal { number, second }.into();
        assert_eq!(error.to_string(), words);
    }
}

#[test]
fn a_refusal_names_the_value_that_it_is_about() {
    let refusal = Refusal {
        number: 6,
        second: 2,
    };
    let words = "film 110 is in the list twice (refused 6, record 2)";
    assert_eq!(refusal.about(110), words);
}

#[test]
fn a_number_without_words_is_still_named() {
    for number in [0, 18, u32::MAX] {
        let words = Refusal::plain(number).to_string();
        assert!(words.ends_with(&format!(" (refused {number})")), "{words}");
    }
}
