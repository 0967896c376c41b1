//! Transfers between two texts: cases worked out by hand from the words of document 02.

use jugfjord::ffi::Transferred;
use jugfjord::transfers::{CountRow, Transfer, ENDS, MOST_TRANSFERS};

use crate::subjects::FINDERS;

/// Source, destination, film and round, as 02 lists them.
type Listed = (u32, u32, u32, u32);
/// A source, a destination and how many transfers go from the one to the other.
type Counted = (usize, usize, u32);

/// What stands in a place that no call writes.
const UNTOUCHED: u32 = 77;

fn untouched_list(count: usize) -> Vec<Transfer> {
    vec![Transfer::of(UNTOUCHED, UNTOUCHED, UNTOUCHED, UNTOUCHED); count]
}

/// A text by its first line, the copies of each disk and the number of viewers, with nothing left.
fn text(first: &str, disks: &[&str], served: u32) -> String {
    let mut text = format!("{first}\n");
    for (number, copies) in (1..).zip(disks) {
        let space = if copies.is_empty() { "" } else { " " };
        text += &format!("(disk {number}{space}{copies})\n");
    }
    text + &format!("(left)\n(served {served} 0)\n")
}

/// A text of so many empty disks of one slot and one stream.
fn empty(disks: usize) -> String {
    text(&format!("(rack {disks} 1 1)"), &vec![""; disks], 0)
}

/// Asserts that all find these transfers, in so many rounds, and these counts but for zeros, with
/// just enough lent and with more.
fn expect(old: &str, new: &str, listed: &[Listed], rounds: u32, counted: &[Counted]) {
    let listed = listed
        .iter()
        .map(|&(source, destination, film, round)| Transfer::of(source, destination, film, round));
    let mut counts = vec![[0; ENDS]; ENDS];
    for &(source, destination, count) in counted {
        counts[source][destination] = count;
    }
    let answer = Transferred {
        number: 0,
        second: 0,
        transfers: listed.len() as u32,
        rounds,
    };
    let mut listed: Vec<Transfer> = listed.collect();
    for more in [0, 2] {
        listed.extend(untouched_list(more));
        counts.extend(vec![[UNTOUCHED; ENDS]; more]);
        for (name, finder) in FINDERS {
            let mut list = untouched_list(listed.len());
            let mut table = vec![[UNTOUCHED; ENDS]; counts.len()];
            let found = finder(old.as_bytes(), new.as_bytes(), &mut list, &mut table);
            assert_eq!(found, answer, "{name}");
            assert_eq!(list, listed, "{name}");
            assert_eq!(table, counts, "{name}");
        }
    }
}

/// Asserts that all refuse the call and change nothing, with a list and rows of these lengths.
fn expect_refused(texts: (&[u8], &[u8]), lent: (usize, usize), number: u32, second: u32) {
    let answer = Transferred {
        number,
        second,
        ..Transferred::default()
    };
    let untouched: CountRow = [UNTOUCHED; ENDS];
    for (name, finder) in FINDERS {
        let mut list = untouched_list(lent.0);
        let mut table = vec![untouched; lent.1];
        let found = finder(texts.0, texts.1, &mut list, &mut table);
        assert_eq!(found, answer, "{name}");
        assert_eq!(list, untouched_list(lent.0), "{name}");
        assert_eq!(table, vec![untouched; lent.1], "{name}");
    }
}

#[test]
fn a_transfer_has_its_four_numbers() {
    for (source, destination, film, round) in
        [(8, 7, 65_535, 511), (0, 8, 1, 1), (255, 0, 2, u32::MAX)]
    {
        let transfer = Transfer::of(source, destination, film, round);
        assert_eq!(transfer.source(), source);
        assert_eq!(transfer.destination(), destination);
        assert_eq!(transfer.film(), film);
        assert_eq!(transfer.round(), round);
    }
    assert_eq!(
        format!("{:?}", Transfer::of(8, 7, 65_535, 511)),
        "(8 7 65535 511)"
    );
}

#[test]
fn a_plan_is_made_of_itself_by_no_transfer() {
    let same = text("(rack 2 2 5)", &["(1 1) (2 1)", "(2 4)"], 6);
    expect(&same, &same, &[], 0, &[]);
    // Viewers and the order of copies do not matter.
    let other = text("(rack 2 2 5)", &["(2 5) (1 0)", "(2 0)"], 5);
    expect(&same, &other, &[], 0, &[]);
    // Nor do copies that are no longer wanted.
    let less = text("(rack 2 2 5)", &["(2 1)", ""], 1);
    expect(&same, &less, &[], 0, &[]);
}

#[test]
fn two_films_that_change_places_take_two_rounds() {
    let old = text("(rack 2 1 5)", &["(1 1)", "(2 1)"], 2);
    let new = text("(rack 2 1 5)", &["(2 1)", "(1 1)"], 2);
    let listed = [(2, 1, 2, 1), (1, 2, 1, 2)];
    expect(&old, &new, &listed, 2, &[(2, 1, 1), (1, 2, 1)]);
}

#[test]
fn the_loader_serves_one_disk_in_a_round() {
    let old = text("(rack 3 1 5)", &["", "", ""], 0);
    let new = text("(rack 3 1 5)", &["(9 1)", "(8 1)", "(7 1)"], 3);
    let listed = [(0, 1, 9, 1), (0, 2, 8, 2), (0, 3, 7, 3)];
    expect(&old, &new, &listed, 3, &[(0, 1, 1), (0, 2, 1), (0, 3, 1)]);
}

#[test]
fn films_of_a_disk_go_by_number_and_not_by_their_order_in_the_text() {
    let old = text("(rack 1 3 5)", &[""], 0);
    let new = text("(rack 1 3 5)", &["(30 1) (4 1) (200 1)"], 3);
    let listed = [(0, 1, 4, 1), (0, 1, 30, 2), (0, 1, 200, 3)];
    expect(&old, &new, &listed, 3, &[(0, 1, 3)]);
}

#[test]
fn the_lowest_disk_that_holds_the_film_is_the_source() {
    let old = text("(rack 4 1 5)", &["(5 1)", "(9 1)", "(9 1)", "(5 1)"], 4);
    let new = text("(rack 4 1 5)", &["(9 1)", "(9 1)", "(9 1)", "(9 1)"], 4);
    let listed = [(2, 1, 9, 1), (2, 4, 9, 2)];
    expect(&old, &new, &listed, 2, &[(2, 1, 1), (2, 4, 1)]);
}

#[test]
fn a_copy_with_0_viewers_is_a_copy() {
    let old = text("(rack 2 2 5)", &["(6 0)", ""], 0);
    let new = text("(rack 2 2 5)", &["(6 3) (8 0)", "(6 0)"], 3);
    // Film 6 stays on disk 1. Disk 1 is busy in round 1, so that it is copied to disk 2 in round 2.
    let listed = [(0, 1, 8, 1), (1, 2, 6, 2)];
    expect(&old, &new, &listed, 2, &[(0, 1, 1), (1, 2, 1)]);
}

#[test]
fn marks_do_not_matter() {
    let listed = [(0, 1, 7, 1), (1, 2, 5, 2)];
    let counted = [(0, 1, 1), (1, 2, 1)];
    let old = [
        text("(rack 2 2 5)", &["(5 1)", "(6 1)"], 2),
        text("(rack 2 2 5)", &["(5 1 held)", "(6 1)"], 2),
    ];
    let new = [
        text("(rack 2 2 5)", &["(5 1) (7 1)", "(6 1) (5 1)"], 4),
        text("(rack 2 2 5)", &["(5 1) (7 1 held)", "(6 1) (5 1 held)"], 4),
        text("(rack 2 2 5)", &["(5 1 held) (7 1)", "(6 1 held) (5 1)"], 4),
    ];
    for old in &old {
        for new in &new {
            expect(old, new, &listed, 2, &counted);
        }
    }
}

#[test]
fn a_later_transfer_may_run_in_an_earlier_round() {
    let old = text("(rack 4 1 5)", &["", "", "", "(40 1)"], 1);
    let new = text("(rack 4 1 5)", &["(10 1)", "(20 1)", "(40 1)", "(50 1)"], 4);
    // Disks 3 and 4 are free while the loader serves disk 1.
    let listed = [(0, 1, 10, 1), (0, 2, 20, 2), (4, 3, 40, 1), (0, 4, 50, 3)];
    let counted = [(0, 1, 1), (0, 2, 1), (4, 3, 1), (0, 4, 1)];
    expect(&old, &new, &listed, 3, &counted);
}

#[test]
fn a_round_has_to_be_free_at_both_ends() {
    let old = text("(rack 3 2 5)", &["(20 1)", "(30 1)", ""], 2);
    let copies = ["(10 1) (11 1)", "(20 1) (21 1)", "(30 1) (31 1)"];
    let new = text("(rack 3 2 5)", &copies, 6);
    let listed = [
        (0, 1, 10, 1),
        (0, 1, 11, 2),
        // Disk 1 is busy in rounds 1 and 2.
        (1, 2, 20, 3),
        // The loader is busy in 1 and 2, disk 2 in 3.
        (0, 2, 21, 4),
        (2, 3, 30, 1),
        // The loader is busy in 1, 2 and 4, disk 3 in 1.
        (0, 3, 31, 3),
    ];
    let counted = [(0, 1, 2), (0, 2, 1), (0, 3, 1), (1, 2, 1), (2, 3, 1)];
    expect(&old, &new, &listed, 4, &counted);
}

#[test]
fn films_that_move_round_three_disks_take_as_many_rounds_as_the_bound_admits() {
    let old = text("(rack 3 1 1)", &["(1 1)", "(2 1)", "(3 1)"], 3);
    let new = text("(rack 3 1 1)", &["(3 1)", "(1 1)", "(2 1)"], 3);
    // Two transfers touch each disk, and 2 x 2 - 1 is 3.
    let listed = [(3, 1, 3, 1), (1, 2, 1, 2), (2, 3, 2, 3)];
    expect(&old, &new, &listed, 3, &[(3, 1, 1), (1, 2, 1), (2, 3, 1)]);
}

#[test]
fn films_that_move_round_eight_disks_take_two_rounds() {
    let old = [
        "(1 1)", "(2 1)", "(3 1)", "(4 1)", "(5 1)", "(6 1)", "(7 1)",
    ];
    let old = [&old[..], &["(65535 1)"]].concat();
    let mut new = old.clone();
    new.rotate_right(1);
    let [old, new] = [old, new].map(|copies| text("(rack 8 1 1)", &copies, 8));
    let listed = [
        (8, 1, 65_535, 1),
        (1, 2, 1, 2),
        (2, 3, 2, 1),
        (3, 4, 3, 2),
        (4, 5, 4, 1),
        (5, 6, 5, 2),
        (6, 7, 6, 1),
        (7, 8, 7, 2),
    ];
    let counted = listed.map(|(source, destination, _, _)| (source, destination, 1));
    let counted = counted.map(|(source, to, count)| (source as usize, to as usize, count));
    expect(&old, &new, &listed, 2, &counted);
}

#[test]
fn unequal_disks_are_taken_and_left_films_are_no_source() {
    let old = "(mixed (2 4) (4 8))
(disk 1 (1 3) (2 1))
(disk 2 (2 3) (3 5))
(left (9 1))
(served 12 1)
";
    let new = "(mixed (2 4) (4 8))
(disk 1 (3 4))
(disk 2 (9 0) (1 8))
(left (4 2) (5 0))
(served 12 2)
";
    // Disk 2 is busy in round 1 with film 3, in round 2 with film 1.
    let listed = [(2, 1, 3, 1), (1, 2, 1, 2), (0, 2, 9, 3)];
    expect(old, new, &listed, 3, &[(2, 1, 1), (1, 2, 1), (0, 2, 1)]);
}

/// A text of 8 disks of 32 slots, all full, with films from this one on, in descending order.
fn full(first: u32) -> String {
    let copies = |disk: u32| {
        let films = (0..32).rev().map(|slot| first + 32 * disk + slot);
        let copies: Vec<String> = films.map(|film| format!("({film} 2)")).collect();
        copies.join(" ")
    };
    let disks: Vec<String> = (0..8).map(copies).collect();
    let disks: Vec<&str> = disks.iter().map(String::as_str).collect();
    text("(rack 8 32 64)", &disks, 512)
}

#[test]
fn the_largest_plans_with_nothing_in_common_take_256_rounds() {
    let (old, new) = (full(1), full(257));
    let listed = (0..256).map(|at| (0, at / 32 + 1, 257 + at, at + 1));
    let listed: Vec<Listed> = listed.collect();
    assert_eq!(listed.len(), MOST_TRANSFERS);
    let counted: Vec<Counted> = (1..=8).map(|disk| (0, disk, 32)).collect();
    expect(&old, &new, &listed, 256, &counted);
    let texts = (old.as_bytes(), new.as_bytes());
    expect_refused(texts, (255, 9), 7, 0);
}

#[test]
fn too_short_a_list_and_too_few_rows_are_7() {
    let old = text("(rack 2 1 5)", &["(1 1)", "(2 1)"], 2);
    let new = text("(rack 2 1 5)", &["(2 1)", "(1 1)"], 2);
    let texts = (old.as_bytes(), new.as_bytes());
    for lent in [(0, 0), (0, 9), (1, 9), (1, 10), (2, 8), (2, 0), (256, 8)] {
        expect_refused(texts, lent, 7, 0);
    }
    // Without transfers the rows are needed all the same.
    for rows in [0, 1, 8] {
        expect_refused((old.as_bytes(), old.as_bytes()), (0, rows), 7, 0);
    }
    expect(&old, &old, &[], 0, &[]);
}

#[test]
fn the_old_text_is_judged_before_the_new_one() {
    let good = empty(1);
    let good = good.as_bytes();
    let long: &[u8] = &[b'('; 65_537];
    let second_line: &[u8] = b"(rack 1 1 1)\n(disk 1 (0 1))\n";
    let third_line: &[u8] = b"(rack 1 1 1)\n(disk 1)\n(left (2 1 held))\n(served 0 1)\n";
    let calls: [(&[u8], &[u8], u32, u32); 10] = [
        (b"", b"", 9, 1),
        (b"", long, 9, 1),
        (long, b"", 8, 0),
        (long, good, 8, 0),
        (good, long, 8, 0),
        (good, b"", 9, 1),
        (b"", good, 9, 1),
        (second_line, third_line, 9, 2),
        (third_line, second_line, 9, 3),
        (good, third_line, 9, 3),
    ];
    for (old, new, number, second) in calls {
        for lent in [(0, 0), (256, 9)] {
            expect_refused((old, new), lent, number, second);
        }
    }
}

#[test]
fn more_than_8_disks_are_14_after_the_texts_and_before_all_else() {
    let [one, eight, nine, most] = [1, 8, 9, 64].map(empty);
    for lent in [(0, 0), (256, 9)] {
        let expect = |old: &str, new: &str, number, second| {
            expect_refused((old.as_bytes(), new.as_bytes()), lent, number, second);
        };
        expect(&nine, &nine, 14, 0);
        expect(&most, &most, 14, 0);
        // Their first lines differ too.
        expect(&one, &nine, 14, 0);
        expect(&nine, &one, 14, 0);
        expect(&eight, &nine, 14, 0);
        expect(&nine, &eight, 14, 0);
        expect(&most, &nine, 14, 0);
        // A refused text comes first.
        expect(&nine, "", 9, 1);
        expect("", &nine, 9, 1);
        expect(&nine, &nine[..nine.len() - 1], 9, 12);
    }
    expect(&eight, &eight, &[], 0, &[]);
}

#[test]
fn first_lines_that_differ_are_15_before_7() {
    let [one, two] = [1, 2].map(empty);
    let slots = text("(rack 1 2 1)", &[""], 0);
    let streams = text("(rack 1 1 2)", &[""], 0);
    let large_first = text("(mixed (4 8) (2 4))", &["", ""], 0);
    let small_first = text("(mixed (2 4) (4 8))", &["", ""], 0);
    let pairs = [
        (&one, &two),
        (&one, &slots),
        (&one, &streams),
        (&two, &small_first),
        (&large_first, &small_first),
    ];
    for (one, other) in pairs {
        for lent in [(0, 0), (0, 8), (256, 9)] {
            expect_refused((one.as_bytes(), other.as_bytes()), lent, 15, 0);
            expect_refused((other.as_bytes(), one.as_bytes()), lent, 15, 0);
        }
    }
}
