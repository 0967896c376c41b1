//! `jugfjord transfers`: whole pages, worked out by hand from document 02.

use jugfjord::transfers::{Transfer, ENDS, MOST_TRANSFERS};
use jugfjord::wrap;

use crate::folder::{Folder, Ran};
use crate::tty::printed_on_tty;

/// What the command makes of these two texts.
fn run(old: &str, new: &str) -> Ran {
    folder(old, new).run(&["transfers", "old.txt", "new.txt"])
}

/// A folder with two plan texts.
pub fn folder(old: &str, new: &str) -> Folder {
    let folder = Folder::with("old.txt", old);
    folder.write("new.txt", new);
    folder
}

/// Film 1 is on two disks, film 2 has no viewers, and film 9 is left and on no disk. Each disk has
/// slots for its old and its new copies together.
pub const OLD: &str = "(rack 3 4 9)
(disk 1 (1 2) (2 0))
(disk 2 (3 4) (1 1 held))
(disk 3 (5 5))
(left (9 8))
(served 12 8)
";
/// Copies in an order of their own, one without viewers, and a mark that is wrong.
pub const NEW: &str = "(rack 3 4 9)
(disk 1 (9 4) (3 1) (1 2))
(disk 2 (5 3 held) (2 0) (3 1))
(disk 3 (7 2) (2 3) (1 1))
(left)
(served 17 0)
";
/// By destination and film: 3 from 2 to 1 in round 1; 9 from the loader to 1, where 1 is free in
/// round 2; 2 from 1 to 2 in round 3; 5 from 3 to 2, where both are free in round 2; 1 from 1 to 3
/// in round 4; 2 from 1 to 3 in round 5; 7 from the loader to 3, both free in round 1.
const PAGE: &str = "\
7 copies to load in 5 rounds
2 from the loader, 3 from disk 1, 1 from disk 2, 1 from disk 3

round  film from the loader  films between disks
    1           7 to disk 3  3: disk 2 to disk 1
    2           9 to disk 1  5: disk 3 to disk 2
    3                     -  2: disk 1 to disk 2
    4                     -  1: disk 1 to disk 3
    5                     -  2: disk 1 to disk 3
";

#[test]
fn films_come_from_the_lowest_disk_or_the_loader() {
    assert_eq!(run(OLD, NEW).printed(), PAGE);
}

#[test]
fn one_of_both_files_may_be_standard_input() {
    let folder = folder(OLD, NEW);
    let ran = folder.run_on(&["transfers", "-", "new.txt"], OLD.as_bytes());
    assert_eq!(ran.printed(), PAGE);
    let ran = folder.run_on(&["transfers", "old.txt", "--", "-"], NEW.as_bytes());
    assert_eq!(ran.printed(), PAGE);
}

#[test]
fn titles_and_sums_are_bold_on_a_tty() {
    let folder = folder(OLD, NEW);
    let shown = printed_on_tty(folder.command(&["transfers", "old.txt", "new.txt"]));
    let bold = [
        "7 copies to load in 5 rounds",
        "2 from the loader, 3 from disk 1, 1 from disk 2, 1 from disk 3",
        "round  film from the loader  films between disks",
    ];
    let expected = bold.iter().fold(PAGE.to_string(), |page, line| {
        page.replace(line, &format!("\x1b[1m{line}\x1b[0m"))
    });
    assert_eq!(shown, expected);
    let mut command = folder.command(&["transfers", "old.txt", "new.txt"]);
    command.env("NO_COLOR", "1");
    assert_eq!(printed_on_tty(command), PAGE);
}

#[test]
fn marks_do_not_matter() {
    let marked = |text: &str| {
        let text = text.replace(" held", "");
        let (disks, rest) = text.split_once("(left").expect("a left line");
        let (rack, disks) = disks.split_once('\n').expect("a first line");
        let disks: String = disks
            .lines()
            .map(|line| {
                line.replace(')', " held)")
                    .replace(" held) held)", " held))")
                    + "\n"
            })
            .collect();
        format!("{rack}\n{disks}(left{rest}")
    };
    assert!(marked(NEW).contains("(disk 1 (9 4 held) (3 1 held) (1 2 held))\n"));
    assert_eq!(run(&marked(OLD), &marked(NEW)).printed(), PAGE);
    let plain = |text: &str| text.replace(" held", "");
    assert_eq!(run(&plain(OLD), &plain(NEW)).printed(), PAGE);
}

#[test]
fn an_exchange_of_two_films_takes_two_rounds() {
    let old = "(rack 2 1 5)\n(disk 1 (4 1))\n(disk 2 (8 2))\n(left)\n(served 3 0)\n";
    let new = "(rack 2 1 5)\n(disk 1 (8 2))\n(disk 2 (4 1))\n(left)\n(served 3 0)\n";
    let page = "\
2 copies to load in 2 rounds
1 from disk 1, 1 from disk 2

round  film from the loader  films between disks
    1                     -  8: disk 2 to disk 1
    2                     -  4: disk 1 to disk 2
";
    assert_eq!(run(old, new).printed(), page);
}

#[test]
fn copies_without_viewers_are_copied_and_copied_from() {
    let old = "(rack 2 2 5)\n(disk 1 (6 0))\n(disk 2)\n(left (30 0))\n(served 0 0)\n";
    let new = "(rack 2 2 5)\n(disk 1)\n(disk 2 (30 0) (6 0))\n(left)\n(served 0 0)\n";
    let page = "\
2 copies to load in 2 rounds
1 from the loader, 1 from disk 1

round  film from the loader  films between disks
    1                     -  6: disk 1 to disk 2
    2          30 to disk 2  -
";
    assert_eq!(run(old, new).printed(), page);
}

#[test]
fn one_copy_is_one() {
    let old = "(rack 1 1 5)\n(disk 1 (6 5))\n(left)\n(served 5 0)\n";
    let new = "(rack 1 1 5)\n(disk 1 (65535 5))\n(left)\n(served 5 0)\n";
    let page = "\
1 copy to load in 1 round
1 from the loader

round  film from the loader  films between disks
    1       65535 to disk 1  -
";
    assert_eq!(run(old, new).printed(), page);
}

#[test]
fn nothing_to_copy_is_said() {
    let said = "nothing to copy: each disk has all its films already\n";
    let other = "(rack 3 4 9)
(disk 1 (2 9))
(disk 2 (1 0) (3 2))
(disk 3)
(left (1 1) (5 1))
(served 11 2)
";
    let empty = "(rack 3 4 9)\n(disk 1)\n(disk 2)\n(disk 3)\n(left)\n(served 0 0)\n";
    for (old, new) in [
        (OLD, OLD),
        (OLD, other),
        (OLD, empty),
        (empty, empty),
        (NEW, NEW),
    ] {
        assert_eq!(run(old, new).printed(), said);
    }
}

#[test]
fn the_example_in_the_formats_is_right() {
    let formats = include_str!("../../../docs/FORMAT.md");
    let mut parts = formats.split("```\n");
    let mut part = |first: &str| parts.find(|part| part.starts_with(first)).expect("a part");
    let (old, new) = (part("(rack 2 4 9)\n"), part("(rack 2 4 9)\n"));
    let table = part("\n| source | destination | film | round |");
    let page = part("4 copies to load");
    assert_ne!(old, new);
    assert_eq!(run(old, new).printed(), page);
    let mut list = [Transfer::default(); MOST_TRANSFERS];
    let (old, new) = (old.as_bytes(), new.as_bytes());
    let found = wrap::transfers(old, new, &mut list, &mut [[0; ENDS]; ENDS]);
    let rows: Vec<Transfer> = table.lines().filter_map(transfer_in).collect();
    assert_eq!(list[..found.transfers as usize], rows);
}

/// The transfer in a row of a table, by its source, destination, film and round.
fn transfer_in(row: &str) -> Option<Transfer> {
    let mut cells = row.split('|').skip(1).map(|cell| cell.trim().parse().ok());
    let mut next = || cells.next().flatten();
    Some(Transfer::of(next()?, next()?, next()?, next()?))
}

/// The text of a plan of disks with one slot, by the film of each.
fn one_slot_each(films: &[u32]) -> String {
    let count = films.len();
    let line = |(disk, film): (usize, &u32)| format!("(disk {disk} ({film} 0))\n");
    let disks: String = (1..).zip(films).map(line).collect();
    format!("(rack {count} 1 9)\n{disks}(left)\n(served 0 0)\n")
}

#[test]
fn four_transfers_in_a_round_take_two_lines() {
    let old = one_slot_each(&[10_001, 2, 10_003, 10_004, 10_005, 10_006, 10_007, 10_008]);
    let new = one_slot_each(&[2, 10_001, 10_004, 10_003, 10_006, 10_005, 10_008, 10_007]);
    let page = "\
8 copies to load in 2 rounds
1 from disk 1, 1 from disk 2, 1 from disk 3, 1 from disk 4, 1 from disk 5,
1 from disk 6, 1 from disk 7, 1 from disk 8

round  film from the loader  films between disks
    1                     -      2: disk 2 to disk 1  10004: disk 4 to disk 3
                             10006: disk 6 to disk 5  10008: disk 8 to disk 7
    2                     -  10001: disk 1 to disk 2  10003: disk 3 to disk 4
                             10005: disk 5 to disk 6  10007: disk 7 to disk 8
";
    assert_eq!(run(&old, &new).printed(), page);
}

#[test]
fn one_film_to_every_disk_takes_a_round_each() {
    let old = one_slot_each(&[11, 12, 13]);
    let new = one_slot_each(&[12, 12, 12]);
    // Disk 2 has it already. Both others need disk 2.
    let page = "\
2 copies to load in 2 rounds
2 from disk 2

round  film from the loader  films between disks
    1                     -  12: disk 2 to disk 1
    2                     -  12: disk 2 to disk 3
";
    assert_eq!(run(&old, &new).printed(), page);
}

#[test]
fn unequal_disks_are_loaded_too() {
    let old = "(mixed (4 8) (2 4))\n(disk 1 (2 3) (3 5))\n(disk 2 (1 3))\n(left)\n(served 11 0)\n";
    let new = "(mixed (4 8) (2 4))\n(disk 1 (1 8))\n(disk 2 (3 0) (9 4))\n(left)\n(served 12 0)\n";
    // 1 from 2 to 1 in round 1, 3 from 1 to 2 in round 2, 9 from the loader to 2 in round 3.
    let page = "\
3 copies to load in 3 rounds
1 from the loader, 1 from disk 1, 1 from disk 2

round  film from the loader  films between disks
    1                     -  1: disk 2 to disk 1
    2                     -  3: disk 1 to disk 2
    3           9 to disk 2  -
";
    assert_eq!(run(old, new).printed(), page);
}

/// The text of the largest rack whose transfers are found, with films from this one on.
fn largest(first: u32) -> String {
    let copies = |disk: u32| {
        let films = (0..32).map(|slot| first + 32 * disk + slot);
        films.map(|film| format!(" ({film} 1)")).collect::<String>()
    };
    let line = |disk: u32| format!("(disk {}{})\n", disk + 1, copies(disk));
    let disks: String = (0..8).map(line).collect();
    format!("(rack 8 32 65535)\n{disks}(left)\n(served 256 0)\n")
}

#[test]
fn the_largest_rack_is_loaded_anew() {
    let ran = run(&largest(1), &largest(1_001));
    let start = "\
256 copies to load in 256 rounds
256 from the loader

round  film from the loader  films between disks
    1        1001 to disk 1  -
    2        1002 to disk 1  -
";
    assert!(ran.printed().starts_with(start), "{}", ran.out);
    // The loader has one film a round, so they come one after the other.
    for (at, row) in ran.printed().lines().skip(4).enumerate() {
        let (round, film, disk) = (at + 1, 1_001 + at, 1 + at / 32);
        let words: Vec<&str> = row.split_whitespace().collect();
        assert_eq!(words.join(" "), format!("{round} {film} to disk {disk} -"));
    }
    assert_eq!(ran.out.lines().count(), 4 + 256);
}
