//! Plans for people: whole pages, and random plans taken back from their pages.

use jugfjord::reference::plan::{unmarked, Plan};
use jugfjord::reference::reader::plan_of;
use jugfjord::reference::writer::text_of;

use crate::dice::Dice;
use crate::folder::Folder;
use crate::pages::assert_page_is_of;
use crate::plans::good;
use crate::racks::{disk, equal, equal_rack as rack, mixed};
use crate::tty::printed_on_tty;

/// The page of a plan.
pub fn page(plan: &Plan) -> String {
    let folder = Folder::with("plan.txt", text_of(plan));
    folder.run(&["show", "plan.txt"]).printed().into()
}

/// A plan of two disks: film 7 on both, film 1,000 left whole, film 12 in part.
pub fn small_plan() -> Plan {
    Plan {
        rack: rack(2, 3, 40),
        disks: vec![unmarked(&[(7, 5), (12, 35)]), unmarked(&[(7, 9)])],
        left: vec![(12, 1), (1_000, 30)],
    }
}

const SMALL_PAGE: &str = "\
2 disks, each with 3 slots and 40 streams

film  served  left  disk:viewers
   7      14     0  1:5   2:9
  12      35     1  1:35
1000       0    30  none

disk  slots used  streams used
   1      2 of 3      40 of 40  [####################]
   2      1 of 3       9 of 40  [####................]

served 49 of 80 viewers, 61.25 %; 31 viewers of 2 films are left
";

#[test]
fn a_small_plan_is_shown() {
    assert_eq!(page(&small_plan()), SMALL_PAGE);
    let folder = Folder::new();
    let shown = folder.run_on(&["show", "-"], text_of(&small_plan()).as_bytes());
    assert_eq!(shown.printed(), SMALL_PAGE);
}

/// The same plan, with film 120 and a copy of film 12 that nobody watches, and without a slot for
/// film 121.
pub fn plan_with_shelf() -> Plan {
    Plan {
        disks: vec![
            unmarked(&[(7, 5), (12, 35)]),
            unmarked(&[(12, 0), (7, 9), (120, 0)]),
        ],
        left: vec![(12, 1), (121, 0), (1_000, 30)],
        ..small_plan()
    }
}

const PAGE_WITH_SHELF: &str = "\
2 disks, each with 3 slots and 40 streams

film  served     left  disk:viewers
   7      14        0  1:5      2:9
  12      35        1  1:35     2:shelf
 120       0        0  2:shelf
 121       0  no slot  none
1000       0       30  none

disk  slots used  streams used
   1      2 of 3      40 of 40  [####################]
   2      3 of 3       9 of 40  [####................]

served 49 of 80 viewers, 61.25 %; 31 viewers of 2 films are left
nobody is expected to watch 2 shelf films: 1 stored, 1 without a slot
";

#[test]
fn a_plan_with_shelf_films_is_shown() {
    assert_eq!(page(&plan_with_shelf()), PAGE_WITH_SHELF);
}

#[test]
fn bold_and_colour_are_for_a_tty_alone() {
    let folder = Folder::with("plan.txt", text_of(&plan_with_shelf()));
    let shown = printed_on_tty(folder.command(&["show", "plan.txt"]));
    let has_line = |style: u32, line: &str| {
        let styled = format!("\x1b[{style}m{line}\x1b[0m\n");
        assert!(shown.contains(&styled), "{shown:?}");
    };
    has_line(1, "2 disks, each with 3 slots and 40 streams");
    has_line(1, "film  served     left  disk:viewers");
    has_line(33, "  12      35        1  1:35     2:shelf");
    has_line(33, " 121       0  no slot  none");
    assert!(
        shown.contains("\n 120       0        0  2:shelf\n"),
        "{shown:?}"
    );
    let styles = ["\x1b[0m", "\x1b[1m", "\x1b[33m"];
    let plain = styles
        .iter()
        .fold(shown, |text, style| text.replace(style, ""));
    assert_eq!(plain, PAGE_WITH_SHELF);
}

#[test]
fn the_environment_may_forbid_bold_and_colour() {
    let folder = Folder::with("plan.txt", text_of(&small_plan()));
    let cases = [
        ("NO_COLOR", "1", true),
        ("NO_COLOR", "0", true),
        ("NO_COLOR", "", false),
        ("TERM", "dumb", true),
        ("TERM", "xterm", false),
        ("TERM", "", false),
    ];
    for (name, value, is_plain) in cases {
        let mut command = folder.command(&["show", "plan.txt"]);
        command.env(name, value);
        let shown = printed_on_tty(command);
        assert_eq!(shown == SMALL_PAGE, is_plain, "{name}={value}");
        assert_eq!(shown.contains('\x1b'), !is_plain, "{name}={value}");
    }
}

/// A plan of one disk with these viewers of film 1 and this amount of film 2 left.
fn one_disk(viewers: u32, amount: u32) -> Plan {
    let pairs = |film, amount| {
        if amount == 0 {
            vec![]
        } else {
            vec![(film, amount)]
        }
    };
    Plan {
        rack: rack(1, 1, 65_535),
        disks: vec![unmarked(&pairs(1, viewers))],
        left: pairs(2, amount),
    }
}

const EMPTY: &str = "[....................]";

/// Viewers of film 1 and what is left of film 2; what is said of the sums, and the bar.
const SHARES: [(u32, u32, &str, &str); 7] = [
    (0, 0, "no film has viewers, and none is left", EMPTY),
    (
        0,
        5,
        "served 0 of 5 viewers, 0.00 %; 5 viewers of 1 film are left",
        EMPTY,
    ),
    (
        1,
        0,
        "served 1 of 1 viewer, 100.00 %",
        "[#...................]",
    ),
    (
        65_534,
        1,
        "served 65534 of 65535 viewers, 99.99 %; 1 viewer of 1 film is left",
        "[###################.]",
    ),
    (
        65_535,
        1,
        "served 65535 of 65536 viewers, 99.99 %; 1 viewer of 1 film is left",
        "[####################]",
    ),
    (
        1,
        2,
        "served 1 of 3 viewers, 33.33 %; 2 viewers of 1 film are left",
        "[#...................]",
    ),
    (
        2,
        1,
        "served 2 of 3 viewers, 66.66 %; 1 viewer of 1 film is left",
        "[#...................]",
    ),
];

#[test]
fn the_share_and_the_bar_are_never_rounded_up_to_all() {
    for (viewers, amount, sums, bar) in SHARES {
        let page = page(&one_disk(viewers, amount));
        assert_eq!(page.lines().last(), Some(sums));
        assert!(page.contains(bar), "{page}");
    }
}

#[test]
fn sums_that_are_too_long_for_a_line_take_two() {
    // One line has 79 characters with 99 films left, and would have 80 with 100 films.
    let cases = [
        (
            99,
            "served 65535 of 19865535 viewers, 0.32 %; 19800000 viewers of 99 films are left",
        ),
        (
            100,
            "served 65535 of 20065535 viewers, 0.32 %;\n20000000 viewers of 100 films are left",
        ),
    ];
    for (films, sums) in cases {
        let left = (1..=films).map(|film| (film, 200_000)).collect();
        let plan = Plan {
            left,
            ..one_disk(65_535, 0)
        };
        assert!(page(&plan).ends_with(&format!("\n\n{sums}\n")), "{films}");
    }
}

/// The lines of a plan text behind its rack, and what is said below the tables.
const CLOSINGS: [(&str, &str); 6] = [
    (
        "(disk 1 (7 0))\n(disk 2 (8 0))\n(left)\n(served 0 0)\n",
        "no film has viewers, and none is left\n\
        nobody is expected to watch 2 shelf films: 2 stored, 0 without a slot\n",
    ),
    (
        "(disk 1 (7 0) (8 0))\n(disk 2 (9 0) (10 0))\n(left (11 0))\n(served 0 0)\n",
        "no film has viewers\n\
        nobody is expected to watch 5 shelf films: 4 stored, 1 without a slot\n",
    ),
    (
        "(disk 1 (7 5))\n(disk 2)\n(left (2 0))\n(served 5 0)\n",
        "served 5 of 5 viewers, 100.00 %\n\
        nobody is expected to watch 1 shelf film: 0 stored, 1 without a slot\n",
    ),
    (
        "(disk 1 (7 1))\n(disk 2 (5 0))\n(left (3 6) (4 0) (9 1))\n(served 1 7)\n",
        "served 1 of 8 viewers, 12.50 %; 7 viewers of 2 films are left\n\
        nobody is expected to watch 2 shelf films: 1 stored, 1 without a slot\n",
    ),
    // Copies without viewers of films that are watched or left, and 0 left of films with a copy.
    (
        "(disk 1 (7 5))\n(disk 2 (7 0) (8 0))\n(left (7 0) (8 3))\n(served 5 3)\n",
        "served 5 of 8 viewers, 62.50 %; 3 viewers of 1 film are left\n",
    ),
    (
        "(disk 1 (7 0))\n(disk 2 (7 0))\n(left (7 0))\n(served 0 0)\n",
        "no film has viewers\n\
        nobody is expected to watch 1 shelf film: 1 stored, 0 without a slot\n",
    ),
];

#[test]
fn shelf_films_are_counted_below_the_sums() {
    for (lines, closing) in CLOSINGS {
        let text = format!("(rack 2 2 40)\n{lines}");
        let plan = plan_of(text.as_bytes()).expect("a plan text");
        let page = page(&plan);
        assert!(page.ends_with(&format!("]\n\n{closing}")), "{page}");
        assert_page_is_of(&plan, &page);
    }
}

#[test]
fn the_most_shelf_films_are_shown() {
    let copy = |disk: u32, slot: u32| (64 * slot + disk, 0).into();
    let copies = |disk| (1..=32).map(|slot| copy(disk, slot)).collect();
    let plan = Plan {
        rack: rack(64, 32, 65_535),
        disks: (0..64).map(copies).collect(),
        left: (10_000..11_024).map(|film| (film, 0)).collect(),
    };
    let page = page(&plan);
    let closing = "nobody is expected to watch 3072 shelf films: 2048 stored, 1024 without a slot";
    assert_eq!(page.lines().last(), Some(closing));
    assert_page_is_of(&plan, &page);
}

#[test]
fn the_rack_is_counted_in_words() {
    let page = page(&one_disk(0, 0));
    let lines = [
        "1 disk, each with 1 slot and 65535 streams",
        "",
        "disk  slots used  streams used",
        "   1      0 of 1    0 of 65535  [....................]",
        "",
        "no film has viewers, and none is left",
    ];
    assert_eq!(page.lines().collect::<Vec<_>>(), lines);
}

#[test]
fn one_film_on_every_disk_takes_lines_that_line_up() {
    let plan = Plan {
        rack: rack(64, 32, 65_535),
        disks: (1..=64)
            .map(|disk| unmarked(&[(65_535, disk * 1_000)]))
            .collect(),
        left: vec![(65_535, 1_000_000)],
    };
    let page = page(&plan);
    let start = " film   served     left  disk:viewers\n\
        65535  2080000  1000000   1:1000    2:2000    3:3000    4:4000    5:5000\n\
        \u{20}                         6:6000    7:7000    8:8000    9:9000   10:10000\n";
    assert!(page.contains(start), "{page}");
    assert_page_is_of(&plan, &page);
}

#[test]
fn copies_without_viewers_line_up_with_the_others() {
    let plan = Plan {
        rack: rack(64, 32, 65_535),
        disks: (1..=64)
            .map(|disk| unmarked(&[(65_535, disk % 2 * 65_535)]))
            .collect(),
        left: vec![(1, 0), (65_535, 1_000_000)],
    };
    let page = page(&plan);
    let start = " film   served     left  disk:viewers\n\
        \u{20}   1        0  no slot  none\n\
        65535  2097120  1000000   1:65535   2:shelf   3:65535   4:shelf   5:65535\n\
        \u{20}                         6:shelf   7:65535   8:shelf   9:65535  10:shelf\n";
    assert!(page.contains(start), "{page}");
    assert_page_is_of(&plan, &page);
}

#[test]
fn the_largest_plans_are_shown_whole() {
    for plan in [Plan::largest(), Plan::largest_mixed()] {
        assert_page_is_of(&plan, &page(&plan));
        let held = plan.all_held();
        assert_page_is_of(&held, &page(&held));
    }
}

/// A large disk between two small ones, all of them with 10 streams a slot.
fn unequal_plan() -> Plan {
    Plan {
        rack: vec![disk(2, 20), disk(12, 120), disk(2, 20)],
        disks: vec![
            unmarked(&[(7, 5), (12, 15)]),
            unmarked(&[(1_000, 60), (120, 0)]),
            unmarked(&[(7, 1)]),
        ],
        left: vec![(12, 1)],
    }
}

const UNEQUAL_PAGE: &str = "\
3 unequal disks, in all with 16 slots and 160 streams

film  served  left  disk:viewers
   7       6     0  1:5      3:1
  12      15     1  1:15
 120       0     0  2:shelf
1000      60     0  2:60

disk  slots used  streams used
   1      2 of 2      20 of 20  [####################]
   2     2 of 12     60 of 120  [##########..........]
   3      1 of 2       1 of 20  [#...................]

served 81 of 82 viewers, 98.78 %; 1 viewer of 1 film is left
nobody is expected to watch 1 shelf film: 1 stored, 0 without a slot
";

#[test]
fn unequal_disks_are_shown_each_with_its_own() {
    assert_eq!(page(&unequal_plan()), UNEQUAL_PAGE);
}

#[test]
fn random_plans_can_be_taken_back_from_their_pages() {
    let mut dice = Dice::new(11);
    for racks in [equal, mixed] {
        for _ in 0..200 {
            let plan = good(&mut dice, racks);
            assert_page_is_of(&plan, &page(&plan));
        }
    }
}
