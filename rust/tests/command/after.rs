//! `jugfjord plan --after`: plans with marks, in every form of the command line.

use jugfjord::rack::{records, Disk};

use crate::dice::Dice;
use crate::earlier::random_text;
use crate::folder::{mixed_text, plan_input, rack, text_after, Folder};
use crate::lists::{good, KINDS};
use crate::racks::{equal, mixed, three_numbers};
use crate::random_lists::{compare, disk_lines, list_file, rack_lines};
use crate::tally::Tally;

/// A list of two disks, its plan, and the plan of the week before.
const LIST: &str = "rack 2 2 5\n3 0\n9 5\n1 0\n2 0\n";
const FILMS: [(u32, u32); 4] = [(3, 0), (9, 5), (1, 0), (2, 0)];
const PLAN: &str = "(rack 2 2 5)
(disk 1 (9 5) (1 0))
(disk 2 (2 0) (3 0))
(left)
(served 5 0)
";
const EARLIER: &str = "(rack 3 2 5)
(disk 1 (9 0) (3 1))
(disk 2 (3 4 held))
(disk 3 (2 5))
(left (1 8))
(served 10 8)
";
const MARKED: &str = "(rack 2 2 5)
(disk 1 (9 5 held) (1 0))
(disk 2 (2 0) (3 0 held))
(left)
(served 5 0)
";

/// A folder with the list, as a file and as records, and the earlier plan.
fn folder() -> Folder {
    let folder = Folder::with("list.txt", LIST);
    folder.write("list.bin", plan_input(rack(2, 2, 5), &FILMS));
    folder.write("last week.txt", EARLIER);
    folder
}

/// Command lines behind `plan` that give the marked plan.
const FORMS: [&[&str]; 8] = [
    &["list.txt", "--after", "last week.txt"],
    &["--after", "last week.txt", "list.txt"],
    &["--after", "last week.txt", "--", "list.txt"],
    &["--records", "list.bin", "--after", "last week.txt"],
    &["--records", "--after", "last week.txt", "list.bin"],
    &["--after", "last week.txt", "--records", "list.bin"],
    &["--after", "last week.txt", "list.bin", "--records"],
    &["list.bin", "--after", "last week.txt", "--records"],
];

#[test]
fn an_earlier_plan_marks_the_copies_in_every_form() {
    let folder = folder();
    for form in FORMS {
        let ran = folder.run(&[&["plan"], form].concat());
        assert_eq!(ran.printed(), MARKED, "{form:?}");
    }
    assert_eq!(folder.run(&["plan", "list.txt"]).printed(), PLAN);
}

#[test]
fn one_of_both_files_may_be_standard_input() {
    let folder = folder();
    let ran = folder.run_on(&["plan", "list.txt", "--after", "-"], EARLIER.as_bytes());
    assert_eq!(ran.printed(), MARKED);
    let ran = folder.run_on(&["plan", "--after", "last week.txt", "-"], LIST.as_bytes());
    assert_eq!(ran.printed(), MARKED);
}

#[test]
fn a_file_with_a_dash_in_front_is_given_by_its_path() {
    let folder = folder();
    folder.write("--records", EARLIER);
    let ran = folder.run(&["plan", "list.txt", "--after", "./--records"]);
    assert_eq!(ran.printed(), MARKED);
}

#[test]
fn the_example_in_the_formats_is_right() {
    let formats = include_str!("../../../docs/FORMAT.md");
    let text = |first: &str| {
        let start = formats.find(first).expect("a first line");
        let end = formats[start..].find("```").expect("an end");
        &formats[start..start + end]
    };
    let folder = Folder::with("list.txt", "rack 2 2 10\n1 3\n3 4\n2 13\n");
    folder.write("last.txt", text("(rack 3 2 5)\n"));
    let ran = folder.run(&["plan", "list.txt", "--after", "last.txt"]);
    assert_eq!(ran.printed(), text("(rack 2 2 10)\n"));
    assert_eq!(ran.printed().matches(" held)").count(), 2);
}

#[test]
fn a_plan_after_itself_is_all_held_and_again() {
    let folder = folder();
    folder.write("plan.txt", PLAN);
    let held = "(rack 2 2 5)
(disk 1 (9 5 held) (1 0 held))
(disk 2 (2 0 held) (3 0 held))
(left)
(served 5 0)
";
    let arguments = ["plan", "list.txt", "--after", "plan.txt"];
    assert_eq!(folder.run(&arguments).printed(), held);
    folder.write("plan.txt", held);
    assert_eq!(folder.run(&arguments).printed(), held);
    let said = "accepted: rack 2 2 5, served 5, not served 0\n";
    assert_eq!(folder.run(&["check", "plan.txt"]).printed(), said);
}

#[test]
fn unequal_disks_are_marked_by_number() {
    let folder = Folder::with("list.txt", "disk 4 8\ndisk 2 4\n1 3\n2 4\n3 5\n");
    folder.write(
        "plan.txt",
        "(rack 2 1 9)\n(disk 1 (1 3))\n(disk 2 (1 3))\n(left)\n(served 6 0)\n",
    );
    let text =
        "(mixed (4 8) (2 4))\n(disk 1 (2 3) (3 5))\n(disk 2 (1 3 held) (2 1))\n(left)\n(served 12 0)\n";
    let ran = folder.run(&["plan", "list.txt", "--after", "plan.txt"]);
    assert_eq!(ran.printed(), text);
}

#[test]
fn the_largest_rack_after_itself_is_all_held() {
    let disks: Vec<Disk> = rack(64, 32, 65_535).entries();
    let films: Vec<(u32, u32)> = (0..1_024).map(|at| (48_976 + at, 2_047)).collect();
    let lines = films
        .iter()
        .map(|(film, demand)| format!("{film} {demand}\n"));
    let list = String::from("rack 64 32 65535\n") + &lines.collect::<String>();
    let folder = Folder::with("list.txt", list);
    let text = mixed_text(&disks, &records(&films)).expect("the list is right");
    folder.write("plan.txt", &text);
    let ran = folder.run(&["plan", "list.txt", "--after", "plan.txt"]);
    let pairs = text.matches(" (").count();
    assert_eq!(ran.printed().matches(" held)").count(), pairs);
    assert_eq!(ran.printed().replace(" held)", ")"), text);
}

#[test]
fn random_lists_have_the_marks_of_the_reference() {
    let mut dice = Dice::new(16);
    let mut tally = Tally::new("the command after earlier texts");
    let folder = Folder::new();
    for turn in 0..300 {
        let rack = [equal, mixed][turn % 2](&mut dice);
        let (_, kind) = dice.pick(&KINDS);
        let (case, _) = good(&mut dice, rack, kind);
        let earlier = random_text(&mut dice, &case, &mut tally);
        let lines = match three_numbers(&case.rack) {
            Some(rack) if turn % 4 < 2 => rack_lines(rack),
            _ => disk_lines(&case.rack),
        };
        folder.write("list.txt", list_file(&mut dice, lines, &case.list));
        folder.write("plan.txt", &earlier);
        let expected = text_after(&case.rack, &case.list, &earlier);
        let ran = folder.run(&["plan", "list.txt", "--after", "plan.txt"]);
        compare(&ran, &expected);
        tally.count(match &expected {
            Ok(text) if text.contains(" held)") => "plan with marks",
            Ok(_) => "plan without a mark",
            Err(_) => "refused",
        });
    }
    let least = [
        ("plan with marks", 80),
        ("plan without a mark", 50),
        ("refused", 20),
    ];
    tally.close(&least);
}
