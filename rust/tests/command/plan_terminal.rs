//! `jugfjord plan --terminal`: the plans of the purser's terminal, and what it refuses in words.

use jugfjord::rack::records;

use crate::dice::Dice;
use crate::folder::{plan_input, rack, terminal_text, Folder, Ran};
use crate::lists::{good_of, FAULTS, KINDS};
use crate::racks::{equal, mixed, three_numbers};
use crate::random_lists::{compare, disk_lines, list_file, rack_lines};
use crate::tally::Tally;

/// A list file with these lines of the rack and so many films, each on a line of its own.
fn list(rack: &str, films: usize) -> String {
    let lines = (1..=films).map(|film| format!("{film} 1\n"));
    rack.to_string() + &lines.collect::<String>()
}

/// What `plan --terminal` comes to on a list file with these lines.
fn on_terminal(folder: &Folder, lines: impl AsRef<[u8]>) -> Ran {
    folder.write("list.txt", lines);
    folder.run(&["plan", "--terminal", "list.txt"])
}

/// Command lines behind `plan`, with a list of 8 disks as a file, as records or on standard input.
const FORMS: [&[&str]; 8] = [
    &["--terminal", "list.txt"],
    &["list.txt", "--terminal"],
    &["--terminal", "--", "list.txt"],
    &["--terminal", "--terminal", "list.txt"],
    &["--terminal", "--records", "list.bin"],
    &["--records", "list.bin", "--terminal"],
    &["--records", "--terminal", "list.bin"],
    &["--terminal", "-"],
];

/// What each form comes to on 8 disks and so many films.
fn ran_on(films: usize) -> Vec<Ran> {
    let text = list("rack 8 1 1\n", films);
    let pairs: Vec<(u32, u32)> = (1..=films as u32).map(|film| (film, 1)).collect();
    let folder = Folder::with("list.txt", &text);
    folder.write("list.bin", plan_input(rack(8, 1, 1), &pairs));
    let run = |form: &&[&str]| folder.run_on(&[&["plan"], *form].concat(), text.as_bytes());
    FORMS.iter().map(run).collect()
}

#[test]
fn the_plan_is_the_same_in_every_form() {
    let films: Vec<(u32, u32)> = (1..=96).map(|film| (film, 1)).collect();
    let text = terminal_text(&rack(8, 1, 1).entries(), &records(&films)).expect("it fits");
    let folder = Folder::with("list.txt", list("rack 8 1 1\n", 96));
    assert_eq!(folder.run(&["plan", "list.txt"]).printed(), text);
    for (ran, form) in ran_on(96).iter().zip(FORMS) {
        assert_eq!(ran.printed(), text, "{form:?}");
    }
}

#[test]
fn the_limit_holds_in_every_form() {
    let words = "the list has 97 records, more than the terminal's 96 (refused 17)";
    for (ran, form) in ran_on(97).iter().zip(FORMS) {
        let source = match form.contains(&"--records") {
            true => "list.bin",
            false if form.contains(&"-") => "standard input:98",
            false => "list.txt:98",
        };
        ran.failed(1, &format!("{source}: {words}"));
    }
}

#[test]
fn what_is_too_large_is_said_with_its_line() {
    let disks = "disk 2 4\n# x\n".repeat(12);
    let refused = [
        (
            list("\nrack 9 1 1\n", 1),
            "2: the rack has 9 disks, more than the terminal's 8",
        ),
        (
            list("rack 64 1 1\n", 97),
            "1: the rack has 64 disks, more than the terminal's 8",
        ),
        // Disk 9 of 12 is in line 17, with a comment behind each disk.
        (
            list(&disks, 0),
            "17: the rack has 12 disks, more than the terminal's 8",
        ),
        // Record 97 is in line 98.
        (
            list("rack 1 1 1\n", 100),
            "98: the list has 100 records, more than the terminal's 96",
        ),
        (
            list("rack 8 1 1\n", 97),
            "98: the list has 97 records, more than the terminal's 96",
        ),
    ];
    let folder = Folder::new();
    for (list, words) in refused {
        on_terminal(&folder, list).failed(1, &format!("list.txt:{words} (refused 17)"));
        folder.run(&["plan", "list.txt"]).printed();
    }
    folder.write("list.bin", plan_input(rack(9, 1, 1), &[]));
    let ran = folder.run(&["plan", "--terminal", "--records", "list.bin"]);
    let words = "the rack has 9 disks, more than the terminal's 8 (refused 17)";
    ran.failed(1, &format!("list.bin: {words}"));
}

#[test]
fn what_the_office_refuses_before_17_comes_first() {
    let refused = [
        (
            list("rack 65 1 1\n", 97),
            "1: disks 65 is outside 1 to 64 (refused 1)",
        ),
        (
            "disk 1 1\n".repeat(8) + "disk 1 2\n",
            "9: 2 streams to 1 slots is not the ratio of disk 1, 1 to 1 (refused 13, disk 9)",
        ),
        (
            list("rack 9 1 1\n", 1_025),
            "1026: the list has more than 1024 records (refused 3)",
        ),
    ];
    let folder = Folder::new();
    for (list, words) in refused {
        on_terminal(&folder, list).failed(1, &format!("list.txt:{words}"));
    }
    // The records are looked at behind 17.
    let ran = on_terminal(&folder, list("rack 9 1 1\n0 1\n", 0));
    assert!(ran.err.ends_with(" (refused 17)\n"), "{}", ran.err);
    let words = "film number 0 is outside 1 to 65535 (refused 4, record 1)";
    let ran = on_terminal(&folder, list("rack 8 1 1\n0 1\n", 0));
    ran.failed(1, &format!("list.txt:2: {words}"));
}

#[test]
fn random_lists_have_the_plan_of_the_reference() {
    let mut dice = Dice::new(24);
    let mut tally = Tally::new("the command on the terminal");
    let folder = Folder::new();
    for turn in 0..300 {
        let drawn = [equal, mixed][turn % 2](&mut dice);
        let disks = dice.pick(&[1, 3, 7, 8, 8, 9]);
        let rack = drawn.into_iter().cycle().take(disks).collect();
        let (_, kind) = dice.pick(&KINDS);
        let count = dice.pick(&[0, 5, 30, 95, 96, 96, 97]);
        let (mut case, need) = good_of(&mut dice, rack, kind, count);
        if dice.one_in(4) {
            // Those of the records, which leave a list of whole records.
            let (_, fault) = dice.pick(&FAULTS[3..]);
            fault(&mut dice, &mut case, need);
        }
        let lines = match three_numbers(&case.rack) {
            Some(rack) if turn % 4 < 2 => rack_lines(rack),
            _ => disk_lines(&case.rack),
        };
        let expected = terminal_text(&case.rack, &case.list);
        let ran = on_terminal(&folder, list_file(&mut dice, lines, &case.list));
        compare(&ran, &expected);
        tally.answer(expected.err().map_or(0, |refusal| refusal.number));
    }
    tally.close(&[("accepted", 100), ("refused 17", 50), ("refused 16", 2)]);
}
