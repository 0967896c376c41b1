//! What is said of two plan texts whose transfers are refused.

use crate::folder::Folder;
use crate::transfers::{folder, NEW, OLD};

const TRANSFERS: [&str; 3] = ["transfers", "old.txt", "new.txt"];

/// Texts that are refused, and what is said of them after the file's name.
const REFUSED: [(&str, &str); 6] = [
    ("", ":1: the text ends before this line (refused 9, line 1)"),
    (
        "rack 2 2 40\n101 31\n",
        ":1: no plan text has this line after the lines before it (refused 9, line 1): 'rack 2 2 40'",
    ),
    (
        "(rack 1 1 1)\n(disk 1 (8 1held))\n(left)\n(served 1 0)\n",
        ":2: no plan text has this line after the lines before it (refused 9, line 2): '(disk 1 (8 1held))'",
    ),
    (
        "(rack 1 1 1)\n(disk 1 (8 2))\n(left)\n(served 2 0)\n",
        ":2: no plan text has this line after the lines before it (refused 9, line 2): '(disk 1 (8 2))'",
    ),
    (
        "(rack 1 1 1)\n(disk 1)\n(left)\n(served 0 0)",
        ":4: this line is not ended by a line feed (refused 9, line 4): '(served 0 0)'",
    ),
    (
        "(rack 1 1 1)\n(disk 1)\n(left)\n(served 0 0)\n\n",
        ":5: bytes after the last line (refused 9, line 5): an empty line",
    ),
];

#[test]
fn a_refused_text_is_named_with_its_line() {
    for (text, words) in REFUSED {
        let ran = folder(text, NEW).run(&TRANSFERS);
        ran.failed(1, &format!("old.txt{words}"));
        let ran = folder(OLD, text).run(&TRANSFERS);
        ran.failed(1, &format!("new.txt{words}"));
        let input = text.as_bytes();
        let ran = folder(OLD, NEW).run_on(&["transfers", "old.txt", "-"], input);
        ran.failed(1, &format!("standard input{words}"));
    }
}

#[test]
fn the_old_text_is_refused_first() {
    for (text, words) in REFUSED {
        for (other, _) in REFUSED {
            let ran = folder(text, other).run(&TRANSFERS);
            ran.failed(1, &format!("old.txt{words}"));
        }
        let folder = folder(text, "");
        folder.write("new.txt", [b'('; 65_537]);
        folder.run(&TRANSFERS).failed(1, &format!("old.txt{words}"));
    }
}

#[test]
fn a_text_of_more_than_65_536_bytes_is_refused_8() {
    let said = "the text has more than 65536 bytes (refused 8)";
    let folder = folder(OLD, NEW);
    folder.write("long.txt", [b'('; 65_537]);
    let cases = [
        (["long.txt", "new.txt"], "long.txt"),
        (["old.txt", "long.txt"], "long.txt"),
        (["/dev/zero", "long.txt"], "/dev/zero"),
        (["old.txt", "/dev/zero"], "/dev/zero"),
    ];
    for ([old, new], name) in cases {
        let ran = folder.run(&["transfers", old, new]);
        ran.failed(1, &format!("{name}: {said}"));
    }
    folder.write("long.txt", [b'('; 65_536]);
    let ran = folder.run(&["transfers", "old.txt", "long.txt"]);
    assert!(ran.err.starts_with("long.txt:1: "), "{}", ran.err);
    assert!(
        ran.err.contains(" (refused 9, line 1): '((("),
        "{}",
        ran.err
    );
}

/// The text of an empty plan of so many disks.
fn empty(disks: u32) -> String {
    let lines: String = (1..=disks).map(|disk| format!("(disk {disk})\n")).collect();
    format!("(rack {disks} 2 5)\n{lines}(left)\n(served 0 0)\n")
}

#[test]
fn more_than_8_disks_are_refused_14() {
    let said = |name: &str, disks: u32| {
        format!("{name}:1: the rack has {disks} disks, more than 8 (refused 14)")
    };
    let cases = [
        (9, 9, "old.txt", 9),
        (64, 9, "old.txt", 64),
        (9, 8, "old.txt", 9),
        (8, 9, "new.txt", 9),
        (1, 64, "new.txt", 64),
    ];
    for (old, new, name, disks) in cases {
        let folder = folder(&empty(old), &empty(new));
        folder.run(&TRANSFERS).failed(1, &said(name, disks));
    }
    let ran = folder(&empty(8), &empty(8)).run(&TRANSFERS);
    assert!(ran.printed().starts_with("nothing to copy"), "{}", ran.out);
    let ran = folder("", &empty(8)).run_on(&["transfers", "-", "new.txt"], empty(9).as_bytes());
    ran.failed(1, &said("standard input", 9));
}

#[test]
fn a_text_is_refused_before_too_many_disks() {
    let words = ":1: the text ends before this line (refused 9, line 1)";
    let ran = folder(&empty(9), "").run(&TRANSFERS);
    ran.failed(1, &format!("new.txt{words}"));
    let ran = folder("", &empty(9)).run(&TRANSFERS);
    ran.failed(1, &format!("old.txt{words}"));
}

/// The text of an empty plan of two disks with this first line.
fn two_disks(line: &str) -> String {
    format!("{line}\n(disk 1)\n(disk 2)\n(left)\n(served 0 0)\n")
}

#[test]
fn first_lines_that_differ_are_refused_15() {
    let lines = [
        "(rack 2 2 5)",
        "(rack 2 2 6)",
        "(rack 2 3 5)",
        "(mixed (2 4) (4 8))",
        "(mixed (4 8) (2 4))",
    ];
    for old in lines {
        for new in lines.into_iter().filter(|&new| new != old) {
            let ran = folder(&two_disks(old), &two_disks(new)).run(&TRANSFERS);
            let words = "the first lines differ (refused 15)";
            let said = format!("old.txt and new.txt: {words}: '{old}' and '{new}'");
            ran.failed(1, &said);
        }
    }
    let ran = folder(&empty(3), &empty(2)).run(&TRANSFERS);
    let said = "the first lines differ (refused 15): '(rack 3 2 5)' and '(rack 2 2 5)'";
    ran.failed(1, &format!("old.txt and new.txt: {said}"));
    let folder = Folder::with("old.txt", empty(3));
    let ran = folder.run_on(&["transfers", "old.txt", "-"], empty(2).as_bytes());
    ran.failed(1, &format!("old.txt and standard input: {said}"));
}

#[test]
fn long_first_lines_are_shown_whole() {
    let text = |last: &str| {
        let line = format!("(mixed{} {last})", " (16 32752)".repeat(7));
        let disks: String = (1..=8).map(|disk| format!("(disk {disk})\n")).collect();
        (
            line.clone(),
            format!("{line}\n{disks}(left)\n(served 0 0)\n"),
        )
    };
    let ((one, old), (other, new)) = (text("(32 65504)"), text("(31 63457)"));
    let ran = folder(&old, &new).run(&TRANSFERS);
    let words = "the first lines differ (refused 15)";
    let said = format!("old.txt and new.txt: {words}: '{one}' and '{other}'");
    ran.failed(1, &said);
}

#[test]
fn what_cannot_be_read_gives_no_transfers() {
    let folder = folder(OLD, NEW);
    let missing = "jugfjord: cannot read none.txt: No such file or directory (os error 2)";
    folder
        .run(&["transfers", "none.txt", "new.txt"])
        .failed(2, missing);
    folder
        .run(&["transfers", "old.txt", "none.txt"])
        .failed(2, missing);
    // A file that is not there comes before a text that is refused.
    folder.write("wrong.txt", "(rack");
    folder
        .run(&["transfers", "wrong.txt", "none.txt"])
        .failed(2, missing);
    let directory = "jugfjord: cannot read .: Is a directory (os error 21)";
    folder
        .run(&["transfers", "old.txt", "."])
        .failed(2, directory);
    let closed = "jugfjord: cannot read standard input: Bad file descriptor (os error 9)";
    folder
        .shell("exec \"$0\" transfers old.txt - <&-")
        .failed(2, closed);
}
