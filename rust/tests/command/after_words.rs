//! What is said of an earlier plan that is refused: the file and the line are its own.

use crate::folder::{plan_input, rack, Folder};

const LIST: &str = "rack 2 2 40\n101 31\n102 24\n";

/// Earlier texts that are refused, and what is said of them behind the file's name.
const REFUSED: [(&str, &str); 7] = [
    ("", ":1: the text ends before this line (refused 9, line 1)"),
    (
        "rack 2 2 40\n101 31\n",
        ":1: no plan text has this line after the lines before it (refused 9, line 1): 'rack 2 2 40'",
    ),
    (
        "(rack 1 1 1)\n(disk 1 (8 1held))\n(left)\n(served 1 0)\n",
        ":2: no plan text has this line after the lines before it (refused 9, line 2): '(disk 1 (8 1held))'",
    ),
    (
        "(rack 1 1 1)\n(disk 1 (8 1 held))\n(left (2 1 held))\n(served 1 1)\n",
        ":3: no plan text has this line after the lines before it (refused 9, line 3): '(left (2 1 held))'",
    ),
    (
        "(rack 1 1 1)\n(disk 1 (8 1 held))\n(left)\n(served 1 0)",
        ":4: this line is not ended by a line feed (refused 9, line 4): '(served 1 0)'",
    ),
    (
        "(rack 1 1 1)\n(disk 1 (8 1 held))\n(left)\n(served 1 0)\n\n",
        ":5: bytes after the last line (refused 9, line 5): an empty line",
    ),
    ("(refused 6 2)\n", ":1: no plan text has this line after the lines before it (refused 9, line 1): '(refused 6 2)'"),
];

#[test]
fn a_refused_earlier_plan_is_named_with_its_line() {
    let folder = Folder::with("list.txt", LIST);
    folder.write("list.bin", plan_input(rack(2, 2, 40), &[(101, 31)]));
    for (text, words) in REFUSED {
        folder.write("last.txt", text);
        let said = format!("last.txt{words}");
        folder
            .run(&["plan", "list.txt", "--after", "last.txt"])
            .failed(1, &said);
        folder
            .run(&["plan", "--records", "list.bin", "--after", "last.txt"])
            .failed(1, &said);
        let ran = folder.run_on(&["plan", "list.txt", "--after", "-"], text.as_bytes());
        ran.failed(1, &format!("standard input{words}"));
    }
}

#[test]
fn an_earlier_plan_of_more_than_65_536_bytes_is_refused_8() {
    let folder = Folder::with("list.txt", LIST);
    let said = "the text has more than 65536 bytes (refused 8)";
    folder.write("last.txt", [b'('; 65_537]);
    folder
        .run(&["plan", "list.txt", "--after", "last.txt"])
        .failed(1, &format!("last.txt: {said}"));
    folder
        .run(&["plan", "list.txt", "--after", "/dev/zero"])
        .failed(1, &format!("/dev/zero: {said}"));
    folder.write("last.txt", [b'('; 65_536]);
    let ran = folder.run(&["plan", "list.txt", "--after", "last.txt"]);
    assert!(ran.err.starts_with("last.txt:1: "), "{}", ran.err);
    assert!(
        ran.err.contains(" (refused 9, line 1): '((("),
        "{}",
        ran.err
    );
}

/// Lists that planning refuses, and what is said of them.
const REFUSED_LISTS: [(&str, &str); 7] = [
    (
        "rack 0 2 40\n",
        ":1: disks 0 is outside 1 to 64 (refused 1)",
    ),
    (
        "disk 33 40\n",
        ":1: disk 1: slots 33 is outside 1 to 32 (refused 12)",
    ),
    (
        "disk 2 4\ndisk 3 7\n",
        ":2: 7 streams to 3 slots is not the ratio of disk 1, 4 to 2 (refused 13, disk 2)",
    ),
    (
        "rack 2 2 40\n0 5\n",
        ":2: film number 0 is outside 1 to 65535 (refused 4, record 1)",
    ),
    (
        "rack 2 2 40\n50000 5\n",
        ":2: film number 50000 is above 49999, a service clip (refused 16, record 1)",
    ),
    (
        "rack 2 2 40\n1 1000001\n",
        ":2: demand 1000001 is outside 0 to 1000000 (refused 5, record 1)",
    ),
    (
        "rack 2 2 40\n7 1\n7 1\n",
        ":3: film 7 is in the list twice (refused 6, record 2), first in line 2",
    ),
];

#[test]
fn the_list_is_refused_before_the_earlier_plan() {
    let folder = Folder::new();
    for (list, words) in REFUSED_LISTS {
        folder.write("list.txt", list);
        for text in [
            &b""[..],
            &[b'('; 65_537],
            b"(rack 1 1 1)\n(disk 1)\n(left)\n(served 0 0)\n",
        ] {
            folder.write("last.txt", text);
            let ran = folder.run(&["plan", "list.txt", "--after", "last.txt"]);
            ran.failed(1, &format!("list.txt{words}"));
        }
    }
    // What is no list file at all is said first too.
    folder.write("list.txt", "rack 2 2 40\n110\n");
    let ran = folder.run(&["plan", "list.txt", "--after", "last.txt"]);
    ran.failed(2, "list.txt:2: expected 'FILM DEMAND', found '110'");
}
