//! Refusals of planning in words, for list files and for records.

use jugfjord::rack::MOST_RECORDS;

use crate::folder::{plan_input, rack, reference_text, Folder};

/// List files that planning refuses, and what is said of them behind the file's name.
const REFUSED: [(&str, &str); 17] = [
    ("rack 0 2 40\n", "1: disks 0 is outside 1 to 64 (refused 1)"),
    ("# x\nrack 65 2 40\n", "2: disks 65 is outside 1 to 64 (refused 1)"),
    ("rack 2 33 40\n", "1: slots 33 is outside 1 to 32 (refused 1)"),
    ("rack 2 2 65536\n", "1: streams 65536 is outside 1 to 65535 (refused 1)"),
    (
        "rack 65 0 4294967295\n0 0\n",
        "1: disks 65 is outside 1 to 64, slots 0 is outside 1 to 32, streams 4294967295 is outside 1 to 65535 (refused 1)",
    ),
    ("rack 2 2 40\n0 5\n", "2: film number 0 is outside 1 to 65535 (refused 4, record 1)"),
    (
        "rack 2 2 40\n49999 5\n# x\n\n65536 5\n",
        "5: film number 65536 is outside 1 to 65535 (refused 4, record 2)",
    ),
    (
        "rack 2 2 40\n49999 5\n# x\n\n50000 5\n",
        "5: film number 50000 is above 49999, a service clip (refused 16, record 2)",
    ),
    (
        "rack 2 2 40\n65535 0\n",
        "2: film number 65535 is above 49999, a service clip (refused 16, record 1)",
    ),
    ("rack 2 2 40\n1 1000001", "2: demand 1000001 is outside 0 to 1000000 (refused 5, record 1)"),
    (
        "rack 2 2 40\r\n1 1000000\r\n2 4294967295\r\n",
        "3: demand 4294967295 is outside 0 to 1000000 (refused 5, record 2)",
    ),
    (
        "rack 2 2 40\n110 3\n# x\n110 4\n",
        "4: film 110 is in the list twice (refused 6, record 2), first in line 2",
    ),
    (
        "rack 2 2 40\n5 3\n\n110 0\n7 1\n110 4\n5 3\n",
        "6: film 110 is in the list twice (refused 6, record 4), first in line 4",
    ),
    // The first record at fault, and in it the first fault.
    ("rack 2 2 40\n1 1\n1 1\n0 1\n", "3: film 1 is in the list twice (refused 6, record 2), first in line 2"),
    ("rack 2 2 40\n1 1\n70000 1000001\n", "3: film number 70000 is outside 1 to 65535 (refused 4, record 2)"),
    (
        "rack 2 2 40\n1 1\n60000 1000001\n",
        "3: film number 60000 is above 49999, a service clip (refused 16, record 2)",
    ),
    ("rack 2 2 40\n1 1\n1 1000001\n", "3: demand 1000001 is outside 0 to 1000000 (refused 5, record 2)"),
];

#[test]
fn a_refused_list_is_said_in_words_with_its_line() {
    for (list, words) in REFUSED {
        let folder = Folder::with("list.txt", list);
        let ran = folder.run(&["plan", "list.txt"]);
        ran.failed(1, &format!("list.txt:{words}"));
        folder.run(&["records", "list.txt"]).printed();
    }
}

/// List files of unequal disks that planning refuses, and what is said of them.
const REFUSED_DISKS: [(&str, &str); 11] = [
    ("disk 0 40\n", "1: disk 1: slots 0 is outside 1 to 32 (refused 12)"),
    ("# x\ndisk 2 40\n\ndisk 33 660\n", "4: disk 2: slots 33 is outside 1 to 32 (refused 12)"),
    ("disk 2 0\n", "1: disk 1: streams 0 is outside 1 to 65535 (refused 12)"),
    ("disk 1 4096\ndisk 16 65536\n", "2: disk 2: streams 65536 is outside 1 to 65535 (refused 12)"),
    (
        "disk 2 40\ndisk 40 4294967295\n",
        "2: disk 2: slots 40 is outside 1 to 32, streams 4294967295 is outside 1 to 65535 (refused 12)",
    ),
    // A later disk out of range comes before an earlier one of another ratio.
    ("disk 2 4\ndisk 4 9\ndisk 3 0\n", "3: disk 3: streams 0 is outside 1 to 65535 (refused 12)"),
    (
        "disk 2 4\ndisk 4 8\n# x\ndisk 3 7\n",
        "4: 7 streams to 3 slots is not the ratio of disk 1, 4 to 2 (refused 13, disk 3)",
    ),
    (
        "disk 2 5\ndisk 4 8\ndisk 2 4\n1 1\n",
        "2: 8 streams to 4 slots is not the ratio of disk 1, 5 to 2 (refused 13, disk 2)",
    ),
    // The rack comes before the films.
    ("disk 2 4\ndisk 4 9\n0 5\n", "2: 9 streams to 4 slots is not the ratio of disk 1, 4 to 2 (refused 13, disk 2)"),
    ("disk 2 4\ndisk 4 8\n0 5\n", "3: film number 0 is outside 1 to 65535 (refused 4, record 1)"),
    (
        "disk 2 4\ndisk 4 8\n7 5\n7 5\n",
        "4: film 7 is in the list twice (refused 6, record 2), first in line 3",
    ),
];

#[test]
fn a_refused_list_of_disks_is_said_in_words_with_its_line() {
    for (list, words) in REFUSED_DISKS {
        let folder = Folder::with("list.txt", list);
        let ran = folder.run(&["plan", "list.txt"]);
        ran.failed(1, &format!("list.txt:{words}"));
    }
}

#[test]
fn disk_65_is_named_unless_an_earlier_one_is_out_of_range() {
    let disks = "disk 2 4\n".repeat(64);
    let folder = Folder::with("list.txt", &disks);
    folder.run(&["plan", "list.txt"]).printed();
    let lists = [
        (format!("{disks}\ndisk 2 4\n"), 66),
        (format!("{disks}disk 2 4\ndisk 0 4\n"), 65),
        (format!("{disks}disk 0 4\n"), 65),
    ];
    for (list, line) in lists {
        folder.write("list.txt", list);
        let words = "the rack has more than 64 disks (refused 12)";
        let ran = folder.run(&["plan", "list.txt"]);
        ran.failed(1, &format!("list.txt:{line}: {words}"));
    }
    folder.write("list.txt", format!("disk 2 4\ndisk 0 4\n{disks}"));
    let words = "disk 2: slots 0 is outside 1 to 32 (refused 12)";
    let ran = folder.run(&["plan", "list.txt"]);
    ran.failed(1, &format!("list.txt:2: {words}"));
}

#[test]
fn the_list_that_is_too_long_is_named_at_record_1025() {
    let films = |count| {
        (1..=count)
            .map(|film| format!("{film} 0\n# x\n"))
            .collect::<String>()
    };
    let count = MOST_RECORDS;
    let folder = Folder::with("long.txt", String::from("\nrack 1 1 1\n") + &films(count));
    folder.run(&["plan", "long.txt"]).printed();
    folder.write(
        "long.txt",
        String::from("\nrack 1 1 1\n") + &films(count + 2),
    );
    let ran = folder.run(&["plan", "long.txt"]);
    // Record 1 is in line 3, and each record has a line of comment behind it.
    ran.failed(
        1,
        "long.txt:2051: the list has more than 1024 records (refused 3)",
    );
}

/// Asserts that planning these records is refused with these words.
fn expect_refused(records: Vec<u8>, words: &str) {
    let folder = Folder::with("ferry.bin", records);
    let ran = folder.run(&["plan", "--records", "ferry.bin"]);
    ran.failed(1, &format!("ferry.bin: {words}"));
}

/// The bytes of a small rack and these records.
fn input(demands: &[(u32, u32)]) -> Vec<u8> {
    plan_input(rack(2, 2, 40), demands)
}

#[test]
fn records_of_a_wrong_shape_are_refused() {
    let odd = [input(&[(1, 1)]), vec![0; 5]].concat();
    let films: Vec<(u32, u32)> = (1..=1_025).map(|film| (film, 1)).collect();
    let refused = [
        (
            Vec::new(),
            "0 bytes are too few for a rack's 12 (refused 2)",
        ),
        (
            input(&[])[..11].to_vec(),
            "11 bytes are too few for a rack's 12 (refused 2)",
        ),
        (odd, "list length 13 is no multiple of 8 (refused 2)"),
        (
            plan_input(rack(0, 2, 40), &[]),
            "disks 0 is outside 1 to 64 (refused 1)",
        ),
        (
            input(&films),
            "the list has more than 1024 records (refused 3)",
        ),
    ];
    for (records, words) in refused {
        expect_refused(records, words);
    }
}

#[test]
fn a_refused_record_is_named_without_a_line() {
    let refused = [
        (
            input(&[(1, 1), (0, 1)]),
            "film number 0 is outside 1 to 65535 (refused 4, record 2)",
        ),
        (
            input(&[(1, 1), (2, 1), (50_000, 1)]),
            "film number 50000 is above 49999, a service clip (refused 16, record 3)",
        ),
        (
            input(&[(1, 1_000_001)]),
            "demand 1000001 is outside 0 to 1000000 (refused 5, record 1)",
        ),
        (
            input(&[(3, 1), (4, 1), (5, 1), (4, 1)]),
            "film 4 is in the list twice (refused 6, record 4), first in record 2",
        ),
    ];
    for (records, words) in refused {
        expect_refused(records, words);
    }
}

#[test]
fn records_of_every_length_are_planned_or_refused_2() {
    let input = plan_input(rack(2, 2, 40), &[(1, 1), (2, 2), (3, 3)]);
    for length in 0..=input.len() {
        let folder = Folder::with("ferry.bin", &input[..length]);
        let ran = folder.run(&["plan", "--records", "ferry.bin"]);
        if length >= 12 && length % 8 == 4 {
            let list = &input[12..length];
            assert_eq!(
                Ok(ran.printed().into()),
                reference_text(rack(2, 2, 40), list)
            );
        } else {
            assert!(ran.err.ends_with(" (refused 2)\n"), "{}", ran.err);
            assert_eq!((ran.status.code(), ran.out.as_str()), (Some(1), ""));
        }
    }
}
