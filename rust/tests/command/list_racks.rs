//! List files with a line for each disk, as plans and as records.

use jugfjord::rack::{records, Disk};

use crate::folder::{mixed_text, plan_input, rack, reference_text, Folder};
use crate::racks::disk;

/// The rack and the films that every form below has.
const RACK: [[u32; 2]; 3] = [[4, 8], [2, 4], [4, 8]];
const FILMS: [(u32, u32); 4] = [(1, 3), (2, 4), (3, 5), (9, 0)];

const FORMS: [(&str, &[u8]); 6] = [
    ("spaces", b"disk 4 8\ndisk 2 4\ndisk 4 8\n1 3\n2 4\n3 5\n9 0\n"),
    ("commas", b"disk,4,8\ndisk,2,4\ndisk,4,8\n1,3\n2,4\n3,5\n9,0\n"),
    (
        "padded rows",
        b"disk;4;8;;\r\ndisk;2;4;\r\n;;;\r\ndisk;4;8\r\n1;3;;\r\n2;4\r\n3;5\r\n9;0\r\n",
    ),
    (
        "comments",
        b"# rack 9 9 9\ndisk 4 8 # 1\n# disk 7 7\ndisk 2 4\n\ndisk 4 8 #\n\n1 3 # disk 1 1\n2 4\n3 5\n9 0",
    ),
    (
        "tabs and a BOM",
        b"\xef\xbb\xbfdisk\t4\t8\ndisk\t2\t4\ndisk\t4\t8\n1\t3\n2\t4\n3\t5\n9\t0\n",
    ),
    (
        "each line its own",
        b" disk 4,8\ndisk;2 4\n\tdisk , 4 ; 8\n1 3\n2,4\n3;5\n9\t0\n",
    ),
];

/// The disks of the rack.
fn disks() -> Vec<Disk> {
    RACK.map(|[slots, streams]| disk(slots, streams)).to_vec()
}

#[test]
fn every_form_of_disks_gives_the_same_plan() {
    let text = mixed_text(&disks(), &records(&FILMS)).expect("the list is right");
    assert!(text.starts_with("(mixed (4 8) (2 4) (4 8))\n"), "{text}");
    for (name, form) in FORMS {
        let folder = Folder::with("list.txt", form);
        assert_eq!(folder.run(&["plan", "list.txt"]).printed(), text, "{name}");
        let ran = folder.run_on(&["plan", "-"], form);
        assert_eq!(ran.printed(), text, "{name}");
    }
}

#[test]
fn a_plan_of_unequal_disks_is_checked_and_shown() {
    let folder = Folder::with("list.txt", "disk 4 8\ndisk 2 4\n1 3\n2 4\n3 5\n");
    let plan = folder.run(&["plan", "list.txt"]);
    let text =
        "(mixed (4 8) (2 4))\n(disk 1 (2 3) (3 5))\n(disk 2 (1 3) (2 1))\n(left)\n(served 12 0)\n";
    assert_eq!(plan.printed(), text);
    folder.write("plan.txt", text);
    let said = "accepted: mixed (4 8) (2 4), served 12, not served 0\n";
    assert_eq!(folder.run(&["check", "plan.txt"]).printed(), said);
    let page = folder.run(&["show", "plan.txt"]);
    let first = page.printed().lines().next();
    assert_eq!(
        first,
        Some("2 unequal disks, in all with 6 slots and 12 streams")
    );
}

#[test]
fn equal_disks_have_the_plan_and_the_records_of_their_rack_line() {
    let rack = rack(3, 2, 40);
    let films = [(101, 31), (102, 24), (103, 18)];
    let list = "disk 2 40\ndisk 2 40\ndisk 2 40\n101 31\n102 24\n103 18\n";
    let folder = Folder::with("list.txt", list);
    let text = reference_text(rack, &records(&films)).expect("the list is right");
    assert_eq!(folder.run(&["plan", "list.txt"]).printed(), text);
    let listed = folder.run(&["records", "list.txt"]);
    listed.printed();
    assert_eq!(listed.bytes, plan_input(rack, &films));
    // Planning's refusals are left to planning: 65 disks, and a disk out of range.
    folder.write("list.txt", "disk 2 40\n".repeat(65) + "1 1\n");
    let listed = folder.run(&["records", "list.txt"]);
    listed.printed();
    let rack = crate::folder::rack(65, 2, 40);
    assert_eq!(listed.bytes, plan_input(rack, &[(1, 1)]));
}

#[test]
fn unequal_disks_have_no_records() {
    let folder = Folder::with("list.txt", FORMS[3].1);
    let words = "records have equal disks alone, and disk 2 is not as disk 1";
    let ran = folder.run(&["records", "list.txt"]);
    ran.failed(2, &format!("list.txt:4: {words}"));
    folder.write("list.txt", "disk 2 4\ndisk 2 4\ndisk 2 5\n");
    let words = "records have equal disks alone, and disk 3 is not as disk 1";
    let ran = folder.run(&["records", "list.txt"]);
    ran.failed(2, &format!("list.txt:3: {words}"));
}

#[test]
fn disks_without_films_have_an_empty_plan() {
    let folder = Folder::with("list.txt", "disk 2 10\ndisk 1 5\n");
    let text = "(mixed (2 10) (1 5))\n(disk 1)\n(disk 2)\n(left)\n(served 0 0)\n";
    assert_eq!(folder.run(&["plan", "list.txt"]).printed(), text);
}

#[test]
fn the_largest_list_of_disks_is_planned() {
    let disks: Vec<Disk> = (0..64)
        .map(|at| disk(1 + at % 32, 2_047 * (1 + at % 32)))
        .collect();
    let films: Vec<(u32, u32)> = (0..1_024).map(|at| (at + 1, 900 * at)).collect();
    let disk_lines = disks
        .iter()
        .map(|disk| format!("disk {} {}\n", disk.slots.0, disk.streams.0));
    let film_lines = films
        .iter()
        .map(|(film, demand)| format!("{film} {demand}\n"));
    let list: String = disk_lines.chain(film_lines).collect();
    let text = mixed_text(&disks, &records(&films)).expect("the list is right");
    let folder = Folder::with("list.txt", list);
    assert_eq!(folder.run(&["plan", "list.txt"]).printed(), text);
}

#[test]
fn the_sample_of_unequal_disks_has_the_plan_in_the_formats() {
    let sample = concat!(env!("CARGO_MANIFEST_DIR"), "/../samples/ferry_mixed.txt");
    let plan = Folder::new().run(&["plan", sample]);
    let formats = include_str!("../../../docs/FORMAT.md");
    let shown = format!("```\n{}```\n", plan.printed());
    assert!(formats.contains(&shown), "{shown}");
}
