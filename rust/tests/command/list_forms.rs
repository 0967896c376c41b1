//! List files in every form that they may have, as plans and as records.

use jugfjord::rack::{records, MOST_RECORDS};

use crate::folder::{plan_input, rack, reference_text, Folder};

/// The list that every form below has: rack 2 2 40 and these films.
const FILMS: [(u32, u32); 3] = [(101, 31), (102, 24), (103, 18)];

const FORMS: [(&str, &[u8]); 22] = [
    ("spaces", b"rack 2 2 40\n101 31\n102 24\n103 18\n"),
    ("tabs", b"rack\t2\t2\t40\n101\t31\n102\t24\n103\t18\n"),
    (
        "many blanks",
        b"  rack 2  2\t\t40 \n\t101 \t 31\t\n102   24\n103 18\n",
    ),
    ("commas", b"rack,2,2,40\n101,31\n102,24\n103,18\n"),
    (
        "commas and blanks",
        b"rack , 2 , 2\t,\t40\n101 , 31\n102, 24\n103 ,18\n",
    ),
    ("semicolons", b"rack;2;2;40\n101;31\n102;24\n103;18\n"),
    (
        "semicolons and blanks",
        b"rack ; 2 ; 2 ; 40\n101 ; 31\n102; 24\n103 ;18\n",
    ),
    (
        "each line its own",
        b"rack 2,2;40\n101\t31\n102,24\n103;18\n",
    ),
    ("CRLF", b"rack 2 2 40\r\n101 31\r\n102 24\r\n103 18\r\n"),
    (
        "CRLF and no end",
        b"rack 2 2 40\r\n101 31\r\n102 24\r\n103 18",
    ),
    (
        "a BOM",
        b"\xef\xbb\xbfrack 2 2 40\n101 31\n102 24\n103 18\n",
    ),
    (
        "a BOM and a comment",
        b"\xef\xbb\xbf# x\r\nrack,2,2,40\r\n101,31\r\n102,24\r\n103,18\r\n",
    ),
    ("no end", b"rack 2 2 40\n101 31\n102 24\n103 18"),
    (
        "comments",
        b"# rack 9 9 9\n\nrack 2 2 40 # 4\n101 31\t#x\n#\n102 24 #103 18\n103 18\n# end",
    ),
    (
        "comments of many signs",
        b"##\n## x\n#########\n#film,demand\n#\tx\nrack,2,2,40,#,\n101,31,#2#\n102;24;##\n103 18 ## ,\n##",
    ),
    (
        "comments like error values",
        b"# N/A,24\n#NA\nrack 2 2 40 #REF\n101 31 #NAME\n##N/A,24\n102 24 # ##,\n103 18 #DIV/0\n",
    ),
    (
        "Latin-1 and control characters in comments",
        b"# \xfcber \x01\x1b\xff\nrack 2 2 40\n101 31 # \xe9\n102 24\n103 18\n",
    ),
    (
        "a comment with CRLF",
        b"rack 2 2 40 # x\r\n101 31 #\r\n102 24\r\n103 18\r\n",
    ),
    (
        "blank lines",
        b"\n \n\t\n\r\nrack 2 2 40\n\n101 31\n \r\n102 24\n103 18\n\n\n",
    ),
    (
        "padded rows",
        b"rack,2,2,40\n101,31,,\n102,24,\n103,18, , ,\n",
    ),
    (
        "rows of separators",
        b",,,\nrack,2,2,40\n,,,\n101,31,,\n ; ; \n102,24,,\n103,18,,\n,,,\n",
    ),
    (
        "padding and comments",
        b"rack;2;2;40;;# x\r\n101;31;;#\r\n102;24;;\r\n103;18\r\n;;# y\r\n",
    ),
];

#[test]
fn every_form_gives_the_same_plan_and_records() {
    let rack = rack(2, 2, 40);
    let text = reference_text(rack, &records(&FILMS)).expect("the list is right");
    let input = plan_input(rack, &FILMS);
    for (name, form) in FORMS {
        let folder = Folder::with("list.txt", form);
        assert_eq!(folder.run(&["plan", "list.txt"]).printed(), text, "{name}");
        let listed = folder.run(&["records", "list.txt"]);
        listed.printed();
        assert_eq!(listed.bytes, input, "{name}");
    }
}

#[test]
fn a_list_and_records_come_from_standard_input_too() {
    let rack = rack(2, 2, 40);
    let text = reference_text(rack, &records(&FILMS)).expect("the list is right");
    let folder = Folder::new();
    let list = FORMS[0].1;
    assert_eq!(folder.run_on(&["plan", "-"], list).printed(), text);
    assert_eq!(folder.run_on(&["plan", "--", "-"], list).printed(), text);
    assert_eq!(
        folder.run_on(&["records", "-"], list).bytes,
        plan_input(rack, &FILMS)
    );
    let input = plan_input(rack, &FILMS);
    assert_eq!(
        folder.run_on(&["plan", "--records", "-"], &input).printed(),
        text
    );
}

#[test]
fn options_stand_before_or_after_the_file() {
    let rack = rack(2, 2, 40);
    let text = reference_text(rack, &records(&FILMS)).expect("the list is right");
    let folder = Folder::with("--records", plan_input(rack, &FILMS));
    folder.write("-h", FORMS[0].1);
    folder.write("--", FORMS[0].1);
    for arguments in [
        &["plan", "--records", "--", "--records"][..],
        &["plan", "--records", "./--records"],
        &["plan", "./--records", "--records"],
        &["plan", "--", "-h"],
        &["plan", "--", "--"],
    ] {
        assert_eq!(folder.run(arguments).printed(), text, "{arguments:?}");
    }
}

#[test]
fn a_rack_without_films_has_an_empty_plan() {
    let folder = Folder::with("list.txt", "rack 2 1 5\n");
    let plan = folder.run(&["plan", "list.txt"]);
    let text = "(rack 2 1 5)\n(disk 1)\n(disk 2)\n(left)\n(served 0 0)\n";
    assert_eq!(plan.printed(), text);
    let listed = folder.run(&["records", "list.txt"]);
    assert_eq!(listed.bytes, [2, 0, 0, 0, 1, 0, 0, 0, 5, 0, 0, 0]);
}

#[test]
fn films_of_demand_0_are_in_the_plan() {
    let plans = [
        (
            "rack 2 2 5\n3 0\n9 5\n1 0\n2 0\n",
            "(rack 2 2 5)\n(disk 1 (9 5) (1 0))\n(disk 2 (2 0) (3 0))\n(left)\n(served 5 0)\n",
        ),
        (
            "rack 1 1 1\n9 2\n5 0\n3 5\n7 1\n",
            "(rack 1 1 1)\n(disk 1 (7 1))\n(left (3 5) (5 0) (9 2))\n(served 1 7)\n",
        ),
    ];
    for (list, text) in plans {
        let folder = Folder::with("list.txt", list);
        assert_eq!(folder.run(&["plan", "list.txt"]).printed(), text);
    }
}

#[test]
fn the_samples_are_their_own_records() {
    let samples = concat!(env!("CARGO_MANIFEST_DIR"), "/../samples");
    let folder = Folder::new();
    for name in ["ferry", "case_a"] {
        let bytes = std::fs::read(format!("{samples}/{name}.bin")).expect("a sample");
        let list = format!("{samples}/{name}.txt");
        assert_eq!(folder.run(&["records", &list]).bytes, bytes, "{name}");
    }
}

#[test]
fn the_longest_list_is_planned() {
    let rack = rack(64, 32, 65_535);
    let films: Vec<(u32, u32)> = (0..MOST_RECORDS as u32)
        .map(|at| (at + 1, 900 * at))
        .collect();
    let lines = films
        .iter()
        .map(|(film, demand)| format!("{film};{demand}\r\n"));
    let list = String::from("rack;64;32;65535\r\n") + &lines.collect::<String>();
    let folder = Folder::with("list.csv", list);
    let text = reference_text(rack, &records(&films)).expect("the list is right");
    assert_eq!(folder.run(&["plan", "list.csv"]).printed(), text);
}
