//! Files that are no list files: one line with what was expected and what was found.

use std::time::{Duration, Instant};

use crate::folder::Folder;

/// What may be expected.
const RACK_FIRST: &str = "'rack DISKS SLOTS STREAMS' or 'disk SLOTS STREAMS' before the films";
const RACK: &str = "'rack DISKS SLOTS STREAMS'";
const DISK: &str = "'disk SLOTS STREAMS'";
const FILM: &str = "'FILM DEMAND'";
const NUMBER: &str = "a whole number";
const NO_LEADING_ZEROS: &str = "a whole number without leading zeros";
const SMALLER: &str = "a whole number up to 4294967295";
const PLAIN: &str = "UTF-8 or ASCII";
const TEXT: &str = "text";
const LINE_ENDS: &str = "LF or CRLF at the end of each line";
/// What may be found.
const ZERO_BYTE: &str = "a zero byte (records are planned by 'jugfjord plan --records')";
const CR_ALONE: &str = "a CR alone (save the list with line ends of Unix or Windows)";

/// Files that are no list files: the line, what is expected and what is found.
const WRONG: [(&[u8], usize, &str, &str); 104] = [
    // The rack line.
    (b"", 1, RACK_FIRST, "the end of the file"),
    (b"# x\n\n", 3, RACK_FIRST, "the end of the file"),
    (b"# x", 1, RACK_FIRST, "the end of the file"),
    (b"\xef\xbb\xbf", 1, RACK_FIRST, "the end of the file"),
    (b"\n101 31\nrack 2 2 40\n", 2, RACK_FIRST, "'101 31'"),
    (b"RACK 2 2 40\n", 1, RACK_FIRST, "'RACK 2 2 40'"),
    (b"rack2 2 40\n", 1, RACK_FIRST, "'rack2 2 40'"),
    (b"(rack 2 2 40)\n", 1, RACK_FIRST, "'(rack 2 2 40)'"),
    (b",rack,2,2,40\n", 1, RACK_FIRST, "',rack,2,2,40'"),
    (b"rack\n", 1, RACK, "'rack'"),
    (b"rack 2 2 # 40\n", 1, RACK, "'rack 2 2'"),
    (b"rack 2 2 40 1\n", 1, RACK, "'rack 2 2 40 1'"),
    (b"rack,2,,40\n", 1, RACK, "an empty field in 'rack,2,,40'"),
    (b"rack 2 x 40\n", 1, NUMBER, "'x'"),
    (b"rack 2 2 4294967296\n", 1, SMALLER, "'4294967296'"),
    (b"rack 2 02 40\n", 1, NO_LEADING_ZEROS, "'02'"),
    (
        b"rack 2 2 40\n1 1\n\nrack 2 2 40\n",
        4,
        FILM,
        "'rack 2 2 40', a second rack (the first is in line 1)",
    ),
    (
        b"#\nrack 2 2 40\nrack\n",
        3,
        FILM,
        "'rack', a second rack (the first is in line 2)",
    ),
    // The lines of disks.
    (b"disk\n", 1, DISK, "'disk'"),
    (b"disk 2\n", 1, DISK, "'disk 2'"),
    (b"disk 2 # 40\n", 1, DISK, "'disk 2'"),
    (b"disk 2 40\ndisk 2 40 1\n", 2, DISK, "'disk 2 40 1'"),
    (b"disk,2,,40\n", 1, DISK, "an empty field in 'disk,2,,40'"),
    (b"disk 2 40\ndisk x 40\n", 2, NUMBER, "'x'"),
    (b"disk 2 040\n", 1, NO_LEADING_ZEROS, "'040'"),
    (b"disk 2 4294967296\n", 1, SMALLER, "'4294967296'"),
    (b"DISK 2 40\n", 1, RACK_FIRST, "'DISK 2 40'"),
    (b"disks 2 40\n", 1, RACK_FIRST, "'disks 2 40'"),
    (b"(disk 2 40)\n", 1, RACK_FIRST, "'(disk 2 40)'"),
    (b"disk 2 40\nDisk 2 40\n", 2, NUMBER, "'Disk'"),
    (
        b"rack 2 2 40\ndisk 2 40\n",
        2,
        FILM,
        "'disk 2 40', a disk beside a rack (the rack is in line 1)",
    ),
    (
        b"#\nrack 2 2 40\n1 1\ndisk\n",
        4,
        FILM,
        "'disk', a disk beside a rack (the rack is in line 2)",
    ),
    (
        b"\ndisk 2 40\ndisk 2 40\nrack 2 2 40\n",
        4,
        FILM,
        "'rack 2 2 40', a rack beside disks (the first is in line 2)",
    ),
    (
        b"disk 2 40\n1 1\nrack 2 2 40\n",
        3,
        FILM,
        "'rack 2 2 40', a rack beside disks (the first is in line 1)",
    ),
    (
        b"disk 2 40\n\n1 1\n2 1\ndisk 2 40\n",
        5,
        FILM,
        "'disk 2 40', a disk behind a film (the first film is in line 3)",
    ),
    (
        b"disk 2 40\n#N/A,24\n",
        2,
        FILM,
        "'#N/A', an error of a spreadsheet",
    ),
    // The films' lines.
    (b"rack 2 2 40\n101\n", 2, FILM, "'101'"),
    (b"rack 2 2 40\n101,,\n", 2, FILM, "'101'"),
    (b"rack 2 2 40\n1 1\n101 31 7\n", 3, FILM, "'101 31 7'"),
    (b"rack 2 2 40\n1 2 3 4 5 6 7\n", 2, FILM, "'1 2 3 4 5 6 7'"),
    (b"rack 2 2 40\n101;1,000\n", 2, FILM, "'101;1,000'"),
    (b"rack 2 2 40\n110.6\n", 2, FILM, "'110.6'"),
    (
        b"rack 2 2 40\n110,,6\n",
        2,
        FILM,
        "an empty field in '110,,6'",
    ),
    (
        b"rack 2 2 40\n110, ;6\n",
        2,
        FILM,
        "an empty field in '110, ;6'",
    ),
    (b"rack 2 2 40\n,6\n", 2, FILM, "an empty field in ',6'"),
    (
        b"rack 2 2 40\n ; 110;6\n",
        2,
        FILM,
        "an empty field in '; 110;6'",
    ),
    (b"rack 2 2 40\nfilm 6\n", 2, NUMBER, "'film'"),
    (b"rack 2 2 40\n110 -6\n", 2, NUMBER, "'-6'"),
    (b"rack 2 2 40\n110 +6\n", 2, NUMBER, "'+6'"),
    (b"rack 2 2 40\n110 6.5\n", 2, NUMBER, "'6.5'"),
    (b"rack 2 2 40\n110 0x6\n", 2, NUMBER, "'0x6'"),
    (b"rack 2 2 40\n\"110\",\"6\"\n", 2, NUMBER, "'\"110\"'"),
    (b"rack 2 2 40\n4294967296 6\n", 2, SMALLER, "'4294967296'"),
    (
        b"rack 2 2 40\n1 99999999999999999999\n",
        2,
        SMALLER,
        "'99999999999999999999'",
    ),
    (
        b"rack 2 2 40\n1 1234567890123456789012345678901234567890123456789012345678901\n",
        2,
        SMALLER,
        "'123456789012345678901234567890123456789012345678901234567890...'",
    ),
    (b"rack 2 2 40\n1,024\n", 2, NO_LEADING_ZEROS, "'024'"),
    (b"rack 2 2 40\n01 24\n", 2, NO_LEADING_ZEROS, "'01'"),
    (b"rack 2 2 40\n1 00\n", 2, NO_LEADING_ZEROS, "'00'"),
    (
        b"rack 2 2 40\n1 04294967296\n",
        2,
        NO_LEADING_ZEROS,
        "'04294967296'",
    ),
    (b"rack 2 2 40\n1 0x\n", 2, NUMBER, "'0x'"),
    (b"rack 2 2 40\n1 x 3\n", 2, NUMBER, "'x'"),
    // No comments: a `#` in a field.
    (b"rack 2 2 40\n102,2#4\n", 2, NUMBER, "'2#4'"),
    (b"rack 2 2 40\n101 31# x\n", 2, NUMBER, "'31#'"),
    (b"rack 2 2 40\n101 31#\n", 2, NUMBER, "'31#'"),
    (b"rack 2 2 40\n101# 31\n", 2, NUMBER, "'101#'"),
    (b"rack 2 2 40\n101 3# # x\n", 2, NUMBER, "'3#'"),
    (b"rack 2 2 40# x\n", 1, NUMBER, "'40#'"),
    (b"rack#2 2 40\n", 1, RACK_FIRST, "'rack#2 2 40'"),
    // No comments: what a spreadsheet writes for a value that it does not have.
    (
        b"rack 2 2 40\n#N/A,24\n",
        2,
        FILM,
        "'#N/A', an error of a spreadsheet",
    ),
    (
        b"rack 2 2 40\n101,#REF!\n",
        2,
        FILM,
        "'#REF!', an error of a spreadsheet",
    ),
    (
        b"rack 2 2 40\n101 31\n102;#VALUE!\r\n",
        3,
        FILM,
        "'#VALUE!', an error of a spreadsheet",
    ),
    (
        b"rack 2 2 40\n #NAME? 24\n",
        2,
        FILM,
        "'#NAME?', an error of a spreadsheet",
    ),
    (
        b"rack 2 2 40\n#DIV/0!\n",
        2,
        FILM,
        "'#DIV/0!', an error of a spreadsheet",
    ),
    (
        b"rack 2 2 40\n101,31,#NUM!\n",
        2,
        FILM,
        "'#NUM!', an error of a spreadsheet",
    ),
    (
        b"rack 2 2 40\n\t#NULL!\t24\n",
        2,
        FILM,
        "'#NULL!', an error of a spreadsheet",
    ),
    (
        b"rack 2 2 40\n#SPILL!;24\n",
        2,
        FILM,
        "'#SPILL!', an error of a spreadsheet",
    ),
    (
        b"rack 2 2 40\nx,#CALC!",
        2,
        FILM,
        "'#CALC!', an error of a spreadsheet",
    ),
    (
        b"rack 2 2 40\n####,24\n",
        2,
        FILM,
        "'####', an error of a spreadsheet",
    ),
    (
        b"rack 2 2 40\n##;24\n",
        2,
        FILM,
        "'##', an error of a spreadsheet",
    ),
    (
        b"rack 2 2 40\n101,###\t# x\n",
        2,
        FILM,
        "'###', an error of a spreadsheet",
    ),
    (
        b"rack,2,#N/A,40\n",
        1,
        RACK_FIRST,
        "'#N/A', an error of a spreadsheet",
    ),
    (
        b"\n####,\nrack 2 2 40\n",
        2,
        RACK_FIRST,
        "'####', an error of a spreadsheet",
    ),
    // What cannot be seen.
    (b"rack 2 2 40\n110\xa06\n", 2, FILM, "'110\\xa06'"),
    (b"rack 2 2 40\n110\xc2\xa06\n", 2, FILM, "'110\\u{a0}6'"),
    (
        b"rack 2 2 40\n\xef\xbb\xbf110 6\n",
        2,
        NUMBER,
        "'\\u{feff}110'",
    ),
    (
        b"rack 2 2 40\n1 \x1b[31m\x7f\n",
        2,
        NUMBER,
        "'\\x1b[31m\\x7f'",
    ),
    (b"rack 2 2 40\n101\t31\t7\n", 2, FILM, "'101\\t31\\t7'"),
    (b"rack 2 2 40\r110 6\r", 1, LINE_ENDS, CR_ALONE),
    (b"rack 2 2 40\n110 6\r\r\n", 2, LINE_ENDS, CR_ALONE),
    (b"rack 2 2 40\n110\r 6\n", 2, LINE_ENDS, CR_ALONE),
    (b"rack 2 2 40\n110 6\r", 2, LINE_ENDS, CR_ALONE),
    (b"rack 2 2 40\r\n\r", 2, LINE_ENDS, CR_ALONE),
    (b"rack 2 2 40\n# x\r110 6\r\n", 2, LINE_ENDS, CR_ALONE),
    (b"rack 2 2 40\n110 6 # x\r", 2, LINE_ENDS, CR_ALONE),
    (b"rack 2 2 40\nx\n110 6\n\r", 4, LINE_ENDS, CR_ALONE),
    (b"rack 2 2 40\n110 6\0\n", 2, TEXT, ZERO_BYTE),
    (b"rack 2 2 40\n# \0\n110 6\n", 2, TEXT, ZERO_BYTE),
    (b"rack 2 2 40\nx\n110 6\n\0", 4, TEXT, ZERO_BYTE),
    (b"r\0a\0c\0k\0", 1, TEXT, ZERO_BYTE),
    // The records of 10, 13 and 35 disks begin with an LF, a CR and a `#`.
    (b"\n\0\0\0\x02\0\0\0\x28\0\0\0", 2, TEXT, ZERO_BYTE),
    (b"\r\0\0\0\x02\0\0\0\x28\0\0\0", 1, TEXT, ZERO_BYTE),
    (b"#\0\0\0\x02\0\0\0\x28\0\0\0", 1, TEXT, ZERO_BYTE),
    (
        b"\xff\xfer\0a\0c\0k\0",
        1,
        PLAIN,
        "UTF-16; save the list in UTF-8",
    ),
    (
        b"\xfe\xff\0r\0a\0c\0k",
        1,
        PLAIN,
        "UTF-16; save the list in UTF-8",
    ),
];

#[test]
fn what_is_no_list_file_is_said_with_its_line() {
    for (bytes, line, expected, found) in WRONG {
        let folder = Folder::with("list.txt", bytes);
        for command in ["plan", "records"] {
            let ran = folder.run(&[command, "list.txt"]);
            let words = format!("expected {expected}, found {found}");
            ran.failed(2, &format!("list.txt:{line}: {words}"));
        }
    }
}

#[test]
fn standard_input_is_named_as_such() {
    let ran = Folder::new().run_on(&["plan", "-"], b"rack 2 2 40\n101\n");
    ran.failed(2, "standard input:2: expected 'FILM DEMAND', found '101'");
}

#[test]
fn a_name_with_odd_bytes_stays_on_its_line() {
    let folder = Folder::with("a\nb\u{e9}.txt", "");
    let ran = folder.run(&["records", "a\nb\u{e9}.txt"]);
    let words = format!("expected {RACK_FIRST}, found the end of the file");
    ran.failed(2, &format!("a\\nb\u{e9}.txt:1: {words}"));
}

#[test]
fn one_line_of_many_separators_is_no_burden() {
    let line = [
        b"rack 2 2 40\n1".to_vec(),
        vec![b';'; 4_000_000],
        b"1\n".to_vec(),
    ]
    .concat();
    let ran = Folder::with("list.txt", line).run(&["plan", "list.txt"]);
    let words = format!(
        "list.txt:2: expected 'FILM DEMAND', found an empty field in '1{}...'",
        ";".repeat(59)
    );
    ran.failed(2, &words);
}

#[test]
fn more_than_16_mib_is_no_list() {
    let folder = Folder::with("list.txt", vec![b'\n'; 16 * 1024 * 1024 + 1]);
    folder.write("list.bin", vec![1; 16 * 1024 * 1024 + 1]);
    let words = "has more than the 16777216 bytes of a list";
    folder
        .run(&["plan", "list.txt"])
        .failed(2, &format!("jugfjord: list.txt {words}"));
    folder
        .run(&["plan", "--records", "list.bin"])
        .failed(2, &format!("jugfjord: list.bin {words}"));
    folder
        .run(&["records", "/dev/zero"])
        .failed(2, &format!("jugfjord: /dev/zero {words}"));
}

#[test]
fn sixteen_mib_are_read() {
    let mut list = b"rack 2 1 5\n".to_vec();
    list.resize(16 * 1024 * 1024, b'#');
    let ran = Folder::with("list.txt", list).run(&["plan", "list.txt"]);
    assert_eq!(
        ran.printed(),
        "(rack 2 1 5)\n(disk 1)\n(disk 2)\n(left)\n(served 0 0)\n"
    );
}

#[test]
fn a_hundred_thousand_lines_take_less_than_a_second() {
    let films: String = (1..=100_000).map(|film| format!("{film} 1\n")).collect();
    let folder = Folder::with("list.txt", String::from("rack 4 6 40\n") + &films);
    let start = Instant::now();
    let ran = folder.run(&["plan", "list.txt"]);
    let time = start.elapsed();
    ran.failed(
        1,
        "list.txt:1026: the list has more than 1024 records (refused 3)",
    );
    assert!(time < Duration::from_secs(1), "{time:?}");
    assert_eq!(
        folder.run(&["records", "list.txt"]).bytes.len(),
        12 + 8 * 100_000
    );
}
