//! The edges of the mark: its form in texts and its number in tables.

use jugfjord::rack::Disk;
use jugfjord::tables::{Entry, OwnTables};

use crate::edges::{answers, expect_written, expect_wrong_line};
use crate::racks::{disk, equal_rack};
use crate::subjects::{READERS, WRITERS};

/// A text with marks at a copy with viewers and at one without.
const TEXT: &str = "(rack 2 2 5)
(disk 1 (8 1 held) (65535 4))
(disk 2 (8 0) (3 0 held))
(left (8 2))
(served 5 2)
";

/// The copies of that text.
fn copies() -> [Entry; 4] {
    [
        Entry::new(8, 1).with_mark(1),
        Entry::new(65_535, 4),
        Entry::new(8, 0),
        Entry::new(3, 0).with_mark(1),
    ]
}

#[test]
fn an_entry_has_film_mark_and_viewers() {
    let copy = Entry::new(8, 3).with_mark(1);
    // The number that C has: 3 times 2 to the 32, 1 times 2 to the 16, and 8.
    assert_eq!(copy, Entry::new(65_536 + 8, 3));
    assert_eq!((copy.film(), copy.mark(), copy.amount()), (8, 1, 3));
    assert_eq!(copy.unmarked_film(), 65_544);
    assert_eq!(copy.with_mark(0), Entry::new(8, 3));
    let last = Entry::new(65_535, u32::MAX).with_mark(u16::MAX);
    assert_eq!(last, Entry::new(u32::MAX, u32::MAX));
    assert_eq!((last.film(), last.mark()), (65_535, 65_535));
    assert_eq!(last.with_mark(1).mark(), 1);
}

#[test]
fn marks_are_read() {
    for (name, reader) in READERS {
        let mut rack = [Disk::default(); 2];
        let mut tables = OwnTables::for_plan(&equal_rack(2, 2, 5), 1);
        let read = reader(TEXT.as_bytes(), &mut rack, tables.lend());
        assert_eq!(
            (read.number, read.served, read.unserved),
            (0, 5, 2),
            "{name}"
        );
        assert_eq!(tables.copies, copies(), "{name}");
        assert_eq!(tables.counts, [2, 2], "{name}");
        assert_eq!(tables.left, [Entry::new(8, 2)], "{name}");
    }
}

#[test]
fn marks_are_written() {
    let tables = OwnTables {
        copies: copies().to_vec(),
        counts: vec![2, 2],
        left: vec![Entry::new(8, 2)],
    };
    for (name, writer) in WRITERS {
        let mut text = vec![b'?'; TEXT.len() + 1];
        let written = writer(&equal_rack(2, 2, 5), tables.view(), 1, &mut text);
        assert_eq!(written.length, TEXT.len() as u64, "{name}");
        assert_eq!(text, [TEXT.as_bytes(), b"?"].concat(), "{name}");
        let written = writer(
            &equal_rack(2, 2, 5),
            tables.view(),
            1,
            &mut text[..TEXT.len() - 1],
        );
        assert_eq!(written.number, 11, "{name}");
    }
}

/// What stands on a disk of two slots and five streams where a text is accepted, with the served
/// number.
const COPIES: [(&str, u32); 6] = [
    ("(8 1 held)", 1),
    ("(8 0 held)", 0),
    ("(65535 5 held)", 5),
    ("(8 1) (9 1 held)", 2),
    ("(8 1 held) (9 1)", 2),
    ("(8 1 held) (9 4 held)", 5),
];

/// And where it is not.
const WRONG_COPIES: [(&str, u32); 28] = [
    // The space before the mark, and what stands behind it.
    ("(8 1held)", 1),
    ("(8 1  held)", 1),
    ("(8 1\theld)", 1),
    ("(8 1 held )", 1),
    ("(8 1 held) ", 1),
    ("(8 1 held", 1),
    ("(8 1 )", 1),
    ("(8 1 held)(9 1)", 2),
    // Its letters.
    ("(8 1 hel)", 1),
    ("(8 1 heldd)", 1),
    ("(8 1 Held)", 1),
    ("(8 1 HELD)", 1),
    ("(8 1 hold)", 1),
    ("(8 1 1)", 1),
    ("(8 1 0)", 1),
    ("(8 1 held held)", 1),
    // Its place.
    ("(8 held 1)", 1),
    ("(held 8 1)", 1),
    ("(8 held)", 1),
    ("(8 1) held", 1),
    ("held (8 1)", 1),
    ("held", 0),
    // What a marked copy must be besides.
    ("(0 1 held)", 1),
    ("(65536 1 held)", 1),
    ("(65543 1)", 1),
    ("(8 6 held)", 6),
    ("(8 1 held) (8 1)", 2),
    ("(8 1 held) (9 0 held) (10 0 held)", 1),
];

/// The text of a plan with these copies.
fn text_with(copies: &str, served: u32) -> String {
    format!("(rack 1 2 5)\n(disk 1 {copies})\n(left (2 1))\n(served {served} 1)\n")
}

#[test]
fn a_mark_has_one_form() {
    for (copies, served) in COPIES {
        for (name, read) in answers(&text_with(copies, served)) {
            let found = (read.number, read.served, read.unserved);
            assert_eq!(found, (0, served.into(), 1), "{name}: {copies}");
        }
    }
    for (copies, served) in WRONG_COPIES {
        expect_wrong_line(&text_with(copies, served), 2);
    }
}

#[test]
fn only_copies_have_marks() {
    let lines = "(disk 1 (8 1 held))\n(left (2 1))\n(served 1 1)\n";
    expect_wrong_line(&format!("(rack 1 2 5 held)\n{lines}"), 1);
    expect_wrong_line(&format!("(rack 1 2 5) held\n{lines}"), 1);
    let text = text_with("(8 1 held)", 1);
    for (part, other, line) in [
        ("(2 1)", "(2 1 held)", 3),
        ("(left (2 1))", "(left (2 1) held)", 3),
        ("(left (2 1))", "(left held)", 3),
        ("(served 1 1)", "(served 1 1 held)", 4),
        ("(disk 1 ", "(disk 1 held ", 2),
    ] {
        expect_wrong_line(&text.replace(part, other), line);
    }
    let lines = "(disk 1 (8 1 held))\n(disk 2)\n(left)\n(served 1 0)\n";
    for first in ["(mixed (2 4 held) (4 8))", "(mixed (2 4) (4 8 held))"] {
        expect_wrong_line(&format!("{first}\n{lines}"), 1);
    }
    for (name, read) in answers(&format!("(mixed (2 4) (4 8))\n{lines}")) {
        assert_eq!((read.number, read.disks), (0, 2), "{name}");
    }
}

#[test]
fn only_marks_0_and_1_are_written() {
    let (copy, unused, left) = (Entry::new(7, 4), Entry::default(), Entry::new(3, 9));
    for mark in 0..=u16::MAX {
        let number = if mark <= 1 { 0 } else { 10 };
        expect_written([copy.with_mark(mark), unused], left, number);
    }
    for mark in (0..16).map(|bit| 1 << bit) {
        expect_written([copy, unused.with_mark(mark)], left, 10);
        expect_written([copy.with_mark(1), unused.with_mark(mark)], left, 10);
        // Film 0 in a place that is used, and a mark on a left film.
        expect_written([unused.with_mark(mark), unused], left, 10);
        expect_written([copy, unused], left.with_mark(mark), 10);
    }
}

#[test]
fn a_marked_film_is_the_film() {
    let tables = OwnTables {
        copies: vec![Entry::new(7, 1).with_mark(1), Entry::new(7, 1)],
        counts: vec![2],
        left: Vec::new(),
    };
    for (name, writer) in WRITERS {
        let written = writer(&[disk(2, 5)], tables.view(), 0, &mut [0; 100]);
        assert_eq!(written.number, 10, "{name}");
    }
}
