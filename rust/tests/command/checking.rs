//! Plan texts that `jugfjord check` accepts and refuses.

use jugfjord::reference::plan::Plan;
use jugfjord::reference::reader::plan_of;
use jugfjord::reference::writer::{first_line, text_of};

use crate::dice::Dice;
use crate::folder::Folder;
use crate::plans::good;
use crate::racks::{equal, mixed};

/// A plan text of five lines.
const TEXT: &str = "(rack 2 2 5)\n(disk 1 (7 4))\n(disk 2)\n(left (3 9))\n(served 4 9)\n";
/// The same plan with copies of 0 viewers and a left film of amount 0.
const TEXT_WITH_0: &str =
    "(rack 2 2 5)\n(disk 1 (8 0) (7 4))\n(disk 2 (8 0))\n(left (2 0) (3 9))\n(served 4 9)\n";
/// The same plan with marks.
const TEXT_WITH_MARKS: &str =
    "(rack 2 2 5)\n(disk 1 (8 0 held) (7 4))\n(disk 2 (7 0 held))\n(left (3 9))\n(served 4 9)\n";
const WRONG_LINE: &str = "no plan text has this line after the lines before it";

/// What `check` says of a plan.
fn accepted(plan: &Plan) -> String {
    let (served, unserved) = (plan.served(), plan.unserved());
    let line = first_line(&plan.rack);
    let rack = line.trim_start_matches('(');
    let rack = rack.strip_suffix(')').expect("a closing bracket");
    format!("accepted: {rack}, served {served}, not served {unserved}\n")
}

#[test]
fn plans_are_accepted() {
    let folder = Folder::new();
    let said = "accepted: rack 2 2 5, served 4, not served 9\n";
    for text in [TEXT, TEXT_WITH_0, TEXT_WITH_MARKS] {
        folder.write("plan.txt", text);
        assert_eq!(folder.run(&["check", "plan.txt"]).printed(), said);
        let ran = folder.run_on(&["check", "-"], text.as_bytes());
        assert_eq!(ran.printed(), said);
    }
    for plan in [Plan::largest(), Plan::largest_mixed().all_held()] {
        folder.write("plan.txt", text_of(&plan));
        let ran = folder.run(&["check", "plan.txt"]);
        assert_eq!(ran.printed(), accepted(&plan));
    }
}

#[test]
fn a_plan_of_unequal_disks_is_accepted_with_each_disk() {
    let rest = "(disk 1 (7 4))\n(disk 2)\n(left (3 9))\n(served 4 9)\n";
    let folder = Folder::with("plan.txt", format!("(mixed (4 10) (2 5))\n{rest}"));
    let said = "accepted: mixed (4 10) (2 5), served 4, not served 9\n";
    assert_eq!(folder.run(&["check", "plan.txt"]).printed(), said);
}

#[test]
fn wrong_lines_of_unequal_disks_are_refused() {
    let rest = "(disk 1 (7 4))\n(disk 2)\n(left (3 9))\n(served 4 9)\n";
    for line in ["(mixed (4 10) (4 10))", "(mixed (4 10) (2 6))", "(mixed)"] {
        let text = format!("{line}\n{rest}");
        expect_refused(&text, 1, WRONG_LINE, &format!(": '{line}'"));
    }
    let text = format!("(mixed (2 5) (4 10))\n{rest}").replace("(7 4)", "(7 4) (8 2)");
    expect_refused(&text, 2, WRONG_LINE, ": '(disk 1 (7 4) (8 2))'");
}

/// How much of the text is left, the line that is refused then, and what is said of it.
const CUT: [(usize, usize, &str, &str); 5] = [
    (0, 1, "the text ends before this line", ""),
    (13, 2, "the text ends before this line", ""),
    (
        12,
        1,
        "this line is not ended by a line feed",
        ": '(rack 2 2 5)'",
    ),
    (
        TEXT.len() - 1,
        5,
        "this line is not ended by a line feed",
        ": '(served 4 9)'",
    ),
    (20, 2, WRONG_LINE, ": '(disk 1'"),
];

/// What stands behind the text, and what is said of it.
const BEHIND: [(&str, &str); 4] = [
    ("\n", "an empty line"),
    (" ", "' '"),
    ("(left)", "'(left)'"),
    (TEXT, "'(rack 2 2 5)'"),
];

/// A part of the text, what stands in its place, the line that is refused then, and its content.
const REPLACED: [(&str, &str, usize, &str); 16] = [
    ("(7 4)", "(7 6)", 2, "'(disk 1 (7 6))'"),
    ("(7 4)", "(7 4) (7 0)", 2, "'(disk 1 (7 4) (7 0))'"),
    ("(7 4)", "(7 4) (0 0)", 2, "'(disk 1 (7 4) (0 0))'"),
    (
        "(7 4)",
        "(7 4) (8 0) (9 0)",
        2,
        "'(disk 1 (7 4) (8 0) (9 0))'",
    ),
    ("(7 4)", "(7 4held)", 2, "'(disk 1 (7 4held))'"),
    ("(7 4)", "(7 4 held )", 2, "'(disk 1 (7 4 held ))'"),
    ("(3 9)", "(3 9 held)", 4, "'(left (3 9 held))'"),
    ("(3 9)", "(3 9) (3 0)", 4, "'(left (3 9) (3 0))'"),
    ("(3 9)", "(3 1000001)", 4, "'(left (3 1000001))'"),
    ("(disk 2)", "(disk 3)", 3, "'(disk 3)'"),
    ("(disk 2)", "", 3, "an empty line"),
    ("served 4", "served 5", 5, "'(served 5 9)'"),
    ("\n", "\r\n", 1, "'(rack 2 2 5)\\r'"),
    ("(disk 2)", "\u{1b}[1m\0", 3, "'\\x1b[1m\\x00'"),
    ("(left (3 9))", "(left (3 9)) ", 4, "'(left (3 9)) '"),
    (TEXT, "(refused 6 2)\n", 1, "'(refused 6 2)'"),
];

/// Asserts that `check` and `show` refuse the text at this line with these words.
fn expect_refused(text: &str, line: usize, words: &str, content: &str) {
    let folder = Folder::with("plan.txt", text);
    let said = format!("plan.txt:{line}: {words} (refused 9, line {line}){content}");
    folder.run(&["check", "plan.txt"]).failed(1, &said);
    folder.run(&["show", "plan.txt"]).failed(1, &said);
}

#[test]
fn a_text_that_was_cut_is_refused() {
    for (length, line, words, content) in CUT {
        expect_refused(&TEXT[..length], line, words, content);
    }
}

#[test]
fn a_text_with_bytes_behind_is_refused() {
    for (behind, content) in BEHIND {
        let words = "bytes after the last line";
        expect_refused(
            &(TEXT.to_string() + behind),
            6,
            words,
            &format!(": {content}"),
        );
    }
}

#[test]
fn a_text_with_a_wrong_line_is_refused() {
    for (part, other, line, content) in REPLACED {
        let text = TEXT.replace(part, other);
        expect_refused(&text, line, WRONG_LINE, &format!(": {content}"));
    }
}

#[test]
fn a_long_line_is_cut() {
    let line = "(left (1 1) (2 1) (3 1) (4 1) (5 1) (6 1) (7 1) (8 1) (9 1) (10 1) (11 1) (11 1))";
    let folder = Folder::with("plan.txt", TEXT.replace("(left (3 9))", line));
    let said = format!(
        "plan.txt:4: {WRONG_LINE} (refused 9, line 4): '{}...'",
        &line[..60]
    );
    folder.run(&["check", "plan.txt"]).failed(1, &said);
}

#[test]
fn a_text_of_more_than_65_536_bytes_is_refused_8() {
    let folder = Folder::with("plan.txt", [b'('; 65_537]);
    let said = "the text has more than 65536 bytes (refused 8)";
    folder
        .run(&["check", "plan.txt"])
        .failed(1, &format!("plan.txt: {said}"));
    folder
        .run(&["check", "/dev/zero"])
        .failed(1, &format!("/dev/zero: {said}"));
    folder.write("plan.txt", [b'('; 65_536]);
    let ran = folder.run(&["check", "plan.txt"]);
    assert!(ran.err.starts_with("plan.txt:1: "), "{}", ran.err);
    assert!(
        ran.err
            .ends_with(&format!("(refused 9, line 1): '{}...'\n", "(".repeat(60))),
        "{}",
        ran.err
    );
}

#[test]
fn random_texts_are_judged_as_the_reference_judges_them() {
    let mut dice = Dice::new(10);
    let folder = Folder::new();
    let mut wrong = 0;
    for turn in 0..300 {
        let racks = [equal, mixed][turn % 2];
        let mut text = text_of(&good(&mut dice, racks)).into_bytes();
        if dice.one_in(2) {
            let at = dice.below(text.len());
            text[at] = dice.pick(b"0123456789() \nabdefhrsv");
        }
        folder.write("plan.txt", &text);
        let ran = folder.run(&["check", "plan.txt"]);
        match plan_of(&text) {
            Ok(plan) => assert_eq!(ran.printed(), accepted(&plan)),
            Err(line) => {
                wrong += 1;
                assert!(
                    ran.err.starts_with(&format!("plan.txt:{line}: ")),
                    "{}",
                    ran.err
                );
                assert!(
                    ran.err.contains(&format!("(refused 9, line {line})")),
                    "{}",
                    ran.err
                );
                assert_eq!((ran.status.code(), ran.out.as_str()), (Some(1), ""));
            }
        }
    }
    assert!((50..250).contains(&wrong), "{wrong} refused");
}
