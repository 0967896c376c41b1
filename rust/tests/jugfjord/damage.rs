//! Ways to damage a text.

use jugfjord::rack::MOST_BYTES;

use crate::dice::Dice;

/// Changes a text that is not empty.
pub type Damage = fn(&mut Dice, &mut Vec<u8>);

pub const DAMAGES: [(&str, Damage); 16] = [
    ("byte changed", |dice, text| {
        let at = dice.below(text.len());
        text[at] = byte(dice);
    }),
    ("byte put in", |dice, text| {
        let at = dice.below(text.len() + 1);
        text.insert(at, byte(dice));
    }),
    ("byte taken out", |dice, text| {
        text.remove(dice.below(text.len()));
    }),
    ("line taken out", |dice, text| {
        with_lines(text, |lines| {
            lines.remove(dice.below(lines.len()));
        })
    }),
    ("line twice", |dice, text| {
        with_lines(text, |lines| {
            let at = dice.below(lines.len());
            lines.insert(at, lines[at].clone());
        })
    }),
    ("lines exchanged", |dice, text| {
        with_lines(text, |lines| {
            let (one, other) = (dice.below(lines.len()), dice.below(lines.len()));
            lines.swap(one, other);
        })
    }),
    ("cut off", |dice, text| {
        text.truncate(dice.below(text.len()))
    }),
    ("last byte cut off", |_, text| text.truncate(text.len() - 1)),
    ("number at a limit", |dice, text| {
        with_number(dice, text, |dice, _| dice.pick(&LIMITS).into())
    }),
    ("number one off", |dice, text| {
        with_number(dice, text, |dice, old| {
            let old: u64 = old.parse().unwrap_or(0);
            let new = if dice.one_in(2) {
                old + 1
            } else {
                old.saturating_sub(1)
            };
            new.to_string()
        })
    }),
    ("leading zero", |dice, text| {
        with_number(dice, text, |_, old| format!("0{old}"))
    }),
    ("long number", |dice, text| {
        with_number(dice, text, |dice, _| "9".repeat(dice.below(400) + 8))
    }),
    ("bytes behind", |dice, text| {
        let behind: &[u8] = dice.pick(&[b"\n", b" ", b"(", b"\0", b"(left)\n", b"(served 0 0)\n"]);
        text.extend(behind);
    }),
    ("text twice", |_, text| text.extend_from_within(..)),
    ("mark put in", |dice, text| {
        let start = dice.below(text.len()).max(1);
        let ends_number = |at: &usize| text[*at] == b')' && text[*at - 1].is_ascii_digit();
        let at = (start..text.len()).find(ends_number);
        let at = at.unwrap_or(text.len());
        text.splice(at..at, dice.pick(&MARKS).bytes());
    }),
    ("mark damaged", |dice, text| {
        let start = dice.below(text.len());
        let is_mark = |at: &usize| text[*at..].starts_with(HELD);
        if let Some(at) = (start..text.len()).find(is_mark) {
            text.splice(at..at + HELD.len(), dice.pick(&MARKS).bytes());
        }
    }),
];

/// What stands behind the viewers of a marked copy.
const HELD: &[u8] = b" held";

/// The mark as a text may have it, and in other forms.
const MARKS: [&str; 12] = [
    " held",
    " held",
    " held",
    "held",
    "  held",
    " held ",
    " hel",
    " heldd",
    " Held",
    " held held",
    " 1",
    "",
];

/// Fills a text up to so many bytes: behind it, or with digits inside.
pub fn fill_up(dice: &mut Dice, text: &mut Vec<u8>, len: usize) {
    let more = len - text.len();
    let at = if dice.one_in(2) {
        text.len()
    } else {
        dice.below(text.len())
    };
    let filler = dice.pick(b"0 \n(1");
    text.splice(at..at, std::iter::repeat_n(filler, more));
}

/// Lengths at the limit of reading.
pub const LENGTHS: [usize; 4] = [MOST_BYTES - 1, MOST_BYTES, MOST_BYTES + 1, MOST_BYTES + 500];

/// Numbers at and beyond each limit, and those that wrap to small ones.
const LIMITS: [&str; 19] = [
    "0",
    "1",
    "32",
    "33",
    "64",
    "65",
    "1024",
    "1025",
    "65535",
    "65536",
    "65537",
    "1000000",
    "1000001",
    "4294967295",
    "4294967296",
    "4294967297",
    "18446744073709551615",
    "18446744073709551617",
    "340282366920938463463374607431768211457",
];

/// Any byte, and more often one that texts have.
fn byte(dice: &mut Dice) -> u8 {
    match dice.below(3) {
        0 => dice.next() as u8,
        1 => dice.pick(b"0123456789"),
        _ => dice.pick(b"()\n \t\rrackdislefvh-+.RD"),
    }
}

/// Changes a text as a list of lines, each with its line feed.
fn with_lines(text: &mut Vec<u8>, change: impl FnOnce(&mut Vec<Vec<u8>>)) {
    let ended = text.split_inclusive(|&byte| byte == b'\n');
    let mut lines: Vec<Vec<u8>> = ended.map(<[u8]>::to_vec).collect();
    change(&mut lines);
    *text = lines.concat();
}

/// Puts another number in the place of one of the text's numbers, if it has any.
fn with_number(dice: &mut Dice, text: &mut Vec<u8>, new: impl FnOnce(&mut Dice, &str) -> String) {
    let start = dice.below(text.len());
    let digit = |at: &usize| text[*at].is_ascii_digit();
    let Some(first) = (start..text.len()).find(digit) else {
        return;
    };
    let before = (0..first).rev().take_while(digit).count();
    let first = first - before;
    let end = first + (first..text.len()).take_while(digit).count();
    let old = String::from_utf8_lossy(&text[first..end]).into_owned();
    text.splice(first..end, new(dice, &old).into_bytes());
}
