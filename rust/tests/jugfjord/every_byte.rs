//! Damage at every byte of some texts, through all readers.

use jugfjord::rack::Disk;
use jugfjord::reference::plan::Plan;
use jugfjord::reference::reader::plan_of;
use jugfjord::reference::writer::text_of;

use crate::cases::{TEXT_A, TEXT_MIXED};
use crate::dice::Dice;
use crate::reading::{check, Case, Lent};
use crate::tally::Tally;

const SHORT_TEXTS: [&str; 9] = [
    TEXT_A,
    TEXT_MIXED,
    "(rack 1 2 5)\n(disk 1 (7 4))\n(left (3 9))\n(served 4 9)\n",
    "(rack 2 1 2)\n(disk 1)\n(disk 2)\n(left)\n(served 0 0)\n",
    "(rack 3 2 65535)
(disk 1 (65535 65534) (1 1))
(disk 2)
(disk 3 (100 90))
(left (1 1000000) (100 10) (65535 999999))
(served 65625 2000009)
",
    "(rack 10 3 70)
(disk 1)
(disk 2 (65535 60) (9 10))
(disk 3)
(disk 4)
(disk 5)
(disk 6)
(disk 7)
(disk 8)
(disk 9)
(disk 10 (10 0) (11 1) (12 0))
(left (9 0) (10 1000000))
(served 71 1000000)
",
    "(mixed (10 50) (1 5) (10 50) (32 160))
(disk 1 (7 0))
(disk 2 (65535 5))
(disk 3)
(disk 4 (9 100) (10 60))
(left (9 1))
(served 165 1)
",
    "(rack 2 3 5)
(disk 1 (7 0 held) (8 1 held) (65535 4))
(disk 2 (1 0) (9 5 held))
(left (7 2))
(served 10 2)
",
    "(mixed (2 4) (1 2))
(disk 1 (65535 4 held))
(disk 2 (12 0 held))
(left)
(served 4 0)
",
];

/// Damages a text at a place. A changed byte differs in these bits.
type Damage = fn(&mut Vec<u8>, usize, u8);

/// Each damage, and how many changes of a byte it tries.
const DAMAGES: [(&str, u8, Damage); 6] = [
    ("byte replaced", 255, |text, at, bits| text[at] ^= bits),
    ("byte inserted", 255, |text, at, bits| {
        text.insert(at, text[at] ^ bits)
    }),
    ("byte deleted", 1, |text, at, _| {
        text.remove(at);
    }),
    ("byte doubled", 1, |text, at, _| text.insert(at, text[at])),
    ("text cut", 1, |text, at, _| text.truncate(at)),
    ("byte swapped with the next", 1, |text, at, _| {
        let next = (at + 1).min(text.len() - 1);
        text.swap(at, next);
    }),
];

#[test]
fn readers_agree_on_damage_at_every_byte() {
    let mut tally = Tally::new("damage at every byte");
    for text in SHORT_TEXTS {
        damage(text.as_bytes(), 1, 255, &mut tally);
    }
    damage(text_of(&Plan::largest()).as_bytes(), 211, 1, &mut tally);
    let mixed = text_of(&Plan::largest_mixed());
    damage(mixed.as_bytes(), 211, 1, &mut tally);
    let held = text_of(&Plan::largest_mixed().all_held());
    damage(held.as_bytes(), 211, 1, &mut tally);
    tally.close(&[
        ("damaged text", 300_000),
        ("byte replaced", 140_000),
        ("byte inserted", 140_000),
        ("byte deleted", 700),
        ("byte doubled", 700),
        ("text cut", 700),
        ("byte swapped with the next", 700),
        ("accepted", 1_000),
        ("accepted with 0 viewers", 100),
        ("accepted with amount 0", 100),
        ("accepted with marks", 300),
        ("accepted without a mark", 300),
        ("line of the rack", 20_000),
        ("unequal disks", 300),
        ("line of a disk", 10_000),
        ("line of the left films", 10_000),
        ("line of the sums", 10_000),
        ("line behind", 5),
    ]);
}

/// Does each damage to the text at every so many places, with at most so many changes.
fn damage(text: &[u8], step: usize, most: u8, tally: &mut Tally) {
    let plan = plan_of(text).expect("a text before its damage is right");
    // Such damage may make a right text of other slots, but none of more disks.
    let rack = vec![Disk::largest(); plan.rack.len()];
    let mut case = Case {
        text: Vec::new(),
        lent: Lent::met(&mut Dice::new(4), &rack, plan.left.len()),
        disks: rack.len() as u32,
    };
    for at in (0..text.len()).step_by(step) {
        for (name, changes, damage) in DAMAGES {
            for bits in 1..=changes.min(most) {
                case.text = text.to_vec();
                damage(&mut case.text, at, bits);
                tally.count("damaged text");
                tally.count(name);
                check(&case, tally);
            }
        }
    }
}
