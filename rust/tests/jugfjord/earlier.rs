//! Texts of earlier plans for a list that is planned now: of the same films on the same disks or on
//! others, of any other plan, and damaged ones.

use std::iter;

use jugfjord::rack::{Disk, MOST_DEMAND, MOST_DISKS, MOST_SLOTS};
use jugfjord::reference::mixed_planner::plan_of;
use jugfjord::reference::plan::{Plan, StoredCopy};
use jugfjord::reference::writer::text_of;

use crate::damage::{fill_up, DAMAGES, LENGTHS};
use crate::dice::Dice;
use crate::lists::{demands, Case};
use crate::plans::{good, set_marks};
use crate::racks::{equal, mixed};
use crate::tally::Tally;

/// Makes a well-formed plan for a list that planning accepts.
type Earlier = fn(&mut Dice, &Case) -> Plan;

pub const EARLIER: [(&str, Earlier); 10] = [
    ("own plan", |_, case| own_plan(case)),
    ("own plan without viewers", |_, case| {
        let mut plan = own_plan(case);
        plan.disks
            .iter_mut()
            .flatten()
            .for_each(|copy| copy.viewers = 0);
        plan
    }),
    ("plan of a neighbouring list", neighbouring),
    ("own plan, disks exchanged", |dice, case| {
        let mut plan = roomy(own_plan(case));
        dice.shuffle(&mut plan.disks);
        plan
    }),
    ("own plan, fewer disks", |dice, case| {
        let mut plan = own_plan(case);
        let disks = dice.below(plan.rack.len()).max(1);
        plan.rack.truncate(disks);
        plan.disks.truncate(disks);
        plan
    }),
    ("own plan, more disks", |dice, case| {
        let mut plan = roomy(own_plan(case));
        while plan.rack.len() < MOST_DISKS as usize && !dice.one_in(3) {
            plan.rack.push(Disk::largest());
            plan.disks.push(some_films(dice, case));
        }
        plan
    }),
    ("some of the films on some disks", |dice, case| {
        let disks = dice.within(1, 8) as usize;
        let copies = iter::repeat_with(|| some_films(dice, case));
        Plan {
            disks: copies.take(disks).collect(),
            rack: vec![Disk::largest(); disks],
            left: Vec::new(),
        }
    }),
    ("left films alone", |_, case| {
        let mut left = demands(&case.list);
        left.sort_unstable();
        Plan {
            disks: vec![Vec::new(); case.rack.len()],
            rack: case.rack.clone(),
            left,
        }
    }),
    ("any plan of equal disks", |dice, _| good(dice, equal)),
    ("any plan of unequal disks", |dice, _| good(dice, mixed)),
];

/// What may be done to the text of such a plan.
pub const TEXTS: [&str; 4] = ["empty text", "text filled up", "text damaged", "text whole"];

/// The text of some earlier plan, with marks or without, at times damaged.
pub fn random_text(dice: &mut Dice, case: &Case, tally: &mut Tally) -> Vec<u8> {
    let (name, make) = dice.pick(&EARLIER);
    let mut plan = make(dice, case);
    set_marks(dice, &mut plan);
    tally.count(name);
    let mut text = text_of(&plan).into_bytes();
    damage_at_times(dice, &mut text, tally);
    text
}

/// Leaves most texts whole, and empties, fills up or damages the others.
pub fn damage_at_times(dice: &mut Dice, text: &mut Vec<u8>, tally: &mut Tally) {
    let done = match dice.below(60) {
        0 => 0,
        1 | 2 => 1,
        3..=12 => 2,
        _ => 3,
    };
    match done {
        0 => text.clear(),
        1 => {
            let length = dice.pick(&LENGTHS);
            fill_up(dice, text, length);
        }
        2 => dice.pick(&DAMAGES).1(dice, text),
        _ => {}
    }
    tally.count(TEXTS[done]);
}

/// The plan of the list itself.
fn own_plan(case: &Case) -> Plan {
    plan_of(&case.rack, &demands(&case.list))
}

/// The plan of a list with other demands for some films, and at times without some film.
fn neighbouring(dice: &mut Dice, case: &Case) -> Plan {
    let mut demands = demands(&case.list);
    for _ in 0..dice.within(1, 3).min(demands.len() as u32) {
        let at = dice.below(demands.len());
        let demand = &mut demands[at].1;
        *demand = dice.within(0, 2 * *demand + 1).min(MOST_DEMAND);
    }
    if dice.one_in(2) {
        demands.pop();
    }
    plan_of(&case.rack, &demands)
}

/// The plan on as many of the largest disks, which hold any copies.
fn roomy(plan: Plan) -> Plan {
    Plan {
        rack: vec![Disk::largest(); plan.rack.len()],
        ..plan
    }
}

/// Copies of some films of the list, with few viewers or none.
fn some_films(dice: &mut Dice, case: &Case) -> Vec<StoredCopy> {
    let mut demands = demands(&case.list);
    demands.retain(|_| dice.one_in(2));
    demands.truncate(MOST_SLOTS as usize);
    let copy = |(film, _)| (film, dice.within(0, 2)).into();
    demands.into_iter().map(copy).collect()
}
