//! Cases A to I of document 01, with the values that stand there but for G, which document 02
//! changes, and further cases of shelf copies and of unequal disks, worked out by hand.

use jugfjord::ffi::{Planned, ReadPlan, Written};
use jugfjord::rack::{records, Disk};
use jugfjord::reference::plan::{unmarked, Pair, Plan};
use jugfjord::tables::{Entry, OwnTables};

use crate::racks::{disk, equal_rack as rack};
use crate::subjects::{PLANNERS, READERS, WRITERS};

pub const TEXT_A: &str = "(rack 3 4 6)
(disk 1 (8 1) (9 1) (10 1) (11 3))
(disk 2 (6 1) (7 1) (11 1) (12 3))
(disk 3 (3 1) (4 1) (5 1) (12 1))
(left (1 1) (2 1))
(served 16 2)
";

pub const LIST_A: [Pair; 12] = [
    (1, 1),
    (2, 1),
    (3, 1),
    (4, 1),
    (5, 1),
    (6, 1),
    (7, 1),
    (8, 1),
    (9, 1),
    (10, 1),
    (11, 4),
    (12, 4),
];

/// The text of the plan of unequal disks below.
pub const TEXT_MIXED: &str = "(mixed (4 8) (2 4))
(disk 1 (2 3) (3 5))
(disk 2 (1 3) (2 1))
(left)
(served 12 0)
";

/// Its list. Disk 2 is filled first, since it has fewer slots.
const LIST_MIXED: [Pair; 3] = [(1, 3), (2, 4), (3, 5)];

fn rack_mixed() -> Vec<Disk> {
    vec![disk(4, 8), disk(2, 4)]
}

/// Asserts what each planner makes of the list: copies, left films, S and U.
fn expect(rack: Vec<Disk>, list: &[Pair], disks: &[&[Pair]], left: &[Pair], sums: (u64, u64)) {
    let plan = Plan {
        rack: rack.clone(),
        disks: disks.iter().map(|copies| unmarked(copies)).collect(),
        left: left.to_vec(),
    };
    let mut stored = OwnTables::for_plan(&rack, list.len());
    plan.store(&mut stored.lend());
    let answer = Planned {
        served: sums.0,
        unserved: sums.1,
        left: left.len() as u32,
        ..Planned::default()
    };
    for (name, planner) in PLANNERS {
        let mut tables = OwnTables::for_plan(&rack, list.len());
        let planned = planner(&rack, &records(list), tables.lend());
        assert_eq!(planned, answer, "{name}");
        assert_eq!(tables, stored, "{name}");
    }
}

/// Asserts that each planner refuses the list and touches no table.
pub fn expect_refused(rack: &[Disk], list: &[Pair], number: u32, second: u32) {
    let answer = Planned {
        number,
        second,
        ..Planned::default()
    };
    for (name, planner) in PLANNERS {
        let mut tables = OwnTables {
            copies: vec![Entry::new(7, 8); 2_048],
            counts: vec![7; 64],
            left: vec![Entry::new(7, 8); 1_024],
        };
        let before = tables.clone();
        let planned = planner(rack, &records(list), tables.lend());
        assert_eq!(planned, answer, "{name}");
        assert_eq!(tables, before, "{name}");
    }
}

/// The plan of a list in its tables.
fn planned(rack: &[Disk], list: &[Pair]) -> OwnTables {
    let mut tables = OwnTables::for_plan(rack, list.len());
    let planner = PLANNERS[0].1;
    planner(rack, &records(list), tables.lend());
    tables
}

/// Asserts that each writer makes this text of the list's plan.
fn expect_written(rack: &[Disk], list: &[Pair], left: u32, expected: &str) {
    let tables = planned(rack, list);
    let answer = Written {
        length: expected.len() as u64,
        ..Written::default()
    };
    for (name, writer) in WRITERS {
        let mut text = vec![b'?'; expected.len() + 1];
        let written = writer(rack, tables.view(), left, &mut text);
        assert_eq!(written, answer, "{name}");
        assert_eq!(text, [expected.as_bytes(), b"?"].concat(), "{name}");
    }
}

/// Asserts that each reader makes the list's rack and plan of this text, with this answer.
fn expect_read(rack: &[Disk], list: &[Pair], text: &str, answer: ReadPlan) {
    for (name, reader) in READERS {
        let mut tables = OwnTables::for_plan(rack, list.len());
        let mut entries = vec![disk(7, 7); rack.len() + 1];
        let read = reader(text.as_bytes(), &mut entries, tables.lend());
        assert_eq!(read, answer, "{name}");
        assert_eq!(entries, [rack, &[disk(7, 7)]].concat(), "{name}");
        assert_eq!(tables, planned(rack, list), "{name}");
    }
}

#[test]
fn a_is_planned() {
    let disks: [&[Pair]; 3] = [
        &[(8, 1), (9, 1), (10, 1), (11, 3)],
        &[(6, 1), (7, 1), (11, 1), (12, 3)],
        &[(3, 1), (4, 1), (5, 1), (12, 1)],
    ];
    expect(rack(3, 4, 6), &LIST_A, &disks, &[(1, 1), (2, 1)], (16, 2));
}

#[test]
fn a_is_written() {
    expect_written(&rack(3, 4, 6), &LIST_A, 2, TEXT_A);
}

#[test]
fn a_is_read() {
    let answer = ReadPlan {
        number: 0,
        second: 0,
        disks: 3,
        left: 2,
        served: 16,
        unserved: 2,
    };
    expect_read(&rack(3, 4, 6), &LIST_A, TEXT_A, answer);
}

#[test]
fn b_no_list_gives_no_copies() {
    expect(rack(1, 2, 5), &[], &[&[]], &[], (0, 0));
}

#[test]
fn c_one_film_on_two_disks() {
    let disks: [&[Pair]; 2] = [&[(2, 2)], &[(2, 1)]];
    expect(rack(2, 1, 2), &[(1, 1), (2, 3)], &disks, &[(1, 1)], (3, 1));
}

#[test]
fn d_the_load_itself_fills_a_disk() {
    let list = [(1, 4), (2, 6), (3, 10)];
    let disks: [&[Pair]; 1] = [&[(1, 4), (2, 6)]];
    expect(rack(1, 3, 10), &list, &disks, &[(3, 10)], (10, 10));
}

#[test]
fn e_all_are_served() {
    let list = [(1, 3), (3, 4), (2, 13)];
    let disks: [&[Pair]; 2] = [&[(3, 4), (2, 6)], &[(1, 3), (2, 7)]];
    expect(rack(2, 2, 10), &list, &disks, &[], (20, 0));
}

#[test]
fn f_one_film_fills_both_disks() {
    let disks: [&[Pair]; 2] = [&[(9, 5)], &[(9, 5)]];
    let list = [(9, 1_000_000)];
    expect(rack(2, 2, 5), &list, &disks, &[(9, 999_990)], (10, 999_990));
}

#[test]
fn g_a_film_of_demand_0_has_a_shelf_copy() {
    let list = [(4, 0), (1, 2), (2, 3)];
    let disks: [&[Pair]; 1] = [&[(1, 2), (2, 3), (4, 0)]];
    expect(rack(1, 4, 9), &list, &disks, &[], (5, 0));
}

#[test]
fn h_ties_go_by_film_number() {
    let list = [(7, 5), (2, 5)];
    expect(rack(1, 1, 5), &list, &[&[(2, 5)]], &[(7, 5)], (5, 5));
}

#[test]
fn i_a_repeated_film_is_refused() {
    expect_refused(&rack(1, 1, 5), &[(5, 3), (5, 3)], 6, 2);
}

/// 65,534 and 1,000,000 in the opening films; 65,533 and 1,000,000 in a sliding window.
#[test]
fn the_largest_window_sums_are_planned() {
    let list = [(2, 1_000_000), (1, 65_534)];
    let disks: [&[Pair]; 1] = [&[(1, 65_534), (2, 1)]];
    let left = [(2, 999_999)];
    expect(rack(1, 2, 65_535), &list, &disks, &left, (65_535, 999_999));
    let list = [(2, 65_533), (3, 1_000_000), (1, 1)];
    let disks: [&[Pair]; 1] = [&[(2, 65_533), (3, 2)]];
    let left = [(1, 1), (3, 999_998)];
    expect(rack(1, 2, 65_535), &list, &disks, &left, (65_535, 999_999));
}

#[test]
fn a_film_of_demand_0_without_a_free_slot_is_left() {
    let list = [(7, 5), (2, 0)];
    expect(rack(1, 1, 5), &list, &[&[(7, 5)]], &[(2, 0)], (5, 0));
}

#[test]
fn shelf_copies_fill_the_lowest_disk_first() {
    let list = [(3, 0), (9, 5), (1, 0), (2, 0)];
    let disks: [&[Pair]; 2] = [&[(9, 5), (1, 0)], &[(2, 0), (3, 0)]];
    expect(rack(2, 2, 5), &list, &disks, &[], (5, 0));
}

#[test]
fn a_full_disk_gets_no_shelf_copy() {
    let list = [(4, 2), (5, 3), (6, 4), (1, 0)];
    let disks: [&[Pair]; 2] = [&[(4, 2), (5, 3)], &[(6, 4), (1, 0)]];
    expect(rack(2, 2, 5), &list, &disks, &[], (9, 0));
}

#[test]
fn disk_1_takes_two_shelf_copies_before_disk_2_takes_one() {
    let list = [(4, 8), (6, 8), (3, 0), (1, 0), (2, 0)];
    let disks: [&[Pair]; 2] = [&[(4, 5), (1, 0), (2, 0)], &[(4, 3), (6, 2), (3, 0)]];
    expect(rack(2, 3, 5), &list, &disks, &[(6, 6)], (10, 6));
}

#[test]
fn slots_that_stay_free_get_no_second_copies() {
    let disks: [&[Pair]; 2] = [&[(1, 2), (4, 0)], &[]];
    expect(rack(2, 2, 9), &[(4, 0), (1, 2)], &disks, &[], (2, 0));
}

#[test]
fn films_of_demand_0_alone_go_by_film_number() {
    let disks: [&[Pair]; 2] = [&[(1, 0)], &[(2, 0)]];
    let list = [(3, 0), (1, 0), (2, 0)];
    expect(rack(2, 1, 5), &list, &disks, &[(3, 0)], (0, 0));
    let list = [(8, 0), (6, 0), (4, 0)];
    let left = [(6, 0), (8, 0)];
    expect(rack(1, 1, 5), &list, &[&[(4, 0)]], &left, (0, 0));
}

#[test]
fn left_films_of_amount_0_stand_among_the_others() {
    let list = [(9, 2), (5, 0), (3, 5), (7, 1)];
    let left = [(3, 5), (5, 0), (9, 2)];
    expect(rack(1, 1, 1), &list, &[&[(7, 1)]], &left, (1, 7));
}

#[test]
fn the_disk_with_fewer_slots_is_filled_first() {
    let disks: [&[Pair]; 2] = [&[(2, 3), (3, 5)], &[(1, 3), (2, 1)]];
    expect(rack_mixed(), &LIST_MIXED, &disks, &[], (12, 0));
}

#[test]
fn unequal_disks_are_written() {
    expect_written(&rack_mixed(), &LIST_MIXED, 0, TEXT_MIXED);
}

#[test]
fn unequal_disks_are_read() {
    let answer = ReadPlan {
        disks: 2,
        served: 12,
        ..ReadPlan::default()
    };
    expect_read(&rack_mixed(), &LIST_MIXED, TEXT_MIXED, answer);
}

#[test]
fn disks_with_equal_slots_are_filled_by_number() {
    // Disk 1 takes two viewers of film 2, disk 3 two of film 3, and then disk 2 the rest.
    let rack = vec![disk(1, 2), disk(2, 4), disk(1, 2)];
    let list = [(1, 1), (2, 3), (3, 5)];
    let disks: [&[Pair]; 3] = [&[(2, 2)], &[(2, 1), (3, 3)], &[(3, 2)]];
    expect(rack, &list, &disks, &[(1, 1)], (8, 1));
}

#[test]
fn shelf_copies_go_by_number_whatever_the_slots() {
    let rack = vec![disk(2, 4), disk(1, 2)];
    let list = [(7, 0), (1, 2), (6, 0), (5, 0)];
    let disks: [&[Pair]; 2] = [&[(5, 0), (6, 0)], &[(1, 2)]];
    expect(rack.clone(), &list, &disks, &[(7, 0)], (2, 0));
    // Disk 2 has the fewest slots, and gets the last film.
    let list = [(7, 0), (6, 0), (5, 0)];
    let disks: [&[Pair]; 2] = [&[(5, 0), (6, 0)], &[(7, 0)]];
    expect(rack, &list, &disks, &[], (0, 0));
}

#[test]
fn copies_begin_after_the_slots_of_all_disks_before() {
    let rack = [disk(1, 3), disk(3, 9), disk(2, 6)];
    let list = records(&[(4, 3), (5, 6), (6, 9)]);
    for (name, planner) in PLANNERS {
        let mut tables = OwnTables {
            copies: vec![Entry::new(8, 8); 7],
            counts: vec![8; 4],
            left: vec![Entry::new(8, 8); 3],
        };
        assert_eq!(planner(&rack, &list, tables.lend()).served, 18, "{name}");
        // Disk 1 at place 0, disk 2 from 1 on, disk 3 from 4 on; place 6 is beyond.
        let copies = [(4, 3), (6, 9), (0, 0), (0, 0), (5, 6), (0, 0), (8, 8)];
        let copies = copies.map(|(film, viewers)| Entry::new(film, viewers));
        assert_eq!(tables.copies, copies, "{name}");
        assert_eq!(tables.counts, [1, 1, 1, 8], "{name}");
        assert_eq!(tables.left, [Entry::default(); 3], "{name}");
    }
}
