//! Times the library beside plain Rust, and planning on unequal disks beside planning on equal
//! ones: same process, same input, alternating rounds. A ratio is the median over the rounds of
//! the first time by the second.

mod inputs;
mod timing;

use std::hint::black_box;

use inputs::{Input, RackPair, TextPair};
use jugfjord::ffi::{Planned, Transferred};
use jugfjord::rack::{records, Disk};
use jugfjord::reference::plan::Plan;
use jugfjord::reference::{self, fast_reader, fast_transfers, fast_writer, rolling};
use jugfjord::tables::{Entry, LentTables, OwnTables};
use jugfjord::transfers::{CountRow, Transfer, ENDS, MOST_TRANSFERS};
use jugfjord::wrap;
use timing::{compare, Comparison};

type Planner = fn(&[Disk], &[u8], LentTables) -> Planned;
type Finder = fn(&[u8], &[u8], &mut [Transfer], &mut [CountRow]) -> Transferred;

fn main() {
    println!("planning: library, Rust, ratio");
    for input in inputs::lists() {
        let sorting = plan_both(&input, rolling::plan);
        show_time(input.name, &sorting);
        let inserting = plan_both(&input, rolling::plan_by_insertion);
        show_time("  Rust builds its list by insertion", &inserting);
    }
    for racks in inputs::racks_of_equal_sums() {
        let RackPair { name, .. } = &racks;
        println!("planning on 64 unequal disks, on 64 equal ones, ratio: {name}");
        for input in inputs::lists() {
            show_time(input.name, &plan_unequal(&input, &racks, wrap::plan));
            show_time("  by Rust", &plan_unequal(&input, &racks, rolling::plan));
        }
    }
    for (disks, plan, length) in inputs::plans() {
        let text = inputs::text(&plan, length);
        println!("the largest plan of {disks}, {length} bytes: library, Rust, ratio");
        let mut tables = OwnTables::for_plan(&plan.rack, plan.left.len());
        plan.store(&mut tables.lend());
        show_speed("write", length, &write_both(&plan, &tables, &text));
        show_speed("read", length, &read_both(&plan, &tables, &text));
    }
    println!("256 transfers, 8 disks of 32 slots: library, Rust, ratio");
    for pair in inputs::text_pairs() {
        println!("  {}", pair.name);
        let fast = find_both(&pair, fast_transfers::transfers);
        show_time("  fast Rust, with sets as bits", &fast);
        let plain = find_both(&pair, reference::transfers::transfers);
        show_time("  plain, slow Rust by the words of 02", &plain);
    }
}

/// Checks that both planners make the same plan of the input, then times them.
fn plan_both(input: &Input, rival: Planner) -> Comparison {
    let rack = &input.rack;
    let list = records(&input.demands);
    let (mut ours, mut theirs) = (checked(rack, input, rival), checked(rack, input, rival));
    if input.slides {
        let first = |copy: &Entry| copy.film() == inputs::FIRST_FILM;
        assert!(!ours.copies.iter().any(first), "a disk did not slide");
    }
    compare(
        || wrap::plan(black_box(rack), black_box(&list), ours.lend()),
        || rival(black_box(rack), black_box(&list), theirs.lend()),
    )
}

/// Checks the plans of the input's list on unequal disks and on equal ones with the same sums, then
/// times one planner on both.
fn plan_unequal(input: &Input, racks: &RackPair, planner: Planner) -> Comparison {
    let list = records(&input.demands);
    let RackPair { unequal, equal, .. } = racks;
    let mut on_unequal = checked(unequal, input, rolling::plan);
    let mut on_equal = checked(equal, input, rolling::plan);
    compare(
        || planner(black_box(unequal), black_box(&list), on_unequal.lend()),
        || planner(black_box(equal), black_box(&list), on_equal.lend()),
    )
}

/// Tables with the library's plan of the input's list on this rack, which is also the rival's.
fn checked(rack: &[Disk], input: &Input, rival: Planner) -> OwnTables {
    let list = records(&input.demands);
    let fresh = || OwnTables::for_plan(rack, input.demands.len());
    let (mut ours, mut theirs) = (fresh(), fresh());
    let planned = wrap::plan(rack, &list, ours.lend());
    assert_eq!(planned, rival(rack, &list, theirs.lend()));
    assert_eq!(planned.number, 0);
    assert!(ours == theirs, "the tables differ");
    ours
}

/// Checks that both writers make this text, then times them.
fn write_both(plan: &Plan, tables: &OwnTables, text: &[u8]) -> Comparison {
    let (rack, left) = (plan.rack.as_slice(), plan.left.len() as u32);
    let (mut ours, mut theirs) = (vec![0; text.len()], vec![0; text.len()]);
    let written = wrap::write(rack, tables.view(), left, &mut ours);
    let rivals = fast_writer::write(rack, tables.view(), left, &mut theirs);
    assert_eq!(written, rivals);
    assert!(ours == text && theirs == text, "the texts differ");
    compare(
        || wrap::write(black_box(rack), tables.view(), left, &mut ours),
        || fast_writer::write(black_box(rack), tables.view(), left, &mut theirs),
    )
}

/// Checks that both readers fill this rack and these tables, then times them.
fn read_both(plan: &Plan, tables: &OwnTables, text: &[u8]) -> Comparison {
    let (mut ours, mut theirs) = (tables.clone(), tables.clone());
    for each in [&mut ours, &mut theirs] {
        each.copies.fill(Entry::new(7, 7));
        each.left.fill(Entry::new(7, 7));
    }
    let mut racks = [(); 2].map(|()| vec![Disk::default(); plan.rack.len()]);
    let [our_rack, their_rack] = &mut racks;
    let read = wrap::read(text, our_rack, ours.lend());
    assert_eq!(read, fast_reader::read(text, their_rack, theirs.lend()));
    assert!(&ours == tables && &theirs == tables, "the tables differ");
    assert!(our_rack == &plan.rack && their_rack == &plan.rack);
    compare(
        || wrap::read(black_box(text), our_rack, ours.lend()),
        || fast_reader::read(black_box(text), their_rack, theirs.lend()),
    )
}

/// Checks that both find the same transfers, as many as there may be, then times them.
fn find_both(pair: &TextPair, rival: Finder) -> Comparison {
    let TextPair { old, new, .. } = pair;
    let (mut our_list, mut our_counts) = ([Transfer::default(); MOST_TRANSFERS], [[7; ENDS]; ENDS]);
    let (mut their_list, mut their_counts) = (our_list, our_counts);
    let found = wrap::transfers(old, new, &mut our_list, &mut our_counts);
    let rivals = rival(old, new, &mut their_list, &mut their_counts);
    assert_eq!(found, rivals);
    assert_eq!((found.number, found.rounds), (0, pair.rounds));
    assert_eq!(found.transfers as usize, MOST_TRANSFERS);
    assert!(our_list == their_list, "the transfers differ");
    assert!(our_counts == their_counts, "the counts differ");
    let texts = || (black_box(&old[..]), black_box(&new[..]));
    compare(
        || wrap::transfers(texts().0, texts().1, &mut our_list, &mut our_counts),
        || rival(texts().0, texts().1, &mut their_list, &mut their_counts),
    )
}

fn show_time(name: &str, found: &Comparison) {
    let [ours, theirs] = found.seconds.map(|seconds| seconds * 1e6);
    println!(
        "  {name:44} {ours:8.1} us {theirs:8.1} us {:6.2}",
        found.ratio
    );
}

fn show_speed(name: &str, bytes: usize, found: &Comparison) {
    let [ours, theirs] = found.seconds.map(|seconds| bytes as f64 / seconds / 1e6);
    println!(
        "  {name:42} {ours:8.1} MB/s {theirs:6.1} MB/s {:6.2}",
        found.ratio
    );
}
