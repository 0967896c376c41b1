//! Random lists, right and wrong: as a list file, as records, and by the plain planners.

use jugfjord::rack::{Disk, Rack, MOST_DISKS, MOST_SLOTS, MOST_STREAMS, RECORD};
use jugfjord::refusal::Refusal;

use crate::dice::Dice;
use crate::folder::{mixed_text, plan_input, rack, reference_text, Folder, Ran};
use crate::lists::{good, FAULTS, KINDS};
use crate::racks::{equal, mixed, three_numbers, WRONG_RACKS};

const LISTS: usize = 300;

#[test]
fn a_list_file_and_its_records_have_the_plan_of_the_reference() {
    let mut dice = Dice::new(9);
    let folder = Folder::new();
    let mut refused = 0;
    for _ in 0..LISTS {
        let entries = equal(&mut dice);
        let list = random_list(&mut dice, &entries);
        let rack = three_numbers(&entries).expect("equal disks");
        let rack = if dice.one_in(8) {
            bad_rack(&mut dice, rack)
        } else {
            rack
        };
        folder.write("list.txt", list_file(&mut dice, rack_lines(rack), &list));
        let listed = folder.run(&["records", "list.txt"]);
        listed.printed();
        assert_eq!(listed.bytes[12..], list);
        folder.write("list.bin", &listed.bytes);
        let plans = [
            &["plan", "list.txt"][..],
            &["plan", "--records", "list.bin"],
        ];
        let plans = plans.map(|arguments| folder.run(arguments));
        refused += usize::from(plans[0].status.code() == Some(1));
        let expected = reference_text(rack, &list);
        plans.iter().for_each(|plan| compare(plan, &expected));
    }
    assert!((50..250).contains(&refused), "{refused} refused");
}

#[test]
fn a_list_file_of_disks_has_the_plan_of_the_reference() {
    let mut dice = Dice::new(13);
    let folder = Folder::new();
    let mut met = [0; 17];
    for turn in 0..LISTS {
        let mut rack = [mixed, mixed, equal][turn % 3](&mut dice);
        let list = random_list(&mut dice, &rack);
        if dice.one_in(3) {
            let (name, _, wrong) = dice.pick(&WRONG_RACKS);
            // A list without disks is no list file.
            if name != "no disk" {
                wrong(&mut dice, &mut rack);
            }
        }
        folder.write("list.txt", list_file(&mut dice, disk_lines(&rack), &list));
        let expected = mixed_text(&rack, &list);
        met[expected
            .as_ref()
            .err()
            .map_or(0, |refusal| refusal.number as usize)] += 1;
        compare(&folder.run(&["plan", "list.txt"]), &expected);
        compare_records(&folder.run(&["records", "list.txt"]), &rack, &list);
    }
    let racks = [met[0], met[12], met[13]];
    assert!(racks.iter().all(|&met| met > 10), "{met:?}");
    assert!(met[16] > 5, "{met:?}");
}

/// Asserts that a run printed the records of equal disks, or failed.
fn compare_records(ran: &Ran, rack: &[Disk], list: &[u8]) {
    match three_numbers(rack) {
        Some(Rack {
            disks,
            slots,
            streams,
        }) => {
            ran.printed();
            let head = plan_input(crate::folder::rack(disks, slots.0, streams.0), &[]);
            assert_eq!(ran.bytes, [&head, list].concat());
        }
        None => {
            assert_eq!((ran.status.code(), ran.out.as_str()), (Some(2), ""));
            assert!(ran.err.contains("equal disks alone"), "{}", ran.err);
        }
    }
}

/// The bytes of a list of whole records for a rack, at times with a fault.
fn random_list(dice: &mut Dice, rack: &[Disk]) -> Vec<u8> {
    let (_, kind) = dice.pick(&KINDS);
    let (mut case, need) = good(dice, rack.to_vec(), kind);
    if dice.one_in(2) {
        let (_, fault) = dice.pick(&FAULTS);
        fault(dice, &mut case, need);
    }
    let whole = case.list.len() / RECORD * RECORD;
    case.list.truncate(whole);
    case.list
}

/// Puts one number of the rack out of its range.
fn bad_rack(dice: &mut Dice, old: Rack) -> Rack {
    let mut numbers = [old.disks, old.slots.0, old.streams.0];
    let most = [MOST_DISKS, MOST_SLOTS, MOST_STREAMS];
    let at = dice.below(3);
    numbers[at] = dice.pick(&[0, most[at] + 1, 1 << 31, u32::MAX]);
    rack(numbers[0], numbers[1], numbers[2])
}

/// The fields of a rack line.
pub fn rack_lines(rack: Rack) -> Vec<Vec<String>> {
    let sizes = [rack.disks, rack.slots.0, rack.streams.0].map(|size| size.to_string());
    vec![[&["rack".to_string()], &sizes[..]].concat()]
}

/// The fields of the lines of all disks.
pub fn disk_lines(rack: &[Disk]) -> Vec<Vec<String>> {
    let sizes = |disk: &Disk| [disk.slots.0, disk.streams.0].map(|size| size.to_string());
    let line = |disk: &Disk| [&["disk".to_string()], &sizes(disk)[..]].concat();
    rack.iter().map(line).collect()
}

/// A list file of a rack's lines and the list, with separators, line ends, comments and padding at
/// random.
pub fn list_file(dice: &mut Dice, rack: Vec<Vec<String>>, list: &[u8]) -> String {
    let numbers = list
        .chunks(4)
        .map(|bytes| bytes.try_into().expect("four bytes"));
    let numbers: Vec<String> = numbers
        .map(|bytes| u32::from_le_bytes(bytes).to_string())
        .collect();
    let rack = rack.iter().map(Vec::as_slice);
    let lines = rack.chain(numbers.chunks(2));
    let start = dice.pick(&["", "\u{feff}", "# list\n", "\r\n,,\n"]);
    lines.fold(start.to_string(), |file, fields| {
        let gap = dice.pick(&[" ", "\t", ",", ";", " , ", "   ", "\t;"]);
        let end = dice.pick(&["\n", "\r\n", " # x\n", ",,\r\n", "\n\n", ";#\r\n;;\n"]);
        file + &fields.join(gap) + end
    })
}

/// Asserts that a run printed the plan of the reference, or said its refusal.
pub fn compare(plan: &Ran, expected: &Result<String, Refusal>) {
    match expected {
        Ok(text) => assert_eq!(plan.printed(), text),
        Err(refusal) => {
            let numbers = refusal.numbers();
            assert!(plan.err.contains(&numbers), "{} and {numbers}", plan.err);
            assert_eq!(plan.err.matches('\n').count(), 1);
            assert_eq!((plan.status.code(), plan.out.as_str()), (Some(1), ""));
        }
    }
}
