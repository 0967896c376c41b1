//! `jugfjord plan` and `jugfjord records`: the plan text of a list, and a list as records.

use jugfjord::rack::{
    Disk, Rack, MOST_BYTES, MOST_DISKS, MOST_RECORDS, MOST_SLOTS, MOST_STREAMS, RECORD,
    TERMINAL_DISKS, TERMINAL_RECORDS,
};
use jugfjord::refusal::Refusal;
use jugfjord::tables::OwnTables;
use jugfjord::wrap;

use crate::arguments::Arguments;
use crate::failure::Failure;
use crate::list::{List, ListRack};
use crate::plan_file::PlanFile;
use crate::standard::Source;

/// Who plans: the office, with the earlier plan that was given or without one, or the purser's
/// terminal.
enum Planner<'a> {
    Office(Option<PlanFile<'a>>),
    Terminal,
}

/// The plan text of the list, with marks where an earlier plan is given.
pub fn plan(arguments: &Arguments) -> Result<Vec<u8>, Failure> {
    let earlier = arguments.file_of("--after");
    let on_terminal = arguments.has("--terminal");
    if on_terminal && earlier.is_some() {
        return Err(Failure::usage(
            "plan expects no --after with --terminal",
            "plan",
        ));
    }
    let list = List::asked(arguments)?;
    let planner = if on_terminal {
        Planner::Terminal
    } else {
        Planner::Office(earlier.map(PlanFile::read).transpose()?)
    };
    plan_text(&list, &planner).map_err(|refusal| match (refusal.number, &planner) {
        (8 | 9, Planner::Office(Some(earlier))) => earlier.refused(refusal),
        _ => {
            let at = place(arguments.file(0), &list, refusal);
            Failure::refused(format!("{at}: {}", explained(&list, refusal)))
        }
    })
}

/// The list as the bytes that `plan` reads.
pub fn records(arguments: &Arguments) -> Result<Vec<u8>, Failure> {
    let source = arguments.file(0);
    let list = List::from_file(source)?;
    list.to_records().map_err(|other| {
        let at = at_line(source, disk_line(&list, other));
        let disk = other + 1;
        let words = format!("records have equal disks alone, and disk {disk} is not as disk 1");
        Failure::not_done(format!("{at}: {words}"))
    })
}

/// The text that the library writes of the plan that it makes.
fn plan_text(list: &List, planner: &Planner) -> Result<Vec<u8>, Refusal> {
    let (rack, records) = (list.rack.entries(), &list.records);
    let numbered = |refusal| numbered(list, refusal);
    let mut tables = match planner {
        Planner::Office(_) => OwnTables::for_any_plan(),
        Planner::Terminal => OwnTables::for_terminal(),
    };
    let lent = tables.lend();
    let planned = match planner {
        Planner::Office(Some(earlier)) => wrap::plan_after(&rack, records, &earlier.text, lent),
        Planner::Office(None) => wrap::plan(&rack, records, lent),
        Planner::Terminal => wrap::plan_terminal(&rack, records, lent),
    };
    let left = planned.accepted().map_err(numbered)?.left;
    let mut text = vec![0; MOST_BYTES];
    let written = wrap::write(&rack, tables.view(), left, &mut text).accepted();
    text.truncate(written.map_err(numbered)?.length as usize);
    Ok(text)
}

/// The refusal by its number for this list: 12 is 1 for a rack by three numbers, as in `plan`.
fn numbered(list: &List, refusal: Refusal) -> Refusal {
    match (&list.rack, refusal.number) {
        (ListRack::Equal(_), 12) => Refusal::plain(1),
        _ => refusal,
    }
}

/// The file with the line that a refusal is about, if there is one.
fn place(source: &Source, list: &List, refusal: Refusal) -> String {
    let record_line = |record: usize| {
        let lines = list.lines.as_ref()?;
        lines.records.get(record).copied()
    };
    let line = match refusal.number {
        1 => disk_line(list, 0),
        3 => record_line(MOST_RECORDS),
        4..=6 | 16 => record_line(second_of(refusal)),
        12 => disk_line(list, out_of_range_disk(&list.rack.entries())),
        13 => disk_line(list, second_of(refusal)),
        17 => match (too_many_disks(list), &list.rack) {
            (None, _) => record_line(TERMINAL_RECORDS),
            (Some(_), ListRack::Equal(_)) => disk_line(list, 0),
            (Some(_), ListRack::Disks(_)) => disk_line(list, TERMINAL_DISKS),
        },
        _ => None,
    };
    at_line(source, line)
}

/// The line of a disk, from 0, or the line of the rack.
fn disk_line(list: &List, disk: usize) -> Option<usize> {
    let lines = list.lines.as_ref()?;
    lines.rack.get(disk).copied()
}

/// The file with a line, if there is one.
fn at_line(source: &Source, line: Option<usize>) -> String {
    match line {
        Some(line) => source.line(line),
        None => source.name(),
    }
}

/// The record or the disk of a refusal, from 0.
fn second_of(refusal: Refusal) -> usize {
    (refusal.second as usize).saturating_sub(1)
}

/// The first disk, from 0, that is out of range or one too many.
fn out_of_range_disk(rack: &[Disk]) -> usize {
    let most = MOST_DISKS as usize;
    let first = rack.iter().position(|disk| !disk.in_range());
    first.map_or(most, |first| first.min(most))
}

/// The refusal in words, with the value in the list that it is about.
fn explained(list: &List, refusal: Refusal) -> String {
    let record = second_of(refusal);
    let value = match refusal.number {
        1 | 12 | 13 => return format!("{} {}", wrong_rack(list, refusal), refusal.numbers()),
        17 => return format!("{} {}", too_large(list), refusal.numbers()),
        2 => Some(list.records.len() as u64),
        4 | 6 | 16 => list.films().nth(record).map(u64::from),
        5 => list.demands().nth(record).map(u64::from),
        _ => None,
    };
    let words = match value {
        Some(value) => refusal.about(value),
        None => refusal.to_string(),
    };
    match refusal.number {
        6 => format!("{words}, first in {}", first(list, record)),
        _ => words,
    }
}

/// What is wrong with the rack.
fn wrong_rack(list: &List, refusal: Refusal) -> String {
    match &list.rack {
        ListRack::Equal(rack) => rack_out_of_range(*rack),
        ListRack::Disks(disks) if refusal.number == 13 => {
            other_ratio(disks[second_of(refusal)], disks[0])
        }
        ListRack::Disks(disks) => disk_out_of_range(disks),
    }
}

/// How many disks there are, if they are more than the purser's terminal takes.
fn too_many_disks(list: &List) -> Option<usize> {
    let disks = list.rack.entries().len();
    (disks > TERMINAL_DISKS).then_some(disks)
}

/// Of what there is more than the purser's terminal takes: of disks, else of records.
fn too_large(list: &List) -> String {
    let records = list.records.len() / RECORD;
    match too_many_disks(list) {
        Some(disks) => {
            format!("the rack has {disks} disks, more than the terminal's {TERMINAL_DISKS}")
        }
        None => {
            format!("the list has {records} records, more than the terminal's {TERMINAL_RECORDS}")
        }
    }
}

/// Which numbers of the rack are out of which range.
fn rack_out_of_range(rack: Rack) -> String {
    out_of_range(&[
        ("disks", rack.disks, MOST_DISKS),
        ("slots", rack.slots.0, MOST_SLOTS),
        ("streams", rack.streams.0, MOST_STREAMS),
    ])
}

/// Which numbers of the first such disk are out of which range, or that there are too many disks.
fn disk_out_of_range(disks: &[Disk]) -> String {
    let at = out_of_range_disk(disks);
    match disks.get(at) {
        Some(disk) if at < MOST_DISKS as usize => {
            let words = out_of_range(&[
                ("slots", disk.slots.0, MOST_SLOTS),
                ("streams", disk.streams.0, MOST_STREAMS),
            ]);
            format!("disk {}: {words}", at + 1)
        }
        _ => format!("the rack has more than {MOST_DISKS} disks"),
    }
}

/// That a disk has another ratio than the first one.
fn other_ratio(disk: Disk, first: Disk) -> String {
    let (slots, streams) = (disk.slots.0, disk.streams.0);
    let (one, other) = (first.streams.0, first.slots.0);
    format!("{streams} streams to {slots} slots is not the ratio of disk 1, {one} to {other}")
}

/// Which numbers are out of which range: each with its name and the most that it may be.
fn out_of_range(numbers: &[(&str, u32, u32)]) -> String {
    let outside = numbers
        .iter()
        .filter(|(_, value, most)| !(1..=*most).contains(value));
    let words = outside.map(|(name, value, most)| format!("{name} {value} is outside 1 to {most}"));
    words.collect::<Vec<_>>().join(", ")
}

/// Where the film of this record, from 0, stands first.
fn first(list: &List, record: usize) -> String {
    let film = list.films().nth(record);
    let first = list.films().position(|earlier| Some(earlier) == film);
    let first = first.unwrap_or(record);
    match &list.lines {
        Some(lines) => format!("line {}", lines.records[first]),
        None => format!("record {}", first + 1),
    }
}
