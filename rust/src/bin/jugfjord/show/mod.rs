//! `jugfjord show`: a plan for people, by film and by disk.

mod disks;
mod films;

use jugfjord::ffi::ReadPlan;
use jugfjord::rack::{places, Disk, MOST_DISKS};
use jugfjord::tables::{OwnTables, TablesView};
use jugfjord::wrap;

use crate::arguments::Arguments;
use crate::failure::Failure;
use crate::page::{counted, Page, WIDTH};
use crate::plan_file::PlanFile;
use crate::standard;
use films::{Film, Films, HELD};

/// The plan of a text, for people.
pub fn show(arguments: &Arguments) -> Result<Vec<u8>, Failure> {
    let file = PlanFile::read(arguments.file(0))?;
    let mut rack = [Disk::default(); MOST_DISKS as usize];
    let mut tables = OwnTables::for_any_plan();
    let read = wrap::read(&file.text, &mut rack, tables.lend()).accepted();
    let plan = read.map_err(|refusal| file.refused(refusal))?;
    let rack = &rack[..plan.disks as usize];
    let films = films::gather(rack, &tables.view(), plan.left);
    let mut page = Page::new(standard::may_be_coloured());
    page.sentence(&rack_words(rack));
    page.table(films::TITLES, films::rows(&films));
    page.table(disks::TITLES, disks::rows(rack, &tables.view()));
    let held = held(rack, &tables.view());
    page.sentence(&(sums(&plan, &films) + &shelf(&films) + &held));
    Ok(page.into_bytes())
}

/// The rack in words: what each disk has, or what unequal disks have in all.
fn rack_words(rack: &[Disk]) -> String {
    let Disk { slots, streams } = rack[0];
    let count = rack.len() as u64;
    if rack.iter().all(|&disk| disk == rack[0]) {
        let disks = counted(count, "disk");
        let slots = counted(slots.0, "slot");
        let streams = counted(streams.0, "stream");
        format!("{disks}, each with {slots} and {streams}")
    } else {
        let slots = counted(places(rack) as u64, "slot");
        let streams = rack
            .iter()
            .map(|disk| u64::from(disk.streams.0))
            .sum::<u64>();
        let streams = counted(streams, "stream");
        format!("{count} unequal disks, in all with {slots} and {streams}")
    }
}

/// S and U in words, with the share served in per cent, rounded down.
fn sums(plan: &ReadPlan, films: &Films) -> String {
    let wanted = plan.served + plan.unserved;
    if wanted == 0 {
        let left = if plan.left == 0 {
            ", and none is left"
        } else {
            ""
        };
        return format!("no film has viewers{left}");
    }
    let hundredths = plan.served * 10_000 / wanted;
    let share = format!("{}.{:02} %", hundredths / 100, hundredths % 100);
    let wanted = counted(wanted, "viewer");
    let served = format!("served {} of {wanted}, {share}", plan.served);
    match count(films, Film::has_left) {
        0 => served,
        films => joined(&served, &left(plan.unserved, films)),
    }
}

/// A line below the sums on the films that nobody is expected to watch, if there are any.
fn shelf(films: &Films) -> String {
    let stored = count(films, |film| film.is_shelf_film() && film.is_stored());
    let others = count(films, |film| film.is_shelf_film() && !film.is_stored());
    match stored + others {
        0 => String::new(),
        all => format!(
            "\nnobody is expected to watch {}: {stored} stored, {others} without a slot",
            counted(all, "shelf film")
        ),
    }
}

/// A line below the others on the copies that need not be copied, if there are any.
fn held(rack: &[Disk], tables: &TablesView) -> String {
    let held: usize = disks::copies(rack, tables)
        .map(|(_, copies)| disks::held(copies))
        .sum();
    let all: u32 = tables.counts[..rack.len()].iter().sum();
    let copies = if all == 1 { "copy" } else { "copies" };
    match held {
        0 => String::new(),
        _ => format!("\n{held} of {all} {copies} need not be copied (marked {HELD})"),
    }
}

/// How many films are such.
fn count(films: &Films, is_such: impl Fn(&Film) -> bool) -> u64 {
    films.values().filter(|film| is_such(film)).count() as u64
}

/// What is left, in words.
fn left(unserved: u64, films: u64) -> String {
    let verb = if unserved == 1 { "is" } else { "are" };
    let (viewers, films) = (counted(unserved, "viewer"), counted(films, "film"));
    format!("{viewers} of {films} {verb} left")
}

/// Two parts of a sentence, on two lines where they are too long for one.
fn joined(first: &str, second: &str) -> String {
    let one = format!("{first}; {second}");
    if one.len() > WIDTH {
        format!("{first};\n{second}")
    } else {
        one
    }
}
