//! `jugfjord transfers`: what to copy from an old plan to a new one, round by round, for the person
//! who loads the rack.

use std::iter;

use jugfjord::ffi::Transferred;
use jugfjord::refusal::Refusal;
use jugfjord::transfers::{CountRow, Transfer, ENDS, LOADER, MOST_TRANSFERS, MOST_TRANSFER_DISKS};
use jugfjord::wrap;

use crate::arguments::Arguments;
use crate::failure::Failure;
use crate::page::{counted, in_lines, Page, Row, Titles, GAP};
use crate::plan_file::PlanFile;
use crate::standard;
use crate::words::shown;

const TITLES: Titles<2> = (["round", "film from the loader"], "films between disks");
/// How many transfers between disks a line has room for.
const A_LINE: usize = 2;
/// Stands where nothing is copied.
const NOTHING: &str = "-";

/// The transfers from the first plan text to the second, for people.
pub fn transfers(arguments: &Arguments) -> Result<Vec<u8>, Failure> {
    let old = PlanFile::read(arguments.file(0))?;
    let new = PlanFile::read(arguments.file(1))?;
    let mut list = [Transfer::default(); MOST_TRANSFERS];
    let mut counts = [[0; ENDS]; ENDS];
    let found = wrap::transfers(&old.text, &new.text, &mut list, &mut counts).accepted();
    let found = found.map_err(|refusal| refused(&old, &new, refusal))?;
    let mut page = Page::new(standard::may_be_coloured());
    page.sentence(&summary(&found, &counts));
    page.table(TITLES, rows(&list[..found.transfers as usize]));
    Ok(page.into_bytes())
}

/// How much there is to copy, in how many rounds, and how much of it from where.
fn summary(found: &Transferred, counts: &[CountRow; ENDS]) -> String {
    let copies = match found.transfers {
        0 => return "nothing to copy: each disk has all its films already".into(),
        1 => "1 copy".into(),
        number => format!("{number} copies"),
    };
    let rounds = counted(found.rounds, "round");
    let sums = counts.iter().map(|row| row.iter().sum::<u32>());
    let sources = (LOADER..).zip(sums).filter(|(_, sum)| *sum > 0);
    let sources = sources.map(|(source, sum)| match source {
        LOADER => format!("{sum} from the loader"),
        disk => format!("{sum} from disk {disk}"),
    });
    format!("{copies} to load in {rounds}\n{}", in_lines(sources))
}

/// The rows of all rounds. Each round up to the last has a transfer.
fn rows(list: &[Transfer]) -> Vec<Row<2>> {
    let others = list.iter().filter(|transfer| transfer.source() != LOADER);
    let films = others.map(|transfer| transfer.film().to_string().len());
    let width = films.max().unwrap_or(0);
    let last = list.iter().map(|transfer| transfer.round()).max();
    let rounds = 1..=last.unwrap_or(0);
    let in_round = |round| {
        let transfers = list.iter().copied();
        transfers.filter(move |transfer| transfer.round() == round)
    };
    rounds
        .flat_map(|round| rows_of(round, in_round(round).collect(), width))
        .collect()
}

/// A round's row, and one more for each further line of its transfers between disks. Films have so
/// many characters there.
fn rows_of(round: u32, transfers: Vec<Transfer>, width: usize) -> impl Iterator<Item = Row<2>> {
    let (loaded, others): (Vec<Transfer>, Vec<Transfer>) = transfers
        .into_iter()
        .partition(|transfer| transfer.source() == LOADER);
    let first = [round.to_string(), from_loader(&loaded)];
    let columns = iter::once(first).chain(iter::repeat_with(Default::default));
    let row = |(columns, detail)| Row {
        columns,
        detail,
        in_colour: false,
    };
    columns.zip(between_disks(&others, width)).map(row)
}

/// The transfer from the loader, if there is one: a round has one at most.
fn from_loader(transfers: &[Transfer]) -> String {
    let shown = |transfer: &Transfer| {
        let (film, disk) = (transfer.film(), transfer.destination());
        format!("{film} to disk {disk}")
    };
    transfers.first().map_or(NOTHING.into(), shown)
}

/// The transfers between disks, in lines.
fn between_disks(transfers: &[Transfer], width: usize) -> Vec<String> {
    let shown = |transfer: &Transfer| {
        let (film, source) = (transfer.film(), transfer.source());
        let destination = transfer.destination();
        format!("{film:>width$}: disk {source} to disk {destination}")
    };
    let shown: Vec<String> = transfers.iter().map(shown).collect();
    match transfers {
        [] => vec![NOTHING.into()],
        _ => shown.chunks(A_LINE).map(|some| some.join(GAP)).collect(),
    }
}

/// The failure of texts that are refused, with the file that it belongs to.
fn refused(old: &PlanFile, new: &PlanFile, refusal: Refusal) -> Failure {
    let old_judged = wrap::judge(&old.text);
    match refusal.number {
        8 | 9 if old_judged.number == 0 => new.refused(refusal),
        14 if old_judged.disks as usize > MOST_TRANSFER_DISKS => too_many_disks(old, refusal),
        14 => too_many_disks(new, refusal),
        15 => other_first_line(old, new, refusal),
        _ => old.refused(refusal),
    }
}

/// The failure of a text whose rack has too many disks.
fn too_many_disks(file: &PlanFile, refusal: Refusal) -> Failure {
    let (at, numbers) = (file.source.line(1), refusal.numbers());
    let disks = wrap::judge(&file.text).disks;
    Failure::refused(format!(
        "{at}: the rack has {disks} disks, more than {MOST_TRANSFER_DISKS} {numbers}"
    ))
}

/// The failure of two texts whose first lines differ. Both are shown whole: long ones may differ in
/// their last disk alone.
fn other_first_line(old: &PlanFile, new: &PlanFile, refusal: Refusal) -> Failure {
    let names = [old, new].map(|file| file.source.name()).join(" and ");
    let lines = [old, new].map(|file| format!("'{}'", shown(file.first_line())));
    let (lines, numbers) = (lines.join(" and "), refusal.numbers());
    Failure::refused(format!(
        "{names}: the first lines differ {numbers}: {lines}"
    ))
}
