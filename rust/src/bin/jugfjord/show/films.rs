//! A plan by film: what is served, what is left, and the copies.

use std::collections::BTreeMap;
use std::iter;

use jugfjord::rack::Disk;
use jugfjord::tables::TablesView;

use super::disks;
use crate::page::{Row, Titles, GAP};

pub const TITLES: Titles<3> = (["film", "served", "left"], "disk:viewers");

/// The width of a line of copies. With the numbers before it a row has at most 79 characters.
const WIDTH: usize = 54;
/// Stands in the place of a copy's viewers where it has none.
const SHELF: &str = "shelf";
/// Stands in the place of what is left where a film has no copy and no viewers are left.
const NO_SLOT: &str = "no slot";
/// Stands behind the viewers of a copy that need not be copied.
pub const HELD: &str = "*";

/// A film's copy: the disk, the viewers there, and whether the disk held it before.
struct Stored {
    disk: u32,
    viewers: u32,
    is_held: bool,
}

impl Stored {
    /// The viewers and the mark, as they are shown.
    fn shown(&self) -> String {
        let viewers = match self.viewers {
            0 => SHELF.into(),
            viewers => viewers.to_string(),
        };
        let mark = if self.is_held { HELD } else { "" };
        viewers + mark
    }
}

/// What a plan has of one film.
#[derive(Default)]
pub struct Film {
    copies: Vec<Stored>,
    left: u32,
}

/// The films of a plan, by number.
pub type Films = BTreeMap<u32, Film>;

impl Film {
    /// The viewers of all copies.
    fn served(&self) -> u32 {
        self.copies.iter().map(|copy| copy.viewers).sum()
    }

    /// Whether it is on some disk.
    pub fn is_stored(&self) -> bool {
        !self.copies.is_empty()
    }

    /// Whether viewers are left.
    pub fn has_left(&self) -> bool {
        self.left > 0
    }

    /// Whether nobody is expected to watch it.
    pub fn is_shelf_film(&self) -> bool {
        self.served() == 0 && !self.has_left()
    }

    /// What is left, as it is shown.
    fn shown_left(&self) -> String {
        if self.is_stored() || self.has_left() {
            self.left.to_string()
        } else {
            NO_SLOT.into()
        }
    }
}

/// The rows of all films.
pub fn rows(films: &Films) -> Vec<Row<3>> {
    let copies = || films.values().flat_map(|film| &film.copies);
    let disk = widest(copies().map(|copy| copy.disk.to_string()));
    let viewers = widest(copies().map(Stored::shown));
    let rows = |(&number, film): (&u32, &Film)| {
        rows_of(number, film, copy_lines(&film.copies, disk, viewers))
    };
    films.iter().flat_map(rows).collect()
}

/// What the plan has of each film, with so many left films.
pub fn gather(rack: &[Disk], tables: &TablesView, left: u32) -> Films {
    let mut films = Films::new();
    let left = tables.left[..left as usize].iter();
    left.for_each(|entry| films.entry(entry.film()).or_default().left = entry.amount());
    let disks = disks::copies(rack, tables);
    let copies = disks.flat_map(|(disk, copies)| copies.iter().map(move |copy| (disk, copy)));
    for (disk, copy) in copies {
        let film = films.entry(copy.film()).or_default();
        film.copies.push(Stored {
            disk,
            viewers: copy.amount(),
            is_held: copy.mark() == 1,
        });
    }
    films
}

/// How many characters the longest of the words has.
fn widest(words: impl Iterator<Item = String>) -> usize {
    words.map(|word| word.len()).max().unwrap_or(0)
}

/// The copies in lines, each with so many characters for its disk and for its viewers.
fn copy_lines(copies: &[Stored], disk: usize, viewers: usize) -> Vec<String> {
    let shown = |copy: &Stored| {
        let (number, shown) = (copy.disk, copy.shown());
        format!("{number:>disk$}:{shown:<viewers$}")
    };
    let shown: Vec<String> = copies.iter().map(shown).collect();
    let a_line = (WIDTH + GAP.len()) / (disk + 1 + viewers + GAP.len());
    match copies {
        [] => vec!["none".into()],
        _ => shown.chunks(a_line).map(|some| some.join(GAP)).collect(),
    }
}

/// A film's row, and one more for each further line of its copies.
fn rows_of(number: u32, film: &Film, copy_lines: Vec<String>) -> impl Iterator<Item = Row<3>> {
    let first = [
        number.to_string(),
        film.served().to_string(),
        film.shown_left(),
    ];
    let columns = iter::once(first).chain(iter::repeat_with(Default::default));
    let in_colour = film.has_left() || !film.is_stored();
    let row = move |(columns, detail)| Row {
        columns,
        detail,
        in_colour,
    };
    columns.zip(copy_lines).map(row)
}
