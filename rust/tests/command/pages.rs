//! Pages of plans taken back: what a page says of each film and each disk, beside the plan.

use std::collections::BTreeMap;
use std::num::NonZeroU32;

use jugfjord::rack::Disk;
use jugfjord::reference::plan::{viewers, Plan, StoredCopy};

/// What a plan or a page has of one film.
#[derive(Debug, Default, PartialEq, Eq)]
struct Film {
    served: u64,
    /// None where the film has no copy and nobody is expected to watch it.
    left: Option<u64>,
    /// Disks with the viewers there, and whether the copy is marked.
    copies: Vec<(u32, u32, bool)>,
}

/// All films by number.
type Films = BTreeMap<u32, Film>;

/// What the plan has of each film.
fn films_of(plan: &Plan) -> Films {
    let mut films = stored_films(plan);
    for &(film, amount) in &plan.left {
        let film = films.entry(film).or_default();
        let is_shown = amount > 0 || !film.copies.is_empty();
        film.left = is_shown.then_some(amount.into());
    }
    films
}

/// What the disks of the plan have of each film.
fn stored_films(plan: &Plan) -> Films {
    let mut films = Films::new();
    let disks = (1..).zip(&plan.disks);
    let copies = disks.flat_map(|(disk, copies)| copies.iter().map(move |copy| (disk, copy)));
    for (disk, copy) in copies {
        let film = films.entry(copy.film).or_default();
        film.served += u64::from(copy.viewers);
        film.left = Some(0);
        film.copies.push((disk, copy.viewers, copy.is_held));
    }
    films
}

/// What a page's rows say of each film.
fn films_on<'a>(rows: impl Iterator<Item = &'a str>) -> Films {
    let mut films = Films::new();
    let mut film = 0;
    for row in rows {
        let row = row.replace("no slot", "-");
        let (copies, columns): (Vec<&str>, Vec<&str>) = row
            .split_whitespace()
            .filter(|word| *word != "none")
            .partition(|word| word.contains(':'));
        if let [number, served, left] = columns[..] {
            film = number.parse().expect("a film");
            let shown = Film {
                served: served.parse().expect("a number"),
                left: left.parse().ok(),
                copies: Vec::new(),
            };
            films.insert(film, shown);
        }
        let film = films.get_mut(&film).expect("a film");
        film.copies.extend(copies.into_iter().map(copy_on));
    }
    films
}

/// The disk and the viewers of a copy as a page has it, and whether it is marked.
fn copy_on(copy: &str) -> (u32, u32, bool) {
    let (disk, viewers) = copy.split_once(':').expect("a copy");
    let (viewers, is_held) = match viewers.strip_suffix('*') {
        Some(viewers) => (viewers, true),
        None => (viewers, false),
    };
    let viewers = match viewers {
        "shelf" => 0,
        _ => viewers.parse::<NonZeroU32>().expect("viewers").get(),
    };
    (disk.parse().expect("a disk"), viewers, is_held)
}

/// Asserts that a page has every film and every disk of the plan, in lines of one shape, and
/// counts its shelf films and its marks.
pub fn assert_page_is_of(plan: &Plan, page: &str) {
    assert!(
        page.lines()
            .all(|line| line.len() < 80 && line.trim_end() == line),
        "{page}"
    );
    let films = films_of(plan);
    let mut parts = page.split("\n\n");
    assert_eq!(parts.next(), Some(rack_sentence(&plan.rack).as_str()));
    if !films.is_empty() {
        let rows = parts.next().expect("films").lines().skip(1);
        assert_eq!(films_on(rows), films);
    }
    assert_disks(plan, parts.next().expect("disks").lines().skip(1).collect());
    let closing = parts.next().expect("sums");
    assert_held(plan, closing);
    assert_shelf(&films, closing);
}

/// What a page says of a rack, but for the plural of one.
fn rack_sentence(rack: &[Disk]) -> String {
    let sum = |number: fn(&Disk) -> u32| rack.iter().map(number).sum::<u32>();
    let (slots, streams) = (sum(|disk| disk.slots.0), sum(|disk| disk.streams.0));
    let count = rack.len();
    let words = if rack.iter().all(|disk| *disk == rack[0]) {
        let (slots, streams) = (slots / count as u32, streams / count as u32);
        format!("{count} disks, each with {slots} slots and {streams} streams")
    } else {
        format!("{count} unequal disks, in all with {slots} slots and {streams} streams")
    };
    ["disk", "slot", "stream"]
        .iter()
        .fold(words, |words, thing| {
            let (many, one) = (format!(" {thing}s"), format!(" {thing}"));
            let words = words.replace(&format!(" 1{many}"), &format!(" 1{one}"));
            match words.strip_prefix(&format!("1{many}")) {
                Some(rest) => format!("1{one}{rest}"),
                None => words,
            }
        })
}

/// Asserts that these rows have every disk of the plan.
fn assert_disks(plan: &Plan, disks: Vec<&str>) {
    assert_eq!(disks.len(), plan.disks.len());
    let has_marks = plan.disks.iter().any(|copies| held(copies) > 0);
    for (at, row) in disks.iter().enumerate() {
        let (copies, number) = (&plan.disks[at], at + 1);
        let Disk { slots, streams } = plan.rack[at];
        let words: Vec<&str> = row.split_whitespace().collect();
        let used = viewers(copies);
        let count = copies.len();
        let expected = format!("{number} {count} of {} {used} of {}", slots.0, streams.0);
        assert_eq!(words[..7].join(" "), expected);
        let marks = match has_marks {
            true => vec![held(copies).to_string(), "held".into()],
            false => vec![],
        };
        assert_eq!(words[8..], marks);
        assert_eq!(row.len(), disks[0].len());
    }
}

/// How many of the copies are marked.
fn held(copies: &[StoredCopy]) -> usize {
    copies.iter().filter(|copy| copy.is_held).count()
}

/// Asserts that the last sentence below the tables counts the marks, if there are any.
fn assert_held(plan: &Plan, closing: &str) {
    let copies = plan.disks.concat();
    let counts = format!("{} of {} ", held(&copies), copies.len());
    let mut lines = closing
        .lines()
        .map(|line| line.contains("need not be copied"));
    let is_counted = lines.next_back() == Some(true);
    assert_eq!(is_counted, held(&copies) > 0, "{counts:?}, {closing}");
    assert!(!lines.any(|is_said| is_said), "{closing}");
    let last = closing.lines().last().expect("a line");
    assert!(!is_counted || last.starts_with(&counts), "{closing}");
}

/// Asserts that the sentences below the tables count the shelf films, if there are any.
fn assert_shelf(films: &Films, closing: &str) {
    let count = |is_such: fn(&&Film) -> bool| films.values().filter(is_such).count();
    let stored = count(|film| film.served == 0 && film.left == Some(0));
    let others = count(|film| film.left.is_none());
    let counts = format!(": {stored} stored, {others} without a slot");
    let is_counted = closing.lines().any(|line| line.ends_with(&counts));
    assert_eq!(is_counted, stored + others > 0, "{counts:?}, {closing}");
    assert_eq!(closing.contains("nobody"), is_counted, "{closing}");
}
