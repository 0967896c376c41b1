//! Transfers read back from printed pages, compared with those worked out plainly from the two plans, and apart
//! from the references, which the library is compared with.

use jugfjord::rack::Disk;
use jugfjord::reference::plan::{Plan, StoredCopy};
use jugfjord::reference::writer::text_of;

use crate::dice::Dice;
use crate::plans::set_marks;
use crate::racks::{disk, equal_rack};
use crate::tally::Tally;
use crate::transfers::folder;

/// A transfer by its destination and its film, then its source and its round.
type Transfer = [u32; 4];

/// The transfers by document 02, in its order.
fn transfers_of(old: &Plan, new: &Plan) -> Vec<Transfer> {
    let mut placed: Vec<Transfer> = Vec::new();
    for (to, copies) in (1..).zip(&new.disks) {
        let mut films: Vec<u32> = copies.iter().map(|copy| copy.film).collect();
        films.sort_unstable();
        films.retain(|&film| !holders(old, film).contains(&to));
        for film in films {
            let from = holders(old, film).first().copied().unwrap_or(0);
            let touches =
                |other: &&Transfer| [other[0], other[2]].iter().any(|e| [to, from].contains(e));
            let busy: Vec<u32> = placed.iter().filter(touches).map(|one| one[3]).collect();
            let round = (1..).find(|round| !busy.contains(round)).expect("a round");
            placed.push([to, film, from, round]);
        }
    }
    placed
}

/// The disks of a plan that have the film, ascending.
fn holders(plan: &Plan, film: u32) -> Vec<u32> {
    let disks = (1..).zip(&plan.disks);
    let holds = |copies: &[StoredCopy]| copies.iter().any(|copy| copy.film == film);
    disks
        .filter(|(_, copies)| holds(copies))
        .map(|(number, _)| number)
        .collect()
}

/// The transfers that the rows of a page have, in 02's order.
fn transfers_on(rows: &[&str]) -> Vec<Transfer> {
    let mut all = Vec::new();
    let mut round = 0;
    for row in rows {
        assert!(row.len() < 80 && row.trim_end() == *row, "{row:?}");
        let (columns, between) = row.split_at(29);
        if let Some((number, loaded)) = columns.trim().split_once("  ") {
            assert_eq!(number, (round + 1).to_string());
            round += 1;
            if let Some((film, to)) = loaded.trim().split_once(" to disk ") {
                all.push([number_of(to), number_of(film), 0, round]);
            }
        }
        for words in between.split("  ").filter(|words| words.contains(':')) {
            let (film, way) = words.trim().split_once(": disk ").expect("a film");
            let (from, to) = way.split_once(" to disk ").expect("two disks");
            all.push([number_of(to), number_of(film), number_of(from), round]);
        }
    }
    all.sort_unstable();
    all
}

fn number_of(word: &str) -> u32 {
    word.parse().expect("a number")
}

/// What stands above the rows: the sums, without the ends of lines.
fn sums(transfers: &[Transfer]) -> String {
    let things = |count: usize, one: &str, many: &str| match count {
        1 => format!("1 {one}"),
        _ => format!("{count} {many}"),
    };
    let rounds = transfers.iter().map(|one| one[3]).max().unwrap_or(0);
    let copies = things(transfers.len(), "copy", "copies");
    let rounds = things(rounds as usize, "round", "rounds");
    let source = |from: u32| {
        let count = transfers.iter().filter(|one| one[2] == from).count();
        let name = match from {
            0 => "the loader".into(),
            _ => format!("disk {from}"),
        };
        (count > 0).then(|| format!("{count} from {name}"))
    };
    let sources: Vec<String> = (0..=8).filter_map(source).collect();
    format!("{copies} to load in {rounds} {}", sources.join(", "))
}

/// Asserts that the page is of these two plans.
fn assert_page_is_of(old: &Plan, new: &Plan, page: &str) {
    let transfers = transfers_of(old, new);
    let mut parts = page.split("\n\n");
    let head = parts.next().expect("sums");
    assert!(head.lines().all(|line| line.len() < 80), "{head}");
    if transfers.is_empty() {
        assert!(page.starts_with("nothing to copy: "), "{page}");
        assert_eq!(page.lines().count(), 1);
        return;
    }
    let head: Vec<&str> = head.lines().collect();
    assert_eq!(head.join(" "), sums(&transfers));
    let rows: Vec<&str> = parts.next().expect("rounds").lines().skip(1).collect();
    assert_eq!(transfers_on(&rows), transfers);
    assert_eq!(parts.next(), None);
}

/// A rack of 1 to 8 disks, equal or with one large disk.
fn rack(dice: &mut Dice) -> Vec<Disk> {
    let count = dice.pick(&[1, 2, 3, 5, 6, 8, 8, 8]);
    let slots = dice.pick(&[1, 2, 4, 16]);
    let mut rack = equal_rack(count, slots, 3 * slots);
    if dice.one_in(2) {
        let at = dice.below(rack.len());
        rack[at] = disk(2 * slots, 6 * slots);
    }
    rack
}

/// A plan of this rack with films from 1 to the last. Some copies have a viewer.
fn plan(dice: &mut Dice, rack: &[Disk], last: u32) -> Plan {
    let mut copies = |disk: &Disk| {
        let mut films: Vec<u32> = (0..disk.slots.0).map(|_| dice.within(1, last)).collect();
        films.sort_unstable();
        films.dedup();
        dice.shuffle(&mut films);
        let copy = |film| (film, dice.within(0, 1)).into();
        films.into_iter().map(copy).collect()
    };
    let disks = rack.iter().map(&mut copies).collect();
    let rack = rack.to_vec();
    let left = Vec::new();
    let mut plan = Plan { rack, disks, left };
    set_marks(dice, &mut plan);
    plan
}

#[test]
fn random_transfers_can_be_taken_back_from_their_pages() {
    let mut dice = Dice::new(18);
    let mut tally = Tally::new("the transfers of the command");
    for _ in 0..400 {
        let rack = rack(&mut dice);
        let last = dice.pick(&[1, 4, 8, 40, 100, 65_535]);
        let (old, new) = (plan(&mut dice, &rack, last), plan(&mut dice, &rack, last));
        let ran = folder(&text_of(&old), &text_of(&new)).run(&["transfers", "old.txt", "new.txt"]);
        assert_page_is_of(&old, &new, ran.printed());
        let transfers = transfers_of(&old, &new);
        tally.count_met(&[
            ("nothing to copy", transfers.is_empty()),
            ("from the loader", transfers.iter().any(|one| one[2] == 0)),
            ("between disks", transfers.iter().any(|one| one[2] > 0)),
            (
                "a round on two lines",
                ran.out.contains(&format!("\n{}", " ".repeat(29))),
            ),
            ("sums on more than two lines", ran.out.contains(",\n")),
        ]);
    }
    tally.close(&[
        ("nothing to copy", 20),
        ("from the loader", 150),
        ("between disks", 150),
        ("a round on two lines", 20),
        ("sums on more than two lines", 20),
    ]);
}
