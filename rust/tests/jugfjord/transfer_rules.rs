//! What document 02 says of transfers, rule by rule, of an answer and the two texts.

use jugfjord::ffi::Transferred;
use jugfjord::transfers::{CountRow, Transfer, ENDS, LOADER};

/// The films of each disk of a text, that of disk 1 first, read off its lines.
pub fn films_by_disk(text: &str) -> Vec<Vec<u32>> {
    let disks = text.lines().filter(|line| line.starts_with("(disk "));
    let film = |form: &str| {
        let end = form.find(' ').expect("a film and its viewers");
        form[..end].parse().expect("a film")
    };
    let films = |line: &str| line.split(" (").skip(1).map(film).collect();
    disks.map(films).collect()
}

/// Whether a transfer has this end.
fn touches(transfer: &Transfer, end: u32) -> bool {
    transfer.source() == end || transfer.destination() == end
}

/// Whether two transfers have an end in common.
fn meet(one: &Transfer, other: &Transfer) -> bool {
    touches(one, other.source()) || touches(one, other.destination())
}

/// The most transfers that touch one disk or the loader.
pub fn most_at_one_end(transfers: &[Transfer]) -> usize {
    let touching = |end| transfers.iter().filter(|t| touches(t, end)).count();
    (0..ENDS as u32).map(touching).max().unwrap_or(0)
}

/// Asserts every rule of an accepted call's answer, list and table.
pub fn check(old: &str, new: &str, answer: &Transferred, list: &[Transfer], counts: &[CountRow]) {
    let (old, new) = (films_by_disk(old), films_by_disk(new));
    let transfers = &list[..answer.transfers as usize];
    check_copies(&old, &new, transfers);
    check_sources(&old, transfers);
    check_rounds(transfers);
    check_last_round(answer, transfers);
    check_counts(transfers, &counts[..ENDS]);
}

/// One transfer for each new copy whose film the old plan has not on the same disk, by ascending
/// destination, then film.
fn check_copies(old: &[Vec<u32>], new: &[Vec<u32>], transfers: &[Transfer]) {
    let mut due = Vec::new();
    for (number, (held, films)) in (1..).zip(old.iter().zip(new)) {
        let missing = films.iter().filter(|film| !held.contains(film));
        let mut missing: Vec<u32> = missing.copied().collect();
        missing.sort_unstable();
        due.extend(missing.into_iter().map(|film| (number, film)));
    }
    let found = transfers.iter().map(|t| (t.destination(), t.film()));
    assert_eq!(found.collect::<Vec<_>>(), due);
}

/// The source holds the film in the old plan and no lower disk does, or it is the loader and no disk
/// does.
fn check_sources(old: &[Vec<u32>], transfers: &[Transfer]) {
    for transfer in transfers {
        let film = transfer.film();
        let source = transfer.source() as usize;
        let lower = match transfer.source() {
            LOADER => old,
            _ => {
                assert!(old[source - 1].contains(&film), "{transfer:?}");
                &old[..source - 1]
            }
        };
        let is_lower = lower.iter().any(|films| films.contains(&film));
        assert!(!is_lower, "{transfer:?} has a lower source");
    }
}

/// Rounds are counted from 1. In one round each end takes part once, and in each round before a
/// transfer's own one of its ends takes part in a transfer placed before.
fn check_rounds(transfers: &[Transfer]) {
    for (at, transfer) in transfers.iter().enumerate() {
        let before = &transfers[..at];
        let is_taken = |round| {
            before
                .iter()
                .any(|other| other.round() == round && meet(other, transfer))
        };
        assert!(transfer.round() >= 1, "{transfer:?} is in round 0");
        assert!(!is_taken(transfer.round()), "{transfer:?} meets another");
        let is_earliest = (1..transfer.round()).all(is_taken);
        assert!(is_earliest, "{transfer:?} has an earlier round free");
    }
}

/// The answer has the largest round, which with d transfers at one end is at most 2d - 1.
fn check_last_round(answer: &Transferred, transfers: &[Transfer]) {
    let rounds = transfers.iter().map(|transfer| transfer.round());
    assert_eq!(answer.rounds, rounds.max().unwrap_or(0));
    let most = most_at_one_end(transfers) as u32;
    assert_eq!(most == 0, answer.rounds == 0);
    assert!(most == 0 || answer.rounds < 2 * most, "{transfers:?}");
}

/// Each transfer is counted once, in the row of its source and the column of its destination.
fn check_counts(transfers: &[Transfer], counts: &[CountRow]) {
    let mut open = counts.to_vec();
    for transfer in transfers {
        let count = &mut open[transfer.source() as usize][transfer.destination() as usize];
        assert!(*count > 0, "{transfer:?} is not counted in {counts:?}");
        *count -= 1;
    }
    assert_eq!(open, [[0; ENDS]; ENDS]);
    let sum: u32 = counts.iter().flatten().sum();
    assert_eq!(sum as usize, transfers.len());
}
