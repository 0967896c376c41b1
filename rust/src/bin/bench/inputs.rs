//! What is planned, written, read and moved from disk to disk.

use jugfjord::rack::{places, Disk, Rack, Slots, Streams, MOST_DISKS, MOST_RECORDS, MOST_SLOTS};
use jugfjord::reference::plan::{Pair, Plan};
use jugfjord::reference::writer::text_of;
use jugfjord::transfers::MOST_TRANSFER_DISKS;

/// A list for planning.
pub struct Input {
    pub name: &'static str,
    pub rack: Vec<Disk>,
    pub demands: Vec<Pair>,
    /// Whether no disk may take its window from the front of the list.
    pub slides: bool,
}

/// The film that stays at the front of the list as long as every disk slides.
pub const FIRST_FILM: u32 = 1;

pub fn lists() -> [Input; 4] {
    let rack = |slots| Rack::new(MOST_DISKS, Slots(slots), Streams(500)).entries();
    [
        Input {
            name: "trial list, 512 films, total 32,000, seed 1",
            rack: rack(32),
            demands: trial_list(512, 32_000, 1),
            slides: false,
        },
        Input {
            name: "trial list, and 512 films of demand 0",
            rack: rack(32),
            demands: trial_list_with_shelf_films(),
            slides: false,
        },
        Input {
            name: "1,024 equal demands",
            rack: rack(32),
            demands: (1..=1_024).map(|film| (film, 31)).collect(),
            slides: false,
        },
        Input {
            name: "1,024 records, sliding on every disk",
            rack: rack(8),
            demands: sliding_list(),
            slides: true,
        },
    ]
}

/// Small and large disks by turns, 64 of them, and 64 equal ones with the same slots and streams in
/// sum.
pub struct RackPair {
    pub name: &'static str,
    pub unequal: Vec<Disk>,
    pub equal: Vec<Disk>,
}

pub fn racks_of_equal_sums() -> [RackPair; 2] {
    let disk = |slots, streams| Disk::new(Slots(slots), Streams(streams));
    let racks = |name, [large, small]: [Disk; 2], middle| RackPair {
        name,
        unequal: [large, small].repeat(MOST_DISKS as usize / 2),
        equal: vec![middle; MOST_DISKS as usize],
    };
    let pairs = [
        racks(
            "(30 300) and (10 100), (20 200)",
            [disk(30, 300), disk(10, 100)],
            disk(20, 200),
        ),
        racks(
            "(24 750) and (8 250), (16 500)",
            [disk(24, 750), disk(8, 250)],
            disk(16, 500),
        ),
    ];
    let streams = |rack: &[Disk]| rack.iter().map(|disk| disk.streams.0).sum::<u32>();
    for RackPair { unequal, equal, .. } in &pairs {
        assert_eq!(places(unequal), places(equal));
        assert_eq!(streams(unequal), streams(equal));
    }
    pairs
}

/// Zipf-like demands in order of rank, for films shuffled by a xorshift generator.
fn trial_list(count: u32, total: u64, seed: u32) -> Vec<Pair> {
    let weight = |rank: u32| u64::from(1_048_576 / rank);
    let all: u64 = (1..=count).map(weight).sum();
    let mut films: Vec<u32> = (1..=count).collect();
    let mut value = seed;
    for place in (2..=count).rev() {
        value ^= value << 13;
        value ^= value >> 17;
        value ^= value << 5;
        films.swap(place as usize - 1, (value % place) as usize);
    }
    let demand = |rank| (total * weight(rank) / all) as u32;
    films.into_iter().zip((1..=count).map(demand)).collect()
}

/// The trial list of 512 films, each with a film of demand 0 behind it.
fn trial_list_with_shelf_films() -> Vec<Pair> {
    let shelf_films = (513..=1_024).map(|film| (film, 0));
    let both = trial_list(512, 32_000, 1).into_iter().zip(shelf_films);
    both.flat_map(|(wanted, shelf)| [wanted, shelf]).collect()
}

/// Few films above the load behind many of demand 1. Each window ends at a large film, and
/// takes at most seven small ones.
fn sliding_list() -> Vec<Pair> {
    let demand = |film| if film <= 960 { 1 } else { 600 };
    (FIRST_FILM..=1_024)
        .map(|film| (film, demand(film)))
        .collect()
}

/// The largest plans of equal and of unequal disks without marks, with the length that their
/// texts have by the limits of documents 01 and 02.
pub fn plans() -> [(&'static str, Plan, usize); 2] {
    [
        ("equal disks", Plan::largest(), 43_885),
        ("unequal disks", Plan::largest_mixed(), 44_565),
    ]
}

/// The text of a plan, which has this length.
pub fn text(plan: &Plan, length: usize) -> Vec<u8> {
    let text = text_of(plan).into_bytes();
    assert_eq!(text.len(), length);
    text
}

/// An old and a new text with as many transfers as there may be, and their rounds.
pub struct TextPair {
    pub name: &'static str,
    pub old: Vec<u8>,
    pub new: Vec<u8>,
    pub rounds: u32,
}

/// The largest racks whose transfers are found, every slot full and nothing in common on any disk.
/// The loader takes part in all transfers or in none, and the texts name no left films or the most.
pub fn text_pairs() -> [TextPair; 4] {
    let films = |first: u32| -> Vec<Vec<u32>> {
        let of_disk = |disk: u32| (0..MOST_SLOTS).map(move |slot| first + MOST_SLOTS * disk + slot);
        let disks = 0..MOST_TRANSFER_DISKS as u32;
        disks.map(|disk| of_disk(disk).rev().collect()).collect()
    };
    let (old, others) = (films(10_000), films(20_000));
    let mut moved = old.clone();
    moved.rotate_right(1);
    let spread = spread_over_others(&old);
    let pair = |name, new: &[Vec<u32>], left, rounds| TextPair {
        name,
        old: full_text(&old, left),
        new: full_text(new, left),
        rounds,
    };
    [
        pair("every film from the loader", &others, 0, 256),
        pair("every film moves to the next disk", &moved, 0, 64),
        pair("the same, and 1,024 left films", &moved, MOST_RECORDS, 64),
        pair(
            "every film moves, from each disk to all others",
            &spread,
            0,
            65,
        ),
    ]
}

/// The films of each disk on the other disks in turn.
fn spread_over_others(films: &[Vec<u32>]) -> Vec<Vec<u32>> {
    let disks = films.len();
    let mut spread = vec![Vec::new(); disks];
    for (disk, films) in films.iter().enumerate() {
        for (slot, &film) in films.iter().rev().enumerate() {
            spread[(disk + 1 + slot % (disks - 1)) % disks].push(film);
        }
    }
    spread
}

/// The text of a plan with a copy in each slot of large disks, each with 1,000 viewers, and so many
/// left films.
fn full_text(films: &[Vec<u32>], left: usize) -> Vec<u8> {
    let copies = |films: &Vec<u32>| {
        let copies = films.iter().map(|&film| (film, 1_000).into());
        copies.collect()
    };
    let plan = Plan {
        rack: vec![Disk::largest(); films.len()],
        disks: films.iter().map(copies).collect(),
        left: (10_000..).map(|film| (film, 1)).take(left).collect(),
    };
    text_of(&plan).into_bytes()
}

#[cfg(test)]
mod tests {
    use super::trial_list;

    #[test]
    fn trial_lists_are_as_described() {
        let list = trial_list(512, 32_000, 1);
        let sum: u32 = list.iter().map(|(_, demand)| demand).sum();
        let mut films: Vec<u32> = list.iter().map(|(film, _)| *film).collect();
        films.sort_unstable();
        assert!(films.into_iter().eq(1..=512));
        // Worked out apart from this program.
        assert_eq!(sum, 31_745);
        assert_eq!(list[..2], [(330, 4_694), (493, 2_347)]);
        assert_eq!(list[510..], [(263, 9), (34, 9)]);
    }
}
