//! A fast writer: one pass judges the plan and adds up the length, one pass writes.

use super::fast_rack;
use crate::ffi::Written;
use crate::rack::{places, Disk, LAST_FILM, MOST_DEMAND, MOST_RECORDS};
use crate::refusal::Refusal;
use crate::tables::{Entry, Tables, TablesView};

/// What stands behind the viewers of a marked copy.
const HELD: &[u8] = b" held";

/// What a pass over the plan found.
struct Sums {
    served: u64,
    unserved: u64,
    /// The bytes of all pairs.
    length: usize,
}

/// Writes the text of the plan in the tables, with so many left films.
pub fn write(rack: &[Disk], tables: TablesView, left: u32, text: &mut [u8]) -> Written {
    attempt(rack, tables, left as usize, text).unwrap_or_else(Written::from)
}

fn attempt(
    rack: &[Disk],
    tables: TablesView,
    left: usize,
    text: &mut [u8],
) -> Result<Written, Refusal> {
    fast_rack::judge(rack)?;
    Refusal::unless(tables.hold(rack, left), 7)?;
    let tables = Tables {
        copies: &tables.copies[..places(rack)],
        counts: &tables.counts[..rack.len()],
        left: &tables.left[..left],
    };
    let sums = judge(rack, &tables).ok_or(Refusal::plain(10))?;
    let length = length(rack, &sums);
    let space = text.get_mut(..length).ok_or(Refusal::plain(11))?;
    put_plan(rack, &tables, &sums, Pen { space, at: 0 });
    Ok(Written {
        length: length as u64,
        ..Written::default()
    })
}

/// Tests the plan and adds it up. Nothing where it is not well formed.
fn judge(rack: &[Disk], tables: &TablesView) -> Option<Sums> {
    let mut sums = Sums {
        served: 0,
        unserved: 0,
        length: 0,
    };
    // For each film the last disk that holds it.
    let mut holder = vec![0u8; LAST_FILM as usize + 1];
    for (number, (disk, places, count)) in (1..).zip(disks(rack, tables)) {
        let (copies, free) = places.split_at_checked(count as usize)?;
        let mut load = 0;
        for &copy in copies {
            let (film, viewers) = (copy.film(), copy.amount());
            let last = &mut holder[film as usize];
            if film == 0 || *last == number || copy.mark() > 1 {
                return None;
            }
            *last = number;
            load += u64::from(viewers);
            sums.length += pair_length(film, viewers) + HELD.len() * copy.mark() as usize;
        }
        if load > u64::from(disk.streams.0) || free.iter().any(|&place| place != Entry::default()) {
            return None;
        }
        sums.served += load;
    }
    judge_left(tables, &mut sums)?;
    Some(sums)
}

/// Each disk with its places and its count.
fn disks<'a>(
    rack: &'a [Disk],
    tables: &TablesView<'a>,
) -> impl Iterator<Item = (Disk, &'a [Entry], u32)> {
    let mut rest = tables.copies;
    rack.iter().zip(tables.counts).map(move |(&disk, &count)| {
        let (places, behind) = rest.split_at(disk.slots.0 as usize);
        rest = behind;
        (disk, places, count)
    })
}

fn judge_left(tables: &TablesView, sums: &mut Sums) -> Option<()> {
    if tables.left.len() > MOST_RECORDS {
        return None;
    }
    let mut previous = 0;
    for &entry in tables.left {
        let (film, amount) = (entry.unmarked_film(), entry.amount());
        if film <= previous || film > LAST_FILM || amount > MOST_DEMAND {
            return None;
        }
        previous = film;
        sums.unserved += u64::from(amount);
        sums.length += pair_length(film, amount);
    }
    Some(())
}

/// How many digits a number has. No number of a plan reaches 2^32.
fn digits(number: u32) -> usize {
    number.checked_ilog10().map_or(1, |log| log as usize + 1)
}

/// A space, two brackets, a space between the numbers.
fn pair_length(film: u32, amount: u32) -> usize {
    digits(film) + digits(amount) + 4
}

/// The length of the whole text.
fn length(rack: &[Disk], sums: &Sums) -> usize {
    let disk_digits: usize = (1..=rack.len() as u32).map(digits).sum();
    let sum_digits = digits(sums.served as u32) + digits(sums.unserved as u32);
    "(left)\n(served  )\n".len()
        + "(disk )\n".len() * rack.len()
        + first_line_length(rack)
        + disk_digits
        + sum_digits
        + sums.length
}

/// The length of the first line with its end.
fn first_line_length(rack: &[Disk]) -> usize {
    let pair = |disk: &Disk| pair_length(disk.slots.0, disk.streams.0);
    if fast_rack::is_equal(rack) {
        // The number of disks and a space, and a pair without its brackets.
        "(rack )\n".len() + digits(rack.len() as u32) + pair(&rack[0]) - 2
    } else {
        "(mixed)\n".len() + rack.iter().map(pair).sum::<usize>()
    }
}

fn put_plan(rack: &[Disk], tables: &TablesView, sums: &Sums, mut pen: Pen) {
    pen.rack(rack);
    for (number, (_, places, count)) in (1..).zip(disks(rack, tables)) {
        pen.bytes(b"(disk ");
        pen.number(number);
        pen.copies(&places[..count as usize]);
    }
    pen.bytes(b"(left");
    pen.pairs(tables.left);
    pen.line("(served", &[sums.served as u32, sums.unserved as u32]);
}

/// Space with a place to write at.
struct Pen<'a> {
    space: &'a mut [u8],
    at: usize,
}

impl Pen<'_> {
    #[inline]
    fn bytes(&mut self, bytes: &[u8]) {
        self.space[self.at..self.at + bytes.len()].copy_from_slice(bytes);
        self.at += bytes.len();
    }

    #[inline]
    fn number(&mut self, number: u32) {
        let end = self.at + digits(number);
        let mut rest = number;
        for place in self.space[self.at..end].iter_mut().rev() {
            *place = b'0' + (rest % 10) as u8;
            rest /= 10;
        }
        self.at = end;
    }

    fn line(&mut self, head: &str, numbers: &[u32]) {
        self.bytes(head.as_bytes());
        for &number in numbers {
            self.bytes(b" ");
            self.number(number);
        }
        self.bytes(b")\n");
    }

    /// The first line.
    fn rack(&mut self, rack: &[Disk]) {
        if fast_rack::is_equal(rack) {
            let Disk { slots, streams } = rack[0];
            self.line("(rack", &[rack.len() as u32, slots.0, streams.0]);
        } else {
            self.bytes(b"(mixed");
            for disk in rack {
                self.pair(disk.slots.0, disk.streams.0);
            }
            self.bytes(b")\n");
        }
    }

    /// A pair without its closing bracket.
    #[inline]
    fn open_pair(&mut self, first: u32, second: u32) {
        self.bytes(b" (");
        self.number(first);
        self.bytes(b" ");
        self.number(second);
    }

    #[inline]
    fn pair(&mut self, first: u32, second: u32) {
        self.open_pair(first, second);
        self.bytes(b")");
    }

    /// The copies and the end of their line.
    fn copies(&mut self, entries: &[Entry]) {
        for &entry in entries {
            self.open_pair(entry.film(), entry.amount());
            if entry.mark() == 1 {
                self.bytes(HELD);
            }
            self.bytes(b")");
        }
        self.bytes(b")\n");
    }

    /// The pairs and the end of their line.
    fn pairs(&mut self, entries: &[Entry]) {
        for &entry in entries {
            self.pair(entry.film(), entry.amount());
        }
        self.bytes(b")\n");
    }
}
