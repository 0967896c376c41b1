//! A fast reader: one cursor over the bytes, the copies kept aside until all is judged.

use super::fast_rack;
use crate::ffi::ReadPlan;
use crate::rack::{
    places, Disk, Slots, Streams, LAST_FILM, MOST_BYTES, MOST_DEMAND, MOST_DISKS, MOST_RECORDS,
};
use crate::refusal::Refusal;
use crate::tables::{Entry, LentTables};

/// What a text holds: the entries of all disks and then of the left line, and their numbers.
pub(super) struct Parsed {
    pub(super) rack: Vec<Disk>,
    entries: Vec<Entry>,
    counts: Vec<u32>,
    copies: usize,
    served: u64,
    unserved: u64,
}

/// Reads a plan text into the rack and the tables.
pub fn read(text: &[u8], rack: &mut [Disk], tables: LentTables) -> ReadPlan {
    attempt(text, rack, tables).unwrap_or_else(ReadPlan::from)
}

fn attempt(text: &[u8], rack: &mut [Disk], tables: LentTables) -> Result<ReadPlan, Refusal> {
    let parsed = judge_text(text)?;
    let left = parsed.entries.len() - parsed.copies;
    let entries = rack.get_mut(..parsed.rack.len());
    let entries = entries.ok_or(Refusal::plain(7))?;
    Refusal::unless(tables.hold(&parsed.rack, left), 7)?;
    entries.copy_from_slice(&parsed.rack);
    store(&parsed, tables);
    Ok(ReadPlan {
        number: 0,
        second: 0,
        disks: parsed.rack.len() as u32,
        left: left as u32,
        served: parsed.served,
        unserved: parsed.unserved,
    })
}

/// What the text holds, or refusal 8 or 9.
pub(super) fn judge_text(text: &[u8]) -> Result<Parsed, Refusal> {
    Refusal::unless(text.len() <= MOST_BYTES, 8)?;
    parse(text).map_err(|second| Refusal { number: 9, second })
}

/// Reads the whole text, or gives the number of the first wrong line.
fn parse(text: &[u8]) -> Result<Parsed, u32> {
    let mut cursor = Cursor { rest: text };
    let rack = cursor.rack().ok_or(1u32)?;
    let disks = rack.len() as u32;
    let mut parsed = Parsed {
        entries: Vec::with_capacity(places(&rack) + MOST_RECORDS),
        counts: Vec::with_capacity(rack.len()),
        rack,
        copies: 0,
        served: 0,
        unserved: 0,
    };
    // For each film the last disk that holds it.
    let mut holder = vec![0u8; LAST_FILM as usize + 1];
    for disk in 1..=disks {
        parsed
            .disk(&mut cursor, disk, &mut holder)
            .ok_or(disk + 1)?;
    }
    parsed.left(&mut cursor).ok_or(disks + 2)?;
    parsed.sums(&mut cursor).ok_or(disks + 3)?;
    if cursor.rest.is_empty() {
        Ok(parsed)
    } else {
        Err(disks + 4)
    }
}

impl Parsed {
    /// The copies of each disk.
    pub(super) fn disks(&self) -> impl Iterator<Item = &[Entry]> {
        let mut rest = &self.entries[..];
        self.counts.iter().map(move |&count| {
            let (own, others) = rest.split_at(count as usize);
            rest = others;
            own
        })
    }

    fn disk(&mut self, cursor: &mut Cursor, disk: u32, holder: &mut [u8]) -> Option<()> {
        let Disk { slots, streams } = self.rack[disk as usize - 1];
        cursor.bytes(b"(disk ")?;
        (cursor.number()? == disk).then_some(())?;
        let mut load = 0;
        while let Some((film, viewers)) = cursor.open_pair_or_end()? {
            let mark = cursor.mark()?;
            let last = holder.get_mut(film as usize)?;
            if film == 0 || *last == disk as u8 {
                return None;
            }
            *last = disk as u8;
            load += u64::from(viewers);
            self.entries.push(Entry::new(film, viewers).with_mark(mark));
        }
        let count = self.entries.len() - self.copies;
        self.counts.push(count as u32);
        self.copies += count;
        self.served += load;
        (count <= slots.0 as usize && load <= u64::from(streams.0)).then_some(())
    }

    fn left(&mut self, cursor: &mut Cursor) -> Option<()> {
        cursor.bytes(b"(left")?;
        let mut previous = 0;
        while let Some((film, amount)) = cursor.pair_or_end()? {
            if film <= previous || film > LAST_FILM || amount > MOST_DEMAND {
                return None;
            }
            previous = film;
            self.unserved += u64::from(amount);
            self.entries.push(Entry::new(film, amount));
        }
        (self.entries.len() - self.copies <= MOST_RECORDS).then_some(())
    }

    fn sums(&self, cursor: &mut Cursor) -> Option<()> {
        cursor.bytes(b"(served ")?;
        let served = cursor.number()?;
        cursor.bytes(b" ")?;
        let unserved = cursor.number()?;
        cursor.bytes(b")\n")?;
        (u64::from(served) == self.served && u64::from(unserved) == self.unserved).then_some(())
    }
}

fn store(parsed: &Parsed, tables: LentTables) {
    let (mut copies, left) = parsed.entries.split_at(parsed.copies);
    let mut at = 0;
    for (disk, &count) in parsed.rack.iter().zip(&parsed.counts) {
        let own = &mut tables.copies[at..at + disk.slots.0 as usize];
        let (used, free) = own.split_at_mut(count as usize);
        let (now, later) = copies.split_at(used.len());
        used.copy_from_slice(now);
        free.fill(Entry::default());
        copies = later;
        at += disk.slots.0 as usize;
    }
    tables.left[..left.len()].copy_from_slice(left);
    tables.counts[..parsed.counts.len()].copy_from_slice(&parsed.counts);
}

/// The bytes not yet read.
struct Cursor<'a> {
    rest: &'a [u8],
}

impl Cursor<'_> {
    #[inline]
    fn bytes(&mut self, bytes: &[u8]) -> Option<()> {
        self.rest = self.rest.strip_prefix(bytes)?;
        Some(())
    }

    /// A number with no leading zero. Nothing where it passes 32 bits, since no number of an
    /// accepted text does.
    #[inline]
    fn number(&mut self) -> Option<u32> {
        let mut value = 0u32;
        let mut count = 0;
        while let Some(digit @ b'0'..=b'9') = self.rest.get(count).copied() {
            value = value
                .checked_mul(10)?
                .checked_add(u32::from(digit - b'0'))?;
            count += 1;
        }
        if count == 0 || (count > 1 && self.rest[0] == b'0') {
            return None;
        }
        self.rest = &self.rest[count..];
        Some(value)
    }

    /// The disks of either first line.
    fn rack(&mut self) -> Option<Vec<Disk>> {
        let rack = match self.bytes(b"(mixed") {
            Some(()) => self.mixed_disks()?,
            None => self.equal_disks()?,
        };
        fast_rack::judge(&rack).is_ok().then_some(rack)
    }

    /// The disks behind the line's word, unless they are equal.
    fn mixed_disks(&mut self) -> Option<Vec<Disk>> {
        let mut rack = Vec::new();
        while let Some((slots, streams)) = self.pair_or_end()? {
            rack.push(Disk::new(Slots(slots), Streams(streams)));
        }
        (!fast_rack::is_equal(&rack)).then_some(rack)
    }

    fn equal_disks(&mut self) -> Option<Vec<Disk>> {
        self.bytes(b"(rack ")?;
        let disks = self.number()?;
        self.bytes(b" ")?;
        let slots = self.number()?;
        self.bytes(b" ")?;
        let streams = self.number()?;
        self.bytes(b")\n")?;
        let disk = Disk::new(Slots(slots), Streams(streams));
        (disks <= MOST_DISKS).then(|| vec![disk; disks as usize])
    }

    /// The line's next pair, or that the line ends here.
    #[inline]
    fn pair_or_end(&mut self) -> Option<Option<(u32, u32)>> {
        let pair = self.open_pair_or_end()?;
        if pair.is_some() {
            self.bytes(b")")?;
        }
        Some(pair)
    }

    /// The line's next pair without its closing bracket, or that the line ends here.
    #[inline]
    fn open_pair_or_end(&mut self) -> Option<Option<(u32, u32)>> {
        if self.bytes(b")\n").is_some() {
            return Some(None);
        }
        self.bytes(b" (")?;
        let film = self.number()?;
        self.bytes(b" ")?;
        let amount = self.number()?;
        Some(Some((film, amount)))
    }

    /// The mark and the closing bracket of a copy.
    #[inline]
    fn mark(&mut self) -> Option<u16> {
        if self.bytes(b")").is_some() {
            return Some(0);
        }
        self.bytes(b" held)").map(|()| 1)
    }
}
