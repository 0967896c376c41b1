//! A demand list with its rack, from a list file or from the bytes that `plan` reads.

use jugfjord::rack::{Disk, Rack, Slots, Streams, RECORD};
use jugfjord::refusal::Refusal;

use crate::arguments::Arguments;
use crate::failure::Failure;
use crate::list_file;
use crate::standard::Source;

/// The most bytes of a file with a list.
const MOST_LIST_BYTES: usize = 16 * 1024 * 1024;
/// The bytes of N, k and L.
const RACK_BYTES: usize = 12;

/// A list as planning takes it, and the lines where it stands.
pub struct List {
    pub rack: ListRack,
    pub records: Vec<u8>,
    /// None where the list comes from bytes.
    pub lines: Option<Lines>,
}

/// A rack as a list has it: equal disks by three numbers, or disk by disk.
pub enum ListRack {
    Equal(Rack),
    Disks(Vec<Disk>),
}

/// The lines of a list file, from 1: that of the rack, or that of each disk, and that of each
/// record.
pub struct Lines {
    pub rack: Vec<usize>,
    pub records: Vec<usize>,
}

impl ListRack {
    /// The rack as planning takes it.
    pub fn entries(&self) -> Vec<Disk> {
        match self {
            ListRack::Equal(rack) => rack.entries(),
            ListRack::Disks(disks) => disks.clone(),
        }
    }

    /// The three numbers of equal disks, or the first disk, from 0, that is not as the first one.
    fn three_numbers(&self) -> Result<Rack, usize> {
        let disks = match self {
            ListRack::Equal(rack) => return Ok(*rack),
            ListRack::Disks(disks) => disks,
        };
        let Disk { slots, streams } = disks[0];
        match disks.iter().position(|&disk| disk != disks[0]) {
            None => Ok(Rack::new(disks.len() as u32, slots, streams)),
            Some(other) => Err(other),
        }
    }
}

impl List {
    /// The list in a command's first file, by its options.
    pub fn asked(arguments: &Arguments) -> Result<Self, Failure> {
        let source = arguments.file(0);
        if arguments.has("--records") {
            List::from_records(source)
        } else {
            List::from_file(source)
        }
    }

    /// The list in a list file.
    pub fn from_file(source: &Source) -> Result<Self, Failure> {
        list_file::parse(&read(source)?).map_err(|wrong| {
            Failure::not_done(format!("{}: {}", source.line(wrong.line), wrong.words))
        })
    }

    /// The list in the bytes that `plan` reads. Fewer bytes than N, k and L have are refused 2.
    fn from_records(source: &Source) -> Result<Self, Failure> {
        let bytes = read(source)?;
        let Some((rack, records)) = bytes.split_first_chunk::<RACK_BYTES>() else {
            let words = format!(
                "{} bytes are too few for a rack's {RACK_BYTES}",
                bytes.len()
            );
            let numbers = Refusal::plain(2).numbers();
            let line = format!("{}: {words} {numbers}", source.name());
            return Err(Failure::refused(line));
        };
        let [disks, slots, streams] = [0, 4, 8].map(|at| number(&rack[at..]));
        Ok(List {
            rack: ListRack::Equal(Rack::new(disks, Slots(slots), Streams(streams))),
            records: records.to_vec(),
            lines: None,
        })
    }

    /// The bytes that `plan` reads. They have equal disks alone: else the first disk, from 0, that
    /// is not as the first one.
    pub fn to_records(&self) -> Result<Vec<u8>, usize> {
        let Rack {
            disks,
            slots,
            streams,
        } = self.rack.three_numbers()?;
        let rack = [disks, slots.0, streams.0].map(u32::to_le_bytes);
        Ok([rack.as_flattened(), &self.records].concat())
    }

    /// The film numbers of all records.
    pub fn films(&self) -> impl Iterator<Item = u32> + '_ {
        self.records.chunks_exact(RECORD).map(number)
    }

    /// The demands of all records.
    pub fn demands(&self) -> impl Iterator<Item = u32> + '_ {
        let records = self.records.chunks_exact(RECORD);
        records.map(|record| number(&record[4..]))
    }
}

/// A file's bytes, if they are no more than a list may have.
fn read(source: &Source) -> Result<Vec<u8>, Failure> {
    let bytes = source.read(MOST_LIST_BYTES + 1)?;
    if bytes.len() > MOST_LIST_BYTES {
        let words = format!("more than the {MOST_LIST_BYTES} bytes of a list");
        let line = format!("jugfjord: {} has {words}", source.name());
        return Err(Failure::not_done(line));
    }
    Ok(bytes)
}

/// The number in the first four bytes, least significant first.
fn number(bytes: &[u8]) -> u32 {
    let first = bytes.first_chunk().expect("a number has four bytes");
    u32::from_le_bytes(*first)
}
