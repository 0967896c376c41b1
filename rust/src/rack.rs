//! Disks and racks, and the limits of documents 01 and 02.

pub const MOST_DISKS: u32 = 64;
pub const MOST_SLOTS: u32 = 32;
pub const MOST_STREAMS: u32 = 65_535;
pub const MOST_RECORDS: usize = 1_024;
/// The most disks that the purser's terminal plans for.
pub const TERMINAL_DISKS: usize = 8;
/// The most records that the purser's terminal plans.
pub const TERMINAL_RECORDS: usize = 96;
/// The last film that a plan may have.
pub const LAST_FILM: u32 = 65_535;
/// The last film that a demand list may hold. The films above it are service clips.
pub const LAST_LISTED_FILM: u32 = 49_999;
pub const MOST_DEMAND: u32 = 1_000_000;
/// The longest text that reading looks at, in bytes.
pub const MOST_BYTES: usize = 65_536;
/// The bytes of one demand record.
pub const RECORD: usize = 8;

/// How many films a disk stores.
#[repr(transparent)]
#[derive(Clone, Copy, Debug, Default, PartialEq, Eq, PartialOrd, Ord)]
pub struct Slots(pub u32);

/// How many viewers a disk serves: its load.
#[repr(transparent)]
#[derive(Clone, Copy, Debug, Default, PartialEq, Eq, PartialOrd, Ord)]
pub struct Streams(pub u32);

/// An entry of a rack, as a caller gives it: not yet known to be in range. A rack is a slice of
/// them, that of disk 1 first, all of one ratio of streams to slots.
#[repr(C)]
#[derive(Clone, Copy, Debug, Default, PartialEq, Eq)]
pub struct Disk {
    pub slots: Slots,
    pub streams: Streams,
}

impl Disk {
    pub fn new(slots: Slots, streams: Streams) -> Self {
        Disk { slots, streams }
    }

    /// The largest disk in range.
    pub fn largest() -> Self {
        Disk::new(Slots(MOST_SLOTS), Streams(MOST_STREAMS))
    }

    pub fn in_range(self) -> bool {
        (1..=MOST_SLOTS).contains(&self.slots.0) && (1..=MOST_STREAMS).contains(&self.streams.0)
    }
}

/// Whether a rack has 1 to 64 disks, all of them in range.
pub fn disks_in_range(rack: &[Disk]) -> bool {
    (1..=MOST_DISKS as usize).contains(&rack.len()) && rack.iter().all(|disk| disk.in_range())
}

/// How many places of the copy table a rack takes up: the slots of all its disks.
pub fn places(rack: &[Disk]) -> usize {
    rack.iter().map(|disk| disk.slots.0 as usize).sum()
}

/// A rack of equal disks by its three numbers, as `plan` and the text's first line have them. They
/// are not yet known to be in range.
#[derive(Clone, Copy, Debug, PartialEq, Eq)]
pub struct Rack {
    pub disks: u32,
    pub slots: Slots,
    pub streams: Streams,
}

impl Rack {
    /// A rack of so many disks, each with these slots and streams.
    pub fn new(disks: u32, slots: Slots, streams: Streams) -> Self {
        Rack {
            disks,
            slots,
            streams,
        }
    }

    /// The largest rack in range.
    pub fn largest() -> Self {
        Rack::new(MOST_DISKS, Slots(MOST_SLOTS), Streams(MOST_STREAMS))
    }

    pub fn in_range(self) -> bool {
        (1..=MOST_DISKS).contains(&self.disks) && self.disk().in_range()
    }

    /// One of its disks.
    pub fn disk(self) -> Disk {
        Disk::new(self.slots, self.streams)
    }

    /// Its disks. Of more than a rack may have there is one too many, so that they are refused.
    pub fn entries(self) -> Vec<Disk> {
        vec![self.disk(); self.disks.min(MOST_DISKS + 1) as usize]
    }
}

/// The bytes of a demand list.
pub fn records(demands: &[(u32, u32)]) -> Vec<u8> {
    demands
        .iter()
        .flat_map(|(film, demand)| [film.to_le_bytes(), demand.to_le_bytes()].concat())
        .collect()
}
