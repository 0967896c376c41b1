//! Transfers between the disks of a rack, and their limits in document 02.

use std::fmt;

use crate::rack::MOST_SLOTS;

/// The most disks of a rack whose transfers are found.
pub const MOST_TRANSFER_DISKS: usize = 8;
/// What a transfer may start from or go to: the loader, number 0, and the disks by their numbers.
pub const ENDS: usize = MOST_TRANSFER_DISKS + 1;
/// The number of the loader.
pub const LOADER: u32 = 0;
/// The most transfers: one for each slot of so many disks.
pub const MOST_TRANSFERS: usize = MOST_TRANSFER_DISKS * MOST_SLOTS as usize;

/// A row of the table of counts: how many transfers go from one source to each destination.
pub type CountRow = [u32; ENDS];

/// A transfer as one number: the film in its bits 0 to 15, the source in 16 to 23, the destination
/// in 24 to 31 and the round from bit 32 on.
#[repr(transparent)]
#[derive(Clone, Copy, Default, PartialEq, Eq)]
pub struct Transfer(u64);

impl Transfer {
    /// The transfer of a film in a round, from the source to the destination. Neither end is above
    /// 255, and the film is not above 65,535.
    pub fn of(source: u32, destination: u32, film: u32, round: u32) -> Self {
        let ends = u64::from(source) << 16 | u64::from(destination) << 24;
        Transfer(u64::from(film) | ends | u64::from(round) << 32)
    }

    /// The disk that the film comes from, or 0 for the loader.
    pub fn source(self) -> u32 {
        u32::from((self.0 >> 16) as u8)
    }

    /// The disk that the film goes to.
    pub fn destination(self) -> u32 {
        u32::from((self.0 >> 24) as u8)
    }

    pub fn film(self) -> u32 {
        u32::from(self.0 as u16)
    }

    /// The round in which the transfer runs, from 1.
    pub fn round(self) -> u32 {
        (self.0 >> 32) as u32
    }
}

impl fmt::Debug for Transfer {
    /// Source, destination, film and round, in the order in which document 02 lists them.
    fn fmt(&self, out: &mut fmt::Formatter) -> fmt::Result {
        let (source, destination) = (self.source(), self.destination());
        let (film, round) = (self.film(), self.round());
        write!(out, "({source} {destination} {film} {round})")
    }
}
