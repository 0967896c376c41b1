//! A rack judged by its ratios in lowest terms.

use crate::rack::{Disk, MOST_DISKS, MOST_SLOTS, MOST_STREAMS};
use crate::refusal::Refusal;

/// Refuses a rack that is out of range, then the first disk of another ratio than disk 1's.
pub fn judge(rack: &[Disk]) -> Result<(), Refusal> {
    let is_within = |number: u32, most: u32| number.wrapping_sub(1) < most;
    let is_right = |disk: &Disk| {
        is_within(disk.slots.0, MOST_SLOTS) && is_within(disk.streams.0, MOST_STREAMS)
    };
    if rack.is_empty() || rack.len() > MOST_DISKS as usize || !rack.iter().all(is_right) {
        return Err(Refusal::plain(12));
    }
    let due = ratio(&rack[0]);
    for (disk, second) in rack.iter().zip(1..) {
        if ratio(disk) != due {
            return Err(Refusal { number: 13, second });
        }
    }
    Ok(())
}

/// Whether every disk is as the first one.
pub fn is_equal(rack: &[Disk]) -> bool {
    rack.windows(2).all(|two| two[0] == two[1])
}

/// The ratio of streams to slots in lowest terms.
fn ratio(disk: &Disk) -> (u32, u32) {
    let (streams, slots) = (disk.streams.0, disk.slots.0);
    let (mut large, mut small) = (streams, slots);
    while small != 0 {
        (large, small) = (small, large % small);
    }
    (streams / large, slots / large)
}
