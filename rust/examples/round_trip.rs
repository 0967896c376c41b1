//! Plans a small list on a large and a small disk, writes the plan's text, reads it back into another
//! rack and other tables, and plans the list of the week after, with marks by that text.

use std::error::Error;

use jugfjord::rack::{records, Disk, Slots, Streams, MOST_BYTES, MOST_DISKS};
use jugfjord::tables::Tables;
use jugfjord::wrap;

fn main() -> Result<(), Box<dyn Error>> {
    // All disks have one ratio of streams to slots.
    let rack = [
        Disk::new(Slots(4), Streams(8)),
        Disk::new(Slots(2), Streams(4)),
    ];
    let list = records(&[(1, 3), (2, 4), (3, 5)]);
    let mut planned_tables = Tables::for_any_plan();
    let planned = wrap::plan(&rack, &list, planned_tables.lend()).accepted()?;

    let mut text = vec![0; MOST_BYTES];
    let written = wrap::write(&rack, planned_tables.view(), planned.left, &mut text).accepted()?;
    text.truncate(written.length as usize);
    print!("{}", str::from_utf8(&text)?);

    let mut read_rack = [Disk::default(); MOST_DISKS as usize];
    let mut read_tables = Tables::for_any_plan();
    let read = wrap::read(&text, &mut read_rack, read_tables.lend()).accepted()?;
    assert_eq!(read_rack[..read.disks as usize], rack);
    assert_eq!(read_tables, planned_tables);
    assert_eq!(read, wrap::judge(&text));
    println!(
        "read back: served {} of {}",
        read.served,
        read.served + read.unserved
    );

    // The week after has film 4 in the place of film 2. What the disks hold by now is marked.
    let next = records(&[(1, 3), (4, 4), (3, 5)]);
    wrap::plan_after(&rack, &next, &text, planned_tables.lend()).accepted()?;
    let all: u32 = planned_tables.counts.iter().sum();
    let copies = planned_tables.copies.iter();
    let held = copies.filter(|copy| copy.mark() == 1).count();
    println!("{held} of {all} copies need not be copied");

    // A refusal is an error in words, and `?` would hand it on: film 3 stands in this list twice.
    let twice = records(&[(3, 4), (3, 4)]);
    let refused = wrap::plan(&rack, &twice, read_tables.lend()).accepted();
    println!("refused: {}", refused.err().ok_or("no refusal")?);
    Ok(())
}
