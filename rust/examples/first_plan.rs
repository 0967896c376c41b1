//! Plans case A of document 01 and prints the plan text.

use jugfjord::rack::{records, Disk, Rack, Slots, Streams, MOST_BYTES};
use jugfjord::refusal::Refusal;
use jugfjord::tables::Tables;
use jugfjord::wrap;

/// The text of the plan for these demands: pairs of film number and demand.
fn plan_text(rack: &[Disk], demands: &[(u32, u32)]) -> Result<String, Refusal> {
    let list = records(demands);
    let mut tables = Tables::for_plan(rack, demands.len());
    let planned = wrap::plan(rack, &list, tables.lend()).accepted()?;

    let mut text = vec![0; MOST_BYTES];
    let written = wrap::write(rack, tables.view(), planned.left, &mut text).accepted()?;
    text.truncate(written.length as usize);
    Ok(String::from_utf8(text).expect("plan texts are plain letters and digits"))
}

fn main() {
    // Three equal disks. Of unequal ones a rack is a list: `[Disk::new(Slots(4), Streams(6)), ...]`.
    let rack = Rack::new(3, Slots(4), Streams(6)).entries();
    let mut demands: Vec<(u32, u32)> = (1..=10).map(|film| (film, 1)).collect();
    demands.extend([(11, 4), (12, 4)]);
    match plan_text(&rack, &demands) {
        Ok(text) => print!("{text}"),
        Err(refusal) => println!("{refusal}"),
    }
}
