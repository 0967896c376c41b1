//! Plain Rust with the library's results, written apart from it.
//!
//! `mixed_planner`, `terminal`, `after`, `writer`, `reader` and `transfers` follow the words of
//! documents 01 and 02 and are slow. `rolling`, `fast_terminal`, `fast_after`, `fast_writer`,
//! `fast_reader` and `fast_transfers` are their fast rivals. `planner` was there before racks had
//! unequal disks, and plans equal ones by their three numbers.

pub mod after;
pub mod fast_after;
mod fast_rack;
pub mod fast_reader;
pub mod fast_terminal;
pub mod fast_transfers;
pub mod fast_writer;
pub mod mixed_planner;
pub mod plan;
pub mod planner;
pub mod reader;
pub mod rolling;
pub mod terminal;
pub mod transfers;
pub mod writer;
