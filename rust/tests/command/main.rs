//! Tests of the command `jugfjord`: the built command runs on files, and what it prints is
//! compared with the plain Rust planner, writer and reader, or with lines written by hand.

mod after;
mod after_words;
mod checking;
mod folder;
mod help;
mod list_errors;
mod list_forms;
mod list_racks;
mod pages;
mod plan_terminal;
mod random_lists;
mod refusals;
mod showing;
mod showing_marks;
mod streams;
mod transfers;
mod transfers_pages;
mod transfers_words;
mod tty;

/// Random numbers, racks, lists and plans, as the tests of the library have them.
#[allow(dead_code)]
#[path = "../jugfjord/damage.rs"]
mod damage;
#[path = "../jugfjord/dice.rs"]
mod dice;
#[allow(dead_code)]
#[path = "../jugfjord/earlier.rs"]
mod earlier;
#[allow(dead_code)]
#[path = "../jugfjord/guarded.rs"]
mod guarded;
#[allow(dead_code)]
#[path = "../jugfjord/lists.rs"]
mod lists;
#[allow(dead_code)]
#[path = "../jugfjord/plans.rs"]
mod plans;
#[allow(dead_code)]
#[path = "../jugfjord/racks.rs"]
mod racks;
#[allow(dead_code)]
#[path = "../jugfjord/tally.rs"]
mod tally;
