//! Tests of the library and of the plain Rust modules, against each other and against the
//! cases of documents 01 and 02. Without the feature `library` only the Rust modules are tested.

mod after;
mod after_cases;
mod cases;
mod damage;
mod dice;
mod earlier;
mod edges;
mod every_byte;
mod guarded;
mod lists;
mod mark_edges;
mod marks;
mod pairs;
mod plan_terminal;
mod plan_terminal_cases;
mod planning;
mod plans;
mod rack_edges;
mod racks;
mod reading;
mod refusals;
mod shelf;
mod subjects;
mod tally;
mod transfer_cases;
mod transfer_rules;
mod transfers;
mod writing;
