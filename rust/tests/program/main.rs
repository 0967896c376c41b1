//! Tests that run the built program `plan`, which JUGFJORD_PLAN names: what it prints for inputs
//! of many lengths that come in several ways, and what it says of input and output that fail.

mod contents;
mod expected;
mod failed_input;
mod failed_output;
mod inputs;
mod program;
mod reading;
mod ways;

// Shared with the tests of the library, which use more of it.
#[allow(dead_code)]
#[path = "../jugfjord/dice.rs"]
mod dice;
#[path = "../jugfjord/tally.rs"]
mod tally;
