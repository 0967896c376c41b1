//! The Rust side of Jugfjord, a planner for film racks.
//!
//! `wrap` calls the proved C library safely. `reference` holds planners, writers and
//! readers in plain Rust, written apart from the library, to compare it with.

#![deny(unsafe_code)]

pub mod ffi;
pub mod rack;
pub mod reference;
pub mod refusal;
pub mod tables;
pub mod transfers;
#[cfg(feature = "library")]
pub mod wrap;
