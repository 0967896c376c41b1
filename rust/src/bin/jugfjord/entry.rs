//! Where the C runtime starts the command.
//!
//! Rust's own start opens /dev/null in the place of a closed descriptor, so that input that is
//! not there would look empty and output would be lost, and it ignores SIGPIPE. This start does
//! neither. The standard library still finds the arguments, on Linux with glibc.
//!
//! Exporting a name counts as unsafe code, since two functions of one name would clash; the
//! crate has no other `main`.

#![allow(unsafe_code)]

use std::ffi::c_int;

/// Runs the command and answers its exit status.
#[no_mangle]
pub extern "C" fn main() -> c_int {
    crate::run()
}
