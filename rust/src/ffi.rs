//! The C library's functions and answers, as include/jugfjord.h declares them.

#[cfg(feature = "library")]
use crate::rack::Disk;
#[cfg(feature = "library")]
use crate::tables::Entry;
#[cfg(feature = "library")]
use crate::transfers::{CountRow, Transfer};

/// What planning answers. `number` is 0, or the refusal and then all else but `second` is 0.
#[repr(C)]
#[derive(Clone, Copy, Debug, Default, PartialEq, Eq)]
pub struct Planned {
    pub number: u32,
    pub second: u32,
    pub served: u64,
    pub unserved: u64,
    pub left: u32,
}

/// What writing answers: the text's length.
#[repr(C)]
#[derive(Clone, Copy, Debug, Default, PartialEq, Eq)]
pub struct Written {
    pub number: u32,
    pub second: u32,
    pub length: u64,
}

/// What reading and judging answer: the numbers of disks and of left films, and the two sums.
#[repr(C)]
#[derive(Clone, Copy, Debug, Default, PartialEq, Eq)]
pub struct ReadPlan {
    pub number: u32,
    pub second: u32,
    pub disks: u32,
    pub left: u32,
    pub served: u64,
    pub unserved: u64,
}

/// What finding transfers answers: how many there are, and the largest round, 0 without transfers.
#[repr(C)]
#[derive(Clone, Copy, Debug, Default, PartialEq, Eq)]
pub struct Transferred {
    pub number: u32,
    pub second: u32,
    pub transfers: u32,
    pub rounds: u32,
}

#[cfg(feature = "library")]
extern "C" {
    pub(crate) fn jugfjord_plan(
        rack: *const Disk,
        rack_count: usize,
        list: *const u8,
        list_count: usize,
        copies: *mut Entry,
        copies_count: usize,
        counts: *mut u32,
        counts_count: usize,
        left: *mut Entry,
        left_count: usize,
    ) -> Planned;

    pub(crate) fn jugfjord_plan_terminal(
        rack: *const Disk,
        rack_count: usize,
        list: *const u8,
        list_count: usize,
        copies: *mut Entry,
        copies_count: usize,
        counts: *mut u32,
        counts_count: usize,
        left: *mut Entry,
        left_count: usize,
    ) -> Planned;

    pub(crate) fn jugfjord_plan_after(
        rack: *const Disk,
        rack_count: usize,
        list: *const u8,
        list_count: usize,
        earlier: *const u8,
        earlier_count: usize,
        copies: *mut Entry,
        copies_count: usize,
        counts: *mut u32,
        counts_count: usize,
        left: *mut Entry,
        left_count: usize,
    ) -> Planned;

    pub(crate) fn jugfjord_write(
        rack: *const Disk,
        rack_count: usize,
        copies: *const Entry,
        copies_count: usize,
        counts: *const u32,
        counts_count: usize,
        left: *const Entry,
        left_count: usize,
        left_films: u32,
        text: *mut u8,
        text_count: usize,
    ) -> Written;

    pub(crate) fn jugfjord_read(
        text: *const u8,
        text_count: usize,
        rack: *mut Disk,
        rack_count: usize,
        copies: *mut Entry,
        copies_count: usize,
        counts: *mut u32,
        counts_count: usize,
        left: *mut Entry,
        left_count: usize,
    ) -> ReadPlan;

    pub(crate) fn jugfjord_judge(text: *const u8, text_count: usize) -> ReadPlan;

    pub(crate) fn jugfjord_transfers(
        old_text: *const u8,
        old_count: usize,
        new_text: *const u8,
        new_count: usize,
        transfers: *mut Transfer,
        transfers_count: usize,
        counts: *mut CountRow,
        rows: usize,
    ) -> Transferred;
}
