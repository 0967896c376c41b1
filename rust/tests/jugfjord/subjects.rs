//! What is tested: the library, where it is linked, and the plain Rust modules.

use jugfjord::ffi::{Planned, ReadPlan, Transferred, Written};
use jugfjord::rack::Disk;
use jugfjord::reference::{
    after, fast_after, fast_reader, fast_terminal, fast_transfers, fast_writer, mixed_planner,
    reader, rolling, terminal, transfers, writer,
};
use jugfjord::tables::{LentTables, TablesView};
use jugfjord::transfers::{CountRow, Transfer};
#[cfg(feature = "library")]
use jugfjord::wrap;

use crate::guarded::GuardedTables;
use crate::lists::Case;

pub type Planner = fn(&[Disk], &[u8], LentTables) -> Planned;
pub type PlannerAfter = fn(&[Disk], &[u8], &[u8], LentTables) -> Planned;
pub type Writer = fn(&[Disk], TablesView, u32, &mut [u8]) -> Written;
pub type Reader = fn(&[u8], &mut [Disk], LentTables) -> ReadPlan;
pub type Judge = fn(&[u8]) -> ReadPlan;
pub type Finder = fn(&[u8], &[u8], &mut [Transfer], &mut [CountRow]) -> Transferred;

/// The first of each is the one that the others are compared with.
pub const PLANNERS: &[(&str, Planner)] = &[
    ("mixed planner", mixed_planner::plan),
    ("rolling", rolling::plan),
    ("rolling by insertion", rolling::plan_by_insertion),
    #[cfg(feature = "library")]
    ("library", wrap::plan),
];

/// Planners of the purser's terminal.
pub const TERMINALS: &[(&str, Planner)] = &[
    ("terminal", terminal::plan),
    ("fast terminal", fast_terminal::plan),
    #[cfg(feature = "library")]
    ("library", wrap::plan_terminal),
];

/// Planners that take an earlier plan's text behind the list.
pub const PLANNERS_AFTER: &[(&str, PlannerAfter)] = &[
    ("after", after::plan),
    ("fast after", fast_after::plan),
    #[cfg(feature = "library")]
    ("library", wrap::plan_after),
];

pub const WRITERS: &[(&str, Writer)] = &[
    ("writer", writer::write),
    ("fast writer", fast_writer::write),
    #[cfg(feature = "library")]
    ("library", wrap::write),
];

pub const READERS: &[(&str, Reader)] = &[
    ("reader", reader::read),
    ("fast reader", fast_reader::read),
    #[cfg(feature = "library")]
    ("library", wrap::read),
];

/// What judges a text without tables. It is compared with the first reader.
pub const JUDGES: &[(&str, Judge)] = &[
    #[cfg(feature = "library")]
    ("library", wrap::judge),
];

/// What finds the transfers from an old text's plan to a new one's.
pub const FINDERS: &[(&str, Finder)] = &[
    ("transfers", transfers::transfers),
    ("fast transfers", fast_transfers::transfers),
    #[cfg(feature = "library")]
    ("library", wrap::transfers),
];

/// Runs the planners on the case, asserts that they have one answer and the same in every place, and
/// gives both.
pub fn planned_alike(planners: &[(&str, Planner)], case: &Case) -> (Planned, GuardedTables) {
    let Case { rack, list, .. } = case;
    let mut expected = case.tables.clone();
    let answer = planners[0].1(rack, list, expected.lend());
    for (name, planner) in &planners[1..] {
        let mut tables = case.tables.clone();
        let planned = planner(rack, list, tables.lend());
        assert_eq!(planned, answer, "{name} on {rack:?} {list:?}");
        assert!(
            tables == expected,
            "{name} on {rack:?} {list:?}: {tables:?}, not {expected:?}"
        );
    }
    (answer, expected)
}
