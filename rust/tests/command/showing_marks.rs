//! Plans with marks for people: what need not be copied.

use jugfjord::reference::plan::Plan;
use jugfjord::reference::writer::text_of;

use crate::folder::Folder;
use crate::pages::assert_page_is_of;
use crate::racks::equal_rack as rack;
use crate::showing::{page, plan_with_shelf, small_plan};
use crate::tty::printed_on_tty;

/// The small plan with marks at film 7 on disk 2 and at film 12.
fn marked_plan() -> Plan {
    let mut plan = small_plan();
    plan.disks[0][1].is_held = true;
    plan.disks[1][0].is_held = true;
    plan
}

const MARKED_PAGE: &str = "\
2 disks, each with 3 slots and 40 streams

film  served  left  disk:viewers
   7      14     0  1:5    2:9*
  12      35     1  1:35*
1000       0    30  none

disk  slots used  streams used
   1      2 of 3      40 of 40  [####################]  1 held
   2      1 of 3       9 of 40  [####................]  1 held

served 49 of 80 viewers, 61.25 %; 31 viewers of 2 films are left
2 of 3 copies need not be copied (marked *)
";

#[test]
fn a_plan_with_marks_is_shown() {
    assert_eq!(page(&marked_plan()), MARKED_PAGE);
}

/// The plan with shelf films, with a mark at film 120 alone.
const SHELF_PAGE: &str = "\
2 disks, each with 3 slots and 40 streams

film  served     left  disk:viewers
   7      14        0  1:5       2:9
  12      35        1  1:35      2:shelf
 120       0        0  2:shelf*
 121       0  no slot  none
1000       0       30  none

disk  slots used  streams used
   1      2 of 3      40 of 40  [####################]  0 held
   2      3 of 3       9 of 40  [####................]  1 held

served 49 of 80 viewers, 61.25 %; 31 viewers of 2 films are left
nobody is expected to watch 2 shelf films: 1 stored, 1 without a slot
1 of 5 copies need not be copied (marked *)
";

#[test]
fn a_marked_shelf_copy_is_shown() {
    let mut plan = plan_with_shelf();
    plan.disks[1][2].is_held = true;
    assert_eq!(page(&plan), SHELF_PAGE);
}

#[test]
fn one_copy_is_one() {
    let plan = Plan {
        rack: rack(1, 1, 9),
        disks: vec![vec![(7, 9).into()]],
        left: Vec::new(),
    };
    let page = page(&plan.all_held());
    let closing = "1 of 1 copy need not be copied (marked *)";
    assert_eq!(page.lines().last(), Some(closing));
}

#[test]
fn counts_of_held_copies_line_up() {
    let copies = |count: u32| (1..=count).map(|film| (film, 0).into()).collect();
    let plan = Plan {
        rack: rack(3, 32, 9),
        disks: vec![copies(32), copies(9), copies(0)],
        left: Vec::new(),
    };
    let plan = plan.all_held();
    let page = page(&plan);
    let rows = "\
   1    32 of 32        0 of 9  [....................]  32 held
   2     9 of 32        0 of 9  [....................]   9 held
   3     0 of 32        0 of 9  [....................]   0 held
";
    assert!(page.contains(rows), "{page}");
    assert_page_is_of(&plan, &page);
}

#[test]
fn the_widest_marked_copies_take_lines_that_line_up() {
    let copies = |disk: u32| vec![(65_535, disk % 2 * 65_535).into()];
    let plan = Plan {
        rack: rack(64, 32, 65_535),
        disks: (1..=64).map(copies).collect(),
        left: vec![(65_535, 1_000_000)],
    };
    let plan = plan.all_held();
    let page = page(&plan);
    let start = " film   served     left  disk:viewers\n\
        65535  2097120  1000000   1:65535*   2:shelf*   3:65535*   4:shelf*   5:65535*\n\
        \u{20}                         6:shelf*   7:65535*   8:shelf*   9:65535*  10:shelf*\n";
    assert!(page.contains(start), "{page}");
    assert_page_is_of(&plan, &page);
}

#[test]
fn marks_on_a_tty_are_as_elsewhere() {
    let folder = Folder::with("plan.txt", text_of(&marked_plan()));
    let shown = printed_on_tty(folder.command(&["show", "plan.txt"]));
    let line = "\x1b[1m2 of 3 copies need not be copied (marked *)\x1b[0m\n";
    assert!(shown.ends_with(line), "{shown:?}");
    let styles = ["\x1b[0m", "\x1b[1m", "\x1b[33m"];
    let plain = styles
        .iter()
        .fold(shown, |text, style| text.replace(style, ""));
    assert_eq!(plain, MARKED_PAGE);
}
