//! The commands that `jugfjord` has, and its help.

use std::ffi::OsStr;
use std::os::unix::ffi::OsStrExt;

use crate::arguments::Arguments;
use crate::failure::Failure;
use crate::words::shown;
use crate::{plan_file, planning, show, transfers};

/// One command: how it is used, and what does it.
pub struct Command {
    pub name: &'static str,
    /// Each use behind the name, its options and its files, and what it does.
    uses: &'static [(&'static str, &'static str)],
    /// What its help says besides, in parts.
    more: &'static [&'static str],
    /// The options that choose among the uses.
    pub options: &'static [&'static str],
    /// The options that any use may have, besides --help.
    pub switches: &'static [&'static str],
    /// The options with a file behind them, and what the file is called.
    pub file_options: &'static [(&'static str, &'static str)],
    /// Answers what it prints on standard output.
    pub run: fn(&Arguments) -> Result<Vec<u8>, Failure>,
}

impl Command {
    /// The files that it takes with these options, as the first use that has them names the files.
    /// Switches choose no use, and files behind an option are not among them.
    pub fn files(&self, options: &[&str]) -> Vec<&'static str> {
        let mut uses = self.uses.iter().map(|(words, _)| words.split(' '));
        let found = uses.find(|words| {
            let is_in_use = |option: &&str| words.clone().any(|word| word == *option);
            let mut chosen = options
                .iter()
                .filter(|option| self.options.contains(option));
            chosen.all(is_in_use)
        });
        let words = found.into_iter().flatten();
        words.filter(|word| !word.starts_with('-')).collect()
    }
}

const COMMANDS: [Command; 5] = [
    Command {
        name: "plan",
        uses: &[
            ("LIST", "print the plan text of a list file"),
            ("--records FILE", "print the plan text of a list in records"),
            (
                "... --after PLAN",
                "mark the copies that an earlier plan has",
            ),
            ("... --terminal", "plan as the purser's terminal does"),
        ],
        more: &[EARLIER_PLAN, TERMINAL, LIST_FILE],
        options: &["--records"],
        switches: &["--terminal"],
        file_options: &[("--after", "PLAN")],
        run: planning::plan,
    },
    Command {
        name: "records",
        uses: &[("LIST", "print a list file as records for plan(1)")],
        more: &[LIST_FILE],
        options: &[],
        switches: &[],
        file_options: &[],
        run: planning::records,
    },
    Command {
        name: "check",
        uses: &[("PLAN", "say whether a text is a plan text")],
        more: &[],
        options: &[],
        switches: &[],
        file_options: &[],
        run: plan_file::check,
    },
    Command {
        name: "show",
        uses: &[("PLAN", "print a plan for people, by film and by disk")],
        more: &[SHOWN, COLOURS],
        options: &[],
        switches: &[],
        file_options: &[],
        run: show::show,
    },
    Command {
        name: "transfers",
        uses: &[("OLD NEW", "print what to copy from plan to plan, by round")],
        more: &[TRANSFERS, COLOURS],
        options: &[],
        switches: &[],
        file_options: &[],
        run: transfers::transfers,
    },
];

const SHOWN: &str = "\
A shelf film is one that nobody is expected to watch. A copy without viewers is
shown as DISK:shelf. A shelf film that found no slot has 'no slot' under 'left'.
A copy with * behind it need not be copied, since its disk held the film before.
";

const TRANSFERS: &str = "\
OLD and NEW are plan texts of one rack of up to 8 disks. A copy of the new plan
is to be loaded where the old plan has not its film on the same disk. It comes
from the disk with the lowest number of those that have the film in the old
plan, else from the loader. In a round each disk and the loader take part in at
most one transfer. Marks in the texts do not matter. Copies that the new plan
lacks are not listed: removing them is left to the person who loads the rack.
The schedule does not look at free slots: the person who loads the rack has to
keep an old copy on its disk until the last round that copies from it. On full
disks this may be impossible, and the schedule does not find that out.
";

const COLOURS: &str = "\
On a screen bold and colour are used, unless NO_COLOR is set and not empty or
TERM is dumb.
";

const EARLIER_PLAN: &str = "\
With --after PLAN, the plan text of the week before, a copy is marked where the
same disk held the same film then, as in (8 1 held): it need not be copied. The
earlier rack may be any other.
";

const TERMINAL: &str = "\
With --terminal the list is planned as on the purser's terminal: more than 8
disks or more than 96 records are refused, and all else has the plan that it has
without the option. The terminal takes no earlier plan.
";

const LIST_FILE: &str = "\
A list file:
  # A night on a ferry: disks, slots, streams; then film and demand.
  rack 4 6 40
  101 31
  102,24
Instead of the rack line, a line 'disk SLOTS STREAMS' for each disk, by number,
makes a rack of large and small disks with one ratio of streams to slots.
Films are 1 to 49999; numbers 50000 to 65535 are those of service clips.
Spaces, tabs, a comma or a semicolon stand between numbers. # begins a comment
at the beginning of a line or behind one of these.
A list in records is what `jugfjord records` prints and plan(1) reads. It has
equal disks alone.
";

const STATUSES: &str = "\
Exit status:
  0  done
  1  refused: the list cannot be planned, a text is no plan text, or two plan
     texts are not of one rack of up to 8 disks
  2  not done: wrong usage, a file that cannot be read or is no list file,
     or output that cannot be written
With 1 and 2 standard error has one line that says why.
";

const FILES: &str = "\
Instead of a file, - is standard input. Options may stand before or after the
file, and -- ends them. -h is --help.
";

/// The command of this name.
pub fn named(name: &OsStr) -> Result<&'static Command, Failure> {
    let found = COMMANDS.iter().find(|command| name == command.name);
    found.ok_or_else(|| {
        let words = format!("there is no command '{}'", shown(name.as_bytes()));
        Failure::usage(&words, "")
    })
}

/// The name and the version on a line.
pub fn version() -> String {
    concat!("jugfjord ", env!("CARGO_PKG_VERSION"), "\n").into()
}

/// The help of the whole.
pub fn help() -> String {
    let uses: String = COMMANDS.iter().map(uses_of).collect();
    let others = usage("COMMAND --help", "say more on a command")
        + &usage("--help", "print this help")
        + &usage("--version", "print the version");
    format!("jugfjord: plans for film racks, by a proved library\n\nUsage:\n{uses}{others}\n{FILES}\n{STATUSES}")
}

/// The help of one command.
pub fn help_of(command: &Command) -> String {
    let parts = command.more.iter();
    let more: String = parts.map(|part| format!("{part}\n")).collect();
    format!("Usage:\n{}\n{more}{FILES}\n{STATUSES}", uses_of(command))
}

/// A line for each use of a command.
fn uses_of(command: &Command) -> String {
    let line = |(words, does): &(&str, &str)| usage(&format!("{} {words}", command.name), does);
    command.uses.iter().map(line).collect()
}

/// A line with a use of `jugfjord` and what it does.
fn usage(words: &str, does: &str) -> String {
    format!("  jugfjord {words:<21}  {does}\n")
}
