//! Help, version and wrong usage.

use crate::folder::Folder;

const COMMANDS: [&str; 5] = ["plan", "records", "check", "show", "transfers"];
const STATUSES: [&str; 3] = ["  0  done", "  1  refused", "  2  not done"];

#[test]
fn help_names_every_use_and_the_exit_statuses() {
    let help = Folder::new().run(&["--help"]).printed().to_string();
    let uses = [
        "plan LIST",
        "plan --records FILE",
        "plan ... --after PLAN",
        "plan ... --terminal",
        "records LIST",
        "check PLAN",
        "show PLAN",
        "transfers OLD NEW",
    ];
    for words in uses {
        assert!(
            help.contains(&format!("\n  jugfjord {words} ")),
            "{words} in {help}"
        );
    }
    is_help(&help);
    assert_eq!(Folder::new().run(&["-h"]).printed(), help);
}

#[test]
fn each_command_has_its_help() {
    let folder = Folder::new();
    for name in COMMANDS {
        let help = folder.run(&[name, "--help"]);
        assert!(
            help.printed().contains(&format!("  jugfjord {name} ")),
            "{name}"
        );
        is_help(help.printed());
        for words in [&[name, "x", "y", "--help"][..], &[name, "-h"]] {
            assert_eq!(folder.run(words).printed(), help.printed());
        }
    }
    assert!(folder
        .run(&["plan", "--help"])
        .printed()
        .contains("plan --records FILE"));
}

/// Asserts that a help fits a screen and has the exit statuses.
fn is_help(help: &str) {
    assert!(help.lines().all(|line| line.len() <= 80), "{help}");
    for status in STATUSES {
        assert!(help.contains(&format!("\n{status}")), "{status} in {help}");
    }
}

#[test]
fn the_help_of_plan_has_the_limits_of_the_terminal() {
    let help = Folder::new().run(&["plan", "--help"]).printed().to_string();
    let words = "With --terminal the list is planned as on the purser's terminal: more than 8
disks or more than 96 records are refused, and all else has the plan that it has
without the option.";
    assert!(help.contains(words), "{help}");
    let used = "  jugfjord plan ... --terminal    plan as the purser's terminal does\n";
    assert!(help.contains(used), "{help}");
}

#[test]
fn the_version_is_that_of_the_package() {
    let version = concat!("jugfjord ", env!("CARGO_PKG_VERSION"), "\n");
    assert_eq!(Folder::new().run(&["--version"]).printed(), version);
}

#[test]
fn the_man_pages_have_the_same_head_and_foot() {
    let head_and_foot = concat!("\"Jugfjord ", env!("CARGO_PKG_VERSION"), "\" \"Jugfjord\"");
    let pages = [
        ("PLAN", include_str!("../../../docs/man/plan.1")),
        ("JUGFJORD", include_str!("../../../docs/man/jugfjord.1")),
    ];
    for (name, page) in pages {
        let title = page.lines().find(|line| line.starts_with(".TH"));
        let title = title.expect("a title");
        assert!(title.starts_with(&format!(".TH {name} 1 ")), "{title}");
        assert!(title.ends_with(&format!(" {head_and_foot}")), "{title}");
    }
}

#[test]
fn the_man_page_names_every_command() {
    let page = include_str!("../../../docs/man/jugfjord.1");
    for name in COMMANDS {
        assert!(page.contains(&format!("\n.B jugfjord {name}\n")), "{name}");
    }
}

/// Wrong command lines, and what is said of them.
const WRONG: [(&[&str], &str); 31] = [
    (&[], "expected a command, see jugfjord --help"),
    (&["plam"], "there is no command 'plam', see jugfjord --help"),
    (
        &["--plan"],
        "there is no command '--plan', see jugfjord --help",
    ),
    (
        &["a\nb"],
        "there is no command 'a\\nb', see jugfjord --help",
    ),
    (&["plan"], "plan expects LIST, see jugfjord plan --help"),
    (
        &["plan", "--records"],
        "plan expects FILE, see jugfjord plan --help",
    ),
    (
        &["plan", "--records", "list.txt", "x.txt"],
        "plan expects no further file, found 'x.txt', see jugfjord plan --help",
    ),
    (&["show"], "show expects PLAN, see jugfjord show --help"),
    (
        &["plan", "list.txt", "x.txt"],
        "plan expects no further file, found 'x.txt', see jugfjord plan --help",
    ),
    (
        &["plan", "list.txt", "-x"],
        "plan has no option '-x', see jugfjord plan --help",
    ),
    (
        &["check", "--records", "x"],
        "check has no option '--records', see jugfjord check --help",
    ),
    (
        &["records", "list.txt", "--after", "x"],
        "records has no option '--after', see jugfjord records --help",
    ),
    (
        &["plan", "list.txt", "--after"],
        "plan expects PLAN behind --after, see jugfjord plan --help",
    ),
    (
        &["plan", "list.txt", "--after", "--records"],
        "plan expects PLAN behind --after, found '--records', see jugfjord plan --help",
    ),
    (
        &["plan", "list.txt", "--after", "--", "plan.txt"],
        "plan expects PLAN behind --after, found '--', see jugfjord plan --help",
    ),
    (
        &["plan", "--after", "a", "list.txt", "--after", "b"],
        "plan expects --after once, see jugfjord plan --help",
    ),
    (
        &["plan", "--after", "plan.txt"],
        "plan expects LIST, see jugfjord plan --help",
    ),
    (
        &["plan", "--records", "--after", "plan.txt"],
        "plan expects FILE, see jugfjord plan --help",
    ),
    (
        &["plan", "list.txt", "--after", "plan.txt", "x.txt"],
        "plan expects no further file, found 'x.txt', see jugfjord plan --help",
    ),
    (
        &["plan", "list.txt", "--after=plan.txt"],
        "plan has no option '--after=plan.txt', see jugfjord plan --help",
    ),
    (
        &["plan", "-", "--after", "-"],
        "plan expects - once, see jugfjord plan --help",
    ),
    (
        &["plan", "--terminal"],
        "plan expects LIST, see jugfjord plan --help",
    ),
    (
        &["plan", "--records", "--terminal"],
        "plan expects FILE, see jugfjord plan --help",
    ),
    (
        &["plan", "--terminal", "list.txt", "x.txt"],
        "plan expects no further file, found 'x.txt', see jugfjord plan --help",
    ),
    (
        &["plan", "--terminal", "none.txt", "--after", "x.txt"],
        "plan expects no --after with --terminal, see jugfjord plan --help",
    ),
    (
        &["records", "--terminal", "list.txt"],
        "records has no option '--terminal', see jugfjord records --help",
    ),
    (
        &["transfers"],
        "transfers expects OLD, see jugfjord transfers --help",
    ),
    (
        &["transfers", "old.txt"],
        "transfers expects NEW, see jugfjord transfers --help",
    ),
    (
        &["transfers", "old.txt", "new.txt", "x.txt"],
        "transfers expects no further file, found 'x.txt', see jugfjord transfers --help",
    ),
    (
        &["transfers", "-", "-"],
        "transfers expects - once, see jugfjord transfers --help",
    ),
    (
        &["transfers", "old.txt", "--after", "new.txt"],
        "transfers has no option '--after', see jugfjord transfers --help",
    ),
];

#[test]
fn wrong_usage_is_one_line() {
    let folder = Folder::with("list.txt", "rack 1 1 1\n");
    for (arguments, words) in WRONG {
        folder
            .run(arguments)
            .failed(2, &format!("jugfjord: {words}"));
    }
}
