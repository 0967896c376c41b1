//! A command's arguments: its options and its files, in any order.

use std::ffi::OsString;
use std::os::unix::ffi::OsStrExt;

use crate::commands::Command;
use crate::failure::Failure;
use crate::standard::Source;
use crate::words::shown;

/// What a command line asks of a command.
pub enum Asked {
    Help,
    Run(Arguments),
}

/// The options that were given, as many files as the command takes, and those behind options.
pub struct Arguments {
    options: Vec<&'static str>,
    files: Vec<Source>,
    option_files: Vec<(&'static str, Source)>,
}

impl Arguments {
    /// Whether this option was given.
    pub fn has(&self, option: &str) -> bool {
        self.options.contains(&option)
    }

    /// The file at this place of the command's files, from 0.
    pub fn file(&self, place: usize) -> &Source {
        &self.files[place]
    }

    /// The file behind this option, if the option was given.
    pub fn file_of(&self, option: &str) -> Option<&Source> {
        let mut files = self.option_files.iter();
        let found = files.find(|(name, _)| *name == option);
        found.map(|(_, source)| source)
    }

    /// Takes the command's option of this name, and the file behind it where it has one.
    fn take_option(
        &mut self,
        command: &Command,
        word: &OsString,
        given: &mut impl Iterator<Item = OsString>,
    ) -> Result<(), Failure> {
        let name = command.name;
        let wrong = |words: String| Failure::usage(&format!("{name} {words}"), name);
        let mut known = command.options.iter().chain(command.switches);
        if let Some(option) = known.find(|option| word == **option) {
            self.options.push(option);
            return Ok(());
        }
        let mut file_options = command.file_options.iter();
        let Some((option, file)) = file_options.find(|(option, _)| word == option) else {
            return Err(wrong(format!("has no option '{}'", shown(word.as_bytes()))));
        };
        if self.file_of(option).is_some() {
            return Err(wrong(format!("expects {option} once")));
        }
        let source = option_file(given.next())
            .map_err(|found| wrong(format!("expects {file} behind {option}{found}")))?;
        self.option_files.push((option, source));
        Ok(())
    }

    /// All files.
    fn all_files(&self) -> impl Iterator<Item = &Source> {
        let behind = self.option_files.iter().map(|(_, source)| source);
        self.files.iter().chain(behind)
    }
}

/// Sorts the words after a command's name. `--` ends the options, and `-` is a file.
pub fn parse(
    command: &Command,
    mut given: impl Iterator<Item = OsString>,
) -> Result<Asked, Failure> {
    let mut arguments = Arguments {
        options: Vec::new(),
        files: Vec::new(),
        option_files: Vec::new(),
    };
    let mut ended = false;
    while let Some(word) = given.next() {
        match word.as_bytes() {
            b"--" if !ended => ended = true,
            b"--help" | b"-h" if !ended => return Ok(Asked::Help),
            [b'-', _, ..] if !ended => arguments.take_option(command, &word, &mut given)?,
            _ => arguments.files.push(Source::new(word)),
        }
    }
    count_files(command, &arguments)?;
    Ok(Asked::Run(arguments))
}

/// The file that stands behind an option, or the words for what stands there instead.
fn option_file(word: Option<OsString>) -> Result<Source, String> {
    match word {
        None => Err(String::new()),
        Some(word) if matches!(word.as_bytes(), [b'-', _, ..]) => {
            Err(format!(", found '{}'", shown(word.as_bytes())))
        }
        Some(word) => Ok(Source::new(word)),
    }
}

/// Tests that there are just the files that the command takes, and standard input once at most.
fn count_files(command: &Command, arguments: &Arguments) -> Result<(), Failure> {
    let name = command.name;
    let given = &arguments.files;
    let taken = command.files(&arguments.options);
    let wrong = match (taken.get(given.len()), given.get(taken.len())) {
        (Some(missing), _) => format!("{name} expects {missing}"),
        (_, Some(extra)) => format!("{name} expects no further file, found '{}'", extra.name()),
        (None, None) if reads_input_twice(arguments) => format!("{name} expects - once"),
        (None, None) => return Ok(()),
    };
    Err(Failure::usage(&wrong, name))
}

/// Whether more than one file is standard input.
fn reads_input_twice(arguments: &Arguments) -> bool {
    let files = arguments.all_files();
    files.filter(|file| file.is_standard_input()).count() > 1
}
