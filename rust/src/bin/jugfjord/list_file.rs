//! List files: a line for the rack or for each disk, then one for each film. docs/FORMAT.md has
//! their rules.

use jugfjord::rack::{records, Disk, Rack, Slots, Streams};

use crate::list::{Lines, List, ListRack};
use crate::list_line::{error_value, fields_of, numbers, parts_of};
use crate::words::quoted;

const BYTE_ORDER_MARK: &[u8] = b"\xef\xbb\xbf";
const UTF_16_MARKS: [&[u8]; 2] = [b"\xff\xfe", b"\xfe\xff"];
const UTF_16: &str = "expected UTF-8 or ASCII, found UTF-16; save the list in UTF-8";
const ZERO_BYTE: &str = "expected text, found a zero byte \
    (records are planned by 'jugfjord plan --records')";
const CR_ALONE: &str = "expected LF or CRLF at the end of each line, found a CR alone \
    (save the list with line ends of Unix or Windows)";
/// The words that a rack line and the line of a disk begin with.
const RACK_WORD: &[u8] = b"rack";
const DISK_WORD: &[u8] = b"disk";
const RACK_LINE: &str = "rack DISKS SLOTS STREAMS";
const DISK_LINE: &str = "disk SLOTS STREAMS";
const FILM_LINE: &str = "FILM DEMAND";

/// Why a file is no list file: the line, what was expected and what was found.
pub struct Wrong {
    pub line: usize,
    pub words: String,
}

/// What the lines so far hold.
#[derive(Default)]
struct Gathered {
    /// The rack or its disks so far, once one was met.
    rack: Option<ListRack>,
    /// The line of the rack, or of each disk.
    rack_lines: Vec<usize>,
    records: Vec<u8>,
    record_lines: Vec<usize>,
}

/// The list in the bytes of a list file.
pub fn parse(bytes: &[u8]) -> Result<List, Wrong> {
    let text = text_in(bytes)?;
    let mut gathered = Gathered::default();
    let mut line = 0;
    for ended in text.split(|&byte| byte == b'\n') {
        line += 1;
        gathered
            .take(line, ended.strip_suffix(b"\r").unwrap_or(ended))
            .map_err(|words| Wrong { line, words })?;
    }
    gathered.list().map_err(|words| Wrong { line, words })
}

/// The bytes without their mark, if they are text and each CR in them is part of a line's end.
fn text_in(bytes: &[u8]) -> Result<&[u8], Wrong> {
    let text = bytes.strip_prefix(BYTE_ORDER_MARK).unwrap_or(bytes);
    let is_utf_16 = UTF_16_MARKS.iter().any(|mark| bytes.starts_with(mark));
    let faults = [
        (is_utf_16.then_some(0), UTF_16),
        (text.iter().position(|&byte| byte == 0), ZERO_BYTE),
        (cr_alone(text), CR_ALONE),
    ];
    match faults.iter().find_map(|&(at, words)| Some((at?, words))) {
        None => Ok(text),
        Some((at, words)) => Err(Wrong {
            line: line_of(text, at),
            words: words.into(),
        }),
    }
}

/// The line, from 1, of the byte at this place.
fn line_of(text: &[u8], at: usize) -> usize {
    1 + text[..at].iter().filter(|&&byte| byte == b'\n').count()
}

/// Where the first CR without an LF just behind it stands.
fn cr_alone(text: &[u8]) -> Option<usize> {
    let is_alone = |&at: &usize| text[at] == b'\r' && text.get(at + 1) != Some(&b'\n');
    (0..text.len()).find(is_alone)
}

impl Gathered {
    /// Takes the line of this number, or answers what is wrong with it.
    fn take(&mut self, number: usize, line: &[u8]) -> Result<(), String> {
        let (content, comment) = parts_of(line);
        if let Some(value) = error_value(comment) {
            return Err(self.spreadsheet_error(value));
        }
        let fields = fields_of(content);
        match fields.as_slice() {
            [] => {}
            [RACK_WORD, rest @ ..] => self.take_rack(number, content, rest)?,
            [DISK_WORD, rest @ ..] => self.take_disk(number, content, rest)?,
            _ if self.rack.is_none() => return Err(no_rack(&quoted(content))),
            fields => {
                let [film, demand] = numbers(FILM_LINE, content, fields)?;
                self.records.extend(records(&[(film, demand)]));
                self.record_lines.push(number);
            }
        }
        Ok(())
    }

    /// Takes a rack line with these fields after its word. It stands once, and beside no disk.
    fn take_rack(&mut self, number: usize, content: &[u8], fields: &[&[u8]]) -> Result<(), String> {
        match self.rack {
            None => {
                let [disks, slots, streams] = numbers(RACK_LINE, content, fields)?;
                let rack = Rack::new(disks, Slots(slots), Streams(streams));
                self.rack = Some(ListRack::Equal(rack));
                self.rack_lines.push(number);
                Ok(())
            }
            Some(ListRack::Equal(_)) => Err(self.too_late(content, "a second rack", "first")),
            Some(ListRack::Disks(_)) => Err(self.too_late(content, "a rack beside disks", "first")),
        }
    }

    /// Takes the line of a disk with these fields after its word. It stands beside no rack line, and
    /// before the films.
    fn take_disk(&mut self, number: usize, content: &[u8], fields: &[&[u8]]) -> Result<(), String> {
        if let Some(ListRack::Equal(_)) = self.rack {
            return Err(self.too_late(content, "a disk beside a rack", "rack"));
        }
        if let Some(film) = self.record_lines.first() {
            let found = quoted(content);
            let why = format!("a disk behind a film (the first film is in line {film})");
            return Err(no_film(&format!("{found}, {why}")));
        }
        let [slots, streams] = numbers(DISK_LINE, content, fields)?;
        let disk = Disk::new(Slots(slots), Streams(streams));
        match &mut self.rack {
            Some(ListRack::Disks(disks)) => disks.push(disk),
            _ => self.rack = Some(ListRack::Disks(vec![disk])),
        }
        self.rack_lines.push(number);
        Ok(())
    }

    /// What is said of a line that may not stand after the rack's first line.
    fn too_late(&self, content: &[u8], what: &str, before: &str) -> String {
        let (found, line) = (quoted(content), self.rack_lines[0]);
        no_film(&format!("{found}, {what} (the {before} is in line {line})"))
    }

    /// What is said of a spreadsheet's error value in the place of the line that is due.
    fn spreadsheet_error(&self, value: &[u8]) -> String {
        let found = format!("{}, an error of a spreadsheet", quoted(value));
        match self.rack {
            None => no_rack(&found),
            Some(_) => no_film(&found),
        }
    }

    /// The list, if its rack was met.
    fn list(self) -> Result<List, String> {
        let rack = self.rack.ok_or_else(|| no_rack("the end of the file"))?;
        let lines = Lines {
            rack: self.rack_lines,
            records: self.record_lines,
        };
        Ok(List {
            rack,
            records: self.records,
            lines: Some(lines),
        })
    }
}

fn no_rack(found: &str) -> String {
    format!("expected '{RACK_LINE}' or '{DISK_LINE}' before the films, found {found}")
}

fn no_film(found: &str) -> String {
    format!("expected '{FILM_LINE}', found {found}")
}
