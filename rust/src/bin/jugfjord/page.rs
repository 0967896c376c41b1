//! A page of sentences and tables whose columns line up.

use std::array::from_fn;

const BOLD: &str = "1";
const YELLOW: &str = "33";

/// The most characters of a line.
pub const WIDTH: usize = 79;
/// What stands between two columns, and between two things in the last of them.
pub const GAP: &str = "  ";

/// One row of a table: so many columns, and what stands behind them. Some rows are in colour.
pub struct Row<const COLUMNS: usize> {
    pub columns: [String; COLUMNS],
    pub detail: String,
    pub in_colour: bool,
}

impl<const COLUMNS: usize> Row<COLUMNS> {
    /// The row with its columns set to the right.
    fn aligned(&self, widths: [usize; COLUMNS]) -> String {
        let columns = self.columns.iter().zip(widths);
        let columns = columns.map(|(column, width)| format!("{column:>width$}{GAP}"));
        let line = columns.collect::<String>() + &self.detail;
        line.trim_end().into()
    }
}

/// The titles of a table's columns, and of what stands behind them.
pub type Titles<const COLUMNS: usize> = ([&'static str; COLUMNS], &'static str);

/// The page so far.
pub struct Page {
    text: String,
    coloured: bool,
}

impl Page {
    /// An empty page, with bold and colour or without.
    pub fn new(coloured: bool) -> Self {
        let text = String::new();
        Page { text, coloured }
    }

    /// Adds a sentence in bold, of one line or more.
    pub fn sentence(&mut self, sentence: &str) {
        self.part();
        sentence
            .lines()
            .for_each(|line| self.line(line, Some(BOLD)));
    }

    /// Adds a table, unless it is empty.
    pub fn table<const COLUMNS: usize>(
        &mut self,
        (columns, detail): Titles<COLUMNS>,
        rows: Vec<Row<COLUMNS>>,
    ) {
        if rows.is_empty() {
            return;
        }
        let titles = Row {
            columns: columns.map(str::to_string),
            detail: detail.into(),
            in_colour: false,
        };
        let widths = from_fn(|at| {
            let all = rows.iter().chain([&titles]);
            all.map(|row| row.columns[at].len()).max().unwrap_or(0)
        });
        self.part();
        self.line(&titles.aligned(widths), Some(BOLD));
        for row in rows {
            self.line(&row.aligned(widths), row.in_colour.then_some(YELLOW));
        }
    }

    pub fn into_bytes(self) -> Vec<u8> {
        self.text.into_bytes()
    }

    /// Begins another part, an empty line below the one before.
    fn part(&mut self) {
        if !self.text.is_empty() {
            self.line("", None);
        }
    }

    /// Adds a line in a style, if the page has any.
    fn line(&mut self, line: &str, style: Option<&str>) {
        match style.filter(|_| self.coloured) {
            Some(style) => self.text += &format!("\x1b[{style}m{line}\x1b[0m\n"),
            None => self.text += &format!("{line}\n"),
        }
    }
}

/// A number of things.
pub fn counted(number: impl Into<u64>, thing: &str) -> String {
    match number.into() {
        1 => format!("1 {thing}"),
        number => format!("{number} {thing}s"),
    }
}

/// The parts with commas between them, on as many lines as they need.
pub fn in_lines(parts: impl Iterator<Item = String>) -> String {
    let mut lines: Vec<String> = Vec::new();
    for part in parts {
        match lines.last_mut() {
            // A comma may stand behind the part too.
            Some(line) if line.len() + ", ".len() + part.len() < WIDTH => {
                *line += &format!(", {part}");
            }
            _ => lines.push(part),
        }
    }
    lines.join(",\n")
}
