//! A line of a list file: its comment, its fields, and the numbers in them.

use crate::words::quoted;

/// More fields than any line may have.
const TOO_MANY_FIELDS: usize = 5;
/// What spreadsheets write in the place of a value that they do not have.
const ERROR_VALUES: [&[u8]; 9] = [
    b"#N/A", b"#REF!", b"#VALUE!", b"#NAME?", b"#DIV/0!", b"#NUM!", b"#NULL!", b"#SPILL!",
    b"#CALC!",
];

/// A line's content, without blanks around it and separators behind it; and its comment, from `#` on.
pub fn parts_of(line: &[u8]) -> (&[u8], &[u8]) {
    let is_comment = |&at: &usize| line[at] == b'#' && (at == 0 || is_gap(&line[at - 1]));
    let comment = (0..line.len()).find(is_comment).unwrap_or(line.len());
    let (content, comment) = line.split_at(comment);
    let end = content.iter().rposition(|byte| !is_gap(byte));
    let content = &content[..end.map_or(0, |last| last + 1)];
    let start = content.iter().position(|byte| !is_blank(byte));
    (&content[start.unwrap_or(0)..], comment)
}

/// The error value of a spreadsheet that a comment begins with.
pub fn error_value(comment: &[u8]) -> Option<&[u8]> {
    let mut values = ERROR_VALUES.into_iter();
    let value = values.find(|value| comment.starts_with(value));
    value.or_else(|| wide_value(comment))
}

/// The `#` signs of a cell whose number is wider than its column, if the comment begins with such a cell.
fn wide_value(comment: &[u8]) -> Option<&[u8]> {
    let end = comment.iter().position(|&byte| byte != b'#')?;
    let (value, behind) = comment.split_at(end);
    let is_cell = value.len() > 1 && matches!(behind, [b',' | b';' | b'\t', ..]);
    is_cell.then_some(value)
}

/// The fields of a content, or the first few of too many. A field between two separators may be empty.
pub fn fields_of(content: &[u8]) -> Vec<&[u8]> {
    if content.is_empty() {
        return Vec::new();
    }
    let cells = content.split(is_separator);
    cells.flat_map(cell_fields).take(TOO_MANY_FIELDS).collect()
}

/// The fields of a cell between separators: at least one, which may be empty.
fn cell_fields(cell: &[u8]) -> impl Iterator<Item = &[u8]> {
    let fields = cell.split(is_blank).filter(|field| !field.is_empty());
    let none = cell.iter().all(is_blank);
    fields.chain(none.then_some(&cell[..0]))
}

/// Whether the byte stands between fields.
fn is_gap(byte: &u8) -> bool {
    is_blank(byte) || is_separator(byte)
}

fn is_blank(byte: &u8) -> bool {
    matches!(byte, b' ' | b'\t')
}

/// Whether the byte separates fields by itself, so that two of them have an empty field between.
fn is_separator(byte: &u8) -> bool {
    matches!(byte, b',' | b';')
}

/// The numbers in the fields, just so many. A wrong number is said before a field too many.
pub fn numbers<const COUNT: usize>(
    line: &str,
    content: &[u8],
    fields: &[&[u8]],
) -> Result<[u32; COUNT], String> {
    let expected = |found: &str| format!("expected '{line}', found {found}{}", quoted(content));
    if fields.iter().any(|field| field.is_empty()) {
        return Err(expected("an empty field in "));
    }
    let (first, more) = fields
        .split_first_chunk::<COUNT>()
        .ok_or_else(|| expected(""))?;
    let mut numbers = [0; COUNT];
    for (number, field) in numbers.iter_mut().zip(first) {
        *number = number_in(field)?;
    }
    match more {
        [] => Ok(numbers),
        _ => Err(expected("")),
    }
}

/// The number in decimal digits.
fn number_in(field: &[u8]) -> Result<u32, String> {
    let expected = |form: &str| format!("expected a whole number{form}, found {}", quoted(field));
    if !field.iter().all(u8::is_ascii_digit) {
        return Err(expected(""));
    }
    if matches!(field, [b'0', _, ..]) {
        return Err(expected(" without leading zeros"));
    }
    let number = str::from_utf8(field)
        .ok()
        .and_then(|text| text.parse().ok());
    number.ok_or_else(|| expected(&format!(" up to {}", u32::MAX)))
}
