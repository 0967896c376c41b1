//! Bytes of files and names in messages.

/// How many characters of a line's content a message shows.
const MOST_SHOWN: usize = 60;

/// The bytes on one line: what cannot be seen is escaped, in UTF-8 or not.
pub fn shown(bytes: &[u8]) -> String {
    pieces(bytes).collect()
}

/// The beginning of the bytes in quotes, on one line, with `...` where there are more.
pub fn quoted(bytes: &[u8]) -> String {
    format!("'{}'", cut(bytes))
}

/// The beginning of the bytes, on one line, with `...` where there are more.
fn cut(bytes: &[u8]) -> String {
    let mut all = String::new();
    for piece in pieces(bytes) {
        if all.len() + piece.len() > MOST_SHOWN {
            return all + "...";
        }
        all += &piece;
    }
    all
}

/// Each character as it is shown, and each byte that is part of none.
fn pieces(bytes: &[u8]) -> impl Iterator<Item = String> + '_ {
    bytes.utf8_chunks().flat_map(|chunk| {
        let characters = chunk.valid().chars().map(character);
        let others = chunk.invalid().iter().map(|&byte| hexadecimal(byte));
        characters.chain(others)
    })
}

/// The character, or its escape where it cannot be seen.
fn character(character: char) -> String {
    let has_letter = matches!(character, '\t' | '\r' | '\n');
    match character {
        '\'' | '"' => character.into(),
        _ if character.is_ascii_control() && !has_letter => hexadecimal(character as u8),
        _ => character.escape_debug().collect(),
    }
}

/// The byte as an escape of two hexadecimal digits.
fn hexadecimal(byte: u8) -> String {
    format!("\\x{byte:02x}")
}
