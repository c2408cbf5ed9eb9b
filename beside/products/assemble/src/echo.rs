//! What a message shows of its input: escaped, so that no character of it
//! steers a terminal, and cut, so that the message stays one line.
//!
//! Escaped are control characters, marks of direction and all else that does not
//! print, `\xHH` for a byte that is no UTF-8, and the backslash itself. Letters
//! of every language stand as they are.

use std::ffi::OsStr;
use std::os::unix::ffi::OsStrExt;

/// The most characters that are shown.
pub const MOST: usize = 40;

/// A word of the input: its first characters.
pub fn word(bytes: impl AsRef<[u8]>) -> String {
    cut(bytes, MOST)
}

/// The first characters of a text, `..` after them where some are left out.
pub fn cut(bytes: impl AsRef<[u8]>, most: usize) -> String {
    if let Some(text) = plain(bytes.as_ref()).filter(|text| text.len() <= most) {
        return text.to_string();
    }
    let mut shown = String::new();
    let mut length = 0;
    // The place up to which there is room for the mark of a cut.
    let mut fits = 0;
    for piece in pieces(bytes.as_ref()) {
        length += piece.chars().count();
        if length > most {
            shown.truncate(fits);
            return shown + "..";
        }
        shown += &piece;
        if length + 2 <= most {
            fits = shown.len();
        }
    }
    shown
}

/// The name of a file: its last characters, which tell more than the first.
pub fn name(name: impl AsRef<OsStr>) -> String {
    let all: Vec<String> = pieces(name.as_ref().as_bytes()).collect();
    let length = |pieces: &[String]| -> usize { pieces.iter().map(|p| p.chars().count()).sum() };
    if length(&all) <= MOST {
        return all.concat();
    }
    let mut rest = &all[..];
    while length(rest) > MOST - 2 {
        rest = &rest[1..];
    }
    format!("..{}", rest.concat())
}

/// A whole text, escaped.
pub fn text(bytes: impl AsRef<[u8]>) -> String {
    pieces(bytes.as_ref()).collect()
}

/// The text, where it is shown as it stands.
fn plain(bytes: &[u8]) -> Option<&str> {
    let plain = |byte: &u8| matches!(byte, b' '..=b'~') && *byte != b'\\';
    match bytes.iter().all(plain) {
        true => std::str::from_utf8(bytes).ok(),
        false => None,
    }
}

/// Each character as it is shown, and each byte that belongs to none.
fn pieces(bytes: &[u8]) -> impl Iterator<Item = String> + '_ {
    bytes.utf8_chunks().flat_map(|chunk| {
        let invalid = chunk.invalid().iter().map(|byte| format!("\\x{byte:02x}"));
        chunk.valid().chars().map(escaped).chain(invalid)
    })
}

/// The library's table of what prints, after a letter: by itself a mark that
/// stands above or below a letter would be escaped.
fn escaped(character: char) -> String {
    match character {
        '\'' | '"' => character.to_string(),
        _ => format!("a{character}").escape_debug().skip(1).collect(),
    }
}
