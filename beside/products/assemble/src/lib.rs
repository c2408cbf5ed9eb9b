//! A day of events written as text, one event a line, turned into frames. Each
//! frame is written by the proved writer, which alone knows the ranges of the
//! fields. `#` starts a comment, and a line without words stands for nothing.
//!
//! A line `bytes` holds any bytes, in hex, also what is no frame; `00*300` is
//! the byte 00 three hundred times. No such frame is judged here.

#![deny(unsafe_code)]
#![deny(warnings)]

pub mod check;
pub mod codec;
pub mod day;
pub mod echo;
pub mod event;
pub mod forms;
pub mod framing;
pub mod lines;
pub mod output;
pub mod plural;
pub mod ranges;
pub mod warnings;

use lines::{Lines, Wrong};

/// The bytes that the text stands for, or its bad lines: the number of each, from
/// 1, and what is wrong with it.
pub fn assemble(text: &[u8]) -> Result<Vec<u8>, Vec<(u64, String)>> {
    let mut bytes = Vec::new();
    let mut bad = Vec::new();
    for line in Lines::new(text) {
        match line {
            Ok(line) => bytes.extend(line.bytes),
            Err(Wrong::Line(number, wrong)) => bad.push((number, wrong)),
            Err(Wrong::Read(error)) => bad.push((0, error.to_string())),
        }
    }
    match bad.is_empty() {
        true => Ok(bytes),
        false => Err(bad),
    }
}
