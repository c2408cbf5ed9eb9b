//! The lines of a day that stand for an event, one after the other.

use crate::event::{bytes, words};
use std::io::{self, BufRead, Read};

/// The most bytes that the text of a line has.
pub const LONGEST: usize = 1_000_000;

/// How a file may begin that is no plain text.
const MARK: &[u8] = &[0xef, 0xbb, 0xbf];

/// The same in UTF-16, where no line can be told from the next.
const MARKS_OF_UTF_16: [[u8; 2]; 2] = [[0xff, 0xfe], [0xfe, 0xff]];

/// A line that stands for an event.
#[derive(Clone, Debug, PartialEq, Eq)]
pub struct Line {
    /// From 1.
    pub number: u64,
    /// Its words, one blank between them, without its comment. They are known
    /// words and numbers alone.
    pub text: String,
    pub bytes: Vec<u8>,
}

/// Why there is no line.
#[derive(Debug)]
pub enum Wrong {
    /// The line with this number is bad, and what is wrong with it.
    Line(u64, String),
    /// The file cannot be read.
    Read(io::Error),
}

/// The lines of a text. A bad one is followed by the next.
pub struct Lines<R> {
    text: R,
    number: u64,
    ended: bool,
}

impl<R: BufRead> Lines<R> {
    pub fn new(text: R) -> Lines<R> {
        Lines {
            text,
            number: 0,
            ended: false,
        }
    }

    /// The text of the next line of any sort; none at the end.
    fn next_text(&mut self) -> io::Result<Vec<u8>> {
        let mut text = Vec::new();
        let most = LONGEST as u64 + 1;
        self.text.by_ref().take(most).read_until(b'\n', &mut text)?;
        self.number += 1;
        if text.last() == Some(&b'\n') {
            text.pop();
        } else {
            self.ended = text.len() <= LONGEST;
        }
        Ok(text)
    }

    /// The event of a line, if it has one.
    fn line(&mut self, text: &[u8]) -> Option<Result<Line, Wrong>> {
        let wrong = |wrong: String| Some(Err(Wrong::Line(self.number, wrong)));
        if text.len() > LONGEST {
            self.ended = true;
            return wrong(format!(
                "the line has more than {LONGEST} bytes; nothing after them is read"
            ));
        }
        if self.number == 1 && text.starts_with(MARK) {
            return wrong(
                "the file begins with a byte order mark (EF BB BF); store it without one"
                    .to_string(),
            );
        }
        let mark = |mark: &&[u8; 2]| self.number == 1 && text.starts_with(*mark);
        if let Some([one, two]) = MARKS_OF_UTF_16.iter().find(mark) {
            self.ended = true;
            return wrong(format!(
                "the file begins with a byte order mark ({one:02X} {two:02X}), that of UTF-16; store it as UTF-8 without one"
            ));
        }
        let words = words(text.split(|byte| *byte == b'#').next().unwrap_or(text));
        let (first, rest) = words.split_first()?;
        match bytes(first, rest) {
            Err(said) => wrong(said),
            Ok(bytes) => Some(Ok(Line {
                number: self.number,
                text: String::from_utf8_lossy(&words.join(&b' ')).into_owned(),
                bytes,
            })),
        }
    }
}

impl<R: BufRead> Iterator for Lines<R> {
    type Item = Result<Line, Wrong>;

    fn next(&mut self) -> Option<Result<Line, Wrong>> {
        while !self.ended {
            match self.next_text() {
                Err(error) => {
                    self.ended = true;
                    return Some(Err(Wrong::Read(error)));
                }
                Ok(text) => {
                    if let Some(line) = self.line(&text) {
                        return Some(line);
                    }
                }
            }
        }
        None
    }
}
