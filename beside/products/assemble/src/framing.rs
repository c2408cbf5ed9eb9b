//! The bytes of a day in frames, as the program `tape` takes them, with the
//! lines that they come from. A frame may begin inside a line, and go on in the
//! next ones.

use crate::lines::{Line, Wrong};

/// Why `tape` stops: "a length under 4 or past the input's end, a lone last byte
/// included".
#[derive(Clone, Copy, Debug, PartialEq, Eq)]
pub enum Why {
    /// The length.
    Under4(u16),
    /// The length.
    PastEnd(u16),
    LoneByte,
}

#[derive(Clone, Debug, PartialEq, Eq)]
pub enum What {
    /// A frame, which `tape` answers.
    Frame(Vec<u8>),
    /// Where it stops, which it answers too.
    Stop(Why),
    /// A line that it does not come to.
    NotReached,
}

/// A part of the day.
#[derive(Clone, Debug, PartialEq, Eq)]
pub struct Part {
    pub what: What,
    /// The line of its first byte.
    pub first: u64,
    /// How many bytes of that line stand before it.
    pub inside: usize,
    /// The line of its last byte.
    pub last: u64,
    /// How many bytes of that line are left after it.
    pub left: usize,
    /// The lines whose first byte is in it. So each line is in one part.
    pub lines: Vec<Line>,
}

/// The parts of a day, from its lines.
pub struct Parts<I> {
    lines: I,
    /// The number of the line that is taken now, its bytes, and how many of them
    /// are taken.
    number: u64,
    bytes: Vec<u8>,
    taken: usize,
    stopped: bool,
}

impl<I: Iterator<Item = Result<Line, Wrong>>> Parts<I> {
    pub fn new(lines: I) -> Parts<I> {
        Parts {
            lines,
            number: 0,
            bytes: Vec::new(),
            taken: 0,
            stopped: false,
        }
    }

    /// The next line that has bytes is taken now. `None` at the end.
    fn next_line(&mut self, part: &mut Part) -> Option<Result<(), Wrong>> {
        let line = match self.lines.next()? {
            Ok(line) => line,
            Err(wrong) => return Some(Err(wrong)),
        };
        self.number = line.number;
        self.bytes.clone_from(&line.bytes);
        self.taken = 0;
        part.lines.push(line);
        Some(Ok(()))
    }

    /// Takes so many bytes more into the part, or as many as there are.
    fn take(&mut self, count: usize, part: &mut Part, into: &mut Vec<u8>) -> Result<(), Wrong> {
        let due = into.len() + count;
        while into.len() < due {
            if self.taken == self.bytes.len() {
                match self.next_line(part) {
                    None => return Ok(()),
                    Some(result) => result?,
                }
            }
            if into.is_empty() {
                part.first = self.number;
                part.inside = self.taken;
            }
            let end = self.bytes.len().min(self.taken + due - into.len());
            into.extend(&self.bytes[self.taken..end]);
            self.taken = end;
            part.last = self.number;
            part.left = self.bytes.len() - end;
        }
        Ok(())
    }

    fn part(&mut self) -> Result<Option<Part>, Wrong> {
        let mut part = Part {
            what: What::NotReached,
            first: 0,
            inside: 0,
            last: 0,
            left: 0,
            lines: Vec::new(),
        };
        let mut bytes = Vec::new();
        self.take(2, &mut part, &mut bytes)?;
        let length = match bytes[..] {
            [] => return Ok(None),
            [low, high] => u16::from_le_bytes([low, high]),
            _ => {
                part.what = What::Stop(Why::LoneByte);
                return Ok(Some(part));
            }
        };
        if length < 4 {
            part.what = What::Stop(Why::Under4(length));
            return Ok(Some(part));
        }
        self.take(usize::from(length) - 2, &mut part, &mut bytes)?;
        part.what = if bytes.len() < usize::from(length) {
            What::Stop(Why::PastEnd(length))
        } else {
            What::Frame(bytes)
        };
        Ok(Some(part))
    }

    /// A line after the stop.
    fn not_reached(&mut self) -> Option<Result<Part, Wrong>> {
        let line = match self.lines.next()? {
            Ok(line) => line,
            Err(wrong) => return Some(Err(wrong)),
        };
        Some(Ok(Part {
            what: What::NotReached,
            first: line.number,
            inside: 0,
            last: line.number,
            left: 0,
            lines: vec![line],
        }))
    }
}

impl<I: Iterator<Item = Result<Line, Wrong>>> Iterator for Parts<I> {
    type Item = Result<Part, Wrong>;

    fn next(&mut self) -> Option<Result<Part, Wrong>> {
        if self.stopped {
            return self.not_reached();
        }
        let part = self.part().transpose()?;
        self.stopped = match &part {
            Ok(part) => matches!(part.what, What::Stop(_)),
            Err(_) => true,
        };
        Some(part)
    }
}
