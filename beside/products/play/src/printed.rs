//! The lines that `tape` prints: `E` index answer value count, then count lines
//! `R` kind, number, place, side, quantity, price.

use assemble::echo;
use assemble::plural::counted;

/// A line `E`.
#[derive(Clone, Copy, Debug, PartialEq, Eq)]
pub struct Answer {
    pub index: i64,
    pub answer: i64,
    pub value: i64,
    pub count: i64,
}

/// A line `R`.
#[derive(Clone, Copy, Debug, PartialEq, Eq)]
pub struct Record {
    pub kind: i64,
    pub number: i64,
    pub place: i64,
    pub side: i64,
    pub quantity: i64,
    pub price: i64,
}

#[derive(Clone, Copy, Debug, PartialEq, Eq)]
pub enum Printed {
    Answer(Answer),
    Record(Record),
    /// No line of `tape`.
    Other,
}

/// A whole number as `tape` writes it.
fn number(word: &[u8]) -> Option<i64> {
    let digits = word.strip_prefix(b"-").unwrap_or(word);
    match digits {
        [b'0'] if digits.len() == word.len() => Some(0),
        [b'1'..=b'9', rest @ ..] if rest.iter().all(u8::is_ascii_digit) => {
            std::str::from_utf8(word).ok()?.parse().ok()
        }
        _ => None,
    }
}

/// The numbers of a line after its first word.
fn numbers<const COUNT: usize>(rest: &[u8]) -> Option<[i64; COUNT]> {
    let mut list = [0; COUNT];
    let mut words = rest.split(|byte| *byte == b' ');
    for place in &mut list {
        *place = number(words.next()?)?;
    }
    match words.next() {
        None => Some(list),
        Some(_) => None,
    }
}

/// A line without its end.
pub fn read(line: &[u8]) -> Printed {
    if let Some([index, answer, value, count]) = line.strip_prefix(b"E ").and_then(numbers) {
        return Printed::Answer(Answer {
            index,
            answer,
            value,
            count,
        });
    }
    match line.strip_prefix(b"R ").and_then(numbers) {
        Some([kind, number, place, side, quantity, price]) => Printed::Record(Record {
            kind,
            number,
            place,
            side,
            quantity,
            price,
        }),
        None => Printed::Other,
    }
}

/// The most bytes that a line is held to have; a longer one is taken in pieces.
const LONGEST: usize = 1_000;

/// Lines from text that comes in pieces.
#[derive(Default)]
pub struct Splitter {
    rest: Vec<u8>,
}

impl Splitter {
    /// Hands on each line that this piece completes.
    pub fn push<E>(
        &mut self,
        piece: &[u8],
        take: &mut dyn FnMut(&[u8]) -> Result<(), E>,
    ) -> Result<(), E> {
        for part in piece.split_inclusive(|byte| *byte == b'\n') {
            match part.strip_suffix(b"\n") {
                Some(line) if self.rest.is_empty() => take(line)?,
                Some(line) => {
                    self.rest.extend(line);
                    take(&std::mem::take(&mut self.rest))?;
                }
                None => {
                    self.rest.extend(part);
                    if self.rest.len() > LONGEST {
                        take(&std::mem::take(&mut self.rest))?;
                    }
                }
            }
        }
        Ok(())
    }

    /// What came after the last end of a line.
    pub fn rest(self) -> Vec<u8> {
        self.rest
    }
}

/// Whether the lines are those of a list of events: each has its form, the
/// indices rise from 0, and each event has the records that it counts.
#[derive(Default)]
pub struct Checker {
    /// The lines `E` that came.
    pub answers: u64,
    lines: u64,
    due: i64,
    /// The first thing that is wrong.
    wrong: Option<String>,
}

impl Checker {
    pub fn line(&mut self, line: &[u8], printed: &Printed) {
        self.lines += 1;
        match printed {
            Printed::Answer(answer) => {
                self.all_came();
                if answer.index != self.answers as i64 {
                    let (index, due) = (answer.index, self.answers);
                    self.note(format!("index {index} instead of {due}"));
                }
                self.answers += 1;
                self.due = answer.count;
            }
            Printed::Record(_) if self.due > 0 => self.due -= 1,
            Printed::Record(_) => self.note("a record past the count of its event".to_string()),
            Printed::Other => {
                let line = echo::word(line);
                self.note(format!("'{line}' is no line of tape"));
            }
        }
    }

    /// At an end no record is due.
    fn all_came(&mut self) {
        if self.due > 0 {
            let missing = counted(self.due, "record");
            self.note(format!("{missing} fewer than the event before counts"));
        }
        self.due = 0;
    }

    fn note(&mut self, wrong: String) {
        let line = self.lines;
        self.wrong
            .get_or_insert(format!("line {line} of its output: {wrong}"));
    }

    /// What is wrong with the lines, at their end. `rest` is what came after the
    /// last whole line.
    pub fn end(mut self, rest: &[u8]) -> Option<String> {
        self.lines += 1;
        if !rest.is_empty() {
            let rest = echo::word(rest);
            self.note(format!("'{rest}' is no whole line"));
        }
        self.all_came();
        self.wrong
    }
}
