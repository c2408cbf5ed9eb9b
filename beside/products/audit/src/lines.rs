//! The lines of `tape`, one after the other: `E` index answer value count, then
//! count lines `R` kind, number, place, side, quantity, price.

use crate::wrong::Wrong;
use assemble::echo;
use std::io::{BufRead, Read};

/// A record.
#[derive(Clone, Copy, Debug, PartialEq, Eq)]
pub struct Record {
    pub kind: i64,
    pub number: i64,
    pub place: i64,
    pub side: i64,
    pub quantity: i64,
    pub price: i64,
}

/// A line `E`.
#[derive(Clone, Copy, Debug, PartialEq, Eq)]
pub struct Answer {
    pub answer: i64,
    pub value: i64,
    pub count: i64,
}

/// The bytes of a line that are held: more than a line of `tape` has, and enough
/// for what a message shows of another.
const HELD: u64 = 200;

/// Lines, of which one is held.
pub struct Lines<R> {
    /// What messages call them.
    name: &'static str,
    input: R,
    line: Vec<u8>,
    /// The lines and the events that were read, and the records that the last
    /// event still counts.
    at: usize,
    answered: usize,
    due: i64,
}

/// What a line says.
enum Said {
    Answer { index: i64, answer: Answer },
    Record(Record),
}

/// A number of 32 bits, with a sign or without, as it is printed.
fn number(word: &str) -> Option<i64> {
    let digits = word.strip_prefix('-').unwrap_or(word);
    let printed = word == "0" || !digits.starts_with(['0', '+']);
    let value = word.parse::<i64>().ok().filter(|_| printed)?;
    let bits = i64::from(i32::MIN)..=i64::from(u32::MAX);
    bits.contains(&value).then_some(value)
}

/// The numbers of a line after its first word, if it is that word and so many
/// numbers, one blank between them.
fn numbers<const COUNT: usize>(line: &str, first: &str) -> Option<[i64; COUNT]> {
    let mut words = line.split(' ');
    if words.next() != Some(first) {
        return None;
    }
    let mut list = [0; COUNT];
    for value in &mut list {
        *value = number(words.next()?)?;
    }
    words.next().is_none().then_some(list)
}

/// What the line says, if it is one of `tape`.
fn said(line: &[u8]) -> Option<Said> {
    let line = std::str::from_utf8(line).ok()?;
    if let Some([kind, number, place, side, quantity, price]) = numbers(line, "R") {
        return Some(Said::Record(Record {
            kind,
            number,
            place,
            side,
            quantity,
            price,
        }));
    }
    let [index, answer, value, count] = numbers(line, "E")?;
    let answer = Answer {
        answer,
        value,
        count,
    };
    (count >= 0).then_some(Said::Answer { index, answer })
}

impl<R: BufRead> Lines<R> {
    pub fn new(name: &'static str, input: R) -> Lines<R> {
        Lines {
            name,
            input,
            line: Vec::new(),
            at: 0,
            answered: 0,
            due: 0,
        }
    }

    /// How many events the lines have answered.
    pub fn answered(&self) -> usize {
        self.answered
    }

    /// What is wrong with the lines.
    pub fn wrong(&self, said: &str) -> Wrong {
        Wrong::Lines(format!("{}: {said}", self.name))
    }

    /// What is wrong with the line that was read last.
    pub fn wrong_line(&self, said: &str) -> Wrong {
        self.wrong(&format!("line {}: {said}", self.at))
    }

    /// What the next line says; none at the end.
    fn said(&mut self) -> Result<Option<Said>, Wrong> {
        self.line.clear();
        let mut input = self.input.by_ref().take(HELD);
        let read = input.read_until(b'\n', &mut self.line);
        if read.map_err(Wrong::Read)? == 0 {
            return Ok(None);
        }
        self.at += 1;
        let line = self.line.strip_suffix(b"\n").unwrap_or(&self.line);
        match said(line) {
            Some(said) => Ok(Some(said)),
            None => {
                let shown = echo::word(line);
                Err(self.wrong_line(&format!("'{shown}' is no line of tape")))
            }
        }
    }

    /// The next line `E`, after the records of the one before; none at the end.
    pub fn answer(&mut self) -> Result<Option<Answer>, Wrong> {
        let (index, answer) = match self.said()? {
            None => return Ok(None),
            Some(Said::Record(_)) => {
                return Err(self.wrong_line("a record past the count of its event"));
            }
            Some(Said::Answer { index, answer }) => (index, answer),
        };
        if index != self.answered as i64 {
            return Err(self.wrong_line(&format!("index {index} instead of {}", self.answered)));
        }
        if answer.answer != 0 && (answer.value, answer.count) != (0, 0) {
            return Err(self.wrong_line("a refusal with a value or records"));
        }
        self.answered += 1;
        self.due = answer.count;
        Ok(Some(answer))
    }

    /// The next record of the last event; none if it has no more.
    pub fn record(&mut self) -> Result<Option<Record>, Wrong> {
        let due = self.due;
        if due <= 0 {
            return Ok(None);
        }
        match self.said()? {
            None => Err(self.wrong(&format!("{due} records fewer than the last event counts"))),
            Some(Said::Answer { .. }) => {
                Err(self.wrong_line(&format!("{due} records fewer than the event counts")))
            }
            Some(Said::Record(record)) if !(1..=5).contains(&record.kind) => {
                Err(self.wrong_line(&format!("no record has kind {}", record.kind)))
            }
            Some(Said::Record(record)) => {
                self.due -= 1;
                Ok(Some(record))
            }
        }
    }

    /// Reads the records that the last event still counts.
    pub fn skip_records(&mut self) -> Result<(), Wrong> {
        while self.record()?.is_some() {}
        Ok(())
    }

    /// Reads on to the end.
    pub fn skip(&mut self) -> Result<(), Wrong> {
        self.skip_records()?;
        while self.answer()?.is_some() {
            self.skip_records()?;
        }
        Ok(())
    }
}
