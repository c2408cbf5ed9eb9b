//! What the compared days held: events by kind and answer, records by kind, and
//! the situations that the book reached.

use reckoning::book::{Book, SPACE};
use reckoning::coverage;
use reckoning::generate::LAST_KIND;
use std::collections::BTreeMap;
use std::fmt;

/// Stands for every kind that is unknown, and for what is no frame.
pub const OTHER: u32 = 0;

#[derive(Default)]
pub struct Tally {
    pub days: u64,
    pub bytes: u64,
    pub lines: u64,
    /// Events by kind, or `OTHER`, and answer.
    pub events: BTreeMap<(u32, u32), u64>,
    /// Records by kind.
    pub records: BTreeMap<u32, u64>,
    /// The most records of one event, and the highest value answered.
    pub most: u64,
    pub highest: u64,
    pub situations: BTreeMap<&'static str, u64>,
}

/// The frames of an input up to its end, or to where `tape` stops.
pub fn frames(input: &[u8]) -> Vec<&[u8]> {
    let mut frames = Vec::new();
    let mut rest = input;
    while let [low, high, ..] = rest {
        let length = usize::from(u16::from_le_bytes([*low, *high]));
        if length < 4 || length > rest.len() {
            break;
        }
        let (frame, after) = rest.split_at(length);
        frames.push(frame);
        rest = after;
    }
    frames
}

/// The kind that a frame's bytes say.
pub fn kind_of(frame: &[u8]) -> u32 {
    match frame {
        [_, _, low, high, ..] => match u32::from(u16::from_le_bytes([*low, *high])) {
            kind if kind <= LAST_KIND => kind,
            _ => OTHER,
        },
        _ => OTHER,
    }
}

/// The kinds by number, and then `OTHER`.
pub fn kinds() -> impl Iterator<Item = u32> {
    (1..=LAST_KIND).chain([OTHER])
}

/// The name of a kind.
pub fn name_of(kind: u32) -> String {
    match kind {
        OTHER => "other".to_string(),
        kind => kind.to_string(),
    }
}

/// The situations that a list of frames reaches, each with the length of its
/// record space.
pub fn situations<'a>(
    list: impl Iterator<Item = (&'a [u8], usize)>,
) -> BTreeMap<&'static str, u64> {
    coverage::take();
    let mut book = Book::first();
    for (frame, space) in list {
        let before = book.clone();
        let answer = book.step(frame, space);
        coverage::observe(&before, frame, &answer, &book);
    }
    coverage::take()
}

impl Tally {
    /// Adds a day with the lines that were printed for it and found right.
    pub fn add(&mut self, input: &[u8], printed: &[u8]) {
        let frames = frames(input);
        self.days += 1;
        self.bytes += input.len() as u64;
        let text = String::from_utf8_lossy(printed);
        let mut index = 0;
        for line in text.lines() {
            self.lines += 1;
            let words: Vec<&str> = line.split(' ').collect();
            let number = |at: usize| words.get(at).and_then(|word| word.parse::<u64>().ok());
            let number = |at: usize| number(at).unwrap_or(0);
            match words.first() {
                Some(&"E") => {
                    let kind = frames.get(index).map_or(OTHER, |frame| kind_of(frame));
                    *self.events.entry((kind, number(2) as u32)).or_default() += 1;
                    self.highest = self.highest.max(number(3));
                    self.most = self.most.max(number(4));
                    index += 1;
                }
                _ => *self.records.entry(number(1) as u32).or_default() += 1,
            }
        }
        for (situation, count) in situations(frames.into_iter().map(|frame| (frame, SPACE))) {
            *self.situations.entry(situation).or_default() += count;
        }
    }

    /// Adds another tally.
    pub fn join(&mut self, other: Tally) {
        self.days += other.days;
        self.bytes += other.bytes;
        self.lines += other.lines;
        self.most = self.most.max(other.most);
        self.highest = self.highest.max(other.highest);
        for (at, count) in other.events {
            *self.events.entry(at).or_default() += count;
        }
        for (kind, count) in other.records {
            *self.records.entry(kind).or_default() += count;
        }
        for (situation, count) in other.situations {
            *self.situations.entry(situation).or_default() += count;
        }
    }

    pub fn total(&self) -> u64 {
        self.events.values().sum()
    }

    /// How many events of the kind had the answer.
    pub fn of(&self, kind: u32, answer: u32) -> u64 {
        self.events.get(&(kind, answer)).copied().unwrap_or(0)
    }

    /// How many events had the answer.
    pub fn answered(&self, answer: u32) -> u64 {
        kinds().map(|kind| self.of(kind, answer)).sum()
    }

    pub fn written(&self, kind: u32) -> u64 {
        self.records.get(&kind).copied().unwrap_or(0)
    }

    pub fn reached(&self, situation: &str) -> u64 {
        self.situations.get(situation).copied().unwrap_or(0)
    }
}

impl fmt::Display for Tally {
    fn fmt(&self, out: &mut fmt::Formatter) -> fmt::Result {
        writeln!(
            out,
            "  {} events in {} days, {} bytes, {} lines",
            self.total(),
            self.days,
            self.bytes,
            self.lines
        )?;
        for kind in kinds() {
            let name = name_of(kind);
            let counts: Vec<String> = (self.events.iter())
                .filter(|((of, _), _)| *of == kind)
                .map(|((_, answer), count)| format!("{answer}: {count}"))
                .collect();
            writeln!(out, "  kind {name}, by answer: {}", counts.join(", "))?;
        }
        let counts: Vec<String> = (self.records.iter())
            .map(|(kind, count)| format!("{kind}: {count}"))
            .collect();
        writeln!(out, "  records by kind: {}", counts.join(", "))?;
        let least = self.situations.values().min().copied().unwrap_or(0);
        writeln!(
            out,
            "  {} situations, each {least} times or more",
            self.situations.len()
        )?;
        write!(
            out,
            "  most records of one event {}, highest value {}",
            self.most, self.highest
        )
    }
}
