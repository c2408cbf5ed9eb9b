//! How many comparisons there were of each kind with each answer.

use crate::fields::LAST;
use std::collections::BTreeMap;
use std::fmt;

/// Counts by kind (0 for every other) and by answer.
#[derive(Default)]
pub struct Tally {
    counts: BTreeMap<(u32, u32), u64>,
}

impl Tally {
    pub fn add(&mut self, kind: u32, answer: u32) {
        let kind = if kind <= LAST { kind } else { 0 };
        *self.counts.entry((kind, answer)).or_default() += 1;
    }

    /// Adds a frame, by the kind that its bytes say.
    pub fn add_frame(&mut self, frame: &[u8], answer: u32) {
        let kind = match frame {
            [_, _, low, high, ..] => u16::from_le_bytes([*low, *high]).into(),
            _ => 0,
        };
        self.add(kind, answer);
    }

    pub fn total(&self) -> u64 {
        self.counts.values().sum()
    }

    pub fn of(&self, kind: u32, answer: u32) -> u64 {
        self.counts.get(&(kind, answer)).copied().unwrap_or(0)
    }
}

impl fmt::Display for Tally {
    fn fmt(&self, out: &mut fmt::Formatter) -> fmt::Result {
        let mut answers: Vec<u32> = self.counts.keys().map(|(_, answer)| *answer).collect();
        answers.sort_unstable();
        answers.dedup();
        for kind in (1..=LAST).chain([0]) {
            match kind {
                0 => write!(out, "  other kinds:")?,
                _ => write!(out, "  kind {kind}:")?,
            }
            for answer in &answers {
                write!(out, " {} answered {answer};", self.of(kind, *answer))?;
            }
            writeln!(out)?;
        }
        write!(out, "  in all: {}", self.total())
    }
}
