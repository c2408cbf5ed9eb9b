//! The frames of an input, one after the other, and what the proved reader reads
//! in them.

use crate::stop::Stop;
use crate::wrong::Wrong;
use assemble::codec::{read, write, Row, NUMBERS};
use assemble::framing::Why;
use std::io::{self, Read, Write};

/// A part of the input that `tape` answers with a line `E`: a frame, or where it
/// stops, "a length under 4 or past the input's end, a lone last byte included".
#[derive(Clone, Copy, Debug, PartialEq, Eq)]
pub enum Part<'a> {
    Frame(&'a [u8]),
    Stop,
}

/// The parts of an input in their order. One frame is held.
pub struct Parts<R> {
    input: R,
    frame: Vec<u8>,
    frames: usize,
    /// How many bytes stand before the next part.
    at: u64,
    stop: Option<Stop>,
}

impl<R: Read> Parts<R> {
    pub fn new(input: R) -> Parts<R> {
        Parts {
            input,
            frame: Vec::new(),
            frames: 0,
            at: 0,
            stop: None,
        }
    }

    /// The next part; none at the input's end, and after a stop.
    pub fn part(&mut self) -> Result<Option<Part<'_>>, Wrong> {
        if self.stopped() {
            return Ok(None);
        }
        self.frame.clear();
        self.fill(2).map_err(Wrong::Read)?;
        let length = match self.frame[..] {
            [] => return Ok(None),
            [low, high] => u16::from_le_bytes([low, high]),
            _ => return Ok(Some(self.stops(Why::LoneByte))),
        };
        self.fill(usize::from(length)).map_err(Wrong::Read)?;
        if length < 4 {
            return Ok(Some(self.stops(Why::Under4(length))));
        }
        if self.frame.len() < usize::from(length) {
            return Ok(Some(self.stops(Why::PastEnd(length))));
        }
        self.frames += 1;
        self.at += u64::from(length);
        Ok(Some(Part::Frame(&self.frame)))
    }

    /// Reads on until the frame has this length or the input ends.
    fn fill(&mut self, length: usize) -> io::Result<()> {
        let missing = length.saturating_sub(self.frame.len()) as u64;
        let input = self.input.by_ref();
        input.take(missing).read_to_end(&mut self.frame)?;
        Ok(())
    }

    /// `tape` stops at what was read last.
    fn stops(&mut self, why: Why) -> Part<'_> {
        self.stop = Some(Stop {
            at: self.at,
            why,
            after: 0,
        });
        Part::Stop
    }

    /// How many frames were read.
    pub fn frames(&self) -> usize {
        self.frames
    }

    /// The last part is no frame.
    pub fn stopped(&self) -> bool {
        self.stop.is_some()
    }

    /// Where the parts stopped, if they did; the bytes after it are read and
    /// counted, and none is held.
    pub fn stop(&mut self) -> Result<Option<Stop>, Wrong> {
        if let Some(stop) = &mut self.stop {
            let after = io::copy(&mut self.input, &mut io::sink());
            stop.after += after.map_err(Wrong::Read)?;
        }
        Ok(self.stop)
    }
}

/// Writes the frames of the input and a day end after them, in the place of what
/// is no frame at the end.
pub fn with_day_end(input: impl Read, output: &mut impl Write) -> Result<(), Wrong> {
    let mut parts = Parts::new(input);
    while let Some(Part::Frame(frame)) = parts.part()? {
        output.write_all(frame).map_err(Wrong::Write)?;
    }
    let mut row: Row = [0; NUMBERS];
    row[..2].copy_from_slice(&[8, 5_000]);
    let end = write(&row)
        .map_err(|refusal| Wrong::Lines(format!("the writer refuses a day end: {refusal}")))?;
    output.write_all(&end).map_err(Wrong::Write)
}

/// What an order or sweep is. The strategy of the first two, the series of the
/// third.
#[derive(Clone, Copy, Debug, PartialEq, Eq)]
pub enum What {
    ComplexOrder { strategy: u32 },
    Sweep { strategy: u32 },
    LegOrder { series: u32 },
}

/// What an event brings in, if it is accepted and given a number.
#[derive(Clone, Copy, Debug, PartialEq, Eq)]
pub struct Terms {
    pub what: What,
    pub member: u32,
    pub side: u32,
    pub quantity: i64,
    /// "the limit (a leg order's price)".
    pub limit: i64,
}

impl Terms {
    /// None of a leg order.
    pub fn strategy(&self) -> Option<i64> {
        match self.what {
            What::ComplexOrder { strategy } | What::Sweep { strategy } => Some(strategy.into()),
            What::LegOrder { .. } => None,
        }
    }
}

/// A leg of a strategy: its series, its side and its ratio in lowest terms.
#[derive(Clone, Copy, Debug, PartialEq, Eq, PartialOrd, Ord)]
pub struct Leg {
    pub series: i64,
    pub side: i64,
    pub ratio: i64,
}

/// What of an event the claims speak of.
#[derive(Clone, Debug, PartialEq, Eq)]
pub enum Event {
    Strategy(Vec<Leg>),
    Entry(Terms),
    DayEnd,
    /// Bid and offer of a series; 0 is a missing one.
    National {
        series: u32,
        prices: [u32; 2],
    },
    /// The execution range.
    Range(u32),
    /// What enters nothing, and of which no claim speaks: a cancel, a series, the clock,
    /// and kind 11, which names a specialist.
    Other,
    Refused(u32),
}

/// What the row of a limit has more than the limit.
const MORE: i64 = 10_000_000;

fn divisor(a: u32, b: u32) -> u32 {
    if b == 0 {
        a
    } else {
        divisor(b, a % b)
    }
}

/// The legs of a strategy's row, "divided by their greatest common divisor", by
/// series.
fn legs(row: &Row) -> Vec<Leg> {
    let count = row[1] as usize;
    let given: Vec<&[u32]> = row[2..2 + 3 * count].chunks(3).collect();
    let common = given.iter().fold(0, |common, leg| divisor(common, leg[2]));
    let mut legs: Vec<Leg> = (given.iter())
        .map(|leg| Leg {
            series: i64::from(leg[0]),
            side: i64::from(leg[1]),
            ratio: i64::from(leg[2] / common),
        })
        .collect();
    legs.sort_unstable();
    legs
}

/// The event of a part of the input.
pub fn event(part: Part) -> Event {
    let Part::Frame(frame) = part else {
        return Event::Refused(2);
    };
    let row = match read(frame) {
        Ok(row) => row,
        Err(refusal) => return Event::Refused(refusal),
    };
    let entry = |what: What, quantity: usize, limit: i64| {
        Event::Entry(Terms {
            what,
            member: row[1],
            side: row[3],
            quantity: i64::from(row[quantity]),
            limit,
        })
    };
    match row[0] {
        1 => Event::Strategy(legs(&row)),
        2 => {
            let what = What::ComplexOrder { strategy: row[2] };
            entry(what, 6, i64::from(row[7]) - MORE)
        }
        3 => {
            let what = What::Sweep { strategy: row[2] };
            entry(what, 4, i64::from(row[5]) - MORE)
        }
        4 => entry(What::LegOrder { series: row[2] }, 4, i64::from(row[5])),
        8 => Event::DayEnd,
        9 => Event::National {
            series: row[1],
            prices: [row[2], row[3]],
        },
        10 => Event::Range(row[1]),
        _ => Event::Other,
    }
}
