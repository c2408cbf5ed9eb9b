//! The days that are compared: inputs of `tape`, made from seeds or by hand.

use reckoning::frames::{bytes, judge, Event};
use reckoning::generate::{
    frames, list, long_list, national_list, stream, Options, Random, LAST_KIND,
};
use std::fmt;

/// One input of `tape`.
#[derive(Clone, Debug, PartialEq, Eq)]
pub enum Day {
    /// A day of the reckoning's generator, with damaged frames and day ends in
    /// it, and in one of four after its last frame something that is none.
    Generated { seed: u64, events: usize },
    /// A day that gives all 100,000 numbers and goes on.
    EveryNumber { seed: u64, events: usize },
    /// Several days, a day end after each; two of three have kinds 9 to 11.
    Several { seed: u64, days: u64, events: usize },
    /// Frames of any sort one after the other, most of them refused 2 or 3.
    Frames { seed: u64, amount: usize },
    /// Frames of which each is refused 2 or 3.
    Damaged { seed: u64, amount: usize },
    /// Short heads that may be a frame's, and any bytes.
    Bytes { seed: u64 },
    /// A day made by hand.
    Made { name: String, bytes: Vec<u8> },
}

impl fmt::Display for Day {
    fn fmt(&self, out: &mut fmt::Formatter) -> fmt::Result {
        match self {
            Day::Generated { seed, events } => write!(out, "seed {seed}, {events} events"),
            Day::EveryNumber { seed, events } => {
                write!(out, "seed {seed}, every number and {events} events")
            }
            Day::Several { seed, days, events } => {
                write!(out, "seed {seed}, {days} days of {events} events")
            }
            Day::Frames { seed, amount } => write!(out, "seed {seed}, frames, {amount} of a sort"),
            Day::Damaged { seed, amount } => {
                write!(out, "seed {seed}, damaged frames, {amount} of a sort")
            }
            Day::Bytes { seed } => write!(out, "seed {seed}, any bytes"),
            Day::Made { name, .. } => write!(out, "{name}"),
        }
    }
}

/// The frame with a right length field, and at least its head, so that `tape`
/// goes on after it.
fn passable(mut frame: Vec<u8>) -> Vec<u8> {
    frame.resize(frame.len().clamp(4, 65_535), 0);
    let length = frame.len() as u16;
    frame[..2].copy_from_slice(&length.to_le_bytes());
    frame
}

fn several(seed: u64, days: u64, events: usize) -> Vec<u8> {
    let options = Options {
        loose: false,
        day_ends: false,
    };
    let mut random = Random::new(seed);
    let mut input = Vec::new();
    for day in 0..days {
        let own = 1_000 * seed + day;
        let inputs = match own % 3 {
            0 => list(own, events, options),
            _ => national_list(own, events, options),
        };
        for event in inputs {
            input.extend(event.frame);
        }
        let timer = random.pick(&[1, 2, 50, 1_000, 4_999, 5_000]);
        input.extend(bytes(&Event::DayEnd { timer }));
    }
    input
}

fn any_bytes(seed: u64) -> Vec<u8> {
    let mut random = Random::new(seed);
    let mut input = Vec::new();
    for _ in 0..random.below(20) {
        let length = random.range(4, 30) as usize;
        let mut frame: Vec<u8> = (0..length).map(|_| random.bits() as u8).collect();
        frame[2] = random.range(0, i64::from(LAST_KIND) + 1) as u8;
        frame[3] = 0;
        input.extend(passable(frame));
    }
    for _ in 0..random.below(12) {
        input.push(random.bits() as u8);
    }
    input
}

impl Day {
    /// The bytes that the program reads.
    pub fn bytes(&self) -> Vec<u8> {
        match *self {
            Day::Generated { seed, events } => stream(seed, events),
            Day::EveryNumber { seed, events } => {
                let inputs = long_list(seed, events, false);
                inputs.into_iter().flat_map(|input| input.frame).collect()
            }
            Day::Several { seed, days, events } => several(seed, days, events),
            Day::Frames { seed, amount } => {
                let frames = frames(seed, amount).into_iter().map(passable);
                frames.flatten().collect()
            }
            Day::Damaged { seed, amount } => {
                let frames = frames(seed, amount).into_iter().map(passable);
                let refused = frames.filter(|frame| judge(frame) != 0);
                refused.flatten().collect()
            }
            Day::Bytes { seed } => any_bytes(seed),
            Day::Made { ref bytes, .. } => bytes.clone(),
        }
    }
}

/// Days of the generator, short and long ones, from this many seeds.
pub fn generated(seeds: u64) -> Vec<Day> {
    (1..=seeds)
        .map(|seed| Day::Generated {
            seed,
            events: [300, 1_000, 2_000, 4_000, 8_000][seed as usize % 5],
        })
        .collect()
}

pub fn every_number(seeds: u64) -> Vec<Day> {
    (1..=seeds)
        .map(|seed| Day::EveryNumber {
            seed,
            events: 2_000,
        })
        .collect()
}

pub fn several_days(seeds: u64) -> Vec<Day> {
    (1..=seeds)
        .map(|seed| Day::Several {
            seed,
            days: 2 + seed % 7,
            events: 400,
        })
        .collect()
}

pub fn any_frames(seeds: u64) -> Vec<Day> {
    (1..=seeds)
        .map(|seed| Day::Frames { seed, amount: 500 })
        .collect()
}

pub fn damaged_frames(seeds: u64) -> Vec<Day> {
    (1..=seeds)
        .map(|seed| Day::Damaged { seed, amount: 500 })
        .collect()
}

pub fn inputs_of_any_bytes(seeds: u64) -> Vec<Day> {
    (1..=seeds).map(|seed| Day::Bytes { seed }).collect()
}
