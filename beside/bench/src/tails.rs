//! The times of single events: percentiles by kind, and the worst.

use crate::days::Frame;
use crate::worst::LongDay;
use reckoning::book::{Book, SPACE};
use reckoning::frames::{bytes, Event};

/// The names of the kinds; at 0 stand the events that are refused, whatever kind
/// their frame has.
pub const KINDS: [&str; 12] = [
    "refused",
    "1 strategy",
    "2 complex order",
    "3 sweep",
    "4 leg order",
    "5 cancel",
    "6 series",
    "7 clock",
    "8 day end",
    "9 national",
    "10 range",
    "11 specialist",
];

/// One event of a day.
#[derive(Clone, Copy, Debug, PartialEq, Eq)]
pub struct Timed {
    /// The kind of its frame, or 0 if it is refused.
    pub kind: u8,
    /// How many records it writes.
    pub records: usize,
    /// The day, and its place in it, from 0.
    pub day: usize,
    pub index: usize,
    pub nanoseconds: u64,
}

/// The kind of an event: that of its frame, or 0 if the answer is a refusal.
pub fn kind_of(frame: &[u8], answer: u32) -> u8 {
    match (frame, answer) {
        ([_, _, low, 0, ..], 0) if usize::from(*low) < KINDS.len() => *low,
        _ => 0,
    }
}

/// The days one after the other. A day end before each makes its book a first book,
/// also where they are played again.
pub fn in_turn(days: &[LongDay]) -> Vec<Frame> {
    let end = bytes(&Event::DayEnd { timer: 5_000 });
    let day = |day: &LongDay| [vec![end.clone()], day.frames.clone()].concat();
    days.iter().flat_map(day).collect()
}

/// The events of the days, with the times of the days one after the other: the day
/// end before a day is none of its events.
pub fn timed(days: &[LongDay], times: &[u64]) -> Vec<Timed> {
    let mut events = Vec::new();
    let mut times = times.iter();
    for (day, LongDay { frames, .. }) in days.iter().enumerate() {
        times.next();
        let mut book = Book::first();
        for ((index, frame), nanoseconds) in frames.iter().enumerate().zip(&mut times) {
            let answer = book.step(frame, SPACE);
            events.push(Timed {
                kind: kind_of(frame, answer.answer),
                records: answer.records.len(),
                day,
                index,
                nanoseconds: *nanoseconds,
            });
        }
    }
    events
}

/// Keeps the least time of each event, of those kept and of one round or more that
/// follow each other. False if the times are not whole rounds.
pub fn keep_least(kept: &mut [u64], times: &[u64]) -> bool {
    if kept.is_empty() || times.is_empty() || times.len() % kept.len() != 0 {
        return false;
    }
    for round in times.chunks(kept.len()) {
        for (least, time) in kept.iter_mut().zip(round) {
            *least = (*least).min(*time);
        }
    }
    true
}

/// The least of the numbers that so many thousandths of them do not exceed. The
/// numbers stand by size.
pub fn percentile(sorted: &[u64], thousandths: usize) -> Option<u64> {
    let rank = (sorted.len() * thousandths).div_ceil(1_000);
    sorted.get(rank.max(1) - 1).copied()
}

/// The times of the events of one kind.
#[derive(Clone, Copy, Debug, PartialEq, Eq)]
pub struct Tail {
    pub events: usize,
    /// Half, 99 and 99.9 of 100 take no longer.
    pub half: u64,
    pub most: u64,
    pub nearly_all: u64,
    /// The first of those that take longest.
    pub worst: Timed,
}

/// The tail of these events; nothing if there are none.
pub fn tail<'a>(events: impl Iterator<Item = &'a Timed> + Clone) -> Option<Tail> {
    let mut times: Vec<u64> = events.clone().map(|event| event.nanoseconds).collect();
    times.sort_unstable();
    let longest = times.last()?;
    let mut events = events;
    Some(Tail {
        events: times.len(),
        half: percentile(&times, 500)?,
        most: percentile(&times, 990)?,
        nearly_all: percentile(&times, 999)?,
        worst: *events.find(|event| event.nanoseconds == *longest)?,
    })
}

/// The numbers of 8 bytes that `times.c` writes: the least time between two looks at
/// the clock, and the time of each event.
pub fn times_of(bytes: &[u8]) -> Option<(u64, Vec<u64>)> {
    if bytes.len() % 8 != 0 {
        return None;
    }
    let mut numbers = (bytes.chunks_exact(8))
        .filter_map(|eight| eight.try_into().ok())
        .map(u64::from_le_bytes);
    Some((numbers.next()?, numbers.collect()))
}
