//! What is held of a program: for every day it prints the reckoning's lines.

use crate::days::Day;
use crate::program::{Program, AT_ONCE};
use crate::tally::{frames, Tally};
use reckoning::tape::tape;
use std::fmt;
use std::sync::atomic::{AtomicBool, AtomicUsize, Ordering};
use std::thread;

/// The reckoning's lines for an input.
pub fn reckoned(input: &[u8]) -> Vec<u8> {
    let mut lines = Vec::new();
    tape(input, &mut lines).expect("a Vec takes every line");
    lines
}

/// A line as it can be shown, its end included; or that there is none.
fn shown(line: Option<&[u8]>) -> String {
    match line {
        None => "no line".to_string(),
        Some(line) => match line.strip_suffix(b"\n") {
            Some(line) => line.escape_ascii().to_string(),
            None => format!("{} (and no line end)", line.escape_ascii()),
        },
    }
}

/// The bytes of a frame in hex, the first 32 of a longer one.
pub fn hex(frame: &[u8]) -> String {
    let mut words: Vec<String> = (frame.iter().take(32))
        .map(|byte| format!("{byte:02x}"))
        .collect();
    if frame.len() > 32 {
        words.push(format!(".. {} bytes", frame.len()));
    }
    words.join(" ")
}

/// The first line that differs: its number, its event, and both lines.
pub struct Place {
    pub line: usize,
    pub event: usize,
    pub printed: String,
    pub reckoned: String,
}

/// Where two texts differ first; nothing if they are the same.
pub fn place(printed: &[u8], reckoned: &[u8]) -> Option<Place> {
    if printed == reckoned {
        return None;
    }
    let mut left = printed.split_inclusive(|byte| *byte == b'\n');
    let mut right = reckoned.split_inclusive(|byte| *byte == b'\n');
    let mut events: usize = 0;
    let mut line = 0;
    loop {
        line += 1;
        let (own, other) = (left.next(), right.next());
        if other.is_some_and(|line| line.starts_with(b"E")) {
            events += 1;
        }
        if own == other {
            continue;
        }
        // Where the reckoning has no line left, the event is the one after its
        // last.
        let event = match other {
            Some(_) => events.saturating_sub(1),
            None => events,
        };
        return Some(Place {
            line,
            event,
            printed: shown(own),
            reckoned: shown(other),
        });
    }
}

/// The first line that differs, with its event; nothing if all are the same.
pub fn difference(input: &[u8], printed: &[u8], reckoned: &[u8]) -> Option<String> {
    let place = place(printed, reckoned)?;
    let frame = match frames(input).get(place.event) {
        Some(frame) => hex(frame),
        None => "none".to_string(),
    };
    Some(format!(
        "event {}, line {}\n  frame:     {frame}\n  tape:      {}\n  reckoning: {}",
        place.event, place.line, place.printed, place.reckoned
    ))
}

/// A day for which the program does not print the reckoning's lines.
#[derive(Clone, Debug)]
pub struct Different {
    pub day: Day,
    pub said: String,
}

impl fmt::Display for Different {
    fn fmt(&self, out: &mut fmt::Formatter) -> fmt::Result {
        write!(out, "{}: {}", self.day, self.said)
    }
}

/// What the program prints for an input, if it is what the reckoning has.
fn day_agrees(program: &Program, input: &[u8]) -> Result<Vec<u8>, String> {
    let printed = program.run(input)?;
    match difference(input, &printed, &reckoned(input)) {
        None => Ok(printed),
        Some(difference) => Err(difference),
    }
}

/// Works through the entries on several threads, each with a tally of its own:
/// the tallies, or the first entry found that fails, with what is said of it.
pub fn each<Entry: Sync, Part: Default + Send>(
    entries: &[Entry],
    work: impl Fn(&Entry, &mut Part) -> Result<(), String> + Sync,
) -> Result<Vec<Part>, (usize, String)> {
    let next = AtomicUsize::new(0);
    let stop = AtomicBool::new(false);
    let worker = || {
        let mut part = Part::default();
        while !stop.load(Ordering::SeqCst) {
            let index = next.fetch_add(1, Ordering::SeqCst);
            let Some(entry) = entries.get(index) else {
                break;
            };
            if let Err(said) = work(entry, &mut part) {
                stop.store(true, Ordering::SeqCst);
                return Err((index, said));
            }
        }
        Ok(part)
    };
    let results: Vec<Result<Part, (usize, String)>> = thread::scope(|scope| {
        let workers: Vec<_> = (0..AT_ONCE).map(|_| scope.spawn(worker)).collect();
        let joined = workers.into_iter().map(|worker| worker.join());
        joined
            .map(|result| result.expect("a worker ends"))
            .collect()
    });
    let mut parts = Vec::new();
    let mut found = Vec::new();
    for result in results {
        match result {
            Ok(part) => parts.push(part),
            Err(said) => found.push(said),
        }
    }
    match found.into_iter().min() {
        None => Ok(parts),
        Some(first) => Err(first),
    }
}

/// The program prints the reckoning's lines for each day; else the first of the
/// days found for which it does not.
pub fn agrees(program: &Program, days: &[Day]) -> Result<Tally, Different> {
    let parts = each(days, |day: &Day, tally: &mut Tally| {
        let input = day.bytes();
        let printed = day_agrees(program, &input)?;
        tally.add(&input, &printed);
        Ok(())
    });
    match parts {
        Ok(parts) => {
            let mut tally = Tally::default();
            for part in parts {
                tally.join(part);
            }
            Ok(tally)
        }
        Err((index, said)) => Err(Different {
            day: days[index].clone(),
            said,
        }),
    }
}
