//! The look at a whole day before anything of it is written or played: every bad
//! line is told, and where there is none, each line `bytes` that is no frame.

use crate::day::Day;
use crate::framing::{Part, Parts, What};
use crate::lines::Wrong;
use crate::warnings::{odd, warnings};
use std::io;

/// What was seen of a day.
#[derive(Clone, Copy, Debug, Default, PartialEq, Eq)]
pub struct Checked {
    /// The lines that stand for an event.
    pub lines: u64,
    pub bad: u64,
    /// Lines `bytes` that are not one frame. Where there is none, each line is
    /// one frame, and one event of `tape`.
    pub odd: u64,
}

/// Looks at every line. Each message is told as `line N: ..`.
pub fn check(day: &Day, tell: &mut dyn FnMut(String)) -> io::Result<Checked> {
    let mut seen = Checked::default();
    for line in day.lines() {
        match line {
            Ok(line) => {
                seen.lines += 1;
                seen.odd += u64::from(odd(&line));
            }
            Err(Wrong::Line(number, wrong)) => {
                tell(format!("line {number}: {wrong}"));
                seen.bad += 1;
            }
            Err(Wrong::Read(error)) => return Err(error),
        }
    }
    if seen.bad == 0 && seen.odd > 0 {
        warn_of(day, tell)?;
    }
    Ok(seen)
}

fn warn_of(day: &Day, tell: &mut dyn FnMut(String)) -> io::Result<()> {
    let mut stop = None;
    for part in Parts::new(day.lines()) {
        let part: Part = part.map_err(changed)?;
        for (line, warning) in warnings(&part, stop) {
            tell(format!("line {line}: {warning}"));
        }
        if let What::Stop(_) = part.what {
            stop = Some(part.first);
        }
    }
    Ok(())
}

/// What is wrong with a day that was checked before.
pub fn changed(wrong: Wrong) -> io::Error {
    match wrong {
        Wrong::Read(error) => error,
        Wrong::Line(number, _) => {
            io::Error::other(format!("line {number} changed while the day was read"))
        }
    }
}
