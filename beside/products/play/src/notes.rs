//! What is said after a play of the lines that were not played as they stand:
//! those after a stop, and those that the frame of a line before took.

use assemble::check::changed;
use assemble::day::Day;
use assemble::framing::{Part, Parts, What, Why};
use assemble::plural::counted;
use assemble::warnings::reason;
use std::io;

/// The most frames of several lines that are named.
const MOST: usize = 20;

/// What the frames of a day ask for.
#[derive(Default)]
pub struct Notes {
    /// The lines `E` that are due.
    pub answers: u64,
    /// The lines of events after the stop.
    after: u64,
    stop: Option<String>,
    /// The lines that went into the frame of a line before.
    taken: u64,
    joined: Vec<String>,
    /// The frames of several lines that are not named, and the lines that they
    /// took.
    more: u64,
    taken_more: u64,
}

impl Notes {
    /// Of a day each line of which is one frame.
    pub fn plain(lines: u64) -> Notes {
        Notes {
            answers: lines,
            ..Notes::default()
        }
    }

    pub fn new(day: &Day) -> io::Result<Notes> {
        let mut notes = Notes::default();
        for part in Parts::new(day.lines()) {
            notes.part(&part.map_err(changed)?);
        }
        Ok(notes)
    }

    fn part(&mut self, part: &Part) {
        match part.what {
            What::Frame(_) => {
                self.answers += 1;
                if part.first != part.last {
                    self.join(part);
                }
            }
            What::Stop(why) => {
                self.answers += 1;
                self.stop = Some(stopped(part, why));
                self.after += after_the_first(part);
            }
            What::NotReached => self.after += 1,
        }
    }

    /// A frame of several lines.
    fn join(&mut self, part: &Part) {
        let taken = after_the_first(part);
        self.taken += taken;
        if self.joined.len() < MOST {
            let lines = format!("lines {} to {}", part.first, part.last);
            let taken = as_they_stand(taken);
            self.joined
                .push(format!("{lines} became one frame: {taken}"));
        } else {
            self.more += 1;
            self.taken_more += taken;
        }
    }

    /// Each line of the day was played as it stands.
    pub fn all_played(&self) -> bool {
        self.after == 0 && self.taken == 0
    }

    /// Each note, to be said after the name of the day.
    pub fn lines(&self) -> Vec<String> {
        if self.answers == 0 {
            return vec!["the day has no events".to_string()];
        }
        let mut lines = self.joined.clone();
        if self.more > 0 {
            let more = counted(self.more, "frame");
            let taken = as_they_stand(self.taken_more);
            lines.push(format!("{more} more of several lines: {taken}"));
        }
        if let Some(stop) = &self.stop {
            lines.push(match self.after {
                0 if self.taken > 0 => format!("{stop}; no line stands after it"),
                0 => format!("{stop}; it is the last event of the day"),
                1 => format!("{stop}; 1 line after it was not played"),
                count => format!("{stop}; {count} lines after it were not played"),
            });
        }
        lines
    }
}

/// How many lines begin in the part after its first.
fn after_the_first(part: &Part) -> u64 {
    let lines = part.lines.iter().filter(|line| line.number > part.first);
    lines.count() as u64
}

fn as_they_stand(lines: u64) -> String {
    match lines {
        1 => "1 line was not played as it stands".to_string(),
        count => format!("{count} lines were not played as they stand"),
    }
}

/// Where `tape` stopped, and why.
fn stopped(part: &Part, why: Why) -> String {
    let line = part.first;
    let place = match part.inside {
        0 => format!("at line {line}"),
        inside => format!("inside line {line}, after {}", counted(inside, "byte")),
    };
    match why {
        Why::Under4(length) | Why::PastEnd(length) => {
            let whose = if part.inside == 0 {
                "whose"
            } else {
                "where the"
            };
            let reason = reason(why);
            format!("tape stopped {place}, {whose} length field is {length} ({reason})")
        }
        Why::LoneByte => format!("tape stopped {place}, a lone last byte"),
    }
}
