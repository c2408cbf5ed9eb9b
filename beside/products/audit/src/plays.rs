//! A list of events and its two plays, read in step: the frames, the lines that
//! `tape` prints for them, and those with a day end after them. Nothing of what
//! was read is held.

use crate::frames::{event, Event, Part, Parts};
use crate::lines::{Answer, Lines, Record};
use crate::stop::Stop;
use crate::wrong::Wrong;
use std::io::{BufRead, Read};

/// An event and its answer.
#[derive(Clone, Debug, PartialEq, Eq)]
pub struct Turn {
    pub event: Event,
    pub answer: Answer,
}

pub struct Plays<F, L, E> {
    parts: Parts<F>,
    lines: Lines<L>,
    ended: Lines<E>,
    /// The last event is in both plays: where `tape` stops, the second has none.
    twice: bool,
    /// The plays differ; that was told.
    differs: bool,
    told: bool,
}

/// The lines answer another number of events than the input has.
fn miscounted<R: BufRead>(lines: &mut Lines<R>, events: usize) -> Wrong {
    match lines.skip() {
        Err(wrong) => wrong,
        Ok(()) => lines.wrong(&format!(
            "{} events are answered, and the input has {events}",
            lines.answered()
        )),
    }
}

impl<F: Read, L: BufRead, E: BufRead> Plays<F, L, E> {
    pub fn new(frames: F, lines: L, ended: E) -> Plays<F, L, E> {
        Plays {
            parts: Parts::new(frames),
            lines: Lines::new("lines", lines),
            ended: Lines::new("lines with the day end", ended),
            twice: false,
            differs: false,
            told: false,
        }
    }

    /// The next event; none at the end of the list, where `end` goes on. Its
    /// records have to be read before.
    pub fn turn(&mut self) -> Result<Option<Turn>, Wrong> {
        let Some(part) = self.parts.part()? else {
            return match self.lines.answer()? {
                None => Ok(None),
                Some(_) => Err(self.miscounted_lines()?),
            };
        };
        self.twice = part != Part::Stop;
        let event = event(part);
        let Some(answer) = self.lines.answer()? else {
            return Err(self.miscounted_lines()?);
        };
        if self.twice {
            let Some(again) = self.ended.answer()? else {
                return Err(self.miscounted_ended()?);
            };
            self.differs |= again != answer;
        }
        Ok(Some(Turn { event, answer }))
    }

    /// The next record of the event; none if it has no more.
    pub fn record(&mut self) -> Result<Option<Record>, Wrong> {
        let record = self.lines.record()?;
        if self.twice {
            self.differs |= self.ended.record()? != record;
            if record.is_none() {
                self.ended.skip_records()?;
            }
        }
        Ok(record)
    }

    /// The event whose records were read is the first in which the plays differ.
    pub fn first_difference(&mut self) -> bool {
        let first = self.differs && !self.told;
        self.told |= first;
        first
    }

    /// Where `tape` stopped, if it did. The frames are read to their end.
    pub fn stop(&mut self) -> Result<Option<Stop>, Wrong> {
        self.parts.stop()
    }

    /// The answer to the day end after the list.
    pub fn end(&mut self) -> Result<Answer, Wrong> {
        match self.ended.answer()? {
            Some(answer) => Ok(answer),
            None => Err(self.miscounted_ended()?),
        }
    }

    /// The next record of the day end after the list; none if it has no more.
    pub fn end_record(&mut self) -> Result<Option<Record>, Wrong> {
        let record = self.ended.record()?;
        if record.is_none() && self.ended.answer()?.is_some() {
            return Err(self.miscounted_ended()?);
        }
        Ok(record)
    }

    /// What is wrong with the line that was read last, of the first play.
    pub fn wrong_line(&self, said: &str) -> Wrong {
        self.lines.wrong_line(said)
    }

    /// The same of the second play.
    pub fn wrong_end(&self, said: &str) -> Wrong {
        self.ended.wrong_line(said)
    }

    /// Reads the frames to their end, to count them.
    fn count(&mut self) -> Result<usize, Wrong> {
        while self.parts.part()?.is_some() {}
        Ok(self.parts.frames())
    }

    fn miscounted_lines(&mut self) -> Result<Wrong, Wrong> {
        let events = self.count()? + usize::from(self.parts.stopped());
        Ok(miscounted(&mut self.lines, events))
    }

    fn miscounted_ended(&mut self) -> Result<Wrong, Wrong> {
        let events = self.count()? + 1;
        Ok(miscounted(&mut self.ended, events))
    }
}
