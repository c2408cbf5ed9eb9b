//! The walk through the days of a list: what its two plays say goes into the
//! totals of the day, and a day that is over into the report.

use crate::day::Day;
use crate::failures::Failures;
use crate::frames::Event;
use crate::lines::Record;
use crate::plays::{Plays, Turn};
use crate::report::Report;
use crate::stop::Stop;
use crate::wrong::Wrong;
use std::io::{BufRead, Read, Write};

struct Walk<'a, F, L, E, W> {
    plays: Plays<F, L, E>,
    report: Report<'a, W>,
    day: Day,
}

/// What was seen of a list.
#[derive(Clone, Debug, PartialEq, Eq)]
pub struct Audited {
    /// What does not hold.
    pub failures: Failures,
    /// Where `tape` stopped, if it did.
    pub stop: Option<Stop>,
}

/// Writes the report on the days of these frames. `lines` is what `tape` printed
/// for them, `ended` what it printed for `frames::with_day_end` of them. What
/// does not hold is answered, and where `tape` stopped. An error if the lines cannot be those of the
/// frames: by then earlier days may be written.
///
/// A day is written when the event after it was read, or all inputs ended as
/// they should: so nothing of a list of one day is written before an error.
pub fn audit(
    frames: impl Read,
    lines: impl BufRead,
    ended: impl BufRead,
    output: &mut impl Write,
) -> Result<Audited, Wrong> {
    let mut walk = Walk {
        plays: Plays::new(frames, lines, ended),
        report: Report::new(output),
        day: Day::first(),
    };
    while let Some(turn) = walk.plays.turn()? {
        walk.turn(turn)?;
    }
    let stop = walk.plays.stop()?;
    walk.end()?;
    let failures = walk.report.end().map_err(Wrong::Write)?;
    Ok(Audited { failures, stop })
}

impl<F: Read, L: BufRead, E: BufRead, W: Write> Walk<'_, F, L, E, W> {
    /// An event with its records. The numbers begin anew after an accepted day
    /// end.
    fn turn(&mut self, turn: Turn) -> Result<(), Wrong> {
        if self.day.ended {
            self.report.day(&self.day).map_err(Wrong::Write)?;
            self.day = self.day.next_day();
        }
        let accepted = turn.answer.answer == 0;
        if let (Event::Refused(refusal), true) = (&turn.event, accepted) {
            self.fails(&format!(
                "accepted, and its frame reads as refused {refusal}"
            ));
        }
        self.day.ended = accepted && turn.event == Event::DayEnd;
        if accepted {
            let added = self.add_event(&turn);
            added.map_err(|said| self.plays.wrong_line(&said))?;
        }
        self.add_records()?;
        if accepted {
            self.day.totals.apply(&turn.event);
        }
        if self.plays.first_difference() {
            self.fails("played twice, it differs");
        }
        self.day.events += 1;
        Ok(())
    }

    /// What does not hold of the event.
    fn fails(&mut self, failure: &str) {
        let index = self.day.first + self.day.events;
        let failure = format!("event {index}: {failure}");
        self.report.fails(&self.day, &failure);
    }

    fn add_event(&mut self, turn: &Turn) -> Result<(), String> {
        let value = turn.answer.value;
        match &turn.event {
            Event::Entry(terms) if value != 0 => self.day.totals.enter(value, *terms),
            Event::Strategy(legs) => self.day.totals.define(value, legs.clone()),
            _ => Ok(()),
        }
    }

    /// "The list's records are those its accepted events wrote".
    fn add_records(&mut self) -> Result<(), Wrong> {
        let mut negative: Option<Record> = None;
        while let Some(record) = self.plays.record()? {
            let added = self.day.totals.add(&record);
            added.map_err(|said| self.plays.wrong_line(&said))?;
            negative = negative.or(Some(record).filter(|record| record.quantity < 0));
        }
        if let Some(Record {
            number, quantity, ..
        }) = negative
        {
            self.fails(&format!(
                "a record of number {number} has quantity {quantity}"
            ));
        }
        Ok(())
    }

    /// The day end after the list, and the last days.
    fn end(&mut self) -> Result<(), Wrong> {
        // After the last day end there may be nothing.
        let (over, mut last) = match self.day.ended {
            true => (Some(&self.day), self.day.next_day()),
            false => (None, std::mem::take(&mut self.day)),
        };
        let refused = self.plays.end()?.answer != 0;
        let mut live = false;
        while let Some(record) = self.plays.end_record()? {
            let added = last.totals.add_live(&record);
            added.map_err(|said| self.plays.wrong_end(&said))?;
            live = true;
        }
        if let Some(day) = over {
            self.report.day(day).map_err(Wrong::Write)?;
        }
        if refused {
            let said = "the day end after the list is refused: what is live is unknown";
            self.report.fails(&last, said);
        }
        if last.events > 0 || live || refused {
            self.report.day(&last).map_err(Wrong::Write)?;
        }
        Ok(())
    }
}
