//! The day in words: each line with its event, the answer, and a sentence for
//! each thing that its records say; at the end of each day the totals.

use crate::answers::answered;
use crate::event::{Event, DAY_END};
use crate::grouping::groups;
use crate::parties::{Parties, Party};
use crate::printed::{Answer, Printed, Record};
use crate::sentences::sentence;
use crate::totals::Totals;
use assemble::check::changed;
use assemble::echo;
use assemble::framing::{Part, Parts, What};
use assemble::lines::{Line, Wrong};
use std::io::{self, Write};

/// The most characters of a line's text that are shown.
const TEXT: usize = 120;

/// The most records of an event that are put together.
const MOST: usize = 1 << 16;

/// What fails while a day is told.
#[derive(Debug)]
pub enum Failure {
    Day(io::Error),
    Output(io::Error),
}

type Done = Result<(), Failure>;

pub struct Teller<I, W> {
    parts: Parts<I>,
    output: W,
    /// The answer whose records come now, and those that came.
    open: Option<(Answer, Vec<Record>)>,
    parties: Parties,
    totals: Totals,
    /// How many days are told, and the index of the first event of this one.
    days: u64,
    first: u64,
    /// A line after the stop that was read and is not told yet.
    held: Option<Part>,
}

impl<I: Iterator<Item = Result<Line, Wrong>>, W: Write> Teller<I, W> {
    /// Tells the day with these lines.
    pub fn new(lines: I, output: W) -> Teller<I, W> {
        Teller {
            parts: Parts::new(lines),
            output,
            open: None,
            parties: Parties::default(),
            totals: Totals::default(),
            days: 0,
            first: 0,
            held: None,
        }
    }

    fn write(&mut self, line: &str) -> Done {
        writeln!(self.output, "{line}").map_err(Failure::Output)
    }

    pub fn flush(&mut self) -> Done {
        self.output.flush().map_err(Failure::Output)
    }

    /// The next part of the day that is answered.
    fn next(&mut self) -> Result<Option<Part>, Failure> {
        if self.held.is_some() {
            return Ok(None);
        }
        match self.parts.next().transpose() {
            Err(wrong) => Err(Failure::Day(changed(wrong))),
            Ok(Some(part)) if part.what == What::NotReached => {
                self.held = Some(part);
                Ok(None)
            }
            Ok(part) => Ok(part),
        }
    }

    /// A line that `tape` printed.
    pub fn line(&mut self, line: &[u8], printed: Printed) -> Done {
        match (printed, &mut self.open) {
            (Printed::Answer(answer), _) => {
                self.close()?;
                self.open = Some((answer, Vec::new()));
                Ok(())
            }
            (Printed::Record(record), Some((_, records))) if records.len() < MOST => {
                records.push(record);
                Ok(())
            }
            _ => {
                self.close()?;
                self.write(&format!("tape prints: {}", echo::text(line)))
            }
        }
    }

    /// What `tape` printed last, where its last line is not whole.
    pub fn rest(&mut self, rest: &[u8]) -> Done {
        self.close()?;
        let rest = echo::text(rest);
        self.write(&format!("tape prints without a line's end: {rest}"))
    }

    /// Tells the event whose records are all there.
    fn close(&mut self) -> Done {
        let Some((answer, records)) = self.open.take() else {
            return Ok(());
        };
        let part = self.next()?;
        let event = part.as_ref().map_or(Event::Missing, Event::new);
        match &part {
            Some(part) => self.headings(part)?,
            None => self.write("past the last event of the day")?,
        }
        let new = self.enter(&answer, &event);
        self.totals.answer(&answer);
        let about = part.as_ref().map(|part| about(part, &event));
        let about = about.unwrap_or_default();
        let said = answered(&answer, &event, records.len(), new);
        self.write(&format!("  event {}{about}: {said}", answer.index))?;
        self.records(&records)?;
        if let Some(part) = part {
            self.after(&part)?;
        }
        if answer.answer == 0 && event.kind() == Some(DAY_END) {
            self.day()?;
        }
        Ok(())
    }

    /// The lines that begin in a part, or where it begins inside one. Of those
    /// that a stop has with it the first alone is played.
    fn headings(&mut self, part: &Part) -> Done {
        if part.inside > 0 {
            let byte = part.inside + 1;
            self.write(&format!("line {}, from its byte {byte} on", part.first))?;
        }
        let played = match part.what {
            What::Stop(_) => part.lines.len().min(usize::from(part.inside == 0)),
            _ => part.lines.len(),
        };
        for line in &part.lines[..played] {
            self.heading(line)?;
        }
        Ok(())
    }

    fn heading(&mut self, line: &Line) -> Done {
        let text = echo::cut(&line.text, TEXT);
        self.write(&format!("line {}: {text}", line.number))
    }

    /// The lines that begin in a stop after the first.
    fn after(&mut self, part: &Part) -> Done {
        if let What::Stop(_) = part.what {
            for line in part.lines.iter().filter(|line| line.number > part.first) {
                self.not_played(line)?;
            }
        }
        Ok(())
    }

    fn not_played(&mut self, line: &Line) -> Done {
        self.heading(line)?;
        self.write("  not played")
    }

    /// Whether the number that is given, if one is, is new.
    fn enter(&mut self, answer: &Answer, event: &Event) -> bool {
        match Party::new(event) {
            Some(party) if answer.answer == 0 && answer.value != 0 => {
                self.parties.enter(answer.value, party)
            }
            _ => true,
        }
    }

    fn records(&mut self, records: &[Record]) -> Done {
        for group in groups(records, &self.parties) {
            self.totals.group(&group, &self.parties);
            self.write(&format!("  {}", sentence(&group, &self.parties)))?;
        }
        for record in records {
            self.totals.record(record, &self.parties);
            self.parties.count(record);
        }
        Ok(())
    }

    /// A day is over: its totals, and numbers begin anew.
    fn day(&mut self) -> Done {
        self.days += 1;
        let last = self.first + self.totals.events() - 1;
        let (day, first) = (self.days, self.first);
        self.write(&match first == last {
            true => format!("totals of day {day}, event {first}"),
            false => format!("totals of day {day}, events {first} to {last}"),
        })?;
        for line in self.totals.lines(&self.parties) {
            self.write(&format!("  {line}"))?;
        }
        self.first = last + 1;
        self.parties = Parties::default();
        self.totals = Totals::default();
        Ok(())
    }

    /// What is left at the end: the last event, lines that have no answer, and
    /// the totals of a day without its day end.
    pub fn end(mut self) -> Done {
        self.close()?;
        while let Some(part) = self.next()? {
            for line in &part.lines {
                self.heading(line)?;
                self.write("  no answer came")?;
            }
        }
        while let Some(part) = self.held.take() {
            for line in &part.lines {
                self.not_played(line)?;
            }
            self.next()?;
        }
        if !self.totals.is_empty() {
            self.day()?;
        }
        self.flush()
    }
}

/// What is to be said of a frame that no line of its own says: the lines that it
/// goes over, and its event.
fn about(part: &Part, event: &Event) -> String {
    let mut said = Vec::new();
    let alone = part.first == part.last && part.inside == 0;
    if matches!(part.what, What::Frame(_)) && part.first != part.last {
        said.push(format!(
            "lines {} to {} as one frame",
            part.first, part.last
        ));
    }
    let bytes = |line: &Line| line.text.starts_with("bytes ");
    if !alone || part.lines.iter().any(bytes) {
        said.extend(event.text());
    }
    match said.is_empty() {
        true => String::new(),
        false => format!(" ({})", said.join(": ")),
    }
}
