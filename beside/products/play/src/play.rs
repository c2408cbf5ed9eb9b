//! One play: the day is checked, played, and what is to be said is said.

use crate::notes::Notes;
use crate::printed::{read, Checker, Splitter};
use crate::tape::{Broken, Ended, Tape};
use crate::teller::{Failure, Teller};
use assemble::check::{check, Checked};
use assemble::day::Day;
use assemble::echo;
use assemble::output::{failed, say, Output};
use assemble::plural::counted;
use std::io::{self, Write};
use std::path::Path;
use std::sync::Arc;

/// The statuses of the program.
pub const PLAYED: u8 = 0;
pub const FAILED: u8 = 1;
pub const USAGE: u8 = 2;
/// Lines of events were not played, as `tape` stopped before them or took them
/// into the frame of another.
pub const NOT_ALL: u8 = 3;

/// A day, and the name by which messages speak of it.
struct Named {
    day: Arc<Day>,
    name: String,
}

impl Named {
    fn tell(&self, message: &str) {
        say(&format!("play: {}: {message}", self.name));
    }

    fn unread(&self, error: io::Error) -> String {
        format!("{}: {error}", self.name)
    }
}

/// Plays the day through the program `tape` at that path. The status, or what is
/// wrong.
pub fn play(tape: &Path, day: &Path, words: bool) -> Result<u8, String> {
    let name = echo::name(day);
    let opened = Day::open(day).map_err(|error| format!("{name}: {error}"))?;
    let day = Named {
        day: Arc::new(opened),
        name,
    };
    let seen = check(&day.day, &mut |message| day.tell(&message));
    let seen = seen.map_err(|error| day.unread(error))?;
    if seen.bad > 0 {
        return Ok(FAILED);
    }
    let output = Output::new().map_err(|error| failed(&error))?;
    let tape = Tape::start(tape, &day.day)?;
    let checker = Checker::default();
    let (ended, checker, rest) = match words {
        true => told(tape, &day, output, checker)?,
        false => passed(tape, &day, output, checker)?,
    };
    after(&day, seen, ended, checker, &rest)
}

/// What is known at the end of a play.
type Played = (Ended, Checker, Vec<u8>);

/// What is wrong with a play that broke.
fn broken(broken: Broken<Failure>, day: &Named) -> String {
    match broken {
        Broken::Tape(wrong) => wrong,
        Broken::Taken(Failure::Output(error)) => failed(&error),
        Broken::Taken(Failure::Day(error)) => day.unread(error),
    }
}

/// Passes the lines of `tape` on.
fn passed(
    tape: Tape,
    day: &Named,
    mut output: Output,
    mut checker: Checker,
) -> Result<Played, String> {
    let mut splitter = Splitter::default();
    let ended = tape.print(&mut |piece| {
        let result = output.write_all(piece).and_then(|()| output.flush());
        result.map_err(Failure::Output)?;
        splitter.push(piece, &mut |line| {
            checker.line(line, &read(line));
            Ok(())
        })
    });
    let ended = ended.map_err(|wrong| broken(wrong, day))?;
    output.end().map_err(|error| failed(&error))?;
    Ok((ended, checker, splitter.rest()))
}

/// Tells them in words.
fn told(tape: Tape, day: &Named, output: Output, mut checker: Checker) -> Result<Played, String> {
    let mut splitter = Splitter::default();
    let mut teller = Teller::new(day.day.lines(), output);
    let ended = tape.print(&mut |piece| {
        splitter.push(piece, &mut |line| {
            let printed = read(line);
            checker.line(line, &printed);
            teller.line(line, printed)
        })?;
        teller.flush()
    });
    let ended = ended.map_err(|wrong| broken(wrong, day))?;
    let rest = splitter.rest();
    let end = match rest.is_empty() {
        true => Ok(()),
        false => teller.rest(&rest),
    };
    end.and_then(|()| teller.end())
        .map_err(|wrong| broken(Broken::Taken(wrong), day))?;
    Ok((ended, checker, rest))
}

/// What is said after the play, and the status.
fn after(
    day: &Named,
    seen: Checked,
    ended: Ended,
    checker: Checker,
    rest: &[u8],
) -> Result<u8, String> {
    if let Some(error) = ended.unread {
        return Err(day.unread(error));
    }
    let notes = match seen.odd {
        0 => Notes::plain(seen.lines),
        _ => Notes::new(&day.day).map_err(|error| day.unread(error))?,
    };
    let mut wrong = ended.wrong;
    let answers = checker.answers;
    wrong.extend(checker.end(rest));
    if answers != notes.answers {
        let (came, due) = (counted(answers, "event"), notes.answers);
        wrong.push(format!("{came} answered, and the day has {due}"));
    }
    for wrong in &wrong {
        say(&format!("play: tape: {wrong}"));
    }
    if !wrong.is_empty() {
        return Ok(FAILED);
    }
    for note in notes.lines() {
        day.tell(&note);
    }
    Ok(match notes.all_played() {
        true => PLAYED,
        false => NOT_ALL,
    })
}
