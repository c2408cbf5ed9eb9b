//! Plays a day of events: `play --tape TAPE [--words] DAY`.

#![forbid(unsafe_code)]
#![deny(warnings)]

use assemble::forms::shapes;
use assemble::output::{failed, print, say};
use play::play::{play, FAILED, PLAYED, USAGE};
use std::ffi::{OsStr, OsString};
use std::os::unix::ffi::OsStrExt;
use std::path::Path;
use std::process::ExitCode;

fn usage() -> String {
    let shapes = shapes();
    format!(
        "usage: play --tape TAPE [--words] DAY

Plays a day of events through the program TAPE and prints, for each event, a line
  E INDEX ANSWER VALUE COUNT
and then one line for each of its COUNT records
  R KIND NUMBER PLACE SIDE QUANTITY PRICE
as document 01 says. ANSWER is 0, or the number of the refusal. With --words it
prints each line of the day with what came of it in words, and totals.

DAY is a text file with one event a line; '#' starts a comment. The lines:
{shapes}Prices and limits are whole cents, and a percentage is a whole number; a national
price that is missing is 'none' or 0. Every bad line is told, and then nothing is
played.

The status is 0; 1 where something fails; 2 for a wrong use; 3 where lines of
events were not played, as the program stopped before them or took them into the
frame of another line. What was not played is told.
"
    )
}

/// What the words of the command ask for.
struct Asked<'a> {
    tape: &'a OsStr,
    words: bool,
    day: &'a OsStr,
}

/// The words of the command, if they are a use of the program.
fn asked(words: &[OsString]) -> Option<Asked<'_>> {
    let (mut tape, mut told, mut day) = (None, false, None);
    let mut rest = words.iter();
    while let Some(word) = rest.next() {
        let twice = match word.as_bytes() {
            b"--tape" => tape.replace(rest.next()?).is_some(),
            b"--words" => std::mem::replace(&mut told, true),
            [b'-', ..] => return None,
            _ => day.replace(word).is_some(),
        };
        if twice {
            return None;
        }
    }
    Some(Asked {
        tape: tape?,
        words: told,
        day: day?,
    })
}

fn run(words: &[OsString]) -> Result<u8, String> {
    if words.len() == 1 && words[0] == "--help" {
        print(&usage()).map_err(|error| failed(&error))?;
        return Ok(PLAYED);
    }
    match asked(words) {
        Some(Asked { tape, words, day }) => play(Path::new(tape), Path::new(day), words),
        None => {
            say(usage().trim_end());
            Ok(USAGE)
        }
    }
}

fn main() -> ExitCode {
    let words: Vec<OsString> = std::env::args_os().skip(1).collect();
    ExitCode::from(run(&words).unwrap_or_else(|wrong| {
        say(&format!("play: {wrong}"));
        FAILED
    }))
}
