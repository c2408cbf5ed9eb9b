//! Prints the totals of a list of events: `audit FRAMES LINES ENDED`.

#![forbid(unsafe_code)]
#![deny(warnings)]

use assemble::echo;
use assemble::output::{print, say, Output};
use audit::frames::with_day_end;
use audit::wrong::Wrong;
use audit::{audit, Audited};
use std::ffi::{OsStr, OsString};
use std::fs::File;
use std::io::{self, BufReader, Read};
use std::process::ExitCode;

const USAGE: &str = "\
usage: audit FRAMES LINES ENDED
       audit --with-day-end FRAMES

Prints the totals of a list of events, as document 01 has them in \"The totals
after a list\", for each of its days, the fills that national nets bound (request
2026-01), and the limit of each sweep against the leg net of its own side at its
arrival (request 2026-03). What members enter ends as filled, cancelled or live where
specialists are named, too (request 2026-04). FRAMES is a file of frames, LINES what
the program `tape` prints for it, ENDED what it prints for the output of the second
form: the same frames with a day end after them. What that day end cancels was live.
Nothing else is read.

The last line is 'totals hold'; or what does not hold is listed and the exit
status is 1. The list has the first 1,000 and, if there are more, ends with the
line 'and N more'. The exit status is 2 if the files cannot be read, or cannot
belong together, or the output cannot be written.

A length under 4 or past the end of the frames, or a lone last byte, stops `tape`.
Standard error then says at which byte, from 0, and why, and how many bytes after
it were not played. The exit status is 3 if there are such bytes and the totals of
what was played hold.

The files are read in step, as streams. A day is printed when the event after it
was read, or the files have ended: so days before an error are printed, and the
error is said on standard error. Memory is bounded by the numbers of a day: one
with more than 200,000 cannot be audited, where document 01 gives 100,000.
";

/// The statuses of the program.
const DONE: u8 = 0;
const FAILS: u8 = 1;
const WRONG: u8 = 2;
/// The totals hold, and bytes of the frames were not played, as `tape` stopped
/// before them.
const NOT_ALL: u8 = 3;

/// A file whose errors have its name.
struct Named {
    name: String,
    file: File,
}

fn named(name: &str, error: io::Error) -> io::Error {
    io::Error::new(error.kind(), format!("{name}: {error}"))
}

impl Read for Named {
    fn read(&mut self, space: &mut [u8]) -> io::Result<usize> {
        let read = self.file.read(space);
        read.map_err(|error| named(&self.name, error))
    }
}

fn open(name: &OsStr) -> Result<BufReader<Named>, Wrong> {
    let shown = echo::name(name);
    let file = File::open(name).map_err(|error| Wrong::Read(named(&shown, error)))?;
    let file = Named { name: shown, file };
    Ok(BufReader::with_capacity(1 << 16, file))
}

fn output() -> Result<Output, Wrong> {
    Output::new().map_err(Wrong::Write)
}

/// What was written stays so after an error, too: the buffer is written out, and
/// the first error said.
fn ended<T>(output: Output, result: Result<T, Wrong>) -> Result<T, Wrong> {
    let written = output.end().map_err(Wrong::Write);
    result.and_then(|answer| written.map(|()| answer))
}

fn print_totals(frames: &OsStr, lines: &OsStr, end: &OsStr) -> Result<u8, Wrong> {
    let (frames, lines, end) = (open(frames)?, open(lines)?, open(end)?);
    let mut output = output()?;
    let result = audit(frames, lines, end, &mut output);
    let Audited { failures, stop } = ended(output, result)?;
    if let Some(stop) = stop {
        say(&format!("audit: {stop}"));
    }
    let not_played = stop.is_some_and(|stop| stop.after > 0);
    Ok(match (failures.is_empty(), not_played) {
        (false, _) => FAILS,
        (true, true) => NOT_ALL,
        (true, false) => DONE,
    })
}

fn print_with_day_end(frames: &OsStr) -> Result<u8, Wrong> {
    let frames = open(frames)?;
    let mut output = output()?;
    let result = with_day_end(frames, &mut output);
    ended(output, result)?;
    Ok(DONE)
}

fn run(words: &[OsString]) -> Result<u8, Wrong> {
    match words {
        [word] if word == "--help" => {
            print(USAGE).map_err(Wrong::Write)?;
            Ok(DONE)
        }
        [word, frames] if word == "--with-day-end" => print_with_day_end(frames),
        [frames, lines, end] => print_totals(frames, lines, end),
        _ => {
            say(USAGE.trim_end());
            Ok(WRONG)
        }
    }
}

fn main() -> ExitCode {
    let words: Vec<OsString> = std::env::args_os().skip(1).collect();
    ExitCode::from(run(&words).unwrap_or_else(|wrong| {
        say(&format!("audit: {wrong}"));
        WRONG
    }))
}
