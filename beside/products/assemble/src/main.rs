//! Writes the frames of a day written as text to standard output:
//! `assemble [--as NAME] FILE`.

#![forbid(unsafe_code)]
#![deny(warnings)]

use assemble::check::{changed, check};
use assemble::day::Day;
use assemble::echo;
use assemble::forms::shapes;
use assemble::output::{failed, print, say, Output};
use std::ffi::{OsStr, OsString};
use std::io::Write;
use std::os::unix::ffi::OsStrExt;
use std::process::ExitCode;

fn usage() -> String {
    let shapes = shapes();
    format!(
        "usage: assemble [--as NAME] FILE

Writes the frames that the text of FILE stands for to standard output. A line of
the text is one event; '#' starts a comment:
{shapes}Prices and limits are whole cents, and a percentage is a whole number; a national
price that is missing is 'none' or 0. The proved writer writes each frame, and a
number outside its field's range is an error with its line. 'bytes' takes any
bytes, in hex: '00*300' is the byte 00 three hundred times; a warning says where
they are not one frame.

Every bad line is told, and then nothing is written. With --as, messages begin
with NAME instead of 'assemble'.
"
    )
}

/// Whether every line of the file is good, and then written; or what is wrong
/// besides bad lines, which are told.
fn run(name: &str, file: &OsStr) -> Result<bool, String> {
    let shown = echo::name(file);
    let unread = |error| format!("{shown}: {error}");
    let unwritten = |error| failed(&error);
    let day = Day::open(file).map_err(unread)?;
    let mut tell = |message: String| say(&format!("{name}: {shown}: {message}"));
    if check(&day, &mut tell).map_err(unread)?.bad > 0 {
        return Ok(false);
    }
    let mut output = Output::new().map_err(unwritten)?;
    for line in day.lines() {
        let line = line.map_err(|wrong| unread(changed(wrong)))?;
        output.write_all(&line.bytes).map_err(unwritten)?;
    }
    output.end().map_err(unwritten)?;
    Ok(true)
}

fn help() -> Result<bool, String> {
    print(&usage()).map_err(|error| failed(&error))?;
    Ok(true)
}

fn main() -> ExitCode {
    let words: Vec<OsString> = std::env::args_os().skip(1).collect();
    let (name, rest) = match &words[..] {
        [word, name, rest @ ..] if word == "--as" => (name.to_string_lossy(), rest),
        words => ("assemble".into(), words),
    };
    let result = match rest {
        [word] if word == "--help" => help(),
        [file] if !file.as_bytes().starts_with(b"-") => run(&name, file),
        _ => {
            say(usage().trim_end());
            return ExitCode::from(2);
        }
    };
    match result {
        Ok(true) => ExitCode::SUCCESS,
        Ok(false) => ExitCode::FAILURE,
        Err(wrong) => {
            say(&format!("{name}: {wrong}"));
            ExitCode::FAILURE
        }
    }
}
