//! Writes a list of events as frames to standard output:
//! `days SEED EVENTS`, or `days SEED EVENTS long` for a list that gives all
//! 100,000 numbers first.

#![forbid(unsafe_code)]
#![deny(warnings)]

use reckoning::generate::{long_list, stream};
use std::io::{self, Write};
use std::process::ExitCode;

fn main() -> ExitCode {
    let words: Vec<String> = std::env::args().skip(1).collect();
    let number = |at: usize| words.get(at).and_then(|word| word.parse::<u64>().ok());
    let long = words.get(2).map(String::as_str) == Some("long");
    let (Some(seed), Some(events)) = (number(0), number(1)) else {
        eprintln!("usage: days SEED EVENTS [long]");
        return ExitCode::from(2);
    };
    let frames = if long {
        let inputs = long_list(seed, events as usize, false);
        inputs.into_iter().flat_map(|input| input.frame).collect()
    } else {
        stream(seed, events as usize)
    };
    match io::stdout().lock().write_all(&frames) {
        Ok(()) => ExitCode::SUCCESS,
        Err(_) => ExitCode::FAILURE,
    }
}
