//! What is held of a program: for every list it prints the reckoning's lines.

use crate::lists::List;
use crate::tally::Tally;
use reckoning::book::Book;
use reckoning::calls::{calls, items};
use std::fmt;
use tapes::agree::{each, hex, place};
use tapes::program::Program;

/// The reckoning's lines for an input, and its book after them.
pub fn reckoned(input: &[u8]) -> (Vec<u8>, Book) {
    let mut lines = Vec::new();
    let book = calls(input, &mut lines).expect("a Vec takes every line");
    (lines, book)
}

/// The first line that differs, with the call before it; nothing if all are the
/// same.
pub fn difference(input: &[u8], printed: &[u8], reckoned: &[u8]) -> Option<String> {
    let place = place(printed, reckoned)?;
    let (calls, _) = items(input);
    let call = match calls.get(place.event) {
        Some(call) => format!("space {}, frame {}", call.space, hex(&call.frame)),
        None => "none".to_string(),
    };
    Some(format!(
        "call {} of {}, line {}\n  call:      {call}\n  calls:     {}\n  reckoning: {}",
        place.event,
        calls.len(),
        place.line,
        place.printed,
        place.reckoned
    ))
}

/// A list for which the program does not print the reckoning's lines.
#[derive(Clone, Debug)]
pub struct Different {
    pub list: List,
    pub said: String,
}

impl fmt::Display for Different {
    fn fmt(&self, out: &mut fmt::Formatter) -> fmt::Result {
        write!(out, "{}: {}", self.list, self.said)
    }
}

/// The program prints the reckoning's lines for each list; else the first of the
/// lists found for which it does not.
pub fn agrees(program: &Program, lists: &[List]) -> Result<Tally, Different> {
    let parts = each(lists, |list: &List, tally: &mut Tally| {
        let input = list.bytes();
        let printed = program.run(&input)?;
        let (lines, book) = reckoned(&input);
        match difference(&input, &printed, &lines) {
            None => {
                tally.add(&input, &printed, &book);
                Ok(())
            }
            Some(said) => Err(said),
        }
    });
    match parts {
        Ok(parts) => {
            let mut tally = Tally::default();
            for part in parts {
                tally.join(part);
            }
            Ok(tally)
        }
        Err((index, said)) => Err(Different {
            list: lists[index].clone(),
            said,
        }),
    }
}
