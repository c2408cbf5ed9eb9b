//! The words of a day and of lines that are given, without any program.

use assemble::lines::Lines;
use play::printed::{read, Splitter};
use play::teller::{Failure, Teller};

pub fn words(day: &str, lines: &[u8]) -> String {
    let mut text = Vec::new();
    let result = tell(day, lines, &mut text);
    assert!(result.is_ok(), "{result:?}");
    String::from_utf8(text).expect("words are text")
}

fn tell(day: &str, lines: &[u8], text: &mut Vec<u8>) -> Result<(), Failure> {
    let mut teller = Teller::new(Lines::new(day.as_bytes()), text);
    let mut splitter = Splitter::default();
    splitter.push(lines, &mut |line| teller.line(line, read(line)))?;
    let rest = splitter.rest();
    if !rest.is_empty() {
        teller.rest(&rest)?;
    }
    teller.end()
}
