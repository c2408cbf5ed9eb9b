//! The program `tape` of document 01 as a function.

use crate::book::{Book, SPACE};
use crate::events::Answer;
use std::io::{self, Write};

/// "reads frames from standard input, prints `E` index answer value count, the
/// index from 0, then `R` lines, one a record. A refusal prints value and count
/// 0. A length under 4 or past the input's end, a lone last byte included,
/// prints refusal 2 and stops."
pub fn tape(input: &[u8], output: &mut impl Write) -> io::Result<()> {
    let mut book = Book::first();
    // One answer for all events: the space of its records is used again.
    let mut answer = Answer::default();
    let mut rest = input;
    let mut index = 0;
    while !rest.is_empty() {
        let length = if rest.len() < 2 {
            0
        } else {
            usize::from(u16::from_le_bytes([rest[0], rest[1]]))
        };
        if length < 4 || length > rest.len() {
            writeln!(output, "E {index} 2 0 0")?;
            return Ok(());
        }
        book.step_into(&rest[..length], SPACE, &mut answer);
        put_answer(index, &answer, output)?;
        rest = &rest[length..];
        index += 1;
    }
    Ok(())
}

/// "`E` index answer value count, the index from 0, then `R` lines, one a
/// record."
pub fn put_answer(index: usize, answer: &Answer, output: &mut impl Write) -> io::Result<()> {
    let mut line = Line([b'\n'; LONGEST]);
    let head = [
        index as i64,
        i64::from(answer.answer),
        i64::from(answer.value),
        answer.records.len() as i64,
    ];
    output.write_all(line.of(b'E', head))?;
    for record in &answer.records {
        output.write_all(line.of(b'R', record.numbers().map(i64::from)))?;
    }
    Ok(())
}

/// The longest line: a letter, six numbers of up to 20 characters with a space
/// before each, and the line end.
const LONGEST: usize = 1 + 6 * 21 + 1;

/// Room for a line. It is written from its end to its beginning, for that is how
/// the digits of a number are found.
struct Line([u8; LONGEST]);

impl Line {
    /// The line of this letter and these numbers. The last byte is the line end.
    fn of<const COUNT: usize>(&mut self, letter: u8, numbers: [i64; COUNT]) -> &[u8] {
        let mut start = LONGEST - 1;
        for number in numbers.into_iter().rev() {
            start = self.put(start, number) - 1;
            self.0[start] = b' ';
        }
        self.0[start - 1] = letter;
        &self.0[start - 1..]
    }

    /// Puts a number before the end, and answers where it starts.
    fn put(&mut self, end: usize, number: i64) -> usize {
        let mut start = end - 1;
        let mut rest = number.unsigned_abs();
        while rest > 9 {
            self.0[start] = b'0' + (rest % 10) as u8;
            start -= 1;
            rest /= 10;
        }
        self.0[start] = b'0' + rest as u8;
        if number < 0 {
            start -= 1;
            self.0[start] = b'-';
        }
        start
    }
}
