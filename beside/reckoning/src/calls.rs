//! The program `calls`: a list of calls of the book, each with a frame of any
//! bytes and a record space of any length, and then the lookups.

use crate::book::{depth, Book, SERIES, SPACE, STRATEGIES};
use crate::events::Answer;
use crate::lists::Input;
use crate::tape::put_answer;
use std::io::{self, Write};

/// The items of an input, each the frame's length (2 bytes, little-endian), the
/// length of the record space in numbers (2 bytes), and the frame's bytes; and
/// whether the input ends inside an item.
pub fn items(input: &[u8]) -> (Vec<Input>, bool) {
    let mut items = Vec::new();
    let mut rest = input;
    while let [n0, n1, m0, m1, after @ ..] = rest {
        let length = usize::from(u16::from_le_bytes([*n0, *n1]));
        let space = usize::from(u16::from_le_bytes([*m0, *m1]));
        if length > after.len() {
            break;
        }
        let (frame, next) = after.split_at(length);
        let frame = frame.to_vec();
        items.push(Input { frame, space });
        rest = next;
    }
    (items, !rest.is_empty())
}

/// The bytes of an item. Its lengths have 2 bytes each.
pub fn item(call: &Input) -> Vec<u8> {
    let length = u16::try_from(call.frame.len()).expect("a length of 2 bytes");
    let space = u16::try_from(call.space).expect("a space of 2 bytes");
    let mut bytes = length.to_le_bytes().to_vec();
    bytes.extend(space.to_le_bytes());
    bytes.extend(&call.frame);
    bytes
}

/// Plays the items from the first book and prints, for each, `E` index answer
/// value count and its `R` lines as `tape` does; then `cut` if the input ends
/// inside an item; then the lookups. Answers the book after the items.
pub fn calls(input: &[u8], output: &mut impl Write) -> io::Result<Book> {
    let mut book = Book::first();
    let mut answer = Answer::default();
    let (items, cut) = items(input);
    for (index, call) in items.iter().enumerate() {
        // A length above 15,360 lends 15,360.
        let lent = call.space.min(SPACE);
        book.step_into(&call.frame, lent, &mut answer);
        put_answer(index, &answer, output)?;
    }
    if cut {
        writeln!(output, "cut")?;
    }
    put_lookups(&book, output)?;
    Ok(book)
}

/// The lookups: `L` number quantity for each number with something live, rising;
/// `S` strategy count lowest for each defined strategy; `N` strategy bid offer, the
/// nets of each defined strategy, `-` for an unknown one; `D` series side price
/// contracts for each series and side whose depth is not empty.
pub fn put_lookups(book: &Book, output: &mut impl Write) -> io::Result<()> {
    for number in book.live_numbers() {
        writeln!(output, "L {number} {}", book.live(number))?;
    }
    for strategy in 0..STRATEGIES as u32 {
        if let Ok((count, lowest)) = book.shut_legs(strategy) {
            writeln!(output, "S {strategy} {count} {lowest}")?;
        }
    }
    let net = |net: Option<i64>| net.map_or("-".to_string(), |cents| cents.to_string());
    for strategy in 0..STRATEGIES as u32 {
        if let Ok(nets) = book.nets(strategy) {
            writeln!(output, "N {strategy} {} {}", net(nets.bid), net(nets.offer))?;
        }
    }
    let row = book.row();
    for series in 0..u32::from(SERIES) {
        for side in 0..2 {
            let found = depth(&row, series, side).expect("the book's own row has its ranges");
            if let Some((price, contracts)) = found {
                writeln!(output, "D {series} {side} {price} {contracts}")?;
            }
        }
    }
    Ok(())
}
