//! One line of a day: its words, and the bytes that they stand for. Each frame is
//! written by the proved writer, which alone knows the ranges of the fields.

use crate::codec::{write, Row, NUMBERS};
use crate::echo;
use crate::forms::{
    leg_fields, names, Field, Form, Part, Values, BYTES_SHAPE, FORMS, LEG_COUNT, SIDES, STRATEGY,
    STRATEGY_SHAPE,
};
use crate::ranges::{outside, Said};

/// The most bytes that one word of a line `bytes` stands for.
const MOST: usize = 65_535;

/// The most bytes that a line `bytes` stands for.
const MOST_OF_A_LINE: usize = 1_000_000;

/// The words of a text, parted by blanks.
pub fn words(text: &[u8]) -> Vec<&[u8]> {
    text.split(u8::is_ascii_whitespace)
        .filter(|word| !word.is_empty())
        .collect()
}

/// The bytes of the line with this first word and these others, or what is wrong.
pub fn bytes(first: &[u8], rest: &[&[u8]]) -> Result<Vec<u8>, String> {
    if first == b"bytes" {
        return bytes_of(rest).map_err(|wrong| format!("{wrong}; the form is: {BYTES_SHAPE}"));
    }
    if first == b"strategy" {
        return strategy(rest);
    }
    match FORMS.iter().find(|form| form.word.as_bytes() == first) {
        Some(form) => {
            let said = fields_of(form, rest)
                .map_err(|wrong| format!("{wrong}; the form is: {}", form.shape()))?;
            written(form.kind, Some(form), &said)
        }
        None => {
            let mut known = vec!["strategy"];
            known.extend(FORMS.iter().map(|form| form.word));
            known.push("bytes");
            let (first, known) = (echo::word(first), known.join(", "));
            Err(format!(
                "'{first}' begins no event; one of these does: {known}"
            ))
        }
    }
}

/// The frame of the event with these fields, as the proved writer has it.
fn written(kind: u32, form: Option<&Form>, said: &[Said]) -> Result<Vec<u8>, String> {
    let mut row: Row = [0; NUMBERS];
    row[0] = kind;
    // A seventh leg has no place; the leg count is then outside its range.
    for said in said.iter().filter(|said| said.field.place < NUMBERS) {
        row[said.field.place] = said.held();
    }
    match write(&row) {
        Ok(frame) => Ok(frame),
        Err(3) => Err(outside(form, said)),
        Err(refusal) => Err(format!("the writer refuses it with {refusal}")),
    }
}

/// The words of a line, taken one by one.
struct Words<'a> {
    rest: &'a [&'a [u8]],
}

impl<'a> Words<'a> {
    /// The next word, or what is missing.
    fn next(&mut self, wanted: &str) -> Result<&'a [u8], String> {
        match self.rest.split_first() {
            Some((word, rest)) => {
                self.rest = rest;
                Ok(word)
            }
            None => Err(format!("the line ends before {wanted}")),
        }
    }

    fn word(&mut self, wanted: &str) -> Result<(), String> {
        match self.next(&format!("'{wanted}'"))? {
            word if word == wanted.as_bytes() => Ok(()),
            word => {
                let word = echo::word(word);
                Err(format!("'{word}' stands in the place of '{wanted}'"))
            }
        }
    }

    fn number(&mut self, field: Field) -> Result<Said<'a>, String> {
        let name = field.name;
        let word = self.next(&format!("the {name}"))?;
        if let Some(value) = number(word) {
            return Ok(said(field, value, word));
        }
        let word = echo::word(word);
        let cents = if field.in_cents() { " of cents" } else { "" };
        Err(format!("'{word}' is no whole number{cents} for the {name}"))
    }

    fn choice(&mut self, field: Field, values: Values) -> Result<Said<'a>, String> {
        let name = field.name;
        let word = self.next(&format!("the {name}"))?;
        match values.iter().find(|(known, _)| known.as_bytes() == word) {
            Some((_, value)) => Ok(said(field, i64::from(*value), word)),
            None => {
                let (word, known) = (echo::word(word), names(values).join(", "));
                Err(format!("'{word}' is no {name}, which is one of: {known}"))
            }
        }
    }

    fn number_or(&mut self, field: Field, values: Values) -> Result<Said<'a>, String> {
        let is = |(known, _): &(&str, u32)| self.rest.first() == Some(&known.as_bytes());
        match values.iter().any(is) {
            true => self.choice(field, values),
            false => self.number(field),
        }
    }

    fn end(&self) -> Result<(), String> {
        match self.rest.first() {
            None => Ok(()),
            Some(word) => {
                let word = echo::word(word);
                Err(format!("'{word}' stands after the end of the event"))
            }
        }
    }
}

fn said(field: Field, value: i64, word: &[u8]) -> Said<'_> {
    Said { field, value, word }
}

/// A whole number: digits, a minus sign before them or none. One that is too
/// large for 64 bits is cut to the largest that is not, which is in no range.
fn number(word: &[u8]) -> Option<i64> {
    let word = std::str::from_utf8(word).ok()?;
    let digits = word.strip_prefix('-').unwrap_or(word);
    if digits.is_empty() || !digits.bytes().all(|digit| digit.is_ascii_digit()) {
        return None;
    }
    let value = digits.parse().unwrap_or(i64::MAX);
    Some(if word.starts_with('-') { -value } else { value })
}

/// The fields of a line, in its order.
fn fields_of<'a>(form: &Form, rest: &'a [&'a [u8]]) -> Result<Vec<Said<'a>>, String> {
    let mut words = Words { rest };
    let mut list = Vec::new();
    for part in form.parts {
        match part {
            Part::Word(word) => words.word(word)?,
            Part::Number(field) => list.push(words.number(*field)?),
            Part::Choice(field, values) => list.push(words.choice(*field, values)?),
            Part::NumberOr(field, values) => list.push(words.number_or(*field, values)?),
        }
    }
    words.end()?;
    for (field, value) in form.fixed {
        list.push(said(*field, i64::from(*value), form.word.as_bytes()));
    }
    Ok(list)
}

/// The words of each leg of a strategy, parted by commas.
fn legs_of(line: &[u8]) -> Vec<Vec<&[u8]>> {
    line.split(|byte| *byte == b',').map(words).collect()
}

/// The fields of a strategy's legs.
fn leg_fields_of<'a>(legs: &'a [Vec<&'a [u8]>]) -> Result<Vec<Said<'a>>, String> {
    let mut list = Vec::new();
    for (index, rest) in legs.iter().enumerate() {
        let mut words = Words { rest };
        let [series, side, ratio] = leg_fields(index);
        list.push(words.number(series)?);
        list.push(words.choice(side, SIDES)?);
        list.push(words.number(ratio)?);
        words.end()?;
    }
    Ok(list)
}

/// The frame of a strategy: its leg count, then its legs.
fn strategy(rest: &[&[u8]]) -> Result<Vec<u8>, String> {
    let line = rest.join(&b' ');
    let legs = legs_of(&line);
    let fields =
        leg_fields_of(&legs).map_err(|wrong| format!("{wrong}; the form is: {STRATEGY_SHAPE}"))?;
    let count = legs.len().to_string();
    let mut list = vec![said(LEG_COUNT, legs.len() as i64, count.as_bytes())];
    list.extend(fields);
    written(STRATEGY, None, &list)
}

/// The bytes of a line of bytes, at least one.
fn bytes_of(rest: &[&[u8]]) -> Result<Vec<u8>, String> {
    let mut bytes = Vec::new();
    for word in rest {
        let (byte, count) = run(word)?;
        bytes.resize(bytes.len() + count, byte);
        if bytes.len() > MOST_OF_A_LINE {
            return Err(format!(
                "the line stands for more than {MOST_OF_A_LINE} bytes"
            ));
        }
    }
    if bytes.is_empty() {
        return Err("the line ends before a byte".to_string());
    }
    Ok(bytes)
}

/// The byte that a word stands for, and how often.
fn run(word: &[u8]) -> Result<(u8, usize), String> {
    let shown = || echo::word(word);
    let text = std::str::from_utf8(word).unwrap_or("");
    let (digits, times) = match text.split_once('*') {
        Some((digits, times)) => (digits, Some(times)),
        None => (text, None),
    };
    if digits.len() != 2 || !digits.bytes().all(|digit| digit.is_ascii_hexdigit()) {
        return Err(format!("'{}' is not a byte of two hex digits", shown()));
    }
    let byte = u8::from_str_radix(digits, 16).map_err(|error| error.to_string())?;
    let count = match times {
        None => Some(1),
        Some(times) if times.starts_with('+') => None,
        Some(times) => times.parse().ok(),
    };
    match count {
        Some(count) if (1..=MOST).contains(&count) => Ok((byte, count)),
        _ => Err(format!("'{}' has no count from 1 to {MOST}", shown())),
    }
}
