//! Events as 20 numbers, and the reckoning's functions over them.

use crate::fields::{counted, fields, shapes, trials, valid, Field};
use crate::random::Random;
use reckoning::frames::{self, Event, Leg};
use std::convert::TryFrom;

/// A kind and the values of 19 fields.
pub const NUMBERS: usize = 20;

/// An event: its kind, the values of its fields in frame order, then zeros. In
/// the place of a limit stands the limit and 10,000,000 more.
pub type Row = [u32; NUMBERS];

const LIMIT_BASE: i64 = 10_000_000;

/// Where a kind has its limit.
fn limit_at(kind: u32) -> Option<usize> {
    match kind {
        2 => Some(7),
        3 => Some(5),
        _ => None,
    }
}

/// How many numbers of a row its kind uses: the kind and its fields.
pub fn numbers_used(kind: u32) -> usize {
    1 + fields(kind, 6).len()
}

/// The row of a kind with these values, a limit among them as it is.
pub fn row(kind: u32, values: &[i64]) -> Row {
    let mut row = [0; NUMBERS];
    row[0] = kind;
    for (number, value) in row[1..].iter_mut().zip(values) {
        *number = *value as u32;
    }
    if let Some(at) = limit_at(kind) {
        row[at] = (values[at - 1] + LIMIT_BASE) as u32;
    }
    row
}

/// The row of an event of the reckoning.
pub fn row_of(event: &Event) -> Row {
    let (kind, values) = frames::values(event);
    row(kind, &values)
}

/// The event of the reckoning with these numbers; nothing where the kind is
/// unknown or a number is too large for its field's bytes.
pub fn event_of(row: &Row) -> Option<Event> {
    let byte = |at: usize| u8::try_from(row[at]).ok();
    let two = |at: usize| u16::try_from(row[at]).ok();
    let limit = |at: usize| i32::try_from(i64::from(row[at]) - LIMIT_BASE).ok();
    Some(match row[0] {
        1 => {
            let mut legs = [Leg::default(); 6];
            for (index, leg) in legs.iter_mut().enumerate() {
                leg.series = byte(2 + 3 * index)?;
                leg.side = byte(3 + 3 * index)?;
                leg.ratio = byte(4 + 3 * index)?;
            }
            let count = byte(1)?;
            Event::Strategy { count, legs }
        }
        2 => Event::Complex {
            member: two(1)?,
            strategy: byte(2)?,
            side: byte(3)?,
            class: byte(4)?,
            life: byte(5)?,
            units: two(6)?,
            limit: limit(7)?,
        },
        3 => Event::Sweep {
            member: two(1)?,
            strategy: byte(2)?,
            side: byte(3)?,
            units: two(4)?,
            limit: limit(5)?,
        },
        4 => Event::LegOrder {
            member: two(1)?,
            series: byte(2)?,
            side: byte(3)?,
            contracts: two(4)?,
            price: row[5],
        },
        5 => Event::Cancel {
            member: two(1)?,
            number: row[2],
        },
        6 => Event::Series {
            series: byte(1)?,
            state: byte(2)?,
        },
        7 => Event::Clock {
            milliseconds: row[1],
        },
        8 => Event::DayEnd { timer: two(1)? },
        9 => Event::NationalPrices {
            series: byte(1)?,
            bid: row[2],
            offer: row[3],
        },
        10 => Event::ExecutionRange { cents: two(1)? },
        11 => Event::Specialist {
            member: two(1)?,
            strategy: byte(2)?,
            percentage: byte(3)?,
        },
        _ => return None,
    })
}

/// The reckoning's reader.
pub fn read(frame: &[u8]) -> Result<Row, u32> {
    frames::read(frame).map(|event| row_of(&event))
}

/// The reckoning's writer. What no event of its can hold is out of range.
pub fn write(row: &Row, space: &mut [u8]) -> Result<usize, u32> {
    match event_of(row) {
        Some(event) => frames::write(&event, space),
        None => Err(3),
    }
}

/// What is done with each row; an error ends the walk.
pub type Visit<'a> = &'a mut dyn FnMut(&Row) -> Result<(), String>;

/// Every row that is written, the same ones in every run.
pub fn rows(visit: Visit) -> Result<(), String> {
    single_values(visit)?;
    other_kinds(visit)?;
    legs_past_the_count(visit)?;
    random_rows(visit)
}

/// One value over its trials; the others at their lowest, at their highest, and
/// anywhere in range.
fn single_values(visit: Visit) -> Result<(), String> {
    let mut random = Random::new(11);
    for (kind, fields) in shapes() {
        let lowest = counted(fields.iter().map(|f| f.low).collect(), &fields);
        let highest = counted(fields.iter().map(|f| f.high).collect(), &fields);
        for (index, field) in fields.iter().enumerate() {
            for others in [&lowest, &highest, &valid(&mut random, &fields)] {
                for value in trials(field) {
                    let mut values = others.clone();
                    values[index] = value;
                    visit(&row(kind, &values))?;
                    // Without the shift of a limit: every number stands there.
                    let mut held = row(kind, others);
                    held[index + 1] = value as u32;
                    visit(&held)?;
                }
            }
        }
    }
    Ok(())
}

/// Kinds that are not 1 to 11, and valid events under another kind.
fn other_kinds(visit: Visit) -> Result<(), String> {
    let mut random = Random::new(12);
    for (kind, fields) in shapes() {
        for other in (0..=300).chain([65_536 + kind, 1 << 31, u32::MAX]) {
            let mut row = row(kind, &valid(&mut random, &fields));
            row[0] = other;
            visit(&row)?;
        }
    }
    Ok(())
}

/// Strategies with each count from 0 to 300, and with every value past a count
/// of 2 to 6 not zero, alone and with others.
fn legs_past_the_count(visit: Visit) -> Result<(), String> {
    let mut random = Random::new(13);
    for (kind, fields) in shapes().into_iter().filter(|(kind, _)| *kind == 1) {
        for _ in 0..20 {
            let whole = row(kind, &valid(&mut random, &fields));
            for count in (0..=300).chain([65_536 + 2, u32::MAX]) {
                let mut row = whole;
                row[1] = count;
                visit(&row)?;
            }
            for at in 1 + fields.len()..NUMBERS {
                for value in [1, 2, 12, 255, 256, 65_536, 1 << 24, 1 << 31, u32::MAX] {
                    let mut row = whole;
                    row[at] = value;
                    visit(&row)?;
                    row[random.range(1 + fields.len() as i64, 19) as usize] = random.bits() as u32;
                    visit(&row)?;
                }
            }
        }
    }
    Ok(())
}

/// Valid events, events with some values near the ends of their ranges, and
/// rows of any numbers; in kinds 2 to 11 also with numbers after the fields.
fn random_rows(visit: Visit) -> Result<(), String> {
    let mut random = Random::new(14);
    let near = |random: &mut Random, field: &Field| match random.byte() % 16 {
        0 => random.range(field.low - 1, field.low + 1),
        1 => random.range(field.high - 1, field.high + 1),
        2 => random.bits() as i64 >> random.below(64),
        _ => random.range(field.low, field.high),
    };
    for (kind, fields) in shapes() {
        for _ in 0..20_000 {
            let whole = row(kind, &valid(&mut random, &fields));
            visit(&whole)?;
            let values = fields.iter().map(|field| near(&mut random, field));
            visit(&row(kind, &counted(values.collect(), &fields)))?;
        }
        for _ in 0..4_000 {
            let mut row = row(kind, &valid(&mut random, &fields));
            for number in row[1 + fields.len()..].iter_mut() {
                *number = random.bits() as u32;
            }
            visit(&row)?;
            for number in row[1..].iter_mut() {
                *number = random.bits() as u32 >> random.below(32);
            }
            visit(&row)?;
        }
    }
    Ok(())
}
