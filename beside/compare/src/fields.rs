//! The fields of each kind as document 01 and requests 2026-01 and 2026-04 list them,
//! for making inputs.

use crate::random::Random;

/// Bytes of a length and a kind.
pub const HEAD: usize = 4;

/// A field: its width in bytes, and its lowest and highest value.
#[derive(Clone, Copy, Debug, PartialEq, Eq)]
pub struct Field {
    pub name: &'static str,
    pub width: usize,
    pub low: i64,
    pub high: i64,
}

const fn field(name: &'static str, width: usize, low: i64, high: i64) -> Field {
    Field {
        name,
        width,
        low,
        high,
    }
}

pub const COUNT: Field = field("count", 1, 2, 6);
const SERIES: Field = field("series", 1, 0, 31);
const SIDE: Field = field("side", 1, 0, 1);
const RATIO: Field = field("ratio", 1, 1, 12);
const MEMBER: Field = field("member", 2, 1, 65_535);
const STRATEGY: Field = field("strategy", 1, 0, 15);
const CLASS: Field = field("class", 1, 1, 3);
const LIFE: Field = field("life", 1, 0, 3);
const UNITS: Field = field("units", 2, 1, 9_999);
const SWEEP_UNITS: Field = field("units", 2, 0, 9_999);
const LIMIT: Field = field("limit", 4, -9_999_999, 9_999_999);
const CONTRACTS: Field = field("contracts", 2, 1, 9_999);
const PRICE: Field = field("price", 4, 1, 99_999);
const NUMBER: Field = field("order number", 4, 1, 100_000);
const STATE: Field = field("state", 1, 0, 1);
const MILLISECONDS: Field = field("milliseconds", 4, 0, 86_400_000);
const TIMER: Field = field("timer", 2, 1, 5_000);
const NATIONAL_BID: Field = field("national bid", 4, 0, 99_999);
const NATIONAL_OFFER: Field = field("national offer", 4, 0, 99_999);
const RANGE: Field = field("range", 2, 0, 9_999);
const PERCENTAGE: Field = field("percentage", 1, 0, 100);

/// The highest kind there is.
pub const LAST: u32 = 11;

/// The fields of a kind in frame order; those of a strategy for this count.
pub fn fields(kind: u32, count: usize) -> Vec<Field> {
    match kind {
        1 => {
            let mut list = vec![COUNT];
            for _ in 0..count {
                list.extend([SERIES, SIDE, RATIO]);
            }
            list
        }
        2 => vec![MEMBER, STRATEGY, SIDE, CLASS, LIFE, UNITS, LIMIT],
        3 => vec![MEMBER, STRATEGY, SIDE, SWEEP_UNITS, LIMIT],
        4 => vec![MEMBER, SERIES, SIDE, CONTRACTS, PRICE],
        5 => vec![MEMBER, NUMBER],
        6 => vec![SERIES, STATE],
        7 => vec![MILLISECONDS],
        8 => vec![TIMER],
        9 => vec![SERIES, NATIONAL_BID, NATIONAL_OFFER],
        10 => vec![RANGE],
        11 => vec![MEMBER, STRATEGY, PERCENTAGE],
        _ => vec![],
    }
}

/// Each kind, a strategy once for each count of legs that is allowed.
pub fn shapes() -> Vec<(u32, Vec<Field>)> {
    let strategies = (2..=6).map(|count| (1, fields(1, count)));
    strategies
        .chain((2..=LAST).map(|kind| (kind, fields(kind, 0))))
        .collect()
}

/// A value in range for each field; a count says how many legs there are.
pub fn valid(random: &mut Random, fields: &[Field]) -> Vec<i64> {
    let values = fields.iter().map(|f| random.range(f.low, f.high));
    counted(values.collect(), fields)
}

/// Sets the first value to the number of legs, where the first field counts.
pub fn counted(mut values: Vec<i64>, fields: &[Field]) -> Vec<i64> {
    if fields[0] == COUNT {
        values[0] = (fields.len() as i64 - 1) / 3;
    }
    values
}

/// Values of a field to try: its ends and their neighbours, the ends of numbers
/// of 8, 16 and 32 bits, each power of two and its neighbours, each end with one
/// bit changed and with its bytes in the other order.
pub fn trials(field: &Field) -> Vec<i64> {
    let mut values = vec![0, 1, u32::MAX.into(), i32::MAX.into(), i32::MIN.into()];
    for end in [field.low, field.high] {
        values.extend(end - 2..=end + 2);
        values.push(i64::from((end as u16).swap_bytes()));
        values.push(i64::from((end as u32).swap_bytes()));
        values.extend((0..32).map(|bit| end ^ (1 << bit)));
    }
    for bit in 0..32 {
        values.extend((1_i64 << bit) - 1..=(1 << bit) + 1);
    }
    values.sort_unstable();
    values.dedup();
    values
}

/// The frame of a kind with these values, each cut to its field's width, and
/// its own length in its first two bytes.
pub fn frame(kind: u32, fields: &[Field], values: &[i64]) -> Vec<u8> {
    let mut bytes = vec![0, 0];
    bytes.extend((kind as u16).to_le_bytes());
    for (field, value) in fields.iter().zip(values) {
        bytes.extend(&value.to_le_bytes()[..field.width]);
    }
    with_length(bytes)
}

/// The bytes with their own length in the first two.
pub fn with_length(mut bytes: Vec<u8>) -> Vec<u8> {
    let length = bytes.len() as u16;
    for (byte, part) in bytes.iter_mut().zip(length.to_le_bytes()) {
        *byte = part;
    }
    bytes
}
