//! Inputs for comparison: frames and lists of events, each made from a seed.

use crate::book::{RowEntry, BUY, LEG_ORDERS, SELL};
use crate::frames::{bytes, Event, Leg};
pub use crate::lists::{
    better_sweep, list, long_list, national_list, stream, tail, Input, Options,
};

/// A small deterministic source of numbers (splitmix64).
#[derive(Clone, Debug)]
pub struct Random {
    state: u64,
}

impl Random {
    /// A source that always gives the same numbers for the same seed.
    pub fn new(seed: u64) -> Random {
        Random { state: seed }
    }

    /// The next 64 bits.
    pub fn bits(&mut self) -> u64 {
        self.state = self.state.wrapping_add(0x9E37_79B9_7F4A_7C15);
        let mut mixed = self.state;
        mixed = (mixed ^ (mixed >> 30)).wrapping_mul(0xBF58_476D_1CE4_E5B9);
        mixed = (mixed ^ (mixed >> 27)).wrapping_mul(0x94D0_49BB_1331_11EB);
        mixed ^ (mixed >> 31)
    }

    /// A number from 0 up to but not including `bound`.
    pub fn below(&mut self, bound: usize) -> usize {
        (self.bits() % bound as u64) as usize
    }

    /// A number from `low` to `high`, both included.
    pub fn range(&mut self, low: i64, high: i64) -> i64 {
        let width = (high - low) as u64 + 1;
        low + (self.bits() % width) as i64
    }

    /// True `part` times in `whole`.
    pub fn chance(&mut self, part: usize, whole: usize) -> bool {
        self.below(whole) < part
    }

    /// One of the entries.
    pub fn pick<T: Copy>(&mut self, entries: &[T]) -> T {
        entries[self.below(entries.len())]
    }
}

/// The highest kind there is.
pub const LAST_KIND: u32 = 11;

/// The lowest and highest value of each field of kinds 2 to 11, in frame order.
fn field_ranges(kind: u32) -> &'static [(i64, i64)] {
    const LIMIT: (i64, i64) = (-9_999_999, 9_999_999);
    match kind {
        2 => &[
            (1, 65_535),
            (0, 15),
            (0, 1),
            (1, 3),
            (0, 3),
            (1, 9_999),
            LIMIT,
        ],
        3 => &[(1, 65_535), (0, 15), (0, 1), (0, 9_999), LIMIT],
        4 => &[(1, 65_535), (0, 31), (0, 1), (1, 9_999), (1, 99_999)],
        5 => &[(1, 65_535), (1, 100_000)],
        6 => &[(0, 31), (0, 1)],
        7 => &[(0, 86_400_000)],
        8 => &[(1, 5_000)],
        9 => &[(0, 31), (0, 99_999), (0, 99_999)],
        10 => &[(0, 9_999)],
        11 => &[(1, 65_535), (0, 15), (0, 100)],
        _ => &[],
    }
}

/// The event of a kind from 2 to 11 with these values in frame order. A value
/// past its field's width keeps its low bytes.
fn event_of(kind: u32, list: &[i64]) -> Event {
    match kind {
        2 => Event::Complex {
            member: list[0] as u16,
            strategy: list[1] as u8,
            side: list[2] as u8,
            class: list[3] as u8,
            life: list[4] as u8,
            units: list[5] as u16,
            limit: list[6] as i32,
        },
        3 => Event::Sweep {
            member: list[0] as u16,
            strategy: list[1] as u8,
            side: list[2] as u8,
            units: list[3] as u16,
            limit: list[4] as i32,
        },
        4 => Event::LegOrder {
            member: list[0] as u16,
            series: list[1] as u8,
            side: list[2] as u8,
            contracts: list[3] as u16,
            price: list[4] as u32,
        },
        5 => Event::Cancel {
            member: list[0] as u16,
            number: list[1] as u32,
        },
        6 => Event::Series {
            series: list[0] as u8,
            state: list[1] as u8,
        },
        7 => Event::Clock {
            milliseconds: list[0] as u32,
        },
        8 => Event::DayEnd {
            timer: list[0] as u16,
        },
        9 => Event::NationalPrices {
            series: list[0] as u8,
            bid: list[1] as u32,
            offer: list[2] as u32,
        },
        10 => Event::ExecutionRange {
            cents: list[0] as u16,
        },
        _ => Event::Specialist {
            member: list[0] as u16,
            strategy: list[1] as u8,
            percentage: list[2] as u8,
        },
    }
}

/// An event of the kind with every field in its range.
pub fn valid_event(random: &mut Random, kind: u32) -> Event {
    if kind == 1 {
        let count = random.range(2, 6) as u8;
        let mut legs = [Leg::default(); 6];
        for leg in legs.iter_mut().take(usize::from(count)) {
            leg.series = random.range(0, 31) as u8;
            leg.side = random.range(0, 1) as u8;
            leg.ratio = random.range(1, 12) as u8;
        }
        return Event::Strategy { count, legs };
    }
    let list: Vec<i64> = field_ranges(kind)
        .iter()
        .map(|(low, high)| random.range(*low, *high))
        .collect();
    event_of(kind, &list)
}

/// Events with every field at its ends and one past each, the other fields
/// valid, and strategies with values in legs past their count.
pub fn edge_events(random: &mut Random) -> Vec<Event> {
    let mut events = Vec::new();
    for kind in 2..=LAST_KIND {
        let ranges = field_ranges(kind);
        for (field, (low, high)) in ranges.iter().enumerate() {
            for value in [low - 1, *low, low + 1, high - 1, *high, high + 1] {
                let mut list: Vec<i64> = ranges.iter().map(|(l, h)| random.range(*l, *h)).collect();
                list[field] = value;
                events.push(event_of(kind, &list));
            }
        }
        // All fields at one end or one past it at once.
        for _ in 0..64 {
            let list: Vec<i64> = ranges
                .iter()
                .map(|(low, high)| random.pick(&[*low, *high, *low, *high, low - 1, high + 1]))
                .collect();
            events.push(event_of(kind, &list));
        }
    }
    for count in 0..=7u8 {
        for place in 0..6 {
            for field in 0..3 {
                for value in [0u8, 1, 2, 11, 12, 13, 31, 32, 255] {
                    let mut legs = [Leg::default(); 6];
                    for leg in legs.iter_mut().take(usize::from(count)) {
                        *leg = Leg {
                            series: random.range(0, 31) as u8,
                            side: random.range(0, 1) as u8,
                            ratio: random.range(1, 12) as u8,
                        };
                    }
                    match field {
                        0 => legs[place].series = value,
                        1 => legs[place].side = value,
                        _ => legs[place].ratio = value,
                    }
                    events.push(Event::Strategy { count, legs });
                }
            }
        }
    }
    events
}

/// An event of one of the kinds with one field at an end of its range or one past
/// it, the others valid.
pub fn edge_event(random: &mut Random, kinds: &[u32]) -> Event {
    let kind = random.pick(kinds);
    if kind == 1 {
        let mut event = valid_event(random, 1);
        if let Event::Strategy { count, legs } = &mut event {
            let leg = &mut legs[random.below(usize::from(*count))];
            match random.below(3) {
                0 => leg.series = random.pick(&[0, 31, 32]),
                1 => leg.side = random.pick(&[0, 1, 2]),
                _ => leg.ratio = random.pick(&[0, 1, 12, 13]),
            }
        }
        return event;
    }
    let ranges = field_ranges(kind);
    let mut list: Vec<i64> = ranges
        .iter()
        .map(|(low, high)| random.range(*low, *high))
        .collect();
    let field = random.below(ranges.len());
    let (low, high) = ranges[field];
    list[field] = random.pick(&[low - 1, low, high, high + 1]);
    event_of(kind, &list)
}

/// A row of order entries for depth lookups: few series and prices, so that many
/// entries stand at one price, and some of them empty; seldom with over 32 entries
/// or a field out of range.
pub fn order_row(random: &mut Random) -> Vec<RowEntry> {
    let large = random.chance(1, 6);
    let most = match random.below(20) {
        0 => 40,
        1..=3 => LEG_ORDERS as i64,
        _ if large => LEG_ORDERS as i64,
        _ => 12,
    };
    let least = if random.chance(1, 8) { most } else { 0 };
    let series = [0, 31, random.range(0, 31) as u8];
    let series = &series[..random.range(1, 3) as usize];
    let lowest = random.pick(&[1, 200, 99_996]);
    let prices = random.range(0, 3);
    let empty = random.pick(&[0, 0, 0, 1, 1, 3, 3, 8]);
    let mut row: Vec<RowEntry> = (0..random.range(least, most))
        .map(|_| {
            let held = RowEntry {
                series: random.pick(series),
                side: random.pick(&[BUY, SELL]),
                contracts: match large {
                    true => random.range(9_900, 9_999) as u16,
                    false => random.range(1, 9) as u16,
                },
                price: random.range(lowest, lowest + prices) as u32,
            };
            if !random.chance(empty, 8) {
                held
            } else if random.chance(1, 2) {
                // What an order was before it was filled.
                let price = random.range(lowest, 99_999) as u32;
                RowEntry {
                    contracts: 0,
                    price,
                    ..held
                }
            } else {
                RowEntry {
                    series: random.bits() as u8,
                    side: random.bits() as u8,
                    contracts: 0,
                    price: random.bits() as u32,
                }
            }
        })
        .collect();
    if !row.is_empty() && random.chance(1, 20) {
        let at = random.below(row.len());
        let entry = &mut row[at];
        match random.below(4) {
            0 => entry.series = random.range(32, 255) as u8,
            1 => entry.side = random.range(2, 255) as u8,
            2 => entry.contracts = random.range(10_000, 65_535) as u16,
            _ => entry.price = random.pick(&[0, 100_000, u32::MAX]),
        }
    }
    row
}

/// A frame of the kind with any bytes as fields, its length field right.
fn frame_of(kind: u16, body: &[u8]) -> Vec<u8> {
    let mut frame = ((body.len() + 4) as u16).to_le_bytes().to_vec();
    frame.extend(kind.to_le_bytes());
    frame.extend(body);
    frame
}

/// A valid frame with one thing wrong: bytes flipped, cut off or added, a
/// wrong length field, another kind.
pub fn damaged_frame(random: &mut Random) -> Vec<u8> {
    damaged_frame_up_to(random, LAST_KIND)
}

/// The same of a frame of kind 1 up to this one.
pub fn damaged_frame_up_to(random: &mut Random, last: u32) -> Vec<u8> {
    let kind = random.range(1, i64::from(last)) as u32;
    let mut frame = bytes(&valid_event(random, kind));
    match random.below(8) {
        0 => {
            let at = random.below(frame.len());
            frame[at] ^= 1 << random.below(8);
        }
        1 => {
            let at = random.below(frame.len());
            frame[at] = random.bits() as u8;
        }
        2 => {
            let length = random.below(frame.len());
            frame.truncate(length);
        }
        3 => {
            // Cut off, with the length field made right again.
            let length = random.below(frame.len());
            frame.truncate(length);
            if length >= 2 {
                frame[..2].copy_from_slice(&(length as u16).to_le_bytes());
            }
        }
        4 => {
            for _ in 0..=random.below(4) {
                frame.push(random.bits() as u8);
            }
        }
        5 => {
            for _ in 0..=random.below(4) {
                frame.push(random.bits() as u8);
            }
            let length = frame.len() as u16;
            frame[..2].copy_from_slice(&length.to_le_bytes());
        }
        6 => {
            let length = two_near(random, frame.len() as i64);
            frame[..2].copy_from_slice(&length.to_le_bytes());
        }
        _ => {
            let other = two_near(random, i64::from(frame[2]));
            frame[2..4].copy_from_slice(&other.to_le_bytes());
        }
    }
    frame
}

/// A 2-byte number, often near the given one.
fn two_near(random: &mut Random, number: i64) -> u16 {
    if random.chance(1, 2) {
        (number + random.range(-3, 3)) as u16
    } else {
        random.bits() as u16
    }
}

/// A long row of frames for a comparison of judges and readers: valid frames
/// of each kind, every field at its ends and one past, every count byte, every
/// length from 0 to 64, any bytes, and valid frames with damage. `amount` is
/// the number of random frames of each sort.
pub fn frames(seed: u64, amount: usize) -> Vec<Vec<u8>> {
    let mut random = Random::new(seed);
    let mut list = Vec::new();
    for kind in 1..=LAST_KIND {
        for _ in 0..amount {
            list.push(bytes(&valid_event(&mut random, kind)));
        }
    }
    for event in edge_events(&mut random) {
        list.push(bytes(&event));
    }
    // Every count byte, with its own length and one near it.
    for count in 0..=255u8 {
        for change in [-3i64, -1, 0, 1, 3] {
            let legs = (3 * i64::from(count) + change).max(0) as usize;
            let mut body = vec![count];
            for index in 0..legs {
                body.push(match index % 3 {
                    0 => random.range(0, 31) as u8,
                    1 => random.range(0, 1) as u8,
                    _ => random.range(1, 12) as u8,
                });
            }
            list.push(frame_of(1, &body));
        }
    }
    // Every length from 0 to 64 for every kind from 0 to 12, fields zero, one
    // or random; the first bytes alone where the length is under 4.
    for length in 0..=64usize {
        for kind in 0..=LAST_KIND as u16 + 1 {
            for fill in 0..4 {
                let body: Vec<u8> = (4..length.max(4))
                    .map(|_| match fill {
                        0 => 0,
                        1 => 1,
                        2 => random.range(0, 6) as u8,
                        _ => random.bits() as u8,
                    })
                    .collect();
                let mut frame = frame_of(kind, &body);
                frame.truncate(length);
                if length >= 2 {
                    frame[..2].copy_from_slice(&(length as u16).to_le_bytes());
                }
                list.push(frame);
            }
        }
    }
    // Every kind number of one byte, and some beyond.
    for kind in (0..=300u16).chain([256, 257, 258, 512, 513, 0x0800, 0x7fff, 0xffff]) {
        let body: Vec<u8> = (0..random.below(20)).map(|_| 1).collect();
        list.push(frame_of(kind, &body));
    }
    for _ in 0..amount {
        let length = random.below(80);
        list.push((0..length).map(|_| random.bits() as u8).collect());
        // Any bytes under a right head.
        let kind = random.range(1, i64::from(LAST_KIND)) as u16;
        let length = match kind {
            1 => 1 + 3 * random.range(2, 6) as usize,
            2 => 12,
            3 | 4 => 10,
            5 => 6,
            7 | 11 => 4,
            9 => 9,
            _ => 2,
        };
        let mut body: Vec<u8> = (0..length)
            .map(|_| {
                if random.chance(1, 2) {
                    random.bits() as u8
                } else {
                    random.range(0, 3) as u8
                }
            })
            .collect();
        if kind == 1 {
            body[0] = ((length - 1) / 3) as u8;
        }
        list.push(frame_of(kind, &body));
    }
    for _ in 0..4 * amount {
        list.push(damaged_frame(&mut random));
    }
    list
}
