//! Document 01, "Frames": reading, judging and writing of frames; kinds 9 and 10
//! of request 2026-01, kind 11 of request 2026-04.

/// "per leg series (1) 0–31, side (1), ratio (1) 1–12".
#[derive(Clone, Copy, Debug, Default, PartialEq, Eq)]
pub struct Leg {
    pub series: u8,
    pub side: u8,
    pub ratio: u8,
}

/// One event, one case per kind, the fields in frame order.
#[derive(Clone, Copy, Debug, PartialEq, Eq)]
pub enum Event {
    /// Kind 1. "A strategy event's legs past its count hold zeros".
    Strategy { count: u8, legs: [Leg; 6] },
    /// Kind 2.
    Complex {
        member: u16,
        strategy: u8,
        side: u8,
        class: u8,
        life: u8,
        units: u16,
        limit: i32,
    },
    /// Kind 3.
    Sweep {
        member: u16,
        strategy: u8,
        side: u8,
        units: u16,
        limit: i32,
    },
    /// Kind 4.
    LegOrder {
        member: u16,
        series: u8,
        side: u8,
        contracts: u16,
        price: u32,
    },
    /// Kind 5.
    Cancel { member: u16, number: u32 },
    /// Kind 6.
    Series { series: u8, state: u8 },
    /// Kind 7.
    Clock { milliseconds: u32 },
    /// Kind 8.
    DayEnd { timer: u16 },
    /// Kind 9, of request 2026-01: "series, national bid (4) and offer (4), each
    /// 0–99,999, 0 meaning missing".
    NationalPrices { series: u8, bid: u32, offer: u32 },
    /// Kind 10, of request 2026-01: "the range in cents (2), 0–9,999".
    ExecutionRange { cents: u16 },
    /// Kind 11, of request 2026-04: "a member (2) and a strategy (1), both as in kind
    /// 2, and a percentage (1) 0–100".
    Specialist {
        member: u16,
        strategy: u8,
        percentage: u8,
    },
}

/// Refusal 1: the space is too short.
pub const SHORT_SPACE: u32 = 1;
/// Refusal 2: "under 4 bytes, length not the frame's, unknown kind, wrong
/// length for kind".
pub const BAD_FRAME: u32 = 2;
/// Refusal 3: "a field outside its range".
pub const BAD_FIELD: u32 = 3;

/// The longest frame a writer can write: six legs.
pub const LONGEST_WRITTEN: usize = 5 + 3 * 6;

/// A 2-byte number, "little-endian".
fn two(frame: &[u8], at: usize) -> u16 {
    u16::from_le_bytes([frame[at], frame[at + 1]])
}

/// A 4-byte number, "little-endian".
fn four(frame: &[u8], at: usize) -> u32 {
    u32::from_le_bytes([frame[at], frame[at + 1], frame[at + 2], frame[at + 3]])
}

/// The length that belongs to the frame's kind, or refusal 2: "unknown kind";
/// "a frame that ends before that [count] byte has a wrong length".
fn length_of_kind(frame: &[u8], kind: u16) -> Result<usize, u32> {
    match kind {
        1 => match frame.get(4) {
            // "Length 5 + 3 × count for every count byte".
            Some(count) => Ok(5 + 3 * usize::from(*count)),
            None => Err(BAD_FRAME),
        },
        2 => Ok(16),
        3 => Ok(14),
        4 => Ok(14),
        5 => Ok(10),
        6 => Ok(6),
        7 => Ok(8),
        8 => Ok(6),
        9 => Ok(13),
        10 => Ok(6),
        11 => Ok(8),
        _ => Err(BAD_FRAME),
    }
}

/// The event of a frame whose length fits its kind, its fields not yet held
/// against their ranges. A count "outside 2–6 then being refused 3".
fn decode(frame: &[u8], kind: u16) -> Result<Event, u32> {
    Ok(match kind {
        1 => {
            let count = frame[4];
            if !(2..=6).contains(&count) {
                return Err(BAD_FIELD);
            }
            let mut legs = [Leg::default(); 6];
            for (index, leg) in legs.iter_mut().take(usize::from(count)).enumerate() {
                leg.series = frame[5 + 3 * index];
                leg.side = frame[6 + 3 * index];
                leg.ratio = frame[7 + 3 * index];
            }
            Event::Strategy { count, legs }
        }
        2 => Event::Complex {
            member: two(frame, 4),
            strategy: frame[6],
            side: frame[7],
            class: frame[8],
            life: frame[9],
            units: two(frame, 10),
            limit: four(frame, 12) as i32,
        },
        3 => Event::Sweep {
            member: two(frame, 4),
            strategy: frame[6],
            side: frame[7],
            units: two(frame, 8),
            limit: four(frame, 10) as i32,
        },
        4 => Event::LegOrder {
            member: two(frame, 4),
            series: frame[6],
            side: frame[7],
            contracts: two(frame, 8),
            price: four(frame, 10),
        },
        5 => Event::Cancel {
            member: two(frame, 4),
            number: four(frame, 6),
        },
        6 => Event::Series {
            series: frame[4],
            state: frame[5],
        },
        7 => Event::Clock {
            milliseconds: four(frame, 4),
        },
        8 => Event::DayEnd {
            timer: two(frame, 4),
        },
        9 => Event::NationalPrices {
            series: frame[4],
            bid: four(frame, 5),
            offer: four(frame, 9),
        },
        10 => Event::ExecutionRange {
            cents: two(frame, 4),
        },
        11 => Event::Specialist {
            member: two(frame, 4),
            strategy: frame[6],
            percentage: frame[7],
        },
        _ => return Err(BAD_FRAME),
    })
}

/// "limit (4, signed) −9,999,999 to 9,999,999".
fn limit_in_range(limit: i32) -> bool {
    (-9_999_999..=9_999_999).contains(&limit)
}

/// Every field of the event lies in its range; "legs past its count hold
/// zeros".
fn fields_in_range(event: &Event) -> bool {
    match *event {
        Event::Strategy { count, legs } => {
            if !(2..=6).contains(&count) {
                return false;
            }
            let used = usize::from(count);
            legs[..used]
                .iter()
                .all(|leg| leg.series <= 31 && leg.side <= 1 && (1..=12).contains(&leg.ratio))
                && legs[used..].iter().all(|leg| *leg == Leg::default())
        }
        Event::Complex {
            member,
            strategy,
            side,
            class,
            life,
            units,
            limit,
        } => {
            member >= 1
                && strategy <= 15
                && side <= 1
                && (1..=3).contains(&class)
                && life <= 3
                && (1..=9_999).contains(&units)
                && limit_in_range(limit)
        }
        Event::Sweep {
            member,
            strategy,
            side,
            units,
            limit,
        } => member >= 1 && strategy <= 15 && side <= 1 && units <= 9_999 && limit_in_range(limit),
        Event::LegOrder {
            member,
            series,
            side,
            contracts,
            price,
        } => {
            member >= 1
                && series <= 31
                && side <= 1
                && (1..=9_999).contains(&contracts)
                && (1..=99_999).contains(&price)
        }
        Event::Cancel { member, number } => member >= 1 && (1..=100_000).contains(&number),
        Event::Series { series, state } => series <= 31 && state <= 1,
        Event::Clock { milliseconds } => milliseconds <= 86_400_000,
        Event::DayEnd { timer } => (1..=5_000).contains(&timer),
        Event::NationalPrices { series, bid, offer } => {
            series <= 31 && bid <= 99_999 && offer <= 99_999
        }
        Event::ExecutionRange { cents } => cents <= 9_999,
        Event::Specialist {
            member,
            strategy,
            percentage,
        } => member >= 1 && strategy <= 15 && percentage <= 100,
    }
}

/// The event of a frame, or refusal 2 or 3, the smaller one first.
pub fn read(frame: &[u8]) -> Result<Event, u32> {
    if frame.len() < 4 {
        return Err(BAD_FRAME);
    }
    // "A frame is its whole length (2 bytes), its kind (2 bytes)".
    let length = usize::from(two(frame, 0));
    let kind = two(frame, 2);
    if length != frame.len() || length != length_of_kind(frame, kind)? {
        return Err(BAD_FRAME);
    }
    let event = decode(frame, kind)?;
    if fields_in_range(&event) {
        Ok(event)
    } else {
        Err(BAD_FIELD)
    }
}

/// "The gateway, written in C, has a frame judged for refusals 2 and 3 before
/// it queues it." 0 if neither applies.
pub fn judge(frame: &[u8]) -> u32 {
    match read(frame) {
        Ok(_) => 0,
        Err(refusal) => refusal,
    }
}

/// The event's kind and its values in frame order, padded with zeros.
pub fn values(event: &Event) -> (u32, [i64; 19]) {
    let mut list = [0; 19];
    let kind = match *event {
        Event::Strategy { count, legs } => {
            list[0] = i64::from(count);
            for (index, leg) in legs.iter().enumerate() {
                list[1 + 3 * index] = i64::from(leg.series);
                list[2 + 3 * index] = i64::from(leg.side);
                list[3 + 3 * index] = i64::from(leg.ratio);
            }
            1
        }
        Event::Complex {
            member,
            strategy,
            side,
            class,
            life,
            units,
            limit,
        } => {
            list[0] = i64::from(member);
            list[1] = i64::from(strategy);
            list[2] = i64::from(side);
            list[3] = i64::from(class);
            list[4] = i64::from(life);
            list[5] = i64::from(units);
            list[6] = i64::from(limit);
            2
        }
        Event::Sweep {
            member,
            strategy,
            side,
            units,
            limit,
        } => {
            list[0] = i64::from(member);
            list[1] = i64::from(strategy);
            list[2] = i64::from(side);
            list[3] = i64::from(units);
            list[4] = i64::from(limit);
            3
        }
        Event::LegOrder {
            member,
            series,
            side,
            contracts,
            price,
        } => {
            list[0] = i64::from(member);
            list[1] = i64::from(series);
            list[2] = i64::from(side);
            list[3] = i64::from(contracts);
            list[4] = i64::from(price);
            4
        }
        Event::Cancel { member, number } => {
            list[0] = i64::from(member);
            list[1] = i64::from(number);
            5
        }
        Event::Series { series, state } => {
            list[0] = i64::from(series);
            list[1] = i64::from(state);
            6
        }
        Event::Clock { milliseconds } => {
            list[0] = i64::from(milliseconds);
            7
        }
        Event::DayEnd { timer } => {
            list[0] = i64::from(timer);
            8
        }
        Event::NationalPrices { series, bid, offer } => {
            list[0] = i64::from(series);
            list[1] = i64::from(bid);
            list[2] = i64::from(offer);
            9
        }
        Event::ExecutionRange { cents } => {
            list[0] = i64::from(cents);
            10
        }
        Event::Specialist {
            member,
            strategy,
            percentage,
        } => {
            list[0] = i64::from(member);
            list[1] = i64::from(strategy);
            list[2] = i64::from(percentage);
            11
        }
    };
    (kind, list)
}

/// The widths in bytes of the fields of kinds 2 to 11, in frame order.
fn widths(kind: u32) -> &'static [usize] {
    match kind {
        2 => &[2, 1, 1, 1, 1, 2, 4],
        3 => &[2, 1, 1, 2, 4],
        4 => &[2, 1, 1, 2, 4],
        5 => &[2, 4],
        6 => &[1, 1],
        7 => &[4],
        8 => &[2],
        9 => &[1, 4, 4],
        10 => &[2],
        11 => &[2, 1, 1],
        _ => &[],
    }
}

/// The bytes of an event's frame, ranges not looked at. A strategy's legs past
/// its count are left out.
pub fn bytes(event: &Event) -> Vec<u8> {
    let (kind, list) = values(event);
    let mut frame = vec![0, 0, kind as u8, 0];
    if let Event::Strategy { count, .. } = *event {
        let used = 1 + 3 * usize::from(count.min(6));
        frame.extend(list[..used].iter().map(|value| *value as u8));
    }
    for (value, width) in list.iter().zip(widths(kind)) {
        frame.extend(&value.to_le_bytes()[..*width]);
    }
    let length = frame.len() as u16;
    frame[..2].copy_from_slice(&length.to_le_bytes());
    frame
}

/// "The writer takes an event and a space; it checks 3, then 1 (space shorter
/// than the frame). […] The writer answers the frame's length, and the space
/// past the frame is unchanged." At a refusal the whole space is unchanged.
pub fn write(event: &Event, space: &mut [u8]) -> Result<usize, u32> {
    if !fields_in_range(event) {
        return Err(BAD_FIELD);
    }
    let frame = bytes(event);
    if space.len() < frame.len() {
        return Err(SHORT_SPACE);
    }
    space[..frame.len()].copy_from_slice(&frame);
    Ok(frame.len())
}
