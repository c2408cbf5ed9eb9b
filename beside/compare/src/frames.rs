//! The frames that are compared.

use crate::fields::{counted, fields, frame, shapes, trials, valid, with_length, HEAD, LAST};
use crate::random::Random;

/// What is done with each frame; an error ends the walk.
pub type Visit<'a> = &'a mut dyn FnMut(&[u8]) -> Result<(), String>;

/// Every frame that is compared, the same ones in every run.
pub fn frames(visit: Visit) -> Result<(), String> {
    ends(visit)?;
    lengths(visit)?;
    counts(visit)?;
    long(visit)?;
    damaged(visit)?;
    random_bytes(visit)?;
    every_value(visit)
}

/// One field over its trial values; the others at their lowest, at their
/// highest, and anywhere in range.
fn ends(visit: Visit) -> Result<(), String> {
    let mut random = Random::new(1);
    for (kind, fields) in shapes() {
        let lowest = counted(fields.iter().map(|f| f.low).collect(), &fields);
        let highest = counted(fields.iter().map(|f| f.high).collect(), &fields);
        for (index, field) in fields.iter().enumerate() {
            for others in [&lowest, &highest, &valid(&mut random, &fields)] {
                for value in trials(field) {
                    let mut values = others.clone();
                    values[index] = value;
                    visit(&frame(kind, &fields, &values))?;
                }
            }
        }
    }
    Ok(())
}

/// Strategies with every count byte in a frame of every count's length, and in
/// frames that are shorter and longer by a byte.
fn counts(visit: Visit) -> Result<(), String> {
    let mut random = Random::new(2);
    visit(&[4, 0, 1, 0])?;
    for legs in 0..=255 {
        let fields = fields(1, legs);
        for count in 0..=255 {
            let mut values = valid(&mut random, &fields);
            values[0] = count;
            let mut bytes = frame(1, &fields, &values);
            visit(&bytes)?;
            if count == legs as i64 {
                bytes.push(random.byte());
                visit(&bytes)?;
                visit(&with_length(bytes.clone()))?;
                bytes.truncate(bytes.len() - 2);
                visit(&bytes)?;
                visit(&with_length(bytes))?;
            }
        }
    }
    Ok(())
}

/// Every length from 0 to 64 with kinds in and out of range, first bytes that
/// are the length or not, and several bodies.
fn lengths(visit: Visit) -> Result<(), String> {
    let mut random = Random::new(3);
    for length in 0..=64_usize {
        for kind in (0..=16_u16)
            .chain((0..=LAST as u16 + 1).map(|kind| 256 + kind))
            .chain([0x0100, 0x0600, 0x0800, 0x7fff, 0x8001, 0xff00, 0xffff])
        {
            let own = length as u16;
            for said in [
                own,
                own + 1,
                own.wrapping_sub(1),
                own.swap_bytes(),
                own | 0x100,
                own | 0x8000,
                0,
                6,
            ] {
                for body in 0..4 {
                    let mut bytes = match body {
                        0 => vec![0; length],
                        1 => vec![1; length],
                        2 => vec![255; length],
                        _ => random.bytes(length),
                    };
                    let head = said.to_le_bytes().into_iter().chain(kind.to_le_bytes());
                    for (byte, part) in bytes.iter_mut().zip(head) {
                        *byte = part;
                    }
                    visit(&bytes)?;
                }
            }
        }
    }
    Ok(())
}

/// Valid frames, and each with one bit changed, one byte changed, lost or
/// added, two neighbours exchanged, another kind, or other bytes behind it.
fn damaged(visit: Visit) -> Result<(), String> {
    let mut random = Random::new(4);
    for (kind, fields) in shapes() {
        for _ in 0..if kind == 1 { 150 } else { 1_000 } {
            let whole = frame(kind, &fields, &valid(&mut random, &fields));
            visit(&whole)?;
            for at in 0..whole.len() {
                for bit in 0..8 {
                    let mut bytes = whole.clone();
                    bytes[at] ^= 1 << bit;
                    visit(&bytes)?;
                }
                let mut bytes = whole.clone();
                bytes[at] = random.byte();
                visit(&bytes)?;
                bytes.clone_from(&whole);
                bytes.remove(at);
                visit(&bytes)?;
                visit(&with_length(bytes))?;
                let mut bytes = whole.clone();
                bytes.insert(at, random.byte());
                visit(&bytes)?;
                visit(&with_length(bytes))?;
                if at + 1 < whole.len() {
                    let mut bytes = whole.clone();
                    bytes.swap(at, at + 1);
                    visit(&bytes)?;
                }
                visit(&whole[..at])?;
            }
            for other in 0..=LAST as u8 + 1 {
                let mut bytes = whole.clone();
                bytes[2] = other;
                visit(&bytes)?;
            }
            for more in 1..=16 {
                let mut bytes = whole.clone();
                bytes.extend(random.bytes(more));
                visit(&bytes)?;
                visit(&with_length(bytes))?;
            }
        }
    }
    Ok(())
}

/// Random bytes: any; with their own length; with a kind too; and in frames of
/// the right length, where each byte is small or any.
fn random_bytes(visit: Visit) -> Result<(), String> {
    let mut random = Random::new(5);
    for _ in 0..150_000 {
        let length = random.below(65);
        visit(&random.bytes(length))?;
        let length = HEAD + random.below(29);
        let mut bytes = with_length(random.bytes(length));
        visit(&bytes)?;
        bytes[2..HEAD].copy_from_slice(&[random.byte() % (LAST as u8 + 2), 0]);
        visit(&bytes)?;
    }
    for (kind, fields) in shapes() {
        for _ in 0..40_000 {
            let small = random.byte() | 1;
            let mut values = Vec::new();
            for field in &fields {
                let any = random.bits() as i64;
                let near = random.range(field.low - 1, field.high + 1);
                values.push(match random.byte() % 8 {
                    0 => any,
                    1 => any % i64::from(small),
                    _ => near,
                });
            }
            visit(&frame(kind, &fields, &counted(values, &fields)))?;
        }
    }
    Ok(())
}

/// Frames of many bytes, among them those whose length does not fit in two.
fn long(visit: Visit) -> Result<(), String> {
    let mut random = Random::new(6);
    for kind in 0..=LAST as u8 + 1 {
        for length in [770, 771, 1_000, 32_768, 65_534, 65_535, 65_536, 65_541] {
            let mut bytes = with_length(random.bytes(length));
            bytes[2..HEAD].copy_from_slice(&[kind, 0]);
            visit(&bytes)?;
        }
    }
    for (kind, fields) in shapes() {
        let mut bytes = frame(kind, &fields, &valid(&mut random, &fields));
        bytes.resize(bytes.len() + 65_536, 0);
        visit(&bytes)?;
    }
    Ok(())
}

/// One field over every value of one or two bytes, and many of four; the others
/// anywhere in range.
fn every_value(visit: Visit) -> Result<(), String> {
    let mut random = Random::new(7);
    for (kind, fields) in shapes() {
        for (index, field) in fields.iter().enumerate() {
            let last = match field.width {
                1 => 255,
                2 => 65_535,
                _ => 20_000,
            };
            for value in 0..=last {
                let mut values = valid(&mut random, &fields);
                values[index] = match field.width {
                    1 | 2 => value,
                    _ => random.bits() as i64,
                };
                visit(&frame(kind, &fields, &values))?;
            }
        }
    }
    Ok(())
}
