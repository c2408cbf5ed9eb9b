//! What is held of two codecs, over every input. The error is the first
//! disagreement: the frame in hex or the event's numbers, and both answers.

use crate::frames::frames;
use crate::random::Random;
use crate::rows::{numbers_used, rows, Row, NUMBERS};
use crate::tally::Tally;
use std::fmt::Debug;

/// Answers 0, 2 or 3 for a frame.
pub type Judge<'a> = &'a dyn Fn(&[u8]) -> u32;
/// The event of a frame, or the refusal.
pub type Reader<'a> = &'a dyn Fn(&[u8]) -> Result<Row, u32>;
/// Writes an event to a space: the frame's length, or the refusal.
pub type Writer<'a> = &'a dyn Fn(&Row, &mut [u8]) -> Result<usize, u32>;

/// More than any frame that is written.
const ROOM: usize = 40;

pub fn hex(bytes: &[u8]) -> String {
    let pairs: Vec<String> = bytes.iter().map(|byte| format!("{byte:02x}")).collect();
    pairs.join(" ")
}

/// An error if what the two say of a frame differs.
fn same<T: PartialEq + Debug>(frame: &[u8], codec: T, reckoning: T) -> Result<(), String> {
    if codec == reckoning {
        return Ok(());
    }
    Err(format!(
        "the frame {}\n  codec:     {codec:?}\n  reckoning: {reckoning:?}",
        hex(frame)
    ))
}

/// Both judges give the same answer for every frame.
pub fn judges(codec: Judge, reckoning: Judge) -> Result<Tally, String> {
    let mut tally = Tally::default();
    frames(&mut |frame| {
        let answer = codec(frame);
        tally.add_frame(frame, answer);
        same(frame, answer, reckoning(frame))
    })?;
    Ok(tally)
}

/// Both readers give the same event or refusal for every frame.
pub fn readers(codec: Reader, reckoning: Reader) -> Result<Tally, String> {
    let mut tally = Tally::default();
    frames(&mut |frame| {
        let answer = codec(frame);
        tally.add_frame(frame, answer.err().unwrap_or(0));
        same(frame, answer, reckoning(frame))
    })?;
    Ok(tally)
}

/// Spaces with random bytes.
struct Spaces {
    random: Random,
    pool: Vec<u8>,
}

impl Spaces {
    fn new() -> Spaces {
        let mut random = Random::new(21);
        let pool = random.bytes(4_096);
        Spaces { random, pool }
    }

    fn space(&mut self, length: usize) -> Vec<u8> {
        let start = self.random.below(self.pool.len() - length);
        self.pool[start..start + length].to_vec()
    }
}

/// An error if the two writers differ on a row and a space, or if one of them
/// changes what it must leave as it was.
fn written(
    codec: Writer,
    reckoning: Writer,
    row: &Row,
    before: &[u8],
) -> Result<Result<usize, u32>, String> {
    let mut space = before.to_vec();
    let answer = codec(row, &mut space);
    let mut other = before.to_vec();
    let expected = reckoning(row, &mut other);
    let kept = match answer {
        Ok(length) => length <= space.len() && space[length..] == before[length..],
        Err(_) => space == before,
    };
    if answer == expected && space == other && kept {
        return Ok(answer);
    }
    Err(format!(
        "the event {row:?} in the space {}\n  codec:     {answer:?}, {}\n  reckoning: {expected:?}, {}",
        hex(before),
        hex(&space),
        hex(&other)
    ))
}

/// Both writers give the same answer and leave the same space, for every row:
/// in an empty space, in a large one, in one of the frame's length and of a
/// byte less and more; for every 64th row in every length.
pub fn writers(codec: Writer, reckoning: Writer) -> Result<Tally, String> {
    let mut tally = Tally::default();
    let mut spaces = Spaces::new();
    let mut index = 0;
    rows(&mut |row| {
        let mut lengths = vec![0, ROOM];
        if index == 0 {
            lengths = (0..=ROOM).collect();
        } else if let Ok(length) = reckoning(row, &mut [0; ROOM]) {
            lengths.extend(length - 1..=length + 1);
        }
        for length in lengths {
            let answer = written(codec, reckoning, row, &spaces.space(length))?;
            tally.add(row[0], answer.err().unwrap_or(0));
        }
        index = (index + 1) % 64;
        Ok(())
    })?;
    Ok(tally)
}

/// What is written is read as the event that it was written from.
pub fn reads_what_is_written(reader: Reader, writer: Writer) -> Result<Tally, String> {
    let mut tally = Tally::default();
    let mut spaces = Spaces::new();
    rows(&mut |row| {
        let mut space = spaces.space(ROOM);
        if let Ok(length) = writer(row, &mut space) {
            let mut event = [0; NUMBERS];
            let used = numbers_used(row[0]);
            event[..used].copy_from_slice(&row[..used]);
            let answer = reader(&space[..length]);
            if answer != Ok(event) {
                return Err(format!(
                    "the event {row:?}\n  is written as {}\n  and read as {answer:?}",
                    hex(&space[..length])
                ));
            }
            tally.add(row[0], 0);
        }
        Ok(())
    })?;
    Ok(tally)
}

/// What is read as an event is what that event is written as.
pub fn writes_what_is_read(reader: Reader, writer: Writer) -> Result<Tally, String> {
    let mut tally = Tally::default();
    let mut spaces = Spaces::new();
    frames(&mut |frame| {
        if let Ok(row) = reader(frame) {
            let before = spaces.space(frame.len() + 3);
            let mut space = before.clone();
            let answer = writer(&row, &mut space);
            let kept = space[frame.len()..] == before[frame.len()..];
            if answer != Ok(frame.len()) || space[..frame.len()] != *frame || !kept {
                return Err(format!(
                    "the frame {}\n  is read as {row:?}\n  and written as {answer:?}, {}",
                    hex(frame),
                    hex(&space)
                ));
            }
            tally.add(row[0], 0);
        }
        Ok(())
    })?;
    Ok(tally)
}
