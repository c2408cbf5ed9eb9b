//! Lines `bytes` that are not one frame, and what `tape` does with each.

use crate::framing::{Part, What, Why};
use crate::lines::Line;
use crate::plural::counted;

/// The length field of a line's bytes, if it has one.
fn length(line: &Line) -> Option<u16> {
    match line.bytes[..] {
        [low, high, ..] => Some(u16::from_le_bytes([low, high])),
        _ => None,
    }
}

/// The line is not one frame by its own length field: that is not its length, or is
/// under 4. A line that the proved writer wrote always is one.
pub fn odd(line: &Line) -> bool {
    let length = length(line).map(usize::from);
    length < Some(4) || length != Some(line.bytes.len())
}

/// The warnings of the lines that begin in this part, each with its line.
/// `stop` is the line at which `tape` stopped before it.
pub fn warnings(part: &Part, stop: Option<u64>) -> Vec<(u64, String)> {
    let odd = part.lines.iter().filter(|line| odd(line));
    odd.map(|line| {
        let (has, does) = (has(line), does(line, part, stop));
        (line.number, format!("warning: {has}: {does}"))
    })
    .collect()
}

fn has(line: &Line) -> String {
    match length(line) {
        Some(length) => {
            let bytes = counted(line.bytes.len(), "byte");
            format!("the length field is {length} and the line has {bytes}")
        }
        None => "the line has 1 byte, too few for a length field".to_string(),
    }
}

/// What `tape` does with the line.
fn does(line: &Line, part: &Part, stop: Option<u64>) -> String {
    let begins = part.first == line.number && part.inside == 0;
    match &part.what {
        What::NotReached => format!(
            "tape does not come to it, as it stops at line {}",
            stop.unwrap_or(part.first)
        ),
        What::Stop(why) if begins => {
            format!("tape stops there ({})", reason(*why))
        }
        What::Stop(_) => format!("tape does not play it, as it stops at line {}", part.first),
        What::Frame(_) if !begins => format!(
            "tape takes it into the frame that begins at line {}",
            part.first
        ),
        What::Frame(frame) if part.last == line.number => format!(
            "tape begins another frame inside the line, after {}",
            counted(frame.len(), "byte")
        ),
        What::Frame(_) => takes(part),
    }
}

/// A frame that goes on in the next lines.
fn takes(part: &Part) -> String {
    let last = part.last;
    let next = match part.left {
        0 => String::new(),
        _ => format!(", and begins the next inside line {last}"),
    };
    format!("tape takes bytes of the next lines, up to line {last}, into the frame{next}")
}

/// Why `tape` stops, in short.
pub fn reason(why: Why) -> &'static str {
    match why {
        Why::Under4(_) => "under 4",
        Why::PastEnd(_) => "past the end of the input",
        Why::LoneByte => "a lone last byte",
    }
}
