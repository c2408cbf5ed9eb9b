//! Lists in which specialists are named, right after sweeps of theirs.

use reckoning::generate::Random;

const SWEEP: ([u8; 2], usize) = ([3, 0], 14);
const SPECIALIST: ([u8; 2], usize) = ([11, 0], 8);

/// The frames of an input in their order; what is no frame at its end is left out.
fn frames(input: &[u8]) -> Vec<&[u8]> {
    let mut list = Vec::new();
    let mut rest = input;
    while let [low, high, _, _, ..] = rest {
        let length = usize::from(u16::from_le_bytes([*low, *high]));
        if length < 4 || length > rest.len() {
            break;
        }
        list.push(&rest[..length]);
        rest = &rest[length..];
    }
    list
}

fn is(frame: &[u8], (kind, length): ([u8; 2], usize)) -> bool {
    frame[2..4] == kind && frame.len() == length
}

/// The frames of the input, and after every second sweep one that names its member as
/// the specialist of its strategy.
pub fn with_specialists(input: &[u8], random: &mut Random) -> Vec<u8> {
    let mut bytes = Vec::new();
    for frame in frames(input) {
        bytes.extend(frame);
        if is(frame, SWEEP) && random.chance(1, 2) {
            let percentage = random.pick(&[0, 1, 33, 40, 60, 99, 100]);
            bytes.extend([8, 0, 11, 0, frame[4], frame[5], frame[6], percentage]);
        }
    }
    bytes
}

/// The same frames, but that each names member 65,535.
pub fn with_another(input: &[u8]) -> Vec<u8> {
    let mut bytes = Vec::new();
    for frame in frames(input) {
        let at = bytes.len();
        bytes.extend(frame);
        if is(frame, SPECIALIST) {
            bytes[at + 4..at + 6].fill(255);
        }
    }
    bytes
}

/// How many specialists were named, by the lines of the input.
pub fn named(input: &[u8], lines: &[String]) -> usize {
    let answers = lines.iter().filter(|line| line.starts_with("E "));
    let answered = frames(input).into_iter().zip(answers);
    let accepted = |line: &str| line.split(' ').nth(2) == Some("0");
    answered
        .filter(|(frame, line)| is(frame, SPECIALIST) && accepted(line))
        .count()
}
