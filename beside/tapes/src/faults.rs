//! Wrong tapes: the reckoning's tape with one fault in each, to see that the
//! comparison finds them all.

use crate::agree::reckoned;
use crate::tally::frames;

/// Where a fault lies.
pub enum Fault {
    /// Each frame of the input is changed before it is played.
    Frame(fn(&mut [u8])),
    /// Each printed line is changed, given as its words.
    Words(fn(&mut Vec<String>)),
    /// The lines are changed as a whole.
    Lines(fn(&mut Vec<String>)),
    /// The right lines, with these line ends.
    LineEnd(&'static str),
    /// The right lines, and then the program does not end well.
    Ending(Ending),
}

pub enum Ending {
    Status(u8),
    Abort,
    Never,
}

/// A frame of kind 2 to 11 with its right length, by its kind.
fn is(frame: &[u8], kind: u8) -> bool {
    let lengths = [0, 0, 16, 14, 14, 10, 6, 8, 6, 13, 6, 8];
    frame.len() == lengths[usize::from(kind)] && frame[2] == kind && frame[3] == 0
}

/// The number of 4 bytes at the place becomes one more.
fn one_more(frame: &mut [u8], at: usize) {
    let mut number = [0; 4];
    number.copy_from_slice(&frame[at..at + 4]);
    let more = u32::from_le_bytes(number).wrapping_add(1);
    frame[at..at + 4].copy_from_slice(&more.to_le_bytes());
}

/// One byte of the frames of a kind takes another value.
macro_rules! misread {
    ($kind:expr, $at:expr, $from:expr => $to:expr) => {
        Fault::Frame(|frame| {
            if is(frame, $kind) && frame[$at] == $from {
                frame[$at] = $to;
            }
        })
    };
}

/// The first record that has these words, of which the first are its kind.
fn record(lines: &mut [String], start: &str) -> Option<usize> {
    lines.iter().position(|line| line.starts_with(start))
}

fn change_number(words: &mut [String], at: usize, change: i64) {
    if let Some(number) = words.get(at).and_then(|word| word.parse::<i64>().ok()) {
        words[at] = (number + change).to_string();
    }
}

/// Every fault with its name.
pub fn faults() -> Vec<(&'static str, Fault)> {
    let mut list = frame_faults();
    list.extend(word_faults());
    list.extend(line_faults());
    list
}

fn frame_faults() -> Vec<(&'static str, Fault)> {
    vec![
        ("customer-as-broker-dealer", misread!(2, 8, 1 => 2)),
        ("broker-dealer-as-market-maker", misread!(2, 8, 2 => 3)),
        ("market-maker-as-broker-dealer", misread!(2, 8, 3 => 2)),
        ("immediate-as-day", misread!(2, 9, 1 => 0)),
        ("response-as-immediate", misread!(2, 9, 2 => 1)),
        ("do-not-auction-as-immediate", misread!(2, 9, 3 => 1)),
        ("class-4-taken", misread!(2, 8, 4 => 3)),
        ("strategy-15-as-14", misread!(2, 6, 15 => 14)),
        ("sweep-sell-as-buy", misread!(3, 7, 1 => 0)),
        ("leg-order-sell-as-buy", misread!(4, 7, 1 => 0)),
        ("series-31-as-30", misread!(4, 6, 31 => 30)),
        ("shut-not-heard", misread!(6, 5, 0 => 1)),
        ("units-of-one-byte", misread!(2, 11, 39 => 0)),
        ("contracts-of-one-byte", misread!(4, 9, 39 => 0)),
        ("member-of-one-byte", misread!(5, 5, 255 => 0)),
        (
            "sweep-of-0-as-1",
            Fault::Frame(|frame| {
                if is(frame, 3) && frame[8..10] == [0, 0] {
                    frame[8] = 1;
                }
            }),
        ),
        (
            "limit-one-more",
            Fault::Frame(|frame| {
                if is(frame, 2) {
                    one_more(frame, 12);
                }
            }),
        ),
        (
            "sweep-limit-one-more",
            Fault::Frame(|frame| {
                if is(frame, 3) {
                    one_more(frame, 10);
                }
            }),
        ),
        (
            "price-one-more",
            Fault::Frame(|frame| {
                if is(frame, 4) {
                    one_more(frame, 10);
                }
            }),
        ),
        (
            "clock-one-more",
            Fault::Frame(|frame| {
                if is(frame, 7) {
                    one_more(frame, 4);
                }
            }),
        ),
        (
            "timer-one-less",
            Fault::Frame(|frame| {
                if is(frame, 8) && frame[4] > 1 {
                    frame[4] -= 1;
                }
            }),
        ),
        ("range-of-one-byte", misread!(10, 5, 39 => 0)),
        (
            "range-one-more",
            Fault::Frame(|frame| {
                if is(frame, 10) && frame[4] < 15 {
                    frame[4] += 1;
                }
            }),
        ),
        (
            "national-bid-one-more",
            Fault::Frame(|frame| {
                if is(frame, 9) && frame[5..9] != [0; 4] {
                    one_more(frame, 5);
                }
            }),
        ),
        (
            "national-offer-one-more",
            Fault::Frame(|frame| {
                if is(frame, 9) && frame[9..13] != [0; 4] {
                    one_more(frame, 9);
                }
            }),
        ),
        (
            "national-prices-exchanged",
            Fault::Frame(|frame| {
                if is(frame, 9) {
                    frame[5..13].rotate_left(4);
                }
            }),
        ),
        (
            "national-prices-of-the-next-series",
            Fault::Frame(|frame| {
                if is(frame, 9) && frame[4] < 31 {
                    frame[4] += 1;
                }
            }),
        ),
        ("percentage-100-as-50", misread!(11, 7, 100 => 50)),
        ("percentage-101-taken", misread!(11, 7, 101 => 100)),
        (
            "percentage-one-more",
            Fault::Frame(|frame| {
                if is(frame, 11) && frame[7] < 100 {
                    frame[7] += 1;
                }
            }),
        ),
        (
            "specialist-of-the-next-member",
            Fault::Frame(|frame| {
                if is(frame, 11) && (1..255).contains(&frame[4]) {
                    frame[4] += 1;
                }
            }),
        ),
        (
            "specialist-of-the-last-strategy",
            Fault::Frame(|frame| {
                if is(frame, 11) && (1..16).contains(&frame[6]) {
                    frame[6] -= 1;
                }
            }),
        ),
        (
            "specialist-never-heard",
            Fault::Frame(|frame| {
                if is(frame, 11) && frame[4..6] != [0, 0] {
                    frame[4..6].copy_from_slice(&[255, 255]);
                }
            }),
        ),
        (
            "ratio-3-as-2",
            Fault::Frame(|frame| {
                if frame.len() > 7 && frame[2..4] == [1, 0] && frame[7] == 3 {
                    frame[7] = 2;
                }
            }),
        ),
        (
            "sell-leg-as-buy",
            Fault::Frame(|frame| {
                if frame.len() > 7 && frame[2..4] == [1, 0] && frame[6] == 1 {
                    frame[6] = 0;
                }
            }),
        ),
        (
            "kind-high-byte-not-read",
            Fault::Frame(|frame| frame[3] = 0),
        ),
    ]
}

/// Faults in lines: the words of `E` are index, answer, value, count; those of
/// `R` kind, number, place, side, quantity, price.
fn word_faults() -> Vec<(&'static str, Fault)> {
    vec![
        (
            "index-from-1",
            Fault::Words(|words| {
                if words[0] == "E" {
                    change_number(words, 1, 1);
                }
            }),
        ),
        (
            "index-of-16-bits",
            Fault::Words(|words| {
                if words[0] == "E" && words[1].len() > 4 {
                    let index: u64 = words[1].parse().unwrap_or(0);
                    words[1] = (index % 65_536).to_string();
                }
            }),
        ),
        (
            "refusal-with-a-value",
            Fault::Words(|words| {
                if words[0] == "E" && words[2] != "0" {
                    words[3] = "1".to_string();
                }
            }),
        ),
        (
            "12-as-13",
            Fault::Words(|words| {
                if words[0] == "E" && words[2] == "12" {
                    words[2] = "13".to_string();
                }
            }),
        ),
        (
            "13-as-12",
            Fault::Words(|words| {
                if words[0] == "E" && words[2] == "13" {
                    words[2] = "12".to_string();
                }
            }),
        ),
        (
            "14-as-3",
            Fault::Words(|words| {
                if words[0] == "E" && words[2] == "14" {
                    words[2] = "3".to_string();
                }
            }),
        ),
        (
            "14-accepted",
            Fault::Words(|words| {
                if words[0] == "E" && words[2] == "14" {
                    words[2] = "0".to_string();
                }
            }),
        ),
        (
            "number-100000-refused",
            Fault::Words(|words| {
                if words[0] == "E" && words[3] == "100000" {
                    words[2] = "13".to_string();
                    words[3] = "0".to_string();
                }
            }),
        ),
        (
            "count-one-less",
            Fault::Words(|words| {
                if words[0] == "E" && words[4] != "0" {
                    change_number(words, 4, -1);
                }
            }),
        ),
        (
            "count-of-one-byte",
            Fault::Words(|words| {
                if words[0] == "E" && words[4].len() > 2 {
                    let count: u64 = words[4].parse().unwrap_or(0);
                    words[4] = (count % 256).to_string();
                }
            }),
        ),
        (
            "price-never-below-0",
            Fault::Words(|words| {
                if words[0] == "R" {
                    words[6] = words[6].trim_start_matches('-').to_string();
                }
            }),
        ),
        (
            "auction-ended-with-a-side",
            Fault::Words(|words| {
                if words[0] == "R" && words[1] == "5" {
                    words[4] = "1".to_string();
                }
            }),
        ),
        (
            "cancelled-with-its-strategy",
            Fault::Words(|words| {
                if words[0] == "R" && words[1] == "3" {
                    words[3] = "1".to_string();
                }
            }),
        ),
        (
            "side-turned-in-a-leg-fill",
            Fault::Words(|words| {
                if words[0] == "R" && words[1] == "2" {
                    words[4] = if words[4] == "0" { "1" } else { "0" }.to_string();
                }
            }),
        ),
        (
            "begun-without-a-limit",
            Fault::Words(|words| {
                if words[0] == "R" && words[1] == "4" {
                    words[6] = "0".to_string();
                }
            }),
        ),
    ]
}

fn line_faults() -> Vec<(&'static str, Fault)> {
    vec![
        ("nothing", Fault::Lines(Vec::clear)),
        (
            "last-line-missing",
            Fault::Lines(|lines| {
                lines.pop();
            }),
        ),
        (
            "one-line-more",
            Fault::Lines(|lines| lines.push(format!("E {} 2 0 0", lines.len()))),
        ),
        (
            "a-record-missing",
            Fault::Lines(|lines| {
                if let Some(at) = record(lines, "R 3") {
                    lines.remove(at);
                }
            }),
        ),
        (
            "a-record-twice",
            Fault::Lines(|lines| {
                if let Some(at) = record(lines, "R 1") {
                    lines.insert(at, lines[at].clone());
                }
            }),
        ),
        (
            "records-exchanged",
            Fault::Lines(|lines| {
                if let Some(at) = record(lines, "R 1") {
                    lines.swap(at, at + 1);
                }
            }),
        ),
        (
            "one-price-in-a-day",
            Fault::Lines(|lines| {
                let last = lines.iter().rposition(|line| line.starts_with("R 1"));
                if let Some(at) = last {
                    lines[at].push('0');
                }
            }),
        ),
        ("other-line-ends", Fault::LineEnd("\r\n")),
        ("one-line", Fault::LineEnd(" ")),
        ("status-1", Fault::Ending(Ending::Status(1))),
        ("abort", Fault::Ending(Ending::Abort)),
        ("never-ends", Fault::Ending(Ending::Never)),
    ]
}

/// The lines with each one's words changed.
fn each_line(lines: Vec<String>, change: fn(&mut Vec<String>)) -> Vec<String> {
    let changed = lines.iter().map(|line| {
        let mut words: Vec<String> = line.split(' ').map(str::to_string).collect();
        change(&mut words);
        words.join(" ")
    });
    changed.collect()
}

/// The input with each of its frames changed.
fn each_frame(input: &[u8], change: fn(&mut [u8])) -> Vec<u8> {
    let mut changed = Vec::new();
    for frame in frames(input) {
        let mut frame = frame.to_vec();
        change(&mut frame);
        changed.extend(frame);
    }
    changed.extend(&input[changed.len()..]);
    changed
}

/// What the tape with the fault prints.
pub fn printed(input: &[u8], fault: Option<&Fault>) -> Vec<u8> {
    let input = match fault {
        Some(Fault::Frame(change)) => each_frame(input, *change),
        _ => input.to_vec(),
    };
    let right = reckoned(&input);
    let text = String::from_utf8_lossy(&right);
    let lines: Vec<String> = text.lines().map(str::to_string).collect();
    let lines = match fault {
        Some(Fault::Words(change)) => each_line(lines, *change),
        Some(Fault::Lines(change)) => {
            let mut lines = lines;
            change(&mut lines);
            lines
        }
        _ => lines,
    };
    let end = match fault {
        Some(Fault::LineEnd(end)) => end,
        _ => "\n",
    };
    let ended = lines.iter().map(|line| format!("{line}{end}"));
    ended.collect::<String>().into_bytes()
}
