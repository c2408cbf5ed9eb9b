//! Days of the reckoning's generator with the lines of its tape, told in words
//! and read back from the words alone.

#![forbid(unsafe_code)]
#![deny(warnings)]

mod reader;
mod teller;

use assemble::assemble;
use assemble::codec::read;
use play::event::Event;
use reckoning::generate::{long_list, stream, Random};
use reckoning::tape::tape;
use teller::words;

fn played(input: &[u8]) -> Vec<u8> {
    let mut printed = Vec::new();
    tape(input, &mut printed).expect("a Vec takes every line");
    printed
}

/// Bytes as a line of a day.
fn bytes(frame: &[u8]) -> String {
    let bytes: Vec<String> = frame.iter().map(|byte| format!("{byte:02x}")).collect();
    format!("bytes {}\n", bytes.join(" "))
}

/// A frame as the line of its event, or as bytes where it is none.
fn line(frame: &[u8]) -> String {
    let event = Event::Frame {
        kind: u32::from(frame[2]),
        length: frame.len(),
        row: read(frame).ok(),
    };
    match event.text() {
        Some(text) => text + "\n",
        None => bytes(frame),
    }
}

/// A day with a line for each frame of the input, and one for what is left.
fn day(input: &[u8]) -> String {
    let mut text = String::new();
    let mut rest = input;
    while let [low, high, ..] = rest {
        let length = usize::from(u16::from_le_bytes([*low, *high]));
        if length < 4 || length > rest.len() {
            break;
        }
        text += &line(&rest[..length]);
        rest = &rest[length..];
    }
    if !rest.is_empty() {
        text += &bytes(rest);
    }
    assert_eq!(assemble(text.as_bytes()).as_deref(), Ok(input));
    text
}

/// The lines that the words of this day and these lines tell.
fn back(day: &str, lines: &[u8]) -> String {
    let words = words(day, lines);
    match reader::lines(&words) {
        Ok(lines) => String::from_utf8_lossy(&lines).into_owned(),
        Err(wrong) => panic!("{wrong}"),
    }
}

/// Compared line by line, so that a difference is seen.
fn same(back: &str, lines: &[u8], what: &str) {
    let lines = String::from_utf8_lossy(lines);
    for (at, (one, two)) in back.lines().zip(lines.lines()).enumerate() {
        assert_eq!(one, two, "{what}, line {at}");
    }
    assert!(*back == *lines, "{what}: one is longer");
}

#[test]
fn words_turn_back_into_the_lines() {
    let (mut events, mut records, mut several, mut named) = (0, 0, 0, 0);
    for seed in 1..=80 {
        let input = stream(seed, 1_000);
        let lines = played(&input);
        let day = day(&input);
        same(&back(&day, &lines), &lines, &format!("seed {seed}"));
        let text = String::from_utf8_lossy(&lines).into_owned();
        events += text.matches("E ").count();
        records += text.matches("R ").count();
        // Each record of such a tape fits a sentence.
        let words = words(&day, &lines);
        assert!(!words.contains("\n  record "), "seed {seed}");
        several += words.matches(") and ").count();
        named += words.matches(": accepted, specialist of strategy ").count();
    }
    println!("{events} events, {records} records, {several} leg orders beside others, {named} specialists");
    assert!(events > 50_000 && records > 20_000, "{events} {records}");
    assert!(several > 100 && named > 100, "{several} {named}");
}

#[test]
fn words_of_a_day_that_gives_every_number() {
    let inputs = long_list(5, 2_000, false);
    let input: Vec<u8> = inputs.into_iter().flat_map(|input| input.frame).collect();
    let lines = played(&input);
    assert!(String::from_utf8_lossy(&lines).contains(" 0 100000 "));
    let day = day(&input);
    same(&back(&day, &lines), &lines, "every number");
    assert!(words(&day, &lines).contains("refused 13, a new order number is due"));
}

/// The same bytes in lines of any length: what is told of each event stays.
#[test]
fn words_do_not_depend_on_the_lines() {
    let mut random = Random::new(11);
    for seed in 100..=115 {
        let input = stream(seed, 200);
        let lines = played(&input);
        let mut text = String::new();
        let mut rest = &input[..];
        while !rest.is_empty() {
            let length = (1 + random.below(40)).min(rest.len());
            text += &bytes(&rest[..length]);
            rest = &rest[length..];
        }
        same(&back(&text, &lines), &lines, &format!("seed {seed}"));
    }
}

/// A line with one of its numbers changed, a line left out, put twice, two lines
/// changed about, or a text that is no line.
fn edit(lines: &mut Vec<String>, random: &mut Random) {
    let at = random.below(lines.len());
    match random.below(12) {
        0 => {
            lines.remove(at);
        }
        1 => lines.insert(at, lines[at].clone()),
        2 => {
            let other = random.below(lines.len());
            lines.swap(at, other);
        }
        3 => {
            let odd = [
                "",
                "R",
                "R 1 2",
                "E 1 0 0 0 0",
                "e\u{1b}[0m\\",
                "R 1 2 0 0 01 5",
            ];
            lines.insert(at, random.pick(&odd).to_string());
        }
        _ => {
            let mut words: Vec<String> = lines[at].split(' ').map(str::to_string).collect();
            let word = random.below(words.len());
            if let Ok(number) = words[word].parse::<i64>() {
                let change = random.pick(&[-1, 1, 2, 7, -200_000, 1 << 40]);
                words[word] = (number + change).to_string();
            }
            lines[at] = words.join(" ");
        }
    }
}

/// Whatever the program prints, no record is lost or guessed.
#[test]
fn words_of_a_wrong_tape_turn_back_too() {
    let mut random = Random::new(12);
    let mut alone = 0;
    for seed in 200..=260 {
        let input = stream(seed, 150);
        let day = day(&input);
        let printed = String::from_utf8(played(&input)).expect("text");
        for _ in 0..10 {
            let mut lines: Vec<String> = printed.lines().map(str::to_string).collect();
            for _ in 0..=random.below(8) {
                edit(&mut lines, &mut random);
            }
            let edited = lines.join("\n") + if random.chance(1, 4) { "" } else { "\n" };
            let what = format!("seed {seed}");
            same(&back(&day, edited.as_bytes()), edited.as_bytes(), &what);
            alone += words(&day, edited.as_bytes())
                .matches("\n  record ")
                .count();
        }
    }
    assert!(alone > 500, "{alone}");
}
