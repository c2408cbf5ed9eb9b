//! The lists of `tests/vectors`: a frame a line in hex, ` space=N` after it for a
//! shorter record space; beside each the lines of `tape`, then `L` number live for
//! each number with something live, and `S` strategy count lowest for each
//! strategy.

#![forbid(unsafe_code)]
#![deny(warnings)]

use reckoning::book::{Book, SPACE, STRATEGIES};
use reckoning::lists::Input;
use reckoning::tape::put_answer;
use std::fs;
use std::path::{Path, PathBuf};

/// The call of a line.
fn call(line: &str) -> Input {
    let (hex, space) = match line.split_once(" space=") {
        Some((hex, space)) => (hex, space.parse().expect("a length in numbers")),
        None => (line, SPACE),
    };
    let byte = |at: usize| u8::from_str_radix(&hex[at..at + 2], 16).expect("hex");
    let frame = (0..hex.len()).step_by(2).map(byte).collect();
    Input { frame, space }
}

/// What is printed for the calls.
fn printed(calls: &[Input]) -> String {
    let mut book = Book::first();
    let mut lines = Vec::new();
    for (index, call) in calls.iter().enumerate() {
        let answer = book.step(&call.frame, call.space);
        put_answer(index, &answer, &mut lines).expect("a Vec takes every line");
    }
    let mut text = String::from_utf8(lines).expect("the lines are ASCII");
    for number in book.live_numbers() {
        text += &format!("L {number} {}\n", book.live(number));
    }
    for strategy in 0..STRATEGIES as u32 {
        if let Ok((count, lowest)) = book.shut_legs(strategy) {
            text += &format!("S {strategy} {count} {lowest}\n");
        }
    }
    text
}

/// The vectors of a request, by name.
fn vectors(request: &str) -> Vec<PathBuf> {
    let folder = Path::new(env!("CARGO_MANIFEST_DIR")).join("tests/vectors");
    let mut paths: Vec<PathBuf> = fs::read_dir(folder)
        .expect("the folder is there")
        .map(|entry| entry.expect("an entry").path())
        .filter(|path| {
            let name = path.file_name().and_then(|name| name.to_str());
            name.is_some_and(|name| name.starts_with(request) && name.ends_with(".hex"))
        })
        .collect();
    paths.sort();
    paths
}

/// Each of the so many vectors of a request gives its lines.
fn give_their_lines(request: &str, amount: usize) {
    let paths = vectors(request);
    assert_eq!(paths.len(), amount);
    for path in paths {
        let hex = fs::read_to_string(&path).expect("the frames");
        let expected = fs::read_to_string(path.with_extension("out")).expect("the lines");
        let calls: Vec<Input> = hex.lines().map(call).collect();
        assert_eq!(printed(&calls), expected, "{}", path.display());
    }
}

#[test]
fn every_vector_of_2026_01_gives_its_lines() {
    give_their_lines("2026-01-", 6);
}

#[test]
fn every_vector_of_2026_03_gives_its_lines() {
    give_their_lines("2026-03-", 1);
}

#[test]
fn every_vector_of_2026_04_gives_its_lines() {
    give_their_lines("2026-04-", 4);
}

#[test]
fn a_line_gives_its_frame_and_space() {
    let frame = vec![6, 0, 6, 0, 0, 1];
    let space = SPACE;
    assert_eq!(call("060006000001"), Input { frame, space });
    let frame = Vec::new();
    let space = 15_359;
    assert_eq!(call(" space=15359"), Input { frame, space });
}
