//! The days of the repository: what `play` prints, in lines and in words, is what
//! is stored, and the words turn back into the lines.

#![forbid(unsafe_code)]
#![deny(warnings)]

mod reader;
mod runs;

use runs::{repository, run, tape, Run, PLAY};
use std::fs;
use std::path::{Path, PathBuf};
use std::process::Command;

fn days() -> Vec<PathBuf> {
    let folder = fs::read_dir(repository("days")).expect("a folder");
    let paths = folder.map(|entry| entry.expect("an entry").path());
    let mut days: Vec<PathBuf> = paths
        .filter(|path| path.extension().is_some_and(|end| end == "txt"))
        .collect();
    days.sort();
    assert!(days.len() >= 9, "{days:?}");
    days
}

fn played(day: &Path, words: &[&str]) -> Run {
    run(Command::new(PLAY)
        .arg("--tape")
        .arg(tape())
        .args(words)
        .arg(day))
}

fn stored(day: &Path, end: &str) -> String {
    let path = day.with_extension(end);
    fs::read_to_string(&path).unwrap_or_else(|error| panic!("{}: {error}", path.display()))
}

#[test]
fn lines_are_passed_on() {
    for day in days() {
        let run = played(&day, &[]);
        assert_eq!(run.status, Some(0), "{}: {}", day.display(), run.said);
        assert!(run.printed == stored(&day, "out"), "{}", day.display());
    }
}

#[test]
fn words_are_those_that_are_stored() {
    for day in days() {
        let run = played(&day, &["--words"]);
        assert_eq!(run.status, Some(0), "{}: {}", day.display(), run.said);
        let stored = stored(&day, "words");
        for (at, (one, two)) in run.printed.lines().zip(stored.lines()).enumerate() {
            assert_eq!(one, two, "{}, line {}", day.display(), at + 1);
        }
        assert!(run.printed == stored, "{}: longer", day.display());
    }
}

#[test]
fn stored_words_turn_back_into_the_stored_lines() {
    for day in days() {
        let lines = reader::lines(&stored(&day, "words"));
        assert_eq!(
            lines,
            Ok(stored(&day, "out").into_bytes()),
            "{}",
            day.display()
        );
    }
}

/// Every line of the day that has an event is told once, in its order.
#[test]
fn every_line_is_told() {
    for day in days() {
        let text = stored(&day, "txt");
        let mut due = Vec::new();
        for (at, line) in text.lines().enumerate() {
            let event = line.split('#').next().unwrap_or("");
            let words: Vec<&str> = event.split_whitespace().collect();
            if !words.is_empty() {
                due.push(format!("line {}: {}", at + 1, words.join(" ")));
            }
        }
        let words = stored(&day, "words");
        let told: Vec<&str> = words
            .lines()
            .filter(|line| line.starts_with("line "))
            .collect();
        assert_eq!(told, due, "{}", day.display());
    }
}
