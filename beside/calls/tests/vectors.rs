//! The lists of a request with their lines, `../reckoning/tests/vectors`, through
//! the proved program `calls`: a frame a line in hex, ` space=N` after it for a
//! shorter record space; beside each list the lines `E` and `R`, then `L` and `S`.

#![forbid(unsafe_code)]
#![deny(warnings)]

use reckoning::book::SPACE;
use reckoning::calls::item;
use reckoning::lists::Input;
use std::fs;
use std::path::{Path, PathBuf};
use tapes::program::Program;

const ROOT: &str = concat!(env!("CARGO_MANIFEST_DIR"), "/../..");

/// The item of a line.
fn call(line: &str) -> Vec<u8> {
    let (hex, space) = match line.split_once(" space=") {
        Some((hex, space)) => (hex, space.parse().expect("a length in numbers")),
        None => (line, SPACE),
    };
    let byte = |at: usize| u8::from_str_radix(&hex[at..at + 2], 16).expect("hex");
    let frame = (0..hex.len()).step_by(2).map(byte).collect();
    item(&Input { frame, space })
}

/// The files of a request with frames, by name.
fn vectors(request: &str) -> Vec<PathBuf> {
    let folder = Path::new(ROOT).join("beside/reckoning/tests/vectors");
    let mut paths: Vec<PathBuf> = fs::read_dir(folder)
        .expect("the folder is there")
        .map(|entry| entry.expect("an entry").path())
        .filter(|path| {
            let name = path.file_name().and_then(|name| name.to_str());
            name.is_some_and(|name| name.starts_with(request) && name.ends_with(".hex"))
        })
        .collect();
    paths.sort();
    paths
}

/// Each of the so many vectors of a request gives its lines.
fn give_their_lines(request: &str, amount: usize) {
    let program = Program::named("CALLS", &format!("{ROOT}/target/bin/calls"));
    let paths = vectors(request);
    assert_eq!(paths.len(), amount);
    for path in paths {
        let hex = fs::read_to_string(&path).expect("the frames");
        let expected = fs::read_to_string(path.with_extension("out")).expect("the lines");
        let input: Vec<u8> = hex.lines().flat_map(call).collect();
        let printed = program.run(&input).expect("the program runs");
        let printed = String::from_utf8(printed).expect("the lines are ASCII");
        // The depths, `D`, are not among the lines of a vector, nor are the nets, `N`,
        // before request 2026-05.
        let lines: String = printed
            .lines()
            .filter(|line| !line.starts_with("D ") && !line.starts_with("N "))
            .map(|line| format!("{line}\n"))
            .collect();
        assert_eq!(lines, expected, "{}", path.display());
    }
}

#[test]
fn every_vector_of_2026_01_gives_its_lines() {
    give_their_lines("2026-01-", 6);
}

#[test]
fn every_vector_of_2026_03_gives_its_lines() {
    give_their_lines("2026-03-", 1);
}

#[test]
fn every_vector_of_2026_04_gives_its_lines() {
    give_their_lines("2026-04-", 4);
}
