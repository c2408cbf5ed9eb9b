//! The proved program `calls` at an input that waits, and where writing fails.

#![forbid(unsafe_code)]
#![deny(warnings)]

use tapes::program::Program;
use tapes::waiting::{answers, says};

fn calls() -> Program {
    Program::named(
        "CALLS",
        concat!(env!("CARGO_MANIFEST_DIR"), "/../../target/bin/calls"),
    )
}

/// An item: a frame that opens series 0, with a whole record space.
const OPEN: [u8; 10] = [6, 0, 0, 60, 6, 0, 6, 0, 0, 1];

/// A call gets its line before the next comes, whole or in part.
#[test]
fn a_call_is_answered_before_the_wait_for_more() {
    let two = [OPEN, OPEN].concat();
    let pieces: [(&[u8], &str); 5] = [
        (&OPEN, "E 0 0 0 0\n"),
        (&OPEN[..3], ""),
        (&OPEN[3..], "E 1 0 0 0\n"),
        (&two[..15], "E 2 0 0 0\n"),
        (&two[15..], "E 3 0 0 0\n"),
    ];
    assert_eq!(answers(&calls(), &pieces), Ok(()));
}

#[test]
fn output_that_is_not_taken_is_told() {
    let told = "standard output: a write failed; what was printed is not whole\n";
    let said = |to: &str| {
        let item = "\\006\\000\\000\\074\\006\\000\\006\\000\\000\\001";
        says(&calls(), &format!("printf '{item}' | $0 {to}"))
    };
    assert_eq!(said(">/dev/full"), Ok(told.to_string()));
    assert_eq!(said(">/dev/null"), Ok(String::new()));
}
