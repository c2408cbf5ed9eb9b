//! The proved program `tape` at an input that waits, and where reading or writing
//! fails.

#![forbid(unsafe_code)]
#![deny(warnings)]

use tapes::program::Program;
use tapes::waiting::{answers, says};

fn tape() -> Program {
    Program::named(
        "TAPE_PROGRAM",
        concat!(env!("CARGO_MANIFEST_DIR"), "/../../target/bin/tape"),
    )
}

const OPEN: [u8; 6] = [6, 0, 6, 0, 0, 1];

/// A frame gets its line before the next comes, whole or in part.
#[test]
fn a_frame_is_answered_before_the_wait_for_more() {
    let opens = [OPEN, OPEN, OPEN].concat();
    let pieces: [(&[u8], &str); 7] = [
        (&OPEN, "E 0 0 0 0\n"),
        (&OPEN[..1], ""),
        (&OPEN[1..], "E 1 0 0 0\n"),
        (&opens, "E 2 0 0 0\nE 3 0 0 0\nE 4 0 0 0\n"),
        (&opens[..15], "E 5 0 0 0\nE 6 0 0 0\n"),
        (&opens[15..], "E 7 0 0 0\n"),
        (&[6, 0], ""),
    ];
    assert_eq!(answers(&tape(), &pieces), Ok(()));
}

/// "A length under 4 .. prints refusal 2 and stops": the length alone is enough.
#[test]
fn a_length_under_4_is_answered_at_once() {
    for length in 0..4 {
        let bytes = [length, 0];
        let pieces: [(&[u8], &str); 1] = [(&bytes, "E 0 2 0 0\n")];
        assert_eq!(answers(&tape(), &pieces), Ok(()), "{length}");
    }
}

/// So many events that the text is written out between them, too.
#[test]
fn many_frames_are_answered_before_the_wait_for_more() {
    let frames = OPEN.repeat(40_000);
    let lines: String = (0..40_000).map(|at| format!("E {at} 0 0 0\n")).collect();
    assert_eq!(answers(&tape(), &[(&frames, &lines)]), Ok(()));
}

#[test]
fn output_that_is_not_taken_is_told() {
    let told = "standard output: a write failed; what was printed is not whole\n";
    let said = |to: &str| {
        let line = format!("printf '\\006\\000\\006\\000\\000\\001' | $0 {to}");
        says(&tape(), &line)
    };
    assert_eq!(said(">/dev/full"), Ok(told.to_string()));
    assert_eq!(said(">&-"), Ok(told.to_string()));
    assert_eq!(said(">/dev/null"), Ok(String::new()));
}

#[test]
fn input_that_cannot_be_read_is_told() {
    let told = "standard input: a read failed; what was read before it is all that was played\n";
    assert_eq!(says(&tape(), "$0 </"), Ok(told.to_string()));
    assert_eq!(says(&tape(), "$0 <&-"), Ok(told.to_string()));
    assert_eq!(says(&tape(), "$0 </dev/null"), Ok(String::new()));
}
