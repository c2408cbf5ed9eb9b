//! The proved codec against the reckoning, over every input of the comparison.

#![forbid(unsafe_code)]
#![deny(warnings)]

use compare::agree::{judges, readers, reads_what_is_written, writers, writes_what_is_read};
use compare::fields::LAST;
use compare::tally::Tally;
use compare::{codec, rows};

/// The tally, printed; or the disagreement, which fails the test.
fn agreed(what: &str, result: Result<Tally, String>) -> Tally {
    match result {
        Ok(tally) => {
            println!("{what}:\n{tally}");
            tally
        }
        Err(difference) => panic!("{what}: {difference}"),
    }
}

/// Every kind has each of these answers at least this often.
fn often(tally: &Tally, answers: &[u32], least: u64) {
    for kind in 1..=LAST {
        for answer in answers {
            let count = tally.of(kind, *answer);
            assert!(count >= least, "kind {kind}, answer {answer}: {count}");
        }
    }
}

#[test]
fn judges_agree() {
    let tally = agreed(
        "frames judged",
        judges(&codec::judge, &reckoning::frames::judge),
    );
    assert!(tally.total() >= 1_000_000);
    often(&tally, &[0, 2, 3], 1_000);
}

#[test]
fn readers_agree() {
    let tally = agreed("frames read", readers(&codec::read, &rows::read));
    assert!(tally.total() >= 1_000_000);
    often(&tally, &[0, 2, 3], 1_000);
}

#[test]
fn writers_agree() {
    let tally = agreed("events written", writers(&codec::write, &rows::write));
    assert!(tally.total() >= 1_000_000);
    often(&tally, &[0, 1, 3], 1_000);
}

#[test]
fn what_is_written_is_read_as_the_event() {
    let tally = agreed(
        "events written and read",
        reads_what_is_written(&codec::read, &codec::write),
    );
    often(&tally, &[0], 10_000);
}

#[test]
fn what_is_read_is_written_as_the_frame() {
    let tally = agreed(
        "frames read and written",
        writes_what_is_read(&codec::read, &codec::write),
    );
    often(&tally, &[0], 10_000);
}
