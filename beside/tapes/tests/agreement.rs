//! The proved program `tape` against the reckoning. The program is the one that
//! TAPE_PROGRAM names, or target/bin/tape, which ./play and ./test build.

#![forbid(unsafe_code)]
#![deny(warnings)]

use reckoning::coverage::{LAST_SITUATIONS, SITUATIONS};
use reckoning::generate::LAST_KIND;
use std::path::Path;
use std::time::Duration;
use tapes::agree::agrees;
use tapes::days::{
    any_frames, damaged_frames, every_number, generated, inputs_of_any_bytes, several_days, Day,
};
use tapes::hand::{
    best_prices, ends, extremes, full_tables, kept_nets, long_frames, national, near_nets,
    specialists,
};
use tapes::program::{Delivery, Program};
use tapes::tally::{Tally, OTHER};

/// The tally, printed; or the difference, which fails the test.
fn agreed(what: &str, days: &[Day]) -> Tally {
    agreed_by(what, days, Delivery::Whole)
}

fn agreed_by(what: &str, days: &[Day], delivery: Delivery) -> Tally {
    let mut program = Program::named(
        "TAPE_PROGRAM",
        concat!(env!("CARGO_MANIFEST_DIR"), "/../../target/bin/tape"),
    );
    program.delivery = delivery;
    match agrees(&program, days) {
        Ok(tally) => {
            println!("{what}, the same lines:\n{tally}");
            assert_eq!(tally.days, days.len() as u64);
            tally
        }
        Err(different) => {
            let name = format!("{}.frames", what.replace(' ', "-"));
            let saved = Path::new(env!("CARGO_TARGET_TMPDIR")).join(name);
            std::fs::write(&saved, different.day.bytes()).expect("the day is saved");
            panic!("{what}: {different}\n  the day:   {}", saved.display());
        }
    }
}

/// Every answer that each kind can have on a tape.
const ANSWERS: &[(u32, &[u32])] = &[
    (1, &[0, 2, 3, 5, 12]),
    (2, &[0, 2, 3, 4, 9, 12]),
    (3, &[0, 2, 3, 4, 9, 10, 12, 15]),
    (4, &[0, 2, 3, 6, 12]),
    (5, &[0, 2, 3, 7, 8]),
    (6, &[0, 2, 3]),
    (7, &[0, 2, 3, 11]),
    (8, &[0, 2]),
    (9, &[0, 2, 3, 14]),
    (10, &[0, 2, 3]),
    (11, &[0, 2, 3, 4]),
    (OTHER, &[2]),
];

#[test]
fn generated_days() {
    let tally = agreed("generated days", &generated(760));
    assert!(tally.total() >= 2_000_000);
    for (kind, answers) in ANSWERS {
        for answer in *answers {
            let count = tally.of(*kind, *answer);
            assert!(count >= 50, "kind {kind}, answer {answer}: {count}");
        }
    }
    // 1 is for calls, and 13 for days that give every number.
    for answer in (0..=15).filter(|answer| ![1, 13].contains(answer)) {
        let count = tally.answered(answer);
        assert!(count >= 2_000, "answer {answer}: {count}");
    }
    for kind in 1..=5 {
        let count = tally.written(kind);
        assert!(count >= 20_000, "records of kind {kind}: {count}");
    }
    for kind in [9, 10, 11] {
        let count = tally.of(kind, 0);
        assert!(count >= 20_000, "accepted events of kind {kind}: {count}");
    }
    assert!(SITUATIONS.len() >= 258);
    for situation in SITUATIONS {
        let count = tally.reached(situation);
        assert!(count >= 100, "{situation}: {count}");
    }
    assert!(tally.most >= 256);
}

#[test]
fn days_that_give_every_number() {
    let tally = agreed("days that give every number", &every_number(8));
    assert!(tally.total() >= 800_000);
    assert_eq!(tally.highest, 100_000);
    for kind in 2..=4 {
        let count = tally.of(kind, 13);
        assert!(count >= 50, "kind {kind}, answer 13: {count}");
    }
    for kind in [3, 5, 9, 10, 11] {
        let count = tally.of(kind, 0);
        assert!(count >= 100, "accepted events of kind {kind}: {count}");
    }
    for situation in LAST_SITUATIONS {
        let count = tally.reached(situation);
        assert!(count >= 5, "{situation}: {count}");
    }
}

#[test]
fn several_days_in_a_row() {
    let days = several_days(60);
    let tally = agreed("several days in a row", &days);
    assert!(tally.total() >= 100_000);
    assert!(tally.of(8, 0) >= 4 * days.len() as u64);
    for kind in 1..=5 {
        assert!(tally.written(kind) >= 1_000, "records of kind {kind}");
    }
    assert!(tally.of(9, 0) >= 1_000 && tally.of(10, 0) >= 1_000 && tally.of(9, 14) >= 100);
    let stopped = tally.reached("complex: the pass stops at the range");
    let set = tally.reached("day end: national prices and a range are set");
    assert!(stopped >= 20 && set >= 20, "{stopped}, {set}");
    let named = tally.reached("day end: a specialist is named");
    let portions = tally.reached("portion: more than by the old rule");
    assert!(named >= 20 && portions >= 20, "{named}, {portions}");
}

#[test]
fn frames_of_any_sort() {
    let tally = agreed("frames of any sort", &any_frames(20));
    assert!(tally.total() >= 200_000);
    assert!(tally.of(9, 14) >= 500);
    for kind in 1..=LAST_KIND {
        for answer in [2, 3] {
            let count = tally.of(kind, answer);
            assert!(count >= 500, "kind {kind}, answer {answer}: {count}");
        }
    }
}

#[test]
fn damaged_frames_alone() {
    let tally = agreed("damaged frames alone", &damaged_frames(20));
    assert!(tally.total() >= 100_000);
    assert_eq!(tally.total(), tally.answered(2) + tally.answered(3));
    for kind in 1..=LAST_KIND {
        for answer in [2, 3] {
            let count = tally.of(kind, answer);
            assert!(count >= 500, "kind {kind}, answer {answer}: {count}");
        }
    }
}

#[test]
fn inputs_of_few_bytes() {
    let mut days = ends();
    let made = days.len();
    days.extend(inputs_of_any_bytes(400));
    let tally = agreed("inputs of few bytes, and cut ones", &days);
    assert!(made >= 500);
    assert!(tally.of(OTHER, 2) >= 500, "inputs that stop");
}

#[test]
fn frames_of_up_to_65535_bytes() {
    let tally = agreed("long frames", &long_frames());
    assert!(tally.bytes >= 50_000_000);
    // After each long frame the program goes on.
    assert!(tally.of(6, 0) >= 1_000);
    for kind in 1..=LAST_KIND {
        assert!(tally.of(kind, 2) >= 100, "kind {kind}, answer 2");
    }
}

#[test]
fn inputs_in_pieces_and_from_a_file() {
    let mut days = generated(6);
    days.extend(several_days(2));
    days.extend(long_frames().into_iter().step_by(30));
    days.extend(ends().into_iter().step_by(10));
    let tally = agreed_by("inputs from a file", &days, Delivery::File);
    assert!(tally.total() >= 10_000);
    for piece in [1_000, 4_096, 65_536] {
        let what = format!("inputs in pieces of {piece} bytes");
        let tally = agreed_by(&what, &days, Delivery::Pieces(piece, Duration::ZERO));
        assert!(tally.total() >= 10_000);
    }
    // With a pause after each piece, so that the program reads it alone.
    let cut = ends();
    let cut = &cut[cut.len() - 60..];
    let short = Day::Generated {
        seed: 5,
        events: 300,
    };
    let pause = Duration::from_millis(1);
    for piece in [1, 2, 3, 7, 13] {
        let what = format!("inputs in pieces of {piece} bytes, one by one");
        agreed_by(&what, cut, Delivery::Pieces(piece, pause));
    }
    for piece in [5, 16, 100] {
        let what = format!("a day in pieces of {piece} bytes, one by one");
        let day = std::slice::from_ref(&short);
        let tally = agreed_by(&what, day, Delivery::Pieces(piece, pause));
        assert!(tally.total() >= 300);
    }
}

#[test]
fn tables_that_are_full() {
    let tally = agreed("full tables", &full_tables());
    for (kind, least) in [(1, 3), (2, 20), (3, 4), (4, 2)] {
        let count = tally.of(kind, 12);
        assert!(count >= least, "kind {kind}, answer 12: {count}");
    }
    assert!(tally.of(3, 10) >= 2 && tally.of(2, 9) >= 1 && tally.of(4, 6) >= 1);
}

#[test]
fn numbers_at_the_ends_of_their_ranges() {
    let tally = agreed("extremes", &extremes());
    assert!(tally.written(1) >= 1_000 && tally.written(2) >= 5_000);
    assert!(tally.of(7, 0) >= 1_000 && tally.of(7, 11) >= 6);
}

#[test]
fn national_prices_and_fills_at_the_bounds() {
    let days = national();
    let tally = agreed("national prices", &days);
    assert!(days.len() >= 80);
    for (kind, answers) in [(9, &[0, 3, 14][..]), (10, &[0, 3])] {
        for answer in answers {
            let count = tally.of(kind, *answer);
            assert!(count >= 2, "kind {kind}, answer {answer}: {count}");
        }
    }
    for (situation, least) in [
        ("turn: whole at the buyer's bound", 50),
        ("turn: whole at the seller's bound", 50),
        ("stop: limit above the active buyer's bound", 50),
        ("stop: limit above the other buyer's bound", 50),
        ("stop: limit below the active seller's bound", 50),
        ("stop: limit below the other seller's bound", 50),
        ("opening: a match at a bound", 50),
        ("opening: a match stops above the buyer's bound", 50),
        ("opening: a match stops below the seller's bound", 50),
        ("turn: only the buyer is bound", 10),
        ("turn: only the seller is bound", 10),
        ("day end: national prices and a range are set", 2),
    ] {
        let count = tally.reached(situation);
        assert!(count >= least, "{situation}: {count}");
    }
}

#[test]
fn best_prices_and_their_contracts() {
    let days = best_prices();
    let tally = agreed("best prices", &days);
    assert!(days.len() >= 11 && tally.written(1) >= 5_000);
    // The own net is known of four of 16 choices, for each side.
    assert_eq!(tally.written(4), 8);
    for (situation, least) in [
        ("best: a better price behind a worse one", 1_000),
        ("best: an equal price adds", 1_000),
        ("best: an equal price adds after a fresh start", 1_000),
        ("best: a worse price behind the best", 1_000),
        ("best: a side is empty after fills", 100),
        ("best: the next price counts after fills", 1_000),
        ("legs: ready only by several orders together", 1_000),
        ("legs: a fill takes from several orders", 1_000),
        ("legs: a fill takes a part of the second order", 100),
        (
            "legs: a fill that a worse price before would make larger",
            1_000,
        ),
        (
            "legs: a fill that a worse price behind would make larger",
            1_000,
        ),
        ("legs: a pass goes on at the next prices", 1_000),
        (
            "legs: not ready, a worse price alone would hold the ratio",
            100,
        ),
        (
            "legs: not ready, a worse price before would add up to the ratio",
            1_000,
        ),
        (
            "legs: not ready, a worse price behind would add up to the ratio",
            1_000,
        ),
    ] {
        let count = tally.reached(situation);
        assert!(count >= least, "{situation}: {count}");
    }
}

#[test]
fn sweeps_near_the_net_of_their_side() {
    let days = near_nets();
    let tally = agreed("sweeps near the nets", &days);
    assert!(days.len() >= 18);
    for (answer, least) in [(0, 2_000), (9, 500), (10, 50), (12, 50), (15, 1_000)] {
        let count = tally.of(3, answer);
        assert!(count >= least, "answer {answer}: {count}");
    }
    for situation in SITUATIONS {
        let wanted = situation.starts_with("sweep: ") || situation.starts_with("auction: ");
        let count = tally.reached(situation);
        assert!(!wanted || count >= 10, "{situation}: {count}");
    }
    for (situation, least) in [
        ("end: a sweep fills that the net has passed", 10),
        ("end: a sweep that the net has passed is cancelled", 10),
    ] {
        let count = tally.reached(situation);
        assert!(count >= least, "{situation}: {count}");
    }
}

#[test]
fn specialists_and_their_portions() {
    let days = specialists();
    let tally = agreed("specialists", &days);
    assert!(days.len() >= 18 && tally.written(1) >= 5_000);
    for (answer, least) in [(0, 1_000), (3, 500), (4, 200)] {
        let count = tally.of(11, answer);
        assert!(count >= least, "answer {answer}: {count}");
    }
    let own =
        |situation: &&&str| situation.contains("specialist") || situation.starts_with("portion: ");
    let missing: Vec<&&str> = (SITUATIONS.iter().filter(own))
        .filter(|situation| tally.reached(situation) < 2)
        .collect();
    assert!(missing.is_empty(), "{missing:#?}");
    for (situation, least) in [
        ("end: a later pass meets the specialist's sweep", 20),
        (
            "end: the specialist's sweep in full, then its portion at another limit",
            20,
        ),
        ("portion: a percentage that is rounded down", 200),
        (
            "portion: after customers, less than the percentage of all",
            20,
        ),
        ("portion: all that remains, beside others", 20),
        ("portion: behind a market maker's order of its member", 20),
        ("portion: before a market maker's order of its member", 20),
        (
            "portion: beside a sweep of another strategy's specialist",
            20,
        ),
        ("portion: by its size", 200),
        ("portion: by the percentage", 200),
        ("portion: by the share", 200),
        ("portion: nothing of what remains", 20),
        ("portion: one unit less than by the old rule", 200),
        ("portion: the rest alone would not be shared", 200),
        ("portion: the rest is filled in full", 20),
        ("portion: the rest shares, several units left over", 20),
        ("specialist: another member named in an auction", 20),
        ("specialist: its sweep in a group that is not shared", 20),
    ] {
        let count = tally.reached(situation);
        assert!(count >= least, "{situation}: {count}");
    }
}

#[test]
fn nets_that_strategies_keep() {
    let days = kept_nets();
    let tally = agreed("nets that strategies keep", &days);
    assert!(days.len() >= 15 && tally.written(4) >= 5_000);
    // Sweeps are those of `near_nets`.
    let own = |situation: &&&str| situation.starts_with("nets: ") && !situation.contains("sweep");
    let missing: Vec<(&&str, u64)> = (SITUATIONS.iter().filter(own))
        .map(|situation| (situation, tally.reached(situation)))
        .filter(|(_, count)| *count < 4)
        .collect();
    assert!(missing.is_empty(), "{missing:#?}");
}
