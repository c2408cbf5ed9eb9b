//! The proved program `calls` against the reckoning. The program is the one that
//! CALLS names, or target/bin/calls, which ./test builds.

#![forbid(unsafe_code)]
#![deny(warnings)]

use calls::agree::agrees;
use calls::hand::{
    days, depths, ends, last_numbers, long_frames, nets, portions, refused_sweeps, spaces,
};
use calls::lists::{any_frames, every_number, generated, several_days, List};
use calls::tally::{Tally, SEEN};
use reckoning::coverage::{LAST_SITUATIONS, SITUATIONS};
use reckoning::generate::LAST_KIND;
use std::path::Path;
use std::process::Command;
use std::time::Duration;
use tapes::program::{Delivery, Program};
use tapes::tally::OTHER;

const ROOT: &str = concat!(env!("CARGO_MANIFEST_DIR"), "/../..");

fn program() -> Program {
    Program::named("CALLS", &format!("{ROOT}/target/bin/calls"))
}

/// The tally, printed; or the difference, which fails the test.
fn agreed(what: &str, lists: &[List]) -> Tally {
    agreed_by(what, lists, Delivery::Whole)
}

fn agreed_by(what: &str, lists: &[List], delivery: Delivery) -> Tally {
    let mut program = program();
    program.delivery = delivery;
    match agrees(&program, lists) {
        Ok(tally) => {
            println!("{what}, the same lines:\n{tally}");
            assert_eq!(tally.lists, lists.len() as u64);
            tally
        }
        Err(different) => {
            let name = format!("{}.calls", what.replace(' ', "-"));
            let saved = Path::new(env!("CARGO_TARGET_TMPDIR")).join(name);
            std::fs::write(&saved, different.list.bytes()).expect("the list is saved");
            panic!("{what}: {different}\n  the list:  {}", saved.display());
        }
    }
}

/// Every answer that each kind can have, 13 apart.
const ANSWERS: &[(u32, &[u32])] = &[
    (1, &[0, 1, 2, 3, 5, 12]),
    (2, &[0, 1, 2, 3, 4, 9, 12]),
    (3, &[0, 1, 2, 3, 4, 9, 10, 12, 15]),
    (4, &[0, 1, 2, 3, 6, 12]),
    (5, &[0, 1, 2, 3, 7, 8]),
    (6, &[0, 1, 2, 3]),
    (7, &[0, 1, 2, 3, 11]),
    (8, &[0, 1, 2, 3]),
    (9, &[0, 1, 2, 3, 14]),
    (10, &[0, 1, 2, 3]),
    (11, &[0, 1, 2, 3, 4]),
    (OTHER, &[1, 2]),
];

#[test]
fn generated_lists() {
    let mut lists = generated(1_050);
    lists.extend(any_frames(10));
    lists.extend(ends().into_iter().step_by(7));
    let tally = agreed("generated lists", &lists);
    assert!(tally.total() >= 2_000_000);
    for (kind, answers) in ANSWERS {
        for answer in *answers {
            let count = tally.of(*kind, *answer);
            assert!(count >= 50, "kind {kind}, answer {answer}: {count}");
        }
    }
    for answer in (0..=15).filter(|answer| *answer != 13) {
        let count = tally.answered(answer);
        assert!(count >= 2_000, "answer {answer}: {count}");
    }
    for kind in 1..=5 {
        let count = tally.written(kind);
        assert!(count >= 20_000, "records of kind {kind}: {count}");
    }
    for what in SEEN {
        let count = tally.saw(what);
        assert!(count >= 20, "{what}: {count}");
    }
    for kind in [9, 10, 11] {
        let count = tally.of(kind, 0);
        assert!(count >= 10_000, "accepted calls of kind {kind}: {count}");
    }
    assert!(SITUATIONS.len() >= 258);
    for situation in SITUATIONS {
        let count = tally.reached(situation);
        assert!(count >= 50, "{situation}: {count}");
    }
}

#[test]
fn lists_that_give_every_number() {
    let tally = agreed("lists that give every number", &every_number(4));
    assert!(tally.total() >= 400_000);
    assert_eq!(tally.highest, 100_000);
    for kind in 2..=4 {
        let count = tally.of(kind, 13);
        assert!(count >= 20, "kind {kind}, answer 13: {count}");
    }
    assert!(tally.of(9, 0) >= 100 && tally.of(10, 0) >= 50 && tally.of(11, 0) >= 50);
    for situation in LAST_SITUATIONS {
        let count = tally.reached(situation);
        assert!(count >= 3, "{situation}: {count}");
    }
}

#[test]
fn number_100000_is_live() {
    for list in last_numbers() {
        let tally = agreed(&list.to_string(), &[list]);
        assert_eq!(tally.highest_live, 100_000);
        for (kind, answer, count) in [(2, 13, 2), (3, 13, 2), (3, 15, 1), (4, 13, 1)] {
            assert_eq!(
                tally.of(kind, answer),
                count,
                "kind {kind}, answer {answer}"
            );
        }
    }
}

#[test]
fn several_days_in_a_row() {
    let lists = several_days(70);
    let tally = agreed("several days in a row", &lists);
    assert!(tally.total() >= 60_000);
    assert!(tally.of(8, 0) >= 2 * lists.len() as u64);
    for what in [
        "L of a sweep",
        "S with one shut leg",
        "D of bids",
        "list: national prices are known",
        "list: a specialist is named",
    ] {
        assert!(tally.saw(what) >= 20, "{what}");
    }
}

#[test]
fn spaces_of_every_sort() {
    let lists = spaces();
    let tally = agreed("spaces", &lists);
    assert!(lists.len() >= 80);
    assert!(tally.answered(1) >= 500 && tally.answered(2) >= 100);
}

#[test]
fn inputs_that_are_cut() {
    let lists = ends();
    let tally = agreed("inputs that are cut", &lists);
    let cut = tally.saw("cut");
    assert!(cut >= 400 && cut < tally.lists, "{cut} of {}", tally.lists);
}

#[test]
fn frames_of_up_to_65535_bytes() {
    let tally = agreed("long frames", &long_frames());
    assert!(tally.bytes >= 10_000_000);
    // After each long frame the program goes on.
    assert!(tally.of(6, 0) >= 500 && tally.saw("cut") >= 200);
    for kind in 1..=LAST_KIND {
        for answer in [1, 2] {
            let count = tally.of(kind, answer);
            assert!(count >= 20, "kind {kind}, answer {answer}: {count}");
        }
    }
}

#[test]
fn full_tables_and_extremes() {
    let tally = agreed("full tables and extremes", &days());
    for (kind, least) in [(1, 3), (2, 20), (3, 4), (4, 2)] {
        let count = tally.of(kind, 12);
        assert!(count >= least, "kind {kind}, answer 12: {count}");
    }
    for what in [
        "list: 16 complex orders",
        "list: 16 sweeps",
        "list: 32 leg orders",
    ] {
        assert!(tally.saw(what) >= 1, "{what}");
    }
}

#[test]
fn sweeps_that_are_refused_15() {
    let lists = refused_sweeps();
    let tally = agreed("sweeps that are refused 15", &lists);
    let (short, refused) = (tally.of(3, 1), tally.of(3, 15));
    assert!(lists.len() >= 100 && short >= 100 && refused >= 10_000);
    for what in [
        "L of a sweep",
        "L of a sweep that the net has passed",
        "list: an auction runs",
    ] {
        let count = tally.saw(what);
        assert!(count >= 50, "{what}: {count}");
    }
}

#[test]
fn what_a_specialist_leaves_to_the_others() {
    let lists = portions();
    let tally = agreed("portions", &lists);
    assert_eq!(lists.len(), 30);
    for (answer, count) in [(0, 30), (1, 30), (4, 30)] {
        assert_eq!(tally.of(11, answer), count, "answer {answer}");
    }
    for what in ["L of a complex order", "L of a specialist's sweep"] {
        let count = tally.saw(what);
        assert!(count >= 15, "{what}: {count}");
    }
    let shared = ["by the share", "by the percentage", "by its size"];
    for situation in shared.map(|by| format!("portion: {by}")) {
        let count = tally.reached(&situation);
        assert!(count >= 2, "{situation}: {count}");
    }
}

#[test]
fn nets_after_each_event_that_touches_a_leg_order() {
    let lists = nets();
    let tally = agreed("nets", &lists);
    assert!(lists.len() >= 200 && tally.answered(1) >= 100);
    for (what, least) in [
        ("N above 0", 50),
        ("N below 0", 50),
        ("N beside a shut leg", 20),
        ("N of legs that are not ready", 10),
        ("N with both known", 50),
        ("N with both unknown", 50),
        ("N with the bid net alone", 50),
        ("N with the offer net alone", 50),
    ] {
        let count = tally.saw(what);
        assert!(count >= least, "{what}: {count}");
    }
    for situation in [
        "nets: a definition over leg orders, both known",
        "nets: a definition where the day before had others",
        "nets: a turn by legs at another net than the fill before",
        "nets: an equal definition after a change",
        "nets: another by a cancel",
        "nets: another by a fill by legs",
        "nets: another by a leg order that rests",
        "nets: another by a trade",
        "nets: changed by a cancel in a shut series",
        "nets: several strategies changed",
        "nets: unknown by a cancel",
    ] {
        let count = tally.reached(situation);
        assert!(count >= 2, "{situation}: {count}");
    }
}

#[test]
fn depths_of_leg_orders_in_every_order() {
    let lists = depths();
    let tally = agreed("depths of leg orders in every order", &lists);
    assert!(lists.len() >= 80 && tally.of(4, 0) >= 2_000);
    for what in [
        "D before a worse price",
        "D behind a worse price",
        "D of one order with fewer contracts than a worse price",
        "D of several orders behind a worse price",
        "D of the one side, the other being empty",
        "list: 32 leg orders",
    ] {
        let count = tally.saw(what);
        assert!(count >= 30, "{what}: {count}");
    }
}

#[test]
fn inputs_in_pieces_and_from_a_file() {
    let mut lists = generated(14);
    lists.extend(long_frames().into_iter().step_by(30));
    lists.extend(ends().into_iter().step_by(10));
    let tally = agreed_by("inputs from a file", &lists, Delivery::File);
    assert!(tally.total() >= 10_000);
    for piece in [1_000, 4_096, 65_536] {
        let what = format!("inputs in pieces of {piece} bytes");
        agreed_by(&what, &lists, Delivery::Pieces(piece, Duration::ZERO));
    }
    // With a pause after each piece, so that the program reads it alone.
    let cut: Vec<List> = ends().into_iter().skip(200).step_by(9).collect();
    for piece in [1, 2, 3, 5, 13] {
        let what = format!("inputs in pieces of {piece} bytes, one by one");
        let pause = Duration::from_millis(1);
        agreed_by(&what, &cut, Delivery::Pieces(piece, pause));
    }
}

/// The example in docs/PROGRAMS.md runs as written and prints what stands there.
#[test]
fn the_example_of_the_page() {
    let text = std::fs::read_to_string(format!("{ROOT}/docs/PROGRAMS.md")).expect("the page");
    let section = text.split_once("## `calls`\n").expect("its section").1;
    let block = |kind: &str| {
        let start = format!("```{kind}\n");
        let after = section.split_once(&start).expect("a block").1;
        after.split_once("```").expect("its end").0.to_string()
    };
    let program = program().path.display().to_string();
    let script = block("sh");
    assert_eq!(script.matches("target/bin/calls").count(), 1);
    let output = Command::new("sh")
        .args(["-c", &script.replace("target/bin/calls", &program)])
        .current_dir(ROOT)
        .output()
        .expect("sh runs");
    assert!(output.status.success());
    assert_eq!(String::from_utf8_lossy(&output.stdout), block("text"));
}
