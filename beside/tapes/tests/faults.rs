//! The comparison finds every tape that is wrong in one place, and says where.

#![forbid(unsafe_code)]
#![deny(warnings)]

use std::time::Duration;
use tapes::agree::{agrees, difference, reckoned};
use tapes::days::{every_number, generated, several_days, Day};
use tapes::faults::{faults, Ending, Fault};
use tapes::hand::{ends, example, extremes, full_tables, national, specialists};
use tapes::program::{Delivery, Program};

/// What is said of the program, nothing if it agrees.
fn said(program: &Program, days: &[Day]) -> String {
    match agrees(program, days) {
        Ok(_) => String::new(),
        Err(different) => different.to_string(),
    }
}

fn faulty(fault: &str) -> Program {
    Program::new(env!("CARGO_BIN_EXE_faulty"), &[fault])
}

/// A small part of the days that the proved tape is compared on.
fn days() -> Vec<Day> {
    let mut days = full_tables();
    days.extend(generated(40));
    days.extend(several_days(3));
    days.extend(extremes());
    days.extend(national().into_iter().step_by(10));
    days.extend(specialists().into_iter().step_by(3));
    days.extend(ends().into_iter().step_by(40));
    days.extend(every_number(1));
    days
}

#[test]
fn a_right_tape_agrees() {
    if let Err(different) = agrees(&faulty("none"), &days()) {
        panic!("{different}");
    }
}

#[test]
fn every_wrong_tape_is_found() {
    let days = days();
    let mut missed = Vec::new();
    let faults = faults();
    for (name, fault) in &faults {
        let mut program = faulty(name);
        if matches!(fault, Fault::Ending(Ending::Never)) {
            program.limit = Duration::from_secs(2);
        }
        match agrees(&program, &days) {
            Ok(_) => missed.push(*name),
            Err(different) => println!("{name}: {different}"),
        }
    }
    assert!(missed.is_empty(), "wrong tapes not found: {missed:#?}");
    println!("wrong tapes found: {}", faults.len());
    assert!(faults.len() >= 61);
}

#[test]
fn a_program_that_does_not_read_is_found() {
    // More than a pipe holds, so that the writing ends in an error.
    let day = Day::Generated {
        seed: 1,
        events: 20_000,
    };
    assert!(day.bytes().len() > 100_000);
    for delivery in [
        Delivery::Whole,
        Delivery::Pieces(100, Duration::ZERO),
        Delivery::File,
    ] {
        let mut program = faulty("reads-nothing");
        program.delivery = delivery;
        let said = said(&program, std::slice::from_ref(&day));
        assert!(said.contains("tape:      no line"), "{said}");
    }
}

#[test]
fn a_program_that_reads_once_is_found_by_a_pipe() {
    // More than a pipe holds, and less than the program asks for.
    let day = Day::Generated {
        seed: 1,
        events: 20_000,
    };
    assert!((100_000..1_000_000).contains(&day.bytes().len()));
    let mut program = faulty("reads-once");
    for (delivery, found) in [
        (Delivery::File, false),
        (Delivery::Whole, true),
        (Delivery::Pieces(1_000, Duration::ZERO), true),
    ] {
        program.delivery = delivery;
        let said = said(&program, std::slice::from_ref(&day));
        assert_eq!(!said.is_empty(), found, "{delivery:?}: {said}");
    }
}

#[test]
fn a_program_that_is_missing_is_a_failure() {
    let program = Program::new("/no/such/tape", &[]);
    let said = said(&program, &generated(1));
    assert!(said.contains("/no/such/tape cannot be run"), "{said}");
}

#[test]
fn a_program_that_ends_badly_or_never_is_a_failure() {
    let ends = |fault: &str| {
        let mut program = faulty(fault);
        program.limit = Duration::from_secs(2);
        said(&program, &generated(1))
    };
    let bad = ends("status-1");
    assert!(bad.contains("ended badly: exit status: 1"), "{bad}");
    let bad = ends("abort");
    assert!(bad.contains("ended badly: signal"), "{bad}");
    let bad = ends("never-ends");
    assert!(bad.contains("did not end in 2 s"), "{bad}");
}

#[test]
fn a_difference_shows_the_seed_the_event_and_both_lines() {
    let day = Day::Generated {
        seed: 7,
        events: 500,
    };
    assert_eq!(
        said(&faulty("index-from-1"), &[day]),
        "seed 7, 500 events: event 0, line 1
  frame:     0b 00 01 00 02 13 00 02 1f 01 02
  tape:      E 1 0 0 0
  reckoning: E 0 0 0 0"
    );
}

#[test]
fn the_first_line_that_differs_is_shown_with_its_event() {
    let input = example();
    let right = String::from_utf8(reckoned(&input)).expect("the lines are ASCII");
    let said = |printed: &str| {
        difference(&input, printed.as_bytes(), right.as_bytes()).unwrap_or_default()
    };
    assert_eq!(said(&right), "");
    let price = right.replace("R 2 3 1 1 2 100", "R 2 3 1 1 2 101");
    assert_eq!(
        said(&price),
        "event 5, line 9
  frame:     10 00 02 00 09 00 00 00 03 01 02 00 c8 00 00 00
  tape:      R 2 3 1 1 2 101
  reckoning: R 2 3 1 1 2 100"
    );
    let cut = right.replace("R 2 2 1 0 2 100\n", "");
    assert_eq!(
        said(&cut),
        "event 5, line 11
  frame:     10 00 02 00 09 00 00 00 03 01 02 00 c8 00 00 00
  tape:      no line
  reckoning: R 2 2 1 0 2 100"
    );
    let more = format!("{right}E 6 0 0 0\n");
    assert_eq!(
        said(&more),
        "event 6, line 12
  frame:     none
  tape:      E 6 0 0 0
  reckoning: no line"
    );
    let open = right.trim_end();
    assert!(said(open).contains("tape:      R 2 2 1 0 2 100 (and no line end)"));
}
