//! Request 2026-04: "What members enter still ends as filled, cancelled or live", seen
//! on the day of the specialist's portion, and on its lines tampered with.

#![forbid(unsafe_code)]
#![deny(warnings)]

mod common;

use assemble::assemble;
use common::{audited, Audited};

const DAY: &str = include_str!("../../../../days/specialist.txt");
const LINES: &str = include_str!("../../../../days/specialist.out");
const PRINTED: &str = include_str!("../../../../days/specialist.audit");
/// What `tape` prints for a day end after it.
const END: &str = "E 49 0 0 2\nR 3 1 0 0 20 0\nR 3 2 0 1 20 0\n";

fn seen(day: &str, lines: &str, end: &str) -> Audited {
    let frames = assemble(day.as_bytes()).expect("a day");
    let report = audited(&frames, lines, &format!("{lines}{end}"));
    report.unwrap_or_else(|wrong| panic!("{wrong}"))
}

/// Texts of an event's lines, and what is printed in their places.
type Edits<'a> = &'a [(&'a str, &'a str)];

/// What does not hold of the day where an event prints something else.
fn failures(event: usize, edits: Edits) -> Vec<String> {
    let start = LINES.find(&format!("E {event} ")).expect("the event");
    let (before, rest) = LINES.split_at(start);
    let length = (rest.find(&format!("E {} ", event + 1))).unwrap_or(rest.len());
    let (own, after) = rest.split_at(length);
    let mut own = own.to_string();
    for (from, to) in edits {
        assert_eq!(own.matches(from).count(), 1, "{from} in {own}");
        own = own.replace(from, to);
    }
    seen(DAY, &format!("{before}{own}{after}"), END).failures
}

#[test]
fn the_day_holds() {
    let report = seen(DAY, LINES, END);
    assert_eq!(report.failures, [""; 0]);
    assert!(report.text == PRINTED, "{}", report.text);
}

/// Portions after which something is lost, or there twice.
#[test]
fn a_portion_that_does_not_add_up() {
    let cases: &[(usize, Edits, &[&str])] = &[
        // The specialist's side of its fill has a unit more.
        (
            12,
            &[("R 1 6 0 1 3 99", "R 1 6 0 1 4 99")],
            &[
                "day 1, number 6: entered 7, but filled 4 + cancelled 4 + live 0 = 8",
                "day 1, number 6, series 0: 3 contracts, but ratio 1 x 4 units = 4",
                "day 1, number 6, series 1: 6 contracts, but ratio 2 x 4 units = 8",
                "day 1, cash: paid 5892, but received 5991",
            ],
        ),
        // What is left of its sweep is not cancelled.
        (
            21,
            &[("E 21 0 0 40", "E 21 0 0 39"), ("R 3 14 0 0 3 0\n", "")],
            &["day 1, number 14: entered 7, but filled 4 + cancelled 0 + live 0 = 4"],
        ),
        // A sweep that was filled whole is cancelled, in the place of another.
        (
            27,
            &[("R 3 19 0 1 4 0", "R 3 18 0 1 4 0")],
            &[
                "day 1, number 18: entered 6, but filled 6 + cancelled 4 + live 0 = 10",
                "day 1, number 19: entered 6, but filled 2 + cancelled 0 + live 0 = 2",
            ],
        ),
        // One of the others is cancelled as if it had shared nothing.
        (
            33,
            &[("R 3 23 0 1 6 0", "R 3 23 0 1 8 0")],
            &["day 1, number 23: entered 8, but filled 2 + cancelled 8 + live 0 = 10"],
        ),
    ];
    for (event, edits, said) in cases {
        assert_eq!(failures(*event, edits), *said, "event {event}");
    }
}

/// Kind 11 enters nothing, whatever is printed for it.
#[test]
fn to_name_a_specialist_enters_nothing() {
    let cases: &[(usize, Edits, &[&str])] = &[
        (7, &[("E 7 0 0 0", "E 7 0 27 0")], &[]),
        (
            7,
            &[("E 7 0 0 0", "E 7 0 27 1\nR 3 27 0 1 5 0")],
            &["day 1, number 27: did not enter, and has records 1 to 3: 1"],
        ),
        // A number that entered before keeps its own units.
        (
            13,
            &[("E 13 0 0 0", "E 13 0 6 1\nR 3 6 0 1 40 0")],
            &["day 1, number 6: entered 7, but filled 3 + cancelled 44 + live 0 = 47"],
        ),
        // Refused, or accepted without a strategy: the claims do not ask.
        (22, &[("E 22 0 0 0", "E 22 4 0 0")], &[]),
        (38, &[("E 38 4 0 0", "E 38 0 0 0")], &[]),
    ];
    for (event, edits, said) in cases {
        assert_eq!(failures(*event, edits), *said, "event {event}");
    }
}

/// A frame of kind 11 that is no event may not be accepted.
#[test]
fn a_specialist_that_cannot_be_named() {
    for (line, refusal) in [
        ("bytes 08 00 0b 00 07 00 00 65", 3),
        ("bytes 08 00 0b 00 00 00 00 28", 3),
        ("bytes 08 00 0b 00 07 00 10 28", 3),
        ("bytes 09 00 0b 00 07 00 00 28 00", 2),
        ("bytes 07 00 0b 00 07 00 00", 2),
        ("bytes 08 00 0c 00 07 00 00 28", 2),
    ] {
        let said = |answer: u32| {
            let lines = format!("E 0 {answer} 0 0\n");
            seen(line, &lines, "E 1 0 0 0\n").failures
        };
        assert_eq!(said(refusal), [""; 0], "{line}");
        let read = format!("day 1, event 0: accepted, and its frame reads as refused {refusal}");
        assert_eq!(said(0), [read], "{line}");
    }
}
