//! What is held is bounded whatever the lines say: the list of what does not
//! hold, and the numbers, series and strategies of a day.

#![forbid(unsafe_code)]
#![deny(warnings)]

mod common;

use assemble::assemble;
use common::{audited, Audited};

fn day(text: &str) -> Vec<u8> {
    assemble(text.as_bytes()).expect("a day")
}

/// Answers from index 0 on, each a text after the index.
fn answers(texts: impl Iterator<Item = String>) -> String {
    let lines = texts.enumerate();
    lines
        .map(|(index, text)| format!("E {index} {text}\n"))
        .collect()
}

/// The audit of frames, each with its answer, the same in both plays.
fn with_answers(frames: &[u8], texts: &[String]) -> Result<Audited, String> {
    let lines = answers(texts.iter().cloned());
    audited(frames, &lines, &format!("{lines}E {} 0 0 0\n", texts.len()))
}

/// The list for so many frames that are accepted and read as refused 3.
fn listed(count: usize) -> Audited {
    let frames = day("bytes 06 00 06 00 20 01").repeat(count);
    with_answers(&frames, &vec!["0 0 0".to_string(); count]).expect("a report")
}

#[test]
fn the_first_thousand_failures_are_listed_and_the_others_counted() {
    let line = |index| format!("day 1, event {index}: accepted, and its frame reads as refused 3");
    for count in [1, 999, 1_000] {
        let all: Vec<String> = (0..count).map(line).collect();
        assert_eq!(listed(count).failures, all);
    }
    for (count, last) in [(1_001, "and 1 more"), (2_500, "and 1500 more")] {
        let report = listed(count);
        let first: Vec<String> = (0..1_000).map(line).collect();
        assert_eq!(report.failures[..1_000], first);
        assert_eq!(report.failures[1_000..], [last]);
        let end = format!("\n  {}\n  {last}\n", line(999));
        assert!(report.text.ends_with(&end), "{count}");
    }
}

/// The list is one for all days.
#[test]
fn failures_of_many_days() {
    let text = "bytes 06 00 06 00 20 01\nday-end timer 1\n";
    let answers = vec!["0 0 0".to_string(); 2 * 1_200];
    let report = with_answers(&day(text).repeat(1_200), &answers).expect("a report");
    assert_eq!(report.text.matches("Day ").count(), 1_200);
    assert_eq!(
        report.failures[999..],
        [
            "day 1000, event 1998: accepted, and its frame reads as refused 3",
            "and 200 more"
        ]
    );
}

#[test]
fn numbers_that_are_given() {
    let order = day("leg-order member 1 buy 1 of series 0 at 3");
    let given = |count: usize, number: &dyn Fn(usize) -> usize| {
        let texts: Vec<String> = (1..=count)
            .map(|at| format!("0 {} 0", number(at)))
            .collect();
        with_answers(&order.repeat(count), &texts)
    };
    let most = given(200_000, &|at| at).expect("a report");
    assert_eq!(most.failures[1_000], "and 199000 more");
    let said = "lines: line 200001: a day of more than 200000 numbers";
    assert_eq!(given(200_001, &|at| at), Err(said.to_string()));
    assert_eq!(given(200_001, &|_| 1), Err(said.to_string()));
}

/// An event with these records, in the first play.
fn with_records(records: &[String]) -> Result<Audited, String> {
    let lines = format!("E 0 0 0 {}\n{}", records.len(), records.concat());
    audited(&day("open 0"), &lines, &format!("{lines}E 1 0 0 0\n"))
}

#[test]
fn numbers_with_records() {
    let records: Vec<String> = (1..=200_001)
        .map(|number| format!("R 3 {number} 0 0 1 0\n"))
        .collect();
    let most = with_records(&records[1..]).expect("a report");
    assert_eq!(most.failures[1_000], "and 199000 more");
    let said = "lines: line 200002: a day of more than 200000 numbers";
    assert_eq!(with_records(&records), Err(said.to_string()));
    // Live: in the second play alone.
    let live = format!("E 0 0 0 0\nE 1 0 0 200001\n{}", records.concat());
    let said = "lines with the day end: line 200003: a day of more than 200000 numbers";
    assert_eq!(
        audited(&day("open 0"), "E 0 0 0 0\n", &live),
        Err(said.to_string())
    );
}

#[test]
fn series() {
    let records: Vec<String> = (0..65)
        .map(|series| format!("R 2 1 {series} 0 1 1\n"))
        .collect();
    assert_eq!(
        with_records(&records[1..])
            .expect("a report")
            .failures
            .len(),
        65
    );
    let said = "lines: line 66: a day of more than 64 series";
    assert_eq!(with_records(&records), Err(said.to_string()));
}

#[test]
fn numbers_by_series() {
    let records: Vec<String> = (0..1_200_001)
        .map(|at| format!("R 2 {} {} 0 1 1\n", at / 60, at % 60))
        .collect();
    assert!(with_records(&records[1..]).is_ok());
    let said = "lines: line 1200002: a day of more than 1200000 numbers by series";
    assert_eq!(with_records(&records), Err(said.to_string()));
}

#[test]
fn strategies() {
    // Each defined twice, and the first of them all again.
    let text = |count: usize| -> String {
        let one = |at: usize| {
            format!(
                "strategy {} buy 1, {} buy 1\n",
                at % 30,
                at % 30 + 1 + at / 30
            )
        };
        (0..count).map(|at| one(at).repeat(2)).collect::<String>() + &one(0)
    };
    let defined = |count: usize, value: &dyn Fn(usize) -> usize| {
        let texts: Vec<String> = (0..=2 * count)
            .map(|at| format!("0 {} 0", value(at)))
            .collect();
        with_answers(&day(&text(count)), &texts)
    };
    let said = "lines: line 65: a day of more than 32 strategies";
    assert_eq!(defined(32, &|_| 0).expect("a report").failures, [""; 0]);
    assert_eq!(defined(33, &|_| 0), Err(said.to_string()));
    let own = |at: usize| if at == 66 { 0 } else { at / 2 };
    assert_eq!(defined(33, &own), Err(said.to_string()));
}

/// Only so much of a line is held that a message can show it.
#[test]
fn a_line_without_an_end() {
    let long = "E 0 0 0 0 ".repeat(100_000);
    let said = "lines: line 1: 'E 0 0 0 0 E 0 0 0 0 E 0 0 0 0 E 0 0 0 ..' is no line of tape";
    assert_eq!(audited(&day("open 0"), &long, ""), Err(said.to_string()));
    let signs = "\u{1b}[31m\u{1f600}".repeat(100);
    match audited(&day("open 0"), &signs, "") {
        Err(wrong) => {
            assert!(wrong.starts_with("lines: line 1: '\\u{1b}[31m\u{1f600}\\u{1b}[31m\u{1f600}"));
            assert!(wrong.ends_with("..' is no line of tape"), "{wrong}");
        }
        other => panic!("{other:?}"),
    }
}
