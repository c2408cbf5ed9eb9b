//! Tests of the program `tape`.

#![forbid(unsafe_code)]
#![deny(warnings)]

use reckoning::frames::{bytes, Event, Leg};
use reckoning::tape::tape;

/// The events of document 01's worked example.
fn example() -> Vec<u8> {
    let mut legs = [Leg::default(); 6];
    legs[0] = Leg {
        series: 0,
        side: 0,
        ratio: 1,
    };
    legs[1] = Leg {
        series: 1,
        side: 1,
        ratio: 1,
    };
    [
        Event::Series {
            series: 0,
            state: 1,
        },
        Event::Series {
            series: 1,
            state: 1,
        },
        Event::Strategy { count: 2, legs },
        Event::LegOrder {
            member: 7,
            series: 0,
            side: 1,
            contracts: 5,
            price: 300,
        },
        Event::LegOrder {
            member: 7,
            series: 1,
            side: 0,
            contracts: 5,
            price: 100,
        },
        Event::Complex {
            member: 9,
            strategy: 0,
            side: 0,
            class: 3,
            life: 1,
            units: 2,
            limit: 200,
        },
    ]
    .iter()
    .flat_map(bytes)
    .collect()
}

const EXPECTED: &str = "E 0 0 0 0
E 1 0 0 0
E 2 0 0 0
E 3 0 1 0
E 4 0 2 0
E 5 0 3 5
R 1 3 0 0 2 200
R 2 3 0 0 2 300
R 2 3 1 1 2 100
R 2 1 0 1 2 300
R 2 2 1 0 2 100
";

fn printed(input: &[u8]) -> String {
    let mut output = Vec::new();
    tape(input, &mut output).expect("a Vec takes every line");
    String::from_utf8(output).expect("the lines are ASCII")
}

#[test]
fn worked_example_of_the_paper() {
    assert_eq!(printed(&example()), EXPECTED);
}

#[test]
fn an_empty_input_prints_nothing() {
    assert_eq!(printed(&[]), "");
}

#[test]
fn a_bad_length_prints_refusal_2_and_stops() {
    let stop = format!("{EXPECTED}E 6 2 0 0\n");
    for tail in [
        &[1u8][..],
        &[0, 0],
        &[3, 0, 6],
        &[3, 0, 6, 0, 0, 1],
        &[6, 0],
        &[6, 0, 6, 0, 0],
        &[255, 255, 6, 0, 0, 1],
    ] {
        let mut input = example();
        input.extend(tail);
        assert_eq!(printed(&input), stop);
    }
}

#[test]
fn any_other_refusal_goes_on() {
    let mut input = vec![4, 0, 12, 0, 5, 0, 6, 0, 0, 6, 0, 6, 0, 32, 1];
    input.extend([6, 0, 6, 0, 0, 1]);
    assert_eq!(
        printed(&input),
        "E 0 2 0 0\nE 1 2 0 0\nE 2 3 0 0\nE 3 0 0 0\n"
    );
}
