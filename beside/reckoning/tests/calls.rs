//! Tests of the program `calls`.

#![forbid(unsafe_code)]
#![deny(warnings)]

use reckoning::book::SPACE;
use reckoning::calls::{calls, item, items};
use reckoning::frames::{bytes, Event, Leg};
use reckoning::lists::Input;

/// What is printed for an input.
fn printed(input: &[u8]) -> String {
    let mut lines = Vec::new();
    calls(input, &mut lines).expect("a Vec takes every line");
    String::from_utf8(lines).expect("the lines are ASCII")
}

fn call(frame: &[u8], space: usize) -> Vec<u8> {
    let frame = frame.to_vec();
    item(&Input { frame, space })
}

fn events(list: &[Event]) -> Vec<u8> {
    (list.iter())
        .flat_map(|event| call(&bytes(event), SPACE))
        .collect()
}

fn open(series: u8) -> Event {
    Event::Series { series, state: 1 }
}

fn shut(series: u8) -> Event {
    Event::Series { series, state: 0 }
}

fn strategy(list: &[(u8, u8)]) -> Event {
    let mut legs = [Leg::default(); 6];
    for (leg, (series, side)) in legs.iter_mut().zip(list) {
        *leg = Leg {
            series: *series,
            side: *side,
            ratio: 1,
        };
    }
    Event::Strategy {
        count: list.len() as u8,
        legs,
    }
}

fn leg_order(series: u8, side: u8, contracts: u16, price: u32) -> Event {
    Event::LegOrder {
        member: 7,
        series,
        side,
        contracts,
        price,
    }
}

fn complex_order(side: u8, class: u8, life: u8, units: u16, limit: i32) -> Event {
    Event::Complex {
        member: 9,
        strategy: 0,
        side,
        class,
        life,
        units,
        limit,
    }
}

/// Series 0 and 1 open with both sides, an auction with a sweep in it, strategy
/// 1 with two shut legs, and depth at several prices.
fn auction() -> Vec<Event> {
    vec![
        open(0),
        open(1),
        open(31),
        strategy(&[(0, 0), (1, 1)]),
        strategy(&[(31, 0), (30, 0), (5, 1)]),
        leg_order(0, 0, 5, 300),
        leg_order(0, 0, 4, 300),
        leg_order(0, 0, 9, 299),
        leg_order(0, 1, 6, 306),
        leg_order(0, 1, 7, 305),
        leg_order(1, 1, 8, 100),
        leg_order(31, 1, 3, 99_999),
        complex_order(0, 1, 0, 10, 250),
        Event::Sweep {
            member: 3,
            strategy: 0,
            side: 1,
            units: 6,
            limit: 240,
        },
    ]
}

#[test]
fn the_lookups_after_a_list() {
    let text = printed(&events(&auction()));
    let (calls, lookups): (Vec<&str>, Vec<&str>) =
        (text.lines()).partition(|line| line.starts_with(['E', 'R']));
    assert_eq!(calls.len(), 15);
    assert_eq!(
        calls[12..],
        ["E 12 0 8 1", "R 4 8 0 0 10 250", "E 13 0 9 0"]
    );
    assert_eq!(
        lookups,
        [
            "L 1 5",
            "L 2 4",
            "L 3 9",
            "L 4 6",
            "L 5 7",
            "L 6 8",
            "L 7 3",
            "L 8 10",
            "L 9 6",
            "S 0 0 32",
            "S 1 2 5",
            "N 0 200 -",
            "N 1 - -",
            "D 0 0 300 9",
            "D 0 1 305 7",
            "D 1 1 100 8",
            "D 31 1 99999 3",
        ]
    );
    // What is shut stays in the depth, and its auction ends.
    let mut list = auction();
    list.push(shut(0));
    let text = printed(&events(&list));
    let lookups = text.split_once("R 5 8 0 0 0 0\n").expect("the end").1;
    assert!(lookups.starts_with("L 1 5\n") && !lookups.contains("L 9"));
    assert!(lookups.contains("L 8 10\nS 0 1 0\nS 1 2 5\nN 0 200 -\nN 1 - -\nD 0 0 300 9\n"));
}

#[test]
fn the_list_goes_on_after_a_day_end() {
    let mut list = auction();
    list.push(Event::DayEnd { timer: 100 });
    list.push(open(4));
    list.push(leg_order(4, 1, 2, 50));
    let text = printed(&events(&list));
    assert!(
        text.ends_with("E 15 0 0 0\nE 16 0 1 0\nL 1 2\nD 4 1 50 2\n"),
        "{text}"
    );
}

#[test]
fn refusal_1_comes_before_all_others() {
    let order = bytes(&leg_order(0, 1, 5, 300));
    let mut input = events(&[open(0)]);
    for space in [0, 1, 15_359] {
        input.extend(call(&order, space));
        input.extend(call(&[], space));
        input.extend(call(&[9; 40], space));
    }
    for space in [15_360, 15_361, 65_535] {
        input.extend(call(&order, space));
        input.extend(call(&[], space));
    }
    // The length field is one more than the frame.
    let mut long = order.clone();
    long[0] += 1;
    input.extend(call(&long, SPACE));
    let mut expected = "E 0 0 0 0\n".to_string();
    for index in 1..10 {
        expected += &format!("E {index} 1 0 0\n");
    }
    for (place, number) in [(10, 1), (12, 2), (14, 3)] {
        expected += &format!("E {place} 0 {number} 0\nE {} 2 0 0\n", place + 1);
    }
    expected += "E 16 2 0 0\nL 1 5\nL 2 5\nL 3 5\nD 0 1 300 15\n";
    assert_eq!(printed(&input), expected);
}

#[test]
fn an_input_cut_after_each_byte() {
    let list = [
        open(0),
        leg_order(0, 0, 5, 300),
        strategy(&[(0, 0), (1, 1)]),
    ];
    let mut input = Vec::new();
    let mut ends = vec![0];
    for event in &list {
        input.extend(call(&bytes(event), SPACE));
        ends.push(input.len());
        input.extend(call(&[], 0));
        ends.push(input.len());
    }
    let lines = [
        "E 0 0 0 0",
        "E 1 1 0 0",
        "E 2 0 1 0",
        "E 3 1 0 0",
        "E 4 0 0 0",
        "E 5 1 0 0",
    ];
    for length in 0..=input.len() {
        let whole = ends.iter().filter(|end| **end <= length).count() - 1;
        let mut expected: Vec<&str> = lines[..whole].to_vec();
        if !ends.contains(&length) {
            expected.push("cut");
        }
        if whole >= 3 {
            expected.push("L 1 5");
        }
        if whole >= 5 {
            expected.push("S 0 1 1");
            expected.push("N 0 - -");
        }
        if whole >= 3 {
            expected.push("D 0 0 300 5");
        }
        let text = printed(&input[..length]);
        let found: Vec<&str> = text.lines().collect();
        assert_eq!(found, expected, "cut to {length} bytes");
    }
}

#[test]
fn nothing_is_printed_for_no_item() {
    assert_eq!(printed(&[]), "");
    for input in [&[0][..], &[0, 0, 0], &[255, 255, 255, 255], &[1, 0, 0, 60]] {
        assert_eq!(printed(input), "cut\n");
    }
    assert_eq!(printed(&[0, 0, 0, 0]), "E 0 1 0 0\n");
    assert_eq!(printed(&[0, 0, 0, 60]), "E 0 2 0 0\n");
}

#[test]
fn items_are_read_as_they_were_written() {
    let list: Vec<Input> = [
        (0, 0),
        (1, 15_359),
        (300, 15_360),
        (65_535, 65_535),
        (0, 256),
    ]
    .iter()
    .map(|(length, space)| Input {
        frame: vec![*length as u8; *length],
        space: *space,
    })
    .collect();
    let input: Vec<u8> = list.iter().flat_map(item).collect();
    assert_eq!(items(&input), (list.clone(), false));
    assert_eq!(items(&input[..input.len() - 1]), (list[..4].to_vec(), true));
    assert_eq!(item(&list[2])[..4], [44, 1, 0, 60]);
}
