//! The words of each refusal.

#![forbid(unsafe_code)]
#![deny(warnings)]

mod reader;
mod teller;

use teller::words;

/// A line of a day, a refusal of it, and the words.
const CAUSES: &[(&str, i64, &str)] = &[
    ("open 0", 1, "the record space is under 15,360 numbers"),
    ("bytes 03 00 00 00", 2, "its length field is 3, under 4"),
    (
        "bytes ff 00 00 00",
        2,
        "its length field is 255, past the end of the input",
    ),
    ("bytes 04", 2, "it is a lone last byte"),
    ("bytes 04 00 0c 00", 2, "kind 12 is unknown"),
    ("bytes 08 00 0b 01 07 00 00 28", 2, "kind 267 is unknown"),
    ("bytes 04 00 00 01", 2, "kind 256 is unknown"),
    (
        "bytes 05 00 06 00 00",
        2,
        "5 bytes are a wrong length for kind 6, series",
    ),
    (
        "bytes 04 00 01 00",
        2,
        "4 bytes are a wrong length for kind 1, strategy",
    ),
    (
        "bytes 04 00 09 00",
        2,
        "4 bytes are a wrong length for kind 9, national prices",
    ),
    (
        "bytes 0e 00 09 00 00*10",
        2,
        "14 bytes are a wrong length for kind 9, national prices",
    ),
    (
        "bytes 0d 00 0a 00 00*9",
        2,
        "13 bytes are a wrong length for kind 10, execution range",
    ),
    (
        "bytes 04 00 0b 00",
        2,
        "4 bytes are a wrong length for kind 11, specialist",
    ),
    (
        "bytes 09 00 0b 00 07 00 00 28 00",
        2,
        "9 bytes are a wrong length for kind 11, specialist",
    ),
    (
        "bytes 06 00 06 00 20 01",
        3,
        "a field of this frame of kind 6, series, is outside its range",
    ),
    (
        "bytes 06 00 0a 00 10 27",
        3,
        "a field of this frame of kind 10, execution range, is outside its range",
    ),
    (
        "bytes 08 00 0b 00 07 00 00 65",
        3,
        "a field of this frame of kind 11, specialist, is outside its range",
    ),
    ("bytes 04 00 0c 00", 3, "a field is outside its range"),
    (
        "complex-order member 1 customer buy 1 of strategy 3 day at 5",
        4,
        "strategy 3 is not defined",
    ),
    (
        "sweep member 1 buy 1 of strategy 15 at 5",
        4,
        "strategy 15 is not defined",
    ),
    (
        "specialist member 7 strategy 9 percentage 40",
        4,
        "strategy 9 is not defined",
    ),
    (
        "bytes 08 00 0b 00 ff ff 0f 64",
        4,
        "strategy 15 is not defined",
    ),
    // A specialist's frame that cannot be read, and an event without a strategy.
    (
        "bytes 08 00 0b 00 07 00 10 28",
        4,
        "the strategy is not defined",
    ),
    ("clock 1", 4, "the strategy is not defined"),
    (
        "strategy 0 buy 1, 7 sell 2, 7 sell 1",
        5,
        "series 7 stands twice",
    ),
    ("strategy 9 buy 1, 9 sell 4", 5, "series 9 stands twice"),
    (
        "strategy 0 buy 2, 1 sell 7, 2 buy 3",
        5,
        "the largest ratio, 7, is over 3 times the smallest, 2",
    ),
    (
        "strategy 0 buy 1, 1 sell 3",
        5,
        "a series twice, or the largest ratio over 3 times the smallest",
    ),
    (
        "leg-order member 1 buy 5 of series 31 at 9",
        6,
        "series 31 is not open",
    ),
    ("clock 1", 6, "the series of a leg order is not open"),
    (
        "cancel member 8 number 12",
        7,
        "member 8 has no live complex or leg order with number 12",
    ),
    (
        "clock 1",
        7,
        "no live complex or leg order of that member and number",
    ),
    (
        "cancel member 8 number 12",
        8,
        "number 12 is the starter of a running auction",
    ),
    ("clock 1", 8, "cancel of a running auction's starter"),
    (
        "sweep member 1 buy 1 of strategy 2 at 5",
        9,
        "a sweep, and no auction runs in strategy 2",
    ),
    (
        "complex-order member 1 customer buy 1 of strategy 3 response at 5",
        9,
        "a response, and no auction runs in strategy 3",
    ),
    (
        "clock 1",
        9,
        "a sweep or response, and no auction runs in the strategy",
    ),
    (
        "sweep member 4 sell 0 of strategy 2 at -5",
        10,
        "0 units, and member 4 has no sweep to sell strategy 2 at -5",
    ),
    ("clock 1", 10, "a sweep of 0 units with none to remove"),
    ("clock 99", 11, "clock 99 is below the last accepted one"),
    ("open 0", 11, "the clock is below the last accepted one"),
    (
        "strategy 0 buy 1, 1 sell 3",
        12,
        "the table of strategies is full",
    ),
    (
        "complex-order member 1 customer buy 1 of strategy 3 day at 5",
        12,
        "the table of complex orders is full",
    ),
    (
        "sweep member 1 buy 1 of strategy 2 at 5",
        12,
        "the table of sweeps is full",
    ),
    (
        "leg-order member 1 buy 5 of series 31 at 9",
        12,
        "the table of leg orders is full",
    ),
    ("clock 1", 12, "the table needed is full"),
    (
        "leg-order member 1 buy 5 of series 31 at 9",
        13,
        "a new order number is due and 100,000 were given",
    ),
    (
        "national-prices series 7 bid 310 offer 295",
        14,
        "the national bid of series 7, 310, is above its national offer, 295",
    ),
    (
        "bytes 0d 00 09 00 1f 9f 86 01 00 01 00 00 00",
        14,
        "the national bid of series 31, 99999, is above its national offer, 1",
    ),
    (
        "clock 1",
        14,
        "a national bid above a national offer, neither 0",
    ),
    (
        "sweep member 4 buy 3 of strategy 2 at 94",
        15,
        "a buy at 94, not above the bid net of strategy 2",
    ),
    (
        "sweep member 4 sell 3 of strategy 15 at -105",
        15,
        "a sell at -105, not below the offer net of strategy 15",
    ),
    (
        "bytes 0e 00 03 00 01 00 07 00 01 00 81 69 67 ff",
        15,
        "a buy at -9999999, not above the bid net of strategy 7",
    ),
    // A sweep that cannot be read, and an event that is none.
    (
        "bytes 0e 00 03 00 01 00 07 02 01 00 00 00 00 00",
        15,
        "a sweep that does not better the leg net of its own side",
    ),
    (
        "complex-order member 1 customer sell 1 of strategy 3 day at 5",
        15,
        "a sweep that does not better the leg net of its own side",
    ),
    ("clock 1", 16, "no cause is known for this number"),
    ("clock 1", -1, "no cause is known for this number"),
];

#[test]
fn each_refusal_has_its_words() {
    for (line, refusal, cause) in CAUSES {
        let lines = format!("E 0 {refusal} 0 0\n");
        let words = words(line, lines.as_bytes());
        let said = format!("refused {refusal}, {cause}");
        let told = words.lines().nth(1).expect("an event");
        assert!(told.starts_with("  event 0"), "{told}");
        assert!(told.ends_with(&format!(": {said}")), "{line}: {told}");
        assert_eq!(reader::lines(&words), Ok(lines.into_bytes()), "{line}");
    }
    for refusal in 1..=15 {
        assert!(CAUSES.iter().any(|(_, known, _)| *known == refusal));
    }
}

#[test]
fn refusals_are_counted_in_the_totals() {
    let day = "open 0\n".repeat(5);
    let lines = "E 0 0 0 0\nE 1 6 0 0\nE 2 2 0 0\nE 3 6 0 0\nE 4 0 0 0\n";
    let words = words(&day, lines.as_bytes());
    assert!(
        words.contains("\n  2 events accepted, 3 refused: 1 with 2, 2 with 6\n"),
        "{words}"
    );
}
