//! Each claim of the totals is seen to fail on lines that were tampered with.

#![forbid(unsafe_code)]
#![deny(warnings)]

mod common;

use assemble::assemble;
use common::audited;

const DAY: &str = include_str!("../../../../days/worked-example.txt");
const LINES: &str = include_str!("../../../../days/worked-example.out");
/// What `tape` prints for a day end after the worked example.
const END: &str = "E 6 0 0 2\nR 3 1 0 1 3 0\nR 3 2 0 0 3 0\n";

fn frames(day: &str) -> Vec<u8> {
    assemble(day.as_bytes()).expect("a day")
}

/// What does not hold of the worked example after an edit of its lines, which is
/// in both plays.
fn failures(from: &str, to: &str) -> Vec<String> {
    failures_of(DAY, LINES, END, from, to)
}

fn failures_of(day: &str, lines: &str, end: &str, from: &str, to: &str) -> Vec<String> {
    let ended = format!("{lines}{end}");
    assert_eq!(ended.matches(from).count(), 1, "{from}");
    let lines = lines.replace(from, to);
    let ended = ended.replace(from, to);
    match audited(&frames(day), &lines, &ended) {
        Ok(report) => report.failures,
        Err(wrong) => panic!("{wrong}"),
    }
}

/// Each edit with what is reported, whole.
fn reported(edits: &[(&str, &str, &[&str])]) {
    for (from, to, said) in edits {
        assert_eq!(failures(from, to), *said, "{from} -> {to}");
    }
}

#[test]
fn the_worked_example_holds() {
    assert!(failures("E 6", "E 6").is_empty());
}

#[test]
fn units_of_complex_orders() {
    reported(&[
        // One unit is not reported.
        (
            "E 5 0 3 5\nR 1 3 0 0 2 200\n",
            "E 5 0 3 5\nR 1 3 0 0 1 200\n",
            &[
                "day 1, number 3: entered 2, but filled 1 + cancelled 0 + live 0 = 1",
                "day 1, number 3, series 0: 2 contracts, but ratio 1 x 1 units = 1",
                "day 1, number 3, series 1: 2 contracts, but ratio 1 x 1 units = 1",
                "day 1, cash: paid 400, but received 600",
            ],
        ),
        // A cancelled unit is invented.
        (
            "E 5 0 3 5\n",
            "E 5 0 3 6\nR 3 3 0 0 1 0\n",
            &["day 1, number 3: entered 2, but filled 2 + cancelled 1 + live 0 = 3"],
        ),
        // It is filled, and still live.
        (
            "E 6 0 0 2\n",
            "E 6 0 0 3\nR 3 3 0 0 2 0\n",
            &["day 1, number 3: entered 2, but filled 2 + cancelled 0 + live 2 = 4"],
        ),
    ]);
}

#[test]
fn contracts_of_leg_orders() {
    reported(&[
        // Filled, and the table left as it was.
        (
            "R 3 1 0 1 3 0",
            "R 3 1 0 1 5 0",
            &["day 1, number 1: entered 5, but filled 2 + cancelled 0 + live 5 = 7"],
        ),
        // Forgotten.
        (
            "E 6 0 0 2\nR 3 1 0 1 3 0\n",
            "E 6 0 0 1\n",
            &["day 1, number 1: entered 5, but filled 2 + cancelled 0 + live 0 = 2"],
        ),
        // More than it has.
        (
            "R 2 2 1 0 2 100",
            "R 2 2 1 0 6 100",
            &[
                "day 1, number 2: entered 5, but filled 6 + cancelled 0 + live 3 = 9",
                "day 1, series 1: bought 6, but sold 2",
                "day 1, cash: paid 1000, but received 600",
            ],
        ),
    ]);
}

#[test]
fn other_numbers() {
    reported(&[
        (
            "R 3 2 0 0 3 0",
            "R 3 4 0 0 3 0",
            &[
                "day 1, number 2: entered 5, but filled 2 + cancelled 0 + live 0 = 2",
                "day 1, number 4: did not enter, and has live 3",
            ],
        ),
        (
            "E 5 0 3 5\n",
            "E 5 0 3 6\nR 3 0 0 0 0 0\n",
            &["day 1, number 0: did not enter, and has records 1 to 3: 1"],
        ),
        // A refused event gives no number.
        (
            "E 4 0 2 0",
            "E 4 6 0 0",
            &[
                "day 1, number 2: did not enter, and has records 1 to 3: 1",
                "day 1, number 2: did not enter, and has live 3",
                "day 1, cash: paid 400, but received 600",
            ],
        ),
        // A number given twice: the terms of both are held to its records.
        (
            "E 4 0 2 0",
            "E 4 0 1 0",
            &[
                "day 1, number 2: did not enter, and has records 1 to 3: 1",
                "day 1, number 2: did not enter, and has live 3",
                "day 1, number 1: filled at 300, above its limit 100",
                "day 1, cash: paid 400, but received 600",
            ],
        ),
    ]);
}

/// Two records 1 with the numbers of leg orders, a buy and a sell for the same
/// quantity at one price: every sum stays as it was.
#[test]
fn whole_fills_of_leg_orders() {
    let said: &[&str] = &[
        "day 1, number 1: a leg order, and has records 1: 1",
        "day 1, number 2: a leg order, and has records 1: 1",
    ];
    for price in ["150", "0", "-7", "100", "300", "99999"] {
        let to = format!("E 5 0 3 7\nR 1 2 0 0 4 {price}\nR 1 1 0 1 4 {price}\n");
        assert_eq!(failures("E 5 0 3 5\n", &to), said, "{price}");
    }
    reported(&[
        (
            "E 4 0 2 0\n",
            "E 4 0 2 2\nR 1 1 0 1 1 300\nR 1 1 0 0 1 300\n",
            &["day 1, number 1: a leg order, and has records 1: 2"],
        ),
        (
            "E 5 0 3 5\n",
            "E 5 0 3 6\nR 1 2 1 0 0 100\n",
            &["day 1, number 2: a leg order, and has records 1: 1"],
        ),
    ]);
}

#[test]
fn strategies() {
    let said: &[&str] = &["day 1, number 3: no accepted event of the day defines strategy 0"];
    reported(&[
        ("E 2 0 0 0", "E 2 0 1 0", said),
        ("E 2 0 0 0", "E 2 5 0 0", said),
    ]);
}

#[test]
fn contracts_on_legs() {
    reported(&[
        (
            "R 2 3 0 0 2 300",
            "R 2 3 0 0 3 300",
            &[
                "day 1, number 3, series 0: 3 contracts, but ratio 1 x 2 units = 2",
                "day 1, series 0: bought 3, but sold 2",
            ],
        ),
        // A series outside the strategy.
        (
            "R 2 3 1 1 2 100",
            "R 2 3 7 1 2 100",
            &[
                "day 1, number 3, series 1: 0 contracts, but ratio 1 x 2 units = 2",
                "day 1, number 3, series 7: 2 contracts, but ratio 0 x 2 units = 0",
                "day 1, series 1: bought 2, but sold 0",
                "day 1, series 7: bought 0, but sold 2",
            ],
        ),
        // One party's legs only.
        (
            "E 5 0 3 5\nR 1 3 0 0 2 200\nR 2 3 0 0 2 300\nR 2 3 1 1 2 100\n",
            "E 5 0 3 3\nR 1 3 0 0 2 200\n",
            &[
                "day 1, number 3, series 0: 0 contracts, but ratio 1 x 2 units = 2",
                "day 1, number 3, series 1: 0 contracts, but ratio 1 x 2 units = 2",
                "day 1, series 0: bought 0, but sold 2",
                "day 1, series 1: bought 2, but sold 0",
            ],
        ),
    ]);
}

#[test]
fn ratios_are_in_lowest_terms() {
    let day = DAY.replace("0 buy 1, 1 sell 1", "1 sell 12, 0 buy 12");
    assert!(failures_of(&day, LINES, END, "E 6", "E 6").is_empty());
    let day = DAY.replace("0 buy 1, 1 sell 1", "0 buy 4, 1 sell 6");
    assert_eq!(
        failures_of(&day, LINES, END, "E 6", "E 6"),
        [
            "day 1, number 3, series 0: 2 contracts, but ratio 2 x 2 units = 4",
            "day 1, number 3, series 1: 2 contracts, but ratio 3 x 2 units = 6",
        ]
    );
}

#[test]
fn a_strategy_answered_for_two() {
    let day = DAY.replace("open 1 ", "strategy 0 buy 1, 1 sell 2\nopen 1 ");
    let lines = "E 0 0 0 0\nE 1 0 0 0\nE 2 0 0 0\nE 3 0 0 0\nE 4 0 1 0\nE 5 0 2 0\n";
    let fill = LINES.split_once("E 5 0 3 5\n").expect("the fill").1;
    let lines = format!("{lines}E 6 0 3 5\n{fill}");
    let end = END.replace("E 6", "E 7");
    assert_eq!(
        failures_of(&day, &lines, &end, "E 7", "E 7"),
        ["day 1, number 3, series 1: 2 contracts, but ratio 2 x 2 units = 4"]
    );
}

#[test]
fn bought_and_sold() {
    reported(&[
        (
            "R 2 3 0 0 2 300",
            "R 2 3 0 1 2 300",
            &["day 1, series 0: bought 0, but sold 4"],
        ),
        (
            "R 2 3 1 1 2 100",
            "R 2 3 1 2 2 100",
            &["day 1, series 1: bought 2, but sold 0"],
        ),
    ]);
}

#[test]
fn limits_of_complex_orders() {
    reported(&[(
        "R 1 3 0 0 2 200",
        "R 1 3 0 0 2 201",
        &[
            "day 1, number 3: filled at 201, above its limit 200",
            "day 1, cash: paid 602, but received 600",
        ],
    )]);
    // A seller below 0, of which the first fill alone is worse.
    let day = DAY.replace(
        "market-maker buy 2 of strategy 0 immediate at 200",
        "market-maker sell 2 of strategy 0 immediate at -5",
    );
    let lines = LINES.split_once("E 5").expect("the fill").0;
    let said = |fills: &str| {
        let lines = format!("{lines}E 5 0 3 2\n{fills}");
        failures_of(&day, &lines, END, "E 6", "E 6")
    };
    let worse = said("R 1 3 0 1 1 -6\nR 1 3 0 1 1 -4\n");
    assert!(worse.contains(&"day 1, number 3: filled at -6, below its limit -5".to_string()));
    let not_worse = said("R 1 3 0 1 1 -5\nR 1 3 0 1 1 -4\n");
    assert!(not_worse.iter().all(|said| !said.contains("its limit")));
}

#[test]
fn prices_of_leg_orders() {
    reported(&[
        (
            "R 2 1 0 1 2 300",
            "R 2 1 0 1 2 299",
            &[
                "day 1, number 1: filled at 299, below its limit 300",
                "day 1, cash: paid 600, but received 598",
            ],
        ),
        (
            "R 2 2 1 0 2 100",
            "R 2 2 1 0 2 101",
            &[
                "day 1, number 2: filled at 101, above its limit 100",
                "day 1, cash: paid 602, but received 600",
            ],
        ),
    ]);
}

#[test]
fn cash() {
    reported(&[
        (
            "R 1 3 0 0 2 200",
            "R 1 3 0 0 2 199",
            &["day 1, cash: paid 598, but received 600"],
        ),
        (
            "R 2 1 0 1 2 300",
            "R 2 1 0 1 2 301",
            &["day 1, cash: paid 600, but received 602"],
        ),
        // The price in a complex party's leg fill is no cash.
        ("R 2 3 0 0 2 300", "R 2 3 0 0 2 0", &[]),
        // Totals are of any size.
        (
            "R 1 3 0 0 2 200",
            "R 1 3 0 0 2147483647 -2147483648",
            &[
                "day 1, number 3: entered 2, but filled 2147483647 + cancelled 0 + live 0 = 2147483647",
                "day 1, number 3, series 0: 2 contracts, but ratio 1 x 2147483647 units = 2147483647",
                "day 1, number 3, series 1: 2 contracts, but ratio 1 x 2147483647 units = 2147483647",
                "day 1, cash: paid -4611686016279904056, but received 600",
            ],
        ),
    ]);
}

#[test]
fn events_themselves() {
    reported(&[(
        "E 6 0 0 2\nR 3 1 0 1 3 0\nR 3 2 0 0 3 0\n",
        "E 6 2 0 0\n",
        &[
            "day 1, the day end after the list is refused: what is live is unknown",
            "day 1, number 1: entered 5, but filled 2 + cancelled 0 + live 0 = 2",
            "day 1, number 2: entered 5, but filled 2 + cancelled 0 + live 0 = 2",
        ],
    )]);
    // A quantity below 0 that another makes up for.
    reported(&[(
        "E 5 0 3 5\n",
        "E 5 0 3 7\nR 3 3 0 0 1 0\nR 3 3 0 0 -1 0\n",
        &["day 1, event 5: a record of number 3 has quantity -1"],
    )]);
    // Of several in one event the first.
    reported(&[(
        "E 5 0 3 5\n",
        "E 5 0 3 8\nR 3 3 0 0 3 0\nR 3 3 0 0 -1 0\nR 3 3 0 0 -2 0\n",
        &["day 1, event 5: a record of number 3 has quantity -1"],
    )]);
    // The day end cancels by records 3 alone.
    reported(&[("E 6 0 0 2\n", "E 6 0 0 3\nR 5 1 0 0 9 0\n", &[])]);
    // A frame that the reader refuses.
    let day = "bytes 06 00 06 00 20 01";
    assert_eq!(
        failures_of(day, "E 0 0 0 0\n", "E 1 0 0 0\n", "E 1", "E 1"),
        ["day 1, event 0: accepted, and its frame reads as refused 3"]
    );
    assert!(failures_of(day, "E 0 3 0 0\n", "E 1 0 0 0\n", "E 1", "E 1").is_empty());
}

/// The second play is another: the first event that differs is told.
#[test]
fn plays_that_differ() {
    let frames = frames(DAY);
    for (from, to, event) in [
        ("E 4 0 2 0", "E 4 6 0 0", 4),
        ("E 3 0 1 0", "E 3 0 2 0", 3),
        ("R 1 3 0 0 2 200", "R 1 3 0 0 2 201", 5),
        (
            "E 4 0 2 0\n",
            "E 4 0 2 2\nR 3 2 0 0 1 0\nR 3 2 0 0 1 0\n",
            4,
        ),
        ("E 5 0 3 5\nR 1 3 0 0 2 200\n", "E 5 0 3 4\n", 5),
    ] {
        let other = LINES.replace(from, to);
        assert_ne!(other, LINES);
        let report = audited(&frames, LINES, &format!("{other}{END}")).expect("a report");
        let said = format!("day 1, event {event}: played twice, it differs");
        assert_eq!(report.failures, [said]);
    }
}

/// Each day has its own numbers.
#[test]
fn several_days() {
    let text = format!("{DAY}\nday-end timer 1\n{DAY}");
    let second: String = (LINES.lines())
        .map(|line| match line.strip_prefix("E ") {
            Some(rest) => {
                let (index, rest) = rest.split_once(' ').expect("an index");
                let index: usize = index.parse().expect("a number");
                format!("E {} {rest}\n", index + 7)
            }
            None => format!("{line}\n"),
        })
        .collect();
    let lines = format!("{LINES}{END}{second}");
    let end = END.replace("E 6", "E 13");
    let said = |from: &str, to: &str| failures_of(&text, &lines, &end, from, to);
    assert!(said("E 13", "E 13").is_empty());
    assert_eq!(
        said(
            "E 6 0 0 2\nR 3 1 0 1 3 0\nR 3 2 0 0 3 0\nE 7",
            "E 6 0 0 1\nR 3 1 0 1 3 0\nE 7"
        ),
        ["day 1, number 2: entered 5, but filled 2 + cancelled 0 + live 0 = 2"]
    );
    assert_eq!(
        said("E 13 0 0 2\n", "E 13 0 0 3\nR 3 4 0 0 1 0\n"),
        ["day 2, number 4: did not enter, and has live 1"]
    );
    // What was live yesterday has no record today.
    assert_eq!(
        said("E 7 0 0 0\n", "E 7 0 0 1\nR 3 4 0 0 1 0\n"),
        ["day 2, number 4: did not enter, and has records 1 to 3: 1"]
    );
    // After a last day end nothing is live.
    let text = format!("{DAY}\nday-end timer 1\n");
    let lines = format!("{LINES}{END}");
    let said = |to: &str| failures_of(&text, &lines, "E 7 0 0 0\n", "E 7 0 0 0\n", to);
    assert!(said("E 7 0 0 0\n").is_empty());
    assert_eq!(
        said("E 7 0 0 1\nR 3 1 0 1 3 0\n"),
        ["day 2, number 1: did not enter, and has live 3"]
    );
    // A day without events is printed where the day end after it has records, or
    // is refused.
    let refused = "totals do not hold:\n  \
        day 2, the day end after the list is refused: what is live is unknown";
    for (end, last) in [
        ("E 7 0 0 1\nR 5 1 0 0 0 0\n", "totals hold"),
        ("E 7 2 0 0\n", refused),
    ] {
        let ended = format!("{lines}{end}");
        let report = audited(&frames(&text), &lines, &ended).expect("a report");
        let (_, day) = report.text.split_once("Day 2: ").expect("a second day");
        assert_eq!(
            day,
            format!(
                "0 events from index 7, not ended; live is what a day end would cancel\n\n\
                 No order or sweep entered, and no record 1 to 3 was written.\n\n{last}\n"
            )
        );
    }
}
