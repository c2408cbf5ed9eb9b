//! Request 2026-03: each sweep that entered bettered the leg net of its own side at its
//! arrival, or that net was unknown; lines where it did not are reported.

#![forbid(unsafe_code)]
#![deny(warnings)]

mod common;

use assemble::assemble;
use common::{audited, Audited};

/// A line of a day with what `tape` prints for it: answer and value, then its records,
/// a comma before each.
type Played<'a> = (&'a str, &'a str);

/// The leg markets are 300/305 and 100/103: the bid net is 300 - 2 x 103 = 94, the
/// offer net 305 - 2 x 100 = 105. An auction runs.
const START: [Played; 8] = [
    ("open 0", "0 0"),
    ("open 1", "0 0"),
    ("strategy 0 buy 1, 1 sell 2", "0 0"),
    ("leg-order member 1 buy 5 of series 0 at 300", "0 1"),
    ("leg-order member 1 sell 5 of series 0 at 305", "0 2"),
    ("leg-order member 1 buy 5 of series 1 at 100", "0 3"),
    ("leg-order member 1 sell 5 of series 1 at 103", "0 4"),
    (
        "complex-order member 2 customer buy 9 of strategy 0 day at 104",
        "0 5, R 4 5 0 0 9 104",
    ),
];

/// The audit of these events, with nothing live after them.
fn audit(events: &[Played]) -> Audited {
    let (mut day, mut lines) = (String::new(), String::new());
    for (index, (line, printed)) in events.iter().enumerate() {
        day += &format!("{line}\n");
        let mut parts = printed.split(", ");
        let answer = parts.next().expect("an answer");
        let records: Vec<&str> = parts.collect();
        lines += &format!("E {index} {answer} {}\n", records.len());
        lines.extend(records.iter().map(|record| format!("{record}\n")));
    }
    let frames = assemble(day.as_bytes()).expect("a day");
    let ended = format!("{lines}E {} 0 0 0\n", events.len());
    audited(&frames, &lines, &ended).expect("a report")
}

/// The rows of the tables of sweeps, one blank between words, and what does not hold of
/// sweeps.
fn sweeps(events: &[Played]) -> (Vec<String>, Vec<String>) {
    let report = audit(events);
    let tables = report.text.split("Each sweep: ");
    let words = |line: &str| line.split_whitespace().collect::<Vec<&str>>().join(" ");
    let rows = (tables.skip(1))
        .flat_map(|table| table.lines().skip(2).take_while(|line| !line.is_empty()))
        .map(words)
        .collect();
    let own = |said: &String| said.contains(": a sweep that ");
    (rows, report.failures.into_iter().filter(own).collect())
}

/// The rows after the start and these events.
fn rows(events: &[Played]) -> Vec<String> {
    sweeps(&[&START, events].concat()).0
}

/// The row of a sweep with number 90 at this limit after the start and these events.
fn row(events: &[Played], side: &str, limit: i64) -> String {
    let sweep = format!("sweep member 8 {side} 1 of strategy 0 at {limit}");
    rows(&[events, &[(&sweep, "0 90")]].concat()).concat()
}

/// Both nets after the start and these events, as the rows of a buy and of a sell say
/// them.
fn nets(events: &[Played]) -> [String; 2] {
    ["buy", "sell"].map(|side| {
        let row = row(events, side, 99);
        let net = row.strip_prefix(&format!("90 {side} 99 "));
        let net = net.and_then(|rest| rest.split_once(' '));
        net.expect("a row").0.to_string()
    })
}

#[test]
fn a_limit_at_the_net_and_a_cent_away() {
    for (side, limit, row) in [
        ("buy", 96, "90 buy 96 94 2 holds"),
        ("buy", 95, "90 buy 95 94 1 holds"),
        ("buy", 94, "90 buy 94 94 0 FAILS"),
        ("buy", 93, "90 buy 93 94 -1 FAILS"),
        ("sell", 103, "90 sell 103 105 2 holds"),
        ("sell", 104, "90 sell 104 105 1 holds"),
        ("sell", 105, "90 sell 105 105 0 FAILS"),
        ("sell", 106, "90 sell 106 105 -1 FAILS"),
    ] {
        let sweep = format!("sweep member 8 {side} 1 of strategy 0 at {limit}");
        let events = [&START[..], &[(&sweep, "0 90")]].concat();
        let said = match (side, row.ends_with("holds")) {
            (_, true) => vec![],
            ("buy", _) => vec![format!(
                "day 1, number 90: a sweep that buys at {limit}, not above the bid net 94 of its arrival"
            )],
            _ => vec![format!(
                "day 1, number 90: a sweep that sells at {limit}, not below the offer net 105 of its arrival"
            )],
        };
        assert_eq!(sweeps(&events), (vec![row.to_string()], said));
    }
}

/// The net of its own side alone counts.
#[test]
fn the_net_of_the_other_side() {
    for (side, limit, row) in [
        ("buy", 105, "90 buy 105 94 11 holds"),
        ("buy", 9_999_999, "90 buy 9999999 94 9999905 holds"),
        ("sell", 94, "90 sell 94 105 11 holds"),
        ("sell", -9_999_999, "90 sell -9999999 105 10000104 holds"),
    ] {
        assert_eq!(self::row(&[], side, limit), row);
    }
}

/// Orders that are no sweeps have no row, whatever their limit.
#[test]
fn other_orders() {
    let events = [
        (
            "complex-order member 3 market-maker sell 2 of strategy 0 response at 200",
            "0 6",
        ),
        (
            "complex-order member 3 customer buy 2 of strategy 0 day at -200",
            "0 7",
        ),
    ];
    assert_eq!(rows(&events), [""; 0]);
}

#[test]
fn leg_orders_that_come() {
    assert_eq!(nets(&[]), ["94", "105"]);
    for (line, moved) in [
        ("leg-order member 3 buy 1 of series 0 at 301", ["95", "105"]),
        (
            "leg-order member 3 sell 1 of series 0 at 304",
            ["94", "104"],
        ),
        // 1 contract is less than the ratio: the net is known, ready or not.
        ("leg-order member 3 buy 1 of series 1 at 101", ["94", "103"]),
        (
            "leg-order member 3 sell 1 of series 1 at 102",
            ["96", "105"],
        ),
        // Worse or equal ones, and another series.
        ("leg-order member 3 buy 1 of series 0 at 299", ["94", "105"]),
        ("leg-order member 3 buy 1 of series 0 at 300", ["94", "105"]),
        (
            "leg-order member 3 sell 9 of series 1 at 103",
            ["94", "105"],
        ),
        (
            "leg-order member 3 sell 9 of series 1 at 104",
            ["94", "105"],
        ),
        ("leg-order member 3 buy 9 of series 2 at 999", ["94", "105"]),
    ] {
        assert_eq!(nets(&[(line, "0 6")]), moved, "{line}");
        assert_eq!(nets(&[(line, "12 0")]), ["94", "105"], "{line}, refused");
    }
    // A sell that would have bettered 105.
    let better = [("leg-order member 3 buy 1 of series 1 at 101", "0 6")];
    assert_eq!(row(&better, "sell", 103), "90 sell 103 103 0 FAILS");
    assert_eq!(row(&better, "sell", 102), "90 sell 102 103 1 holds");
}

/// A leg order is live with its contracts less its records 2 and 3.
#[test]
fn leg_orders_that_go() {
    let behind = ("leg-order member 3 buy 7 of series 0 at 298", "0 6");
    for (what, records, left) in [
        ("a part is filled", "R 2 1 0 0 4 300", "94"),
        ("all is filled", "R 2 1 0 0 5 300", "92"),
        ("two fills", "R 2 1 0 0 4 300, R 2 1 0 0 1 300", "92"),
        ("cancelled", "R 3 1 0 0 5 0", "92"),
        ("a part is cancelled", "R 3 1 0 0 4 0", "94"),
        (
            "filled and cancelled",
            "R 2 1 0 0 2 300, R 3 1 0 0 3 0",
            "92",
        ),
        (
            "both",
            "R 2 1 0 0 2 300, R 3 1 0 0 3 0, R 3 6 0 0 7 0",
            "unknown",
        ),
        ("the one behind", "R 3 6 0 0 7 0", "94"),
        ("more than all", "R 2 1 0 0 9 300", "92"),
        // Another number, another kind of record.
        ("another", "R 2 3 1 0 5 100", "94"),
        ("whole fills", "R 1 1 0 0 9 300", "94"),
        ("auctions", "R 4 1 0 0 9 300, R 5 1 0 0 9 0", "94"),
    ] {
        let printed = format!("0 0, {records}");
        let [bid, _] = nets(&[behind, ("clock 1", &printed)]);
        assert_eq!(bid, left, "{what}");
    }
    // The number says which order it is, whatever place and side the record has.
    let elsewhere = [behind, ("clock 1", "0 0, R 2 1 9 1 5 300")];
    assert_eq!(nets(&elsewhere)[0], "92");
    // A fill that is made up for: the order is live again.
    let again = [
        behind,
        ("clock 1", "0 0, R 2 1 0 0 5 300, R 2 1 0 0 -1 300"),
    ];
    assert_eq!(nets(&again)[0], "94");
}

/// A leg order that trades as it comes: what rests of it counts, and nothing else.
#[test]
fn leg_orders_that_trade_as_they_come() {
    let part = "0 6, R 2 6 0 1 5 300, R 2 1 0 0 5 300";
    let line = "leg-order member 3 sell 8 of series 0 at 300";
    assert_eq!(nets(&[(line, part)]), ["unknown", "100"]);
    let whole = "0 6, R 2 6 0 1 3 300, R 2 1 0 0 3 300";
    let line = "leg-order member 3 sell 3 of series 0 at 300";
    assert_eq!(nets(&[(line, whole)]), ["94", "105"]);
    // By legs with a complex order, of which only the leg orders' records count.
    let legs =
        "0 7, R 1 7 0 1 2 94, R 2 7 0 1 2 300, R 2 7 1 0 4 103, R 2 1 0 0 5 300, R 2 4 1 1 4 103";
    let line = "complex-order member 4 market-maker sell 2 of strategy 0 immediate at 94";
    assert_eq!(nets(&[(line, legs)]), ["unknown", "105"]);
}

/// "Where that net is unknown, every price betters it": each net by the prices that it
/// takes.
#[test]
fn unknown_nets() {
    for (record, left) in [
        ("R 3 1 0 0 5 0", ["unknown", "105"]),
        ("R 3 2 0 1 5 0", ["94", "unknown"]),
        ("R 3 3 0 0 5 0", ["94", "unknown"]),
        ("R 3 4 0 1 5 0", ["unknown", "105"]),
    ] {
        let printed = format!("0 0, {record}");
        let gone = [("clock 1", &printed[..])];
        assert_eq!(nets(&gone), left, "{record}");
        for (side, net, limit) in [("buy", left[0], -9_999_999), ("sell", left[1], 9_999_999)] {
            if net == "unknown" {
                let known = format!("90 {side} {limit} unknown - holds");
                assert_eq!(row(&gone, side, limit), known);
            }
        }
    }
    let all = "0 0, R 3 1 0 0 5 0, R 3 2 0 1 5 0, R 3 3 0 0 5 0, R 3 4 0 1 5 0";
    assert_eq!(nets(&[("clock 1", all)]), ["unknown", "unknown"]);
}

/// "Sweeps already in are not looked at again when the legs move."
#[test]
fn legs_that_move_later() {
    let events = [
        ("sweep member 8 sell 4 of strategy 0 at 104", "0 6"),
        ("leg-order member 3 buy 5 of series 1 at 102", "0 7"),
        ("sweep member 9 sell 4 of strategy 0 at 104", "0 8"),
        ("clock 1", "0 0, R 3 2 0 1 5 0"),
        ("sweep member 10 sell 4 of strategy 0 at 104", "0 9"),
        ("clock 5000", "0 0, R 1 6 0 1 4 104, R 1 5 0 0 4 104"),
    ];
    assert_eq!(
        rows(&events),
        [
            "6 sell 104 105 1 holds",
            "8 sell 104 101 -3 FAILS",
            "9 sell 104 unknown - holds",
        ]
    );
    // What its own event says of leg orders comes after its arrival.
    let own = [(
        "sweep member 8 buy 4 of strategy 0 at 94",
        "0 6, R 3 1 0 0 5 0",
    )];
    assert_eq!(rows(&own), ["6 buy 94 94 0 FAILS"]);
}

/// A sweep that replaces one is looked at like any other; 0 units enter nothing, and a
/// refused one does not.
#[test]
fn replaced_withdrawn_and_refused() {
    let first = ("sweep member 8 sell 4 of strategy 0 at 104", "0 6");
    let moved = ("leg-order member 3 buy 5 of series 1 at 101", "0 7");
    let again = "sweep member 8 sell 7 of strategy 0 at 104";
    let in_time = [first, (again, "0 7, R 3 6 0 1 4 0")];
    assert_eq!(
        rows(&in_time),
        ["6 sell 104 105 1 holds", "7 sell 104 105 1 holds"]
    );
    let late = [first, moved, (again, "0 8, R 3 6 0 1 4 0")];
    assert_eq!(
        sweeps(&[&START[..], &late].concat()),
        (
            vec![
                "6 sell 104 105 1 holds".to_string(),
                "8 sell 104 103 -1 FAILS".to_string()
            ],
            vec![
                "day 1, number 8: a sweep that sells at 104, not below the offer net 103 of its arrival".to_string()
            ]
        )
    );
    let refused = [first, moved, (again, "15 0")];
    assert_eq!(rows(&refused), ["6 sell 104 105 1 holds"]);
    let withdrawn = "sweep member 8 sell 0 of strategy 0 at 104";
    let withdrawn = [first, moved, (withdrawn, "0 0, R 3 6 0 1 4 0")];
    assert_eq!(rows(&withdrawn), ["6 sell 104 105 1 holds"]);
    // A number for 0 units is no withdrawal.
    let numbered = ("sweep member 8 sell 0 of strategy 0 at 105", "0 6");
    assert_eq!(rows(&[numbered]), ["6 sell 105 105 0 FAILS"]);
}

/// "Ratios are divided by their greatest common divisor"; a net may be below 0.
#[test]
fn ratios_and_nets_below_0() {
    let of = |legs: &str, sweep: &str| {
        let legs = format!("strategy {legs}");
        let mut events = START.to_vec();
        events.push((&legs, "0 1"));
        events.push((sweep, "0 90"));
        sweeps(&events).0.concat()
    };
    // 3 x 300 - 2 x 103 = 694, 3 x 305 - 2 x 100 = 715.
    let ratios = "1 sell 8, 0 buy 12";
    for (sweep, row) in [
        ("buy 1 of strategy 1 at 695", "90 buy 695 694 1 holds"),
        ("buy 1 of strategy 1 at 694", "90 buy 694 694 0 FAILS"),
        ("sell 1 of strategy 1 at 714", "90 sell 714 715 1 holds"),
        ("sell 1 of strategy 1 at 715", "90 sell 715 715 0 FAILS"),
    ] {
        assert_eq!(of(ratios, &format!("sweep member 8 {sweep}")), row);
    }
    // Both legs are sold: -305 - 3 x 103 = -614, -300 - 3 x 100 = -600.
    let sold = "0 sell 2, 1 sell 6";
    for (sweep, row) in [
        ("buy 1 of strategy 1 at -613", "90 buy -613 -614 1 holds"),
        ("buy 1 of strategy 1 at -614", "90 buy -614 -614 0 FAILS"),
        ("sell 1 of strategy 1 at -601", "90 sell -601 -600 1 holds"),
        ("sell 1 of strategy 1 at -600", "90 sell -600 -600 0 FAILS"),
        (
            "sell 1 of strategy 1 at 600",
            "90 sell 600 -600 -1200 FAILS",
        ),
    ] {
        assert_eq!(of(sold, &format!("sweep member 8 {sweep}")), row);
    }
    // A net of 0 is known: 300 - 300.
    let mut events = START.to_vec();
    events.extend([
        ("leg-order member 3 sell 1 of series 2 at 300", "0 6"),
        ("strategy 0 buy 1, 2 sell 1", "0 1"),
        ("sweep member 8 buy 1 of strategy 1 at 0", "0 7"),
        ("sweep member 8 buy 1 of strategy 1 at 1", "0 8"),
        ("sweep member 8 sell 1 of strategy 1 at 0", "0 9"),
    ]);
    assert_eq!(
        sweeps(&events).0,
        [
            "7 buy 0 0 0 FAILS",
            "8 buy 1 0 1 holds",
            "9 sell 0 unknown - holds"
        ]
    );
}

/// A day end takes the leg orders away, and the strategies.
#[test]
fn a_new_day() {
    let mut events = START.to_vec();
    events.push(("sweep member 8 buy 1 of strategy 0 at 94", "0 6"));
    events.push(("day-end timer 5000", "0 0"));
    events.extend(&START[..4]);
    events.push(("sweep member 8 buy 1 of strategy 0 at 94", "0 2"));
    events.push(("leg-order member 1 sell 5 of series 1 at 104", "0 3"));
    events.push(("sweep member 8 buy 1 of strategy 0 at 93", "0 4"));
    events.push(("sweep member 8 buy 1 of strategy 0 at 92", "0 5"));
    assert_eq!(
        sweeps(&events),
        (
            [
                "6 buy 94 94 0 FAILS",
                "2 buy 94 unknown - holds",
                "4 buy 93 92 1 holds",
                "5 buy 92 92 0 FAILS"
            ]
            .map(str::to_string)
            .to_vec(),
            vec![
                "day 1, number 6: a sweep that buys at 94, not above the bid net 94 of its arrival"
                    .to_string(),
                "day 2, number 5: a sweep that buys at 92, not above the bid net 92 of its arrival"
                    .to_string(),
            ]
        )
    );
    let none = "no sweep entered\n";
    assert!(audit(&START).text.contains(none));
    assert!(!audit(&events).text.contains(none));
}

/// Lines that are wrong in more than one way: numbers given twice, records before their
/// number enters, a strategy that is answered for two or for none.
#[test]
fn other_wrong_lines() {
    // Two leg orders with one number: each is held to its records.
    let twice = [
        ("leg-order member 3 buy 9 of series 0 at 302", "0 1"),
        ("clock 1", "0 0, R 2 1 0 0 5 300"),
    ];
    assert_eq!(nets(&twice[..1])[0], "96");
    assert_eq!(nets(&twice)[0], "96");
    let gone = [twice[0], ("clock 1", "0 0, R 2 1 0 0 9 300")];
    assert_eq!(nets(&gone)[0], "unknown");
    // Two sweeps with one number: each has its row.
    let sweep = ("sweep member 8 buy 1 of strategy 0 at 94", "0 6");
    let other = ("sweep member 8 buy 1 of strategy 0 at 95", "0 6");
    assert_eq!(
        rows(&[other, sweep]),
        ["6 buy 95 94 1 holds", "6 buy 94 94 0 FAILS"]
    );
    // Filled before it enters.
    let early = [
        ("clock 1", "0 0, R 2 6 0 0 4 301"),
        ("leg-order member 3 buy 5 of series 0 at 301", "0 6"),
        ("clock 1", "0 0, R 2 7 0 0 5 302"),
        ("leg-order member 3 buy 5 of series 0 at 302", "0 7"),
    ];
    assert_eq!(nets(&early)[0], "95");
    // 300 - 103 = 197 as well as 94: the limit has to better both.
    let two = ("strategy 0 buy 1, 1 sell 1", "0 0");
    assert_eq!(row(&[two], "buy", 197), "90 buy 197 197 0 FAILS");
    assert_eq!(row(&[two], "buy", 198), "90 buy 198 197 1 holds");
    assert_eq!(row(&[two], "sell", 105), "90 sell 105 105 0 FAILS");
    assert_eq!(row(&[two], "sell", 104), "90 sell 104 105 1 holds");
    // A strategy that no event has answered yet has no net.
    let none = [
        ("sweep member 8 buy 1 of strategy 3 at 94", "0 6"),
        ("strategy 0 buy 1, 1 sell 2", "0 3"),
        ("sweep member 8 buy 1 of strategy 3 at 94", "0 7"),
    ];
    assert_eq!(
        rows(&none),
        ["6 buy 94 unknown - holds", "7 buy 94 94 0 FAILS"]
    );
}
