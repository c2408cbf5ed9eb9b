//! Request 2026-01: each record 1 keeps to the execution range and the national
//! prices known when it was made, and lines where it does not are reported.

#![forbid(unsafe_code)]
#![deny(warnings)]

mod common;

use assemble::assemble;
use common::{audited, Audited};

/// The national offer net is 295 - 100 = 195, so a buyer pays up to 200; the bid net
/// is 290 - 105 = 185, so a seller gets 180 or more. The seller rests, and the
/// market maker buys.
const DAY: &str = "\
open 0
open 1
strategy 0 buy 1, 1 sell 1
national-prices series 0 bid 290 offer 295
national-prices series 1 bid 100 offer 105
execution-range 5
complex-order member 8 market-maker sell 2 of strategy 0 day at 170
complex-order member 9 market-maker buy 2 of strategy 0 day at 300
";

/// Its lines with a fill at this price.
fn lines(price: i64) -> String {
    let opens: String = (0..6).map(|index| format!("E {index} 0 0 0\n")).collect();
    format!(
        "{opens}E 6 0 1 0\nE 7 0 2 6\n\
         R 1 2 0 0 2 {price}\nR 2 2 0 0 2 0\nR 2 2 1 1 2 0\n\
         R 1 1 0 1 2 {price}\nR 2 1 0 1 2 0\nR 2 1 1 0 2 0\n"
    )
}

/// The audit of a day with these lines, which end with nothing live.
fn seen(day: &str, lines: &str) -> Audited {
    let frames = assemble(day.as_bytes()).expect("a day");
    let events = lines.lines().filter(|line| line.starts_with('E')).count();
    let ended = format!("{lines}E {events} 0 0 0\n");
    audited(&frames, lines, &ended).expect("a report")
}

/// The rows of the table of bounded fills, one blank between words.
fn rows(report: &Audited) -> Vec<String> {
    let tables = report
        .text
        .split("Each number with a fill that a national net bounds");
    let words = |line: &str| line.split_whitespace().collect::<Vec<&str>>().join(" ");
    (tables.skip(1))
        .flat_map(|table| table.lines().skip(2).take_while(|line| !line.is_empty()))
        .map(words)
        .collect()
}

/// What does not hold, and the rows, after an edit of the day; the fill is at 200.
fn edited(from: &str, to: &str) -> (Vec<String>, Vec<String>) {
    assert_eq!(DAY.matches(from).count(), 1, "{from}");
    let report = seen(&DAY.replace(from, to), &lines(200));
    let rows = rows(&report);
    (report.failures, rows)
}

#[test]
fn a_fill_between_its_bounds() {
    for price in [180, 190, 200] {
        let report = seen(DAY, &lines(price));
        assert_eq!(report.failures, [""; 0], "{price}");
        assert_eq!(
            rows(&report),
            [
                format!("1 sell 1 {price} 185 5 {} holds", price - 180),
                format!("2 buy 1 {price} 195 5 {} holds", 200 - price),
            ]
        );
    }
}

/// Lines with another price for both parties: cash and limits hold, and the range
/// does not.
#[test]
fn a_planted_price_outside_the_range() {
    let above = "day 1, number 2: filled at 201, above the national offer net 195 + range 5 = 200";
    assert_eq!(seen(DAY, &lines(201)).failures, [above]);
    let below = "day 1, number 1: filled at 179, below the national bid net 185 - range 5 = 180";
    assert_eq!(seen(DAY, &lines(179)).failures, [below]);
    assert_eq!(
        rows(&seen(DAY, &lines(201)))[1],
        "2 buy 1 201 195 5 -1 FAILS"
    );
    assert_eq!(
        rows(&seen(DAY, &lines(179)))[0],
        "1 sell 1 179 185 5 -1 FAILS"
    );
}

/// Each price counts for the side whose net takes it.
#[test]
fn each_price_and_the_range() {
    let buyer = |net, range| {
        format!(
            "day 1, number 2: filled at 200, above the national offer net {net} + range {range} = {}",
            net + range
        )
    };
    for (from, to, said) in [
        ("offer 295", "offer 294", vec![buyer(194, 5)]),
        ("bid 100", "bid 101", vec![buyer(194, 5)]),
        ("range 5", "range 4", vec![buyer(195, 4)]),
        ("range 5", "range 0", vec![buyer(195, 0)]),
        ("offer 295", "offer 296", vec![]),
        ("bid 100", "bid 99", vec![]),
        ("range 5", "range 6", vec![]),
        // Those of the seller, who gets 20 more than the bid net less the range.
        ("bid 290", "bid 295", vec![]),
        ("offer 105", "offer 100", vec![]),
    ] {
        assert_eq!(edited(from, to).0, said, "{from} -> {to}");
    }
    let seller = edited("bid 290 offer 295", "bid 311 offer 311");
    assert_eq!(
        seller.0,
        ["day 1, number 1: filled at 200, below the national bid net 206 - range 5 = 201"]
    );
}

/// "A missing national net bounds nothing": each net by the prices that it takes.
#[test]
fn missing_prices() {
    let both = ["1 sell 1 200 185 5 20 holds", "2 buy 1 200 195 5 0 holds"];
    assert_eq!(edited("series 0 ", "series 0 ").1, both);
    for (from, to, left) in [
        ("offer 295", "offer none", &both[..1]),
        ("bid 100", "bid none", &both[..1]),
        ("bid 290", "bid none", &both[1..]),
        ("offer 105", "offer none", &both[1..]),
        ("bid 290 offer 295", "bid none offer none", &[]),
        ("prices series 1", "prices series 2", &[]),
    ] {
        let (failures, rows) = edited(from, to);
        assert_eq!(failures, [""; 0], "{from} -> {to}");
        assert_eq!(rows, left, "{from} -> {to}");
    }
}

/// "prices known when it was made": the last accepted ones before the event.
#[test]
fn the_last_that_were_accepted_before() {
    // A refused event sets nothing: the offer is missing, the range 9,999.
    for (event, row) in [
        ("E 3", None),
        ("E 5", Some("2 buy 1 201 195 9999 9993 holds")),
    ] {
        let lines = lines(201).replace(&format!("{event} 0"), &format!("{event} 14"));
        let report = seen(DAY, &lines);
        assert_eq!(report.failures, [""; 0], "{event}");
        assert_eq!(rows(&report).get(1).map(String::as_str), row, "{event}");
    }
    // Set anew before the fill, in the place of the range: both prices are others.
    let (failures, rows) = edited(
        "execution-range 5",
        "national-prices series 0 bid 290 offer none",
    );
    assert_eq!(failures, [""; 0]);
    assert_eq!(rows, ["1 sell 1 200 185 9999 10014 holds"]);
    // After the fill it is too late, and so it is in the event itself.
    let after = format!("{DAY}execution-range 0\n");
    let report = seen(&after, &format!("{}E 8 0 0 0\n", lines(200)));
    assert_eq!(report.failures, [""; 0]);
    let own_lines = lines(200).replace("E 7 0 2 6\n", "E 7 0 2 0\nE 8 0 0 6\n");
    assert_eq!(seen(&after, &own_lines).failures, [""; 0]);
}

/// "Ratios are divided by their greatest common divisor".
#[test]
fn ratios_and_sides() {
    // 3 x 295 - 2 x 100 = 685, 3 x 290 - 2 x 105 = 660; units of 3 and 2 contracts.
    let day = DAY.replace("0 buy 1, 1 sell 1", "1 sell 8, 0 buy 12");
    let legs = |price| {
        (lines(price).replace("0 0 2 0\n", "0 0 6 0\n"))
            .replace("0 1 2 0\n", "0 1 6 0\n")
            .replace("1 1 2 0\n", "1 1 4 0\n")
            .replace("1 0 2 0\n", "1 0 4 0\n")
    };
    let day = day.replace("day at 300", "day at 999");
    assert_eq!(seen(&day, &legs(690)).failures, [""; 0]);
    assert_eq!(
        seen(&day, &legs(691)).failures,
        ["day 1, number 2: filled at 691, above the national offer net 685 + range 5 = 690"]
    );
    assert_eq!(
        seen(&day, &legs(654)).failures,
        ["day 1, number 1: filled at 654, below the national bid net 660 - range 5 = 655"]
    );
    // Two sell legs: the offer net is -290 - 100 = -390, the bid net -295 - 105 = -400.
    let day = DAY.replace("0 buy 1, 1 sell 1", "0 sell 1, 1 sell 1");
    let day = day.replace("day at 170", "day at -999");
    let report = seen(&day, &lines(-384));
    assert_eq!(
        rows(&report),
        [
            "1 sell 1 -384 -400 5 21 holds",
            "2 buy 1 -384 -390 5 -1 FAILS"
        ]
    );
}

/// Each fill is held to what was known when it was made; of several the worst is
/// shown.
#[test]
fn several_fills_of_a_number() {
    let (start, _) = DAY.split_once("complex-order member 9").expect("it");
    let start = start.replace("sell 2 of", "sell 6 of");
    let buys = "complex-order member 9 market-maker buy 2 of strategy 0 day at 300\n";
    let day = format!("{start}{buys}execution-range 50\n{buys}execution-range 5\n{buys}");
    let fill = |number: u32, price: i64| {
        format!(
            "R 1 {number} 0 0 2 {price}\nR 2 {number} 0 0 2 0\nR 2 {number} 1 1 2 0\n\
             R 1 1 0 1 2 {price}\nR 2 1 0 1 2 0\nR 2 1 1 0 2 0\n"
        )
    };
    let before = lines(0).replace(&fill(2, 0), "").replace("E 7 0 2 6\n", "");
    let played = |prices: [i64; 3]| {
        let [one, two, three] = prices;
        let lines = format!(
            "{before}E 7 0 2 6\n{}E 8 0 0 0\nE 9 0 3 6\n{}E 10 0 0 0\nE 11 0 4 6\n{}",
            fill(2, one),
            fill(3, two),
            fill(4, three)
        );
        seen(&day, &lines)
    };
    let report = played([200, 245, 180]);
    assert_eq!(report.failures, [""; 0]);
    assert_eq!(
        rows(&report),
        [
            "1 sell 3 180 185 5 0 holds",
            "2 buy 1 200 195 5 0 holds",
            "3 buy 1 245 195 50 0 holds",
            "4 buy 1 180 195 5 20 holds",
        ]
    );
    assert_eq!(
        played([245, 201, 245]).failures,
        [
            "day 1, number 2: filled at 245, above the national offer net 195 + range 5 = 200",
            "day 1, number 4: filled at 245, above the national offer net 195 + range 5 = 200",
        ]
    );
    assert_eq!(
        played([200, 170, 175]).failures,
        ["day 1, number 1: filled at 175, below the national bid net 185 - range 5 = 180"]
    );
}

/// The strategy and the side are those that the number entered with, not those of
/// the record; of a number that did not enter, the record's own.
#[test]
fn whose_bound_it_is() {
    let above = "day 1, number 2: filled at 201, above the national offer net 195 + range 5 = 200";
    let elsewhere = lines(201).replace("R 1 2 0 0 2 201", "R 1 2 7 0 2 201");
    assert_eq!(seen(DAY, &elsewhere).failures, [above]);
    let other_side = lines(201).replace("R 1 2 0 0 2 201", "R 1 2 0 1 2 201");
    let report = seen(DAY, &other_side);
    assert!(report.failures.contains(&above.to_string()));
    assert_eq!(rows(&report)[1], "2 buy 1 201 195 5 -1 FAILS");
    let unknown = lines(201).replace("E 7 0 2 6\n", "E 7 0 9 6\n");
    let failures = seen(DAY, &unknown).failures;
    assert!(failures.contains(&above.to_string()), "{failures:?}");
    // A side that is none, a strategy that no event answered.
    for place in ["0 2", "7 0"] {
        let record = format!("R 1 2 {place} 2 201");
        let report = seen(DAY, &unknown.replace("R 1 2 0 0 2 201", &record));
        assert_eq!(rows(&report).len(), 1, "{place}");
    }
}

/// A day end gives a fresh book: "misses all", and "has 9,999".
#[test]
fn a_day_end_takes_all_away() {
    let order = "complex-order member 8";
    let (start, orders) = DAY.split_once(order).expect("it");
    let start = start.replace(
        "execution-range 5\n",
        "execution-range 5\nday-end timer 1\n",
    );
    let again = "open 0\nopen 1\nstrategy 0 buy 1, 1 sell 1\n";
    let later = |prices: &str| {
        let events = 10 + prices.lines().count();
        let opens: String = (0..events).map(|at| format!("E {at} 0 0 0\n")).collect();
        let fill = lines(300)
            .split_once("E 7 0 2 6\n")
            .expect("it")
            .1
            .to_string();
        let lines = format!("{opens}E {events} 0 1 0\nE {} 0 2 6\n{fill}", events + 1);
        seen(&format!("{start}{again}{prices}{order}{orders}"), &lines)
    };
    let report = later("");
    assert_eq!((report.failures.len(), rows(&report).len()), (0, 0));
    let prices =
        "national-prices series 0 bid 290 offer 295\nnational-prices series 1 bid 100 offer 105\n";
    let report = later(prices);
    assert_eq!(
        rows(&report),
        [
            "1 sell 1 300 185 9999 10114 holds",
            "2 buy 1 300 195 9999 9894 holds"
        ]
    );
    assert_eq!(
        later(&format!("{prices}execution-range 104\n")).failures,
        ["day 2, number 2: filled at 300, above the national offer net 195 + range 104 = 299"]
    );
}
