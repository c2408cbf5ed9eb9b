//! The sentences, each with the records that it tells.

#![forbid(unsafe_code)]
#![deny(warnings)]

mod reader;
mod teller;

use assemble::plural::counted;
use teller::words;

/// Numbers 1 to 4 are leg orders, 5 to 7 complex orders, 8 a sweep; then a clock.
const DAY: &str = "\
leg-order member 1 buy 20 of series 0 at 300
leg-order member 1 sell 20 of series 0 at 305
leg-order member 2 buy 20 of series 1 at 100
leg-order member 3 sell 20 of series 1 at 103
complex-order member 20 customer buy 9 of strategy 0 day at 94
complex-order member 21 broker-dealer sell 9 of strategy 0 immediate at 94
complex-order member 22 market-maker buy 9 of strategy 0 response at 94
sweep member 30 sell 9 of strategy 0 at 94
clock 5
";

/// The lines of that day with these records of the clock.
fn lines(records: &[&str]) -> String {
    let mut lines: Vec<String> = (0..8).map(|at| format!("E {at} 0 {} 0", at + 1)).collect();
    lines.push(format!("E 8 0 0 {}", records.len()));
    lines.extend(records.iter().map(|record| format!("R {record}")));
    lines.join("\n") + "\n"
}

/// What is said of the records of the clock. They turn back.
fn said(records: &[&str]) -> Vec<String> {
    let lines = lines(records);
    let words = words(DAY, lines.as_bytes());
    assert_eq!(
        reader::lines(&words).map(|lines| String::from_utf8_lossy(&lines).into_owned()),
        Ok(lines)
    );
    let after = words.split_once("  event 8: accepted\n").expect("it").1;
    let told = after.split_once("totals of day 1").expect("totals").0;
    told.lines().map(|line| line[2..].to_string()).collect()
}

/// Records, and the sentences.
const SENTENCES: &[(&[&str], &[&str])] = &[
    (
        &["4 5 0 0 9 94"],
        &["auction begun in strategy 0 by number 5 (customer order, member 20): buys 9 units, limit 94"],
    ),
    (
        &["4 6 255 1 1 -94"],
        &["auction begun in strategy 255 by number 6 (broker-dealer order, member 21): sells 1 unit, limit -94"],
    ),
    (
        &["5 5 3 0 0 0"],
        &["auction of number 5 (customer order, member 20) in strategy 3 ended"],
    ),
    (
        &["3 8 0 1 3 0"],
        &["number 8 (sweep, member 30): 3 units of strategy 0 to sell are cancelled"],
    ),
    (
        &["3 1 0 0 1 0"],
        &["number 1 (leg order, member 1): 1 contract of series 0 to buy is cancelled"],
    ),
    // Whole with whole.
    (
        &["1 5 0 0 3 99", "2 5 0 0 3 0", "2 5 1 1 6 0", "1 8 0 1 3 99", "2 8 0 1 3 0", "2 8 1 0 6 0"],
        &["number 5 (customer order, member 20) buys 3 units of strategy 0 at net 99 from number 8 (sweep, member 30): series 0 buy 3, series 1 sell 6, no leg prices"],
    ),
    // With leg prices, of which one is 0, a negative net and one unit.
    (
        &["1 6 0 1 1 -7", "2 6 0 1 1 0", "2 6 1 0 2 5", "1 7 0 0 1 -7", "2 7 0 0 1 0", "2 7 1 1 2 5"],
        &["number 6 (broker-dealer order, member 21) sells 1 unit of strategy 0 at net -7 to number 7 (market-maker order, member 22): series 0 sell 1 at 0, series 1 buy 2 at 5"],
    ),
    // Whole with the legs.
    (
        &["1 6 0 1 4 94", "2 6 0 1 4 300", "2 6 1 0 8 103", "2 1 0 0 4 300", "2 4 1 1 8 103"],
        &["number 6 (broker-dealer order, member 21) sells 4 units of strategy 0 at net 94 to the legs: series 0 sell 4 at 300 to number 1 (leg order, member 1), series 1 buy 8 at 103 from number 4 (leg order, member 3)"],
    ),
    // Several leg orders on a leg.
    (
        &["1 5 0 0 4 9", "2 5 0 0 4 300", "2 5 1 1 8 103", "2 1 0 1 1 300", "2 2 0 1 3 300", "2 3 1 0 2 103", "2 4 1 0 5 103", "2 1 1 0 1 103"],
        &["number 5 (customer order, member 20) buys 4 units of strategy 0 at net 9 from the legs: series 0 buy 4 at 300, 1 from number 1 (leg order, member 1) and 3 from number 2 (leg order, member 1), series 1 sell 8 at 103, 2 to number 3 (leg order, member 2) and 5 to number 4 (leg order, member 3) and 1 to number 1 (leg order, member 1)"],
    ),
    // One on a leg, and several of the same size on the other.
    (
        &["1 6 0 1 3 98", "2 6 0 1 6 100", "2 6 1 0 3 102", "2 1 0 0 3 100", "2 3 0 0 3 100", "2 4 1 1 3 102"],
        &["number 6 (broker-dealer order, member 21) sells 3 units of strategy 0 at net 98 to the legs: series 0 sell 6 at 100, 3 to number 1 (leg order, member 1) and 3 to number 3 (leg order, member 2), series 1 buy 3 at 102 from number 4 (leg order, member 3)"],
    ),
    // Leg orders alone, two trades.
    (
        &["2 1 0 0 5 300", "2 2 0 1 5 300", "2 1 0 0 2 301", "2 4 0 1 2 301"],
        &[
            "number 1 (leg order, member 1) buys 5 of series 0 at 300 from number 2 (leg order, member 1)",
            "number 1 (leg order, member 1) buys 2 of series 0 at 301 from number 4 (leg order, member 3)",
        ],
    ),
    // A number that never entered.
    (
        &["1 77 0 0 3 99", "2 77 0 0 3 0", "1 8 0 1 3 99", "2 8 0 1 3 0"],
        &["number 77 (never entered) buys 3 units of strategy 0 at net 99 from number 8 (sweep, member 30): series 0 buy 3, no leg prices"],
    ),
    (
        &["3 77 0 0 3 0"],
        &["record 3, cancelled: number 77 (never entered), place 0, side 0, quantity 3, price 0"],
    ),
    // Two fills in a row, an end and a cancel.
    (
        &["1 5 0 0 3 9", "2 5 0 0 3 0", "1 8 0 1 3 9", "2 8 0 1 3 0", "1 5 0 0 1 9", "2 5 0 0 1 0", "1 6 0 1 1 9", "2 6 0 1 1 0", "3 7 0 0 9 0", "5 5 0 0 0 0"],
        &[
            "number 5 (customer order, member 20) buys 3 units of strategy 0 at net 9 from number 8 (sweep, member 30): series 0 buy 3, no leg prices",
            "number 5 (customer order, member 20) buys 1 unit of strategy 0 at net 9 from number 6 (broker-dealer order, member 21): series 0 buy 1, no leg prices",
            "number 7 (market-maker order, member 22): 9 units of strategy 0 to buy are cancelled",
            "auction of number 5 (customer order, member 20) in strategy 0 ended",
        ],
    ),
];

#[test]
fn each_fill_cancel_and_auction_is_a_sentence() {
    for (records, sentences) in SENTENCES {
        assert_eq!(said(records), *sentences);
    }
}

/// Records that are no fill of document 01: each is told by itself.
const ALONE: &[&[&str]] = &[
    // The other side's whole fill is missing, has another net, place or side.
    &["1 5 0 0 3 99", "2 5 0 0 3 0"],
    &["1 5 0 0 3 99", "2 5 0 0 3 0", "1 8 0 1 3 98", "2 8 0 1 3 0"],
    &["1 5 0 0 3 99", "2 5 0 0 3 0", "1 8 1 1 3 99", "2 8 0 1 3 0"],
    &["1 5 0 0 3 99", "2 5 0 0 3 0", "1 8 0 0 3 99", "2 8 0 1 3 0"],
    &["1 5 0 0 3 99", "2 5 0 0 3 0", "1 8 0 1 2 99", "2 8 0 1 3 0"],
    &["1 5 0 0 3 99", "2 5 0 0 3 0", "1 5 0 1 3 99", "2 5 0 1 3 0"],
    // Its leg fill is of another series, side, size or price, or missing.
    &["1 5 0 0 3 99", "2 5 0 0 3 0", "1 8 0 1 3 99", "2 8 1 1 3 0"],
    &["1 5 0 0 3 99", "2 5 0 0 3 0", "1 8 0 1 3 99", "2 8 0 0 3 0"],
    &["1 5 0 0 3 99", "2 5 0 0 3 0", "1 8 0 1 3 99", "2 8 0 1 2 0"],
    &["1 5 0 0 3 99", "2 5 0 0 3 0", "1 8 0 1 3 99", "2 8 0 1 3 5"],
    &["1 5 0 0 3 99", "2 5 0 0 3 0", "1 8 0 1 3 99"],
    &["1 5 0 0 3 99", "2 5 0 0 3 0", "1 8 0 1 3 99", "2 6 0 1 3 0"],
    // No leg fills, a leg order's whole fill, a fill of nothing, another side.
    &["1 5 0 0 3 99", "1 8 0 1 3 99"],
    &["1 1 0 0 3 99", "2 1 0 0 3 0", "1 8 0 1 3 99", "2 8 0 1 3 0"],
    &["1 5 0 0 0 99", "2 5 0 0 0 0", "1 8 0 1 0 99", "2 8 0 1 0 0"],
    &[
        "1 5 0 2 3 99",
        "2 5 0 0 3 0",
        "1 8 0 -1 3 99",
        "2 8 0 1 3 0",
    ],
    &["1 5 0 0 0 99", "2 5 0 0 3 0", "1 8 0 1 0 99", "2 8 0 1 3 0"],
    &["2 1 0 0 0 300", "2 2 0 1 0 300"],
    &["2 1 0 0 -5 300", "2 2 0 1 -5 300"],
    &[
        "1 6 0 1 4 94",
        "2 6 0 1 4 300",
        "2 1 0 0 0 300",
        "2 3 0 0 4 300",
    ],
    // Legs that do not add up, of another price, or of a complex order.
    &["1 6 0 1 4 94", "2 6 0 1 4 300", "2 1 0 0 3 300"],
    &["1 6 0 1 4 94", "2 6 0 1 4 300", "2 1 0 0 5 300"],
    &["1 6 0 1 4 94", "2 6 0 1 4 300", "2 1 0 0 4 301"],
    &["1 6 0 1 4 94", "2 6 0 1 4 300", "2 5 0 0 4 300"],
    // A trade with itself, of a complex order, of another price.
    &["2 1 0 0 5 300", "2 1 0 1 5 300"],
    &["2 5 0 0 5 300", "2 2 0 1 5 300"],
    &["2 1 0 0 5 300", "2 2 0 1 5 301"],
    &["2 1 0 0 5 300"],
    // Numbers where zeros stand, and sides that are none.
    &["3 8 1 1 3 0"],
    &["3 8 0 1 3 5"],
    &["3 8 0 2 3 0"],
    &["4 5 0 2 9 94"],
    &["5 5 0 1 0 0"],
    &["5 5 0 0 1 0"],
    &["5 5 0 0 0 1"],
    &["6 5 0 0 0 1"],
    &["0 0 0 0 0 0"],
    &["-1 -2 -3 -4 -5 -6"],
];

#[test]
fn what_fits_no_sentence_is_told_record_by_record() {
    for records in ALONE {
        let said = said(records);
        assert_eq!(said.len(), records.len(), "{said:?}");
        for (sentence, record) in said.iter().zip(*records) {
            let kind = record.split(' ').next().expect("a kind");
            assert!(
                sentence.starts_with(&format!("record {kind}, ")),
                "{sentence}"
            );
        }
        let lines = lines(records);
        let told = format!("\n  {} told one by one\n", counted(records.len(), "record"));
        assert!(words(DAY, lines.as_bytes()).contains(&told), "{told}");
    }
}

/// Each kind of record by itself, with its name.
#[test]
fn plain_sentences() {
    let cases = [
        ("1 5 0 0 3 99", "record 1, whole fill: number 5 (customer order, member 20), place 0, side 0, quantity 3, price 99"),
        ("2 4 1 1 3 99", "record 2, leg fill: number 4 (leg order, member 3), place 1, side 1, quantity 3, price 99"),
        ("3 8 1 1 3 0", "record 3, cancelled: number 8 (sweep, member 30), place 1, side 1, quantity 3, price 0"),
        ("4 9 0 7 3 0", "record 4, auction begun: number 9 (never entered), place 0, side 7, quantity 3, price 0"),
        ("5 5 0 1 3 0", "record 5, auction ended: number 5 (customer order, member 20), place 0, side 1, quantity 3, price 0"),
        ("6 5 0 1 3 0", "record 6, of no known kind: number 5 (customer order, member 20), place 0, side 1, quantity 3, price 0"),
    ];
    for (record, sentence) in cases {
        assert_eq!(said(&[record]), [sentence]);
    }
}

/// The whole text of a day and of its lines.
fn tells(day: &str, lines: &str, told: &str) {
    let words = words(day, lines.as_bytes());
    assert_eq!(words, told);
    assert_eq!(reader::lines(&words), Ok(lines.as_bytes().to_vec()));
}

#[test]
fn values_and_counts_that_do_not_follow_are_said() {
    tells(
        "clock 1\nleg-order member 1 buy 2 of series 0 at 3 # so\nleg-order member 4 sell 5 of series 6 at 7\nopen 0\n",
        "E 0 0 9 0\nE 1 0 1 2\nE 2 0 1 0\nE 5 6 3 1\nR 5 1 0 0 0 0\n",
        "\
line 1: clock 1
  event 0: accepted; value 9
line 2: leg-order member 1 buy 2 of series 0 at 3
  event 1: accepted, number 1; counts 2 records
line 3: leg-order member 4 sell 5 of series 6 at 7
  event 2: accepted, number 1; given before
line 4: open 0
  event 5: refused 6, the series of a leg order is not open; value 3
  auction of number 1 (leg order, member 4) in strategy 0 ended
totals of day 1, events 0 to 3
  3 events accepted, 1 refused: 1 with 6
  0 auctions begun, 1 ended
  no fills
  no cancels
  cash in cents: 0 paid, 0 received
  live: number 1 (leg order, member 4): 5 contracts of series 6 to sell
",
    );
}

/// What kinds 9 and 10 set is said where they are accepted.
#[test]
fn national_prices_and_the_execution_range() {
    tells(
        "\
national-prices series 0 bid 295 offer 310
national-prices series 31 bid none offer 0
execution-range 25
bytes 0d 00 09 00 07 01 00 00 00 00 00 00 00 06 00 0a 00 0f 27
national-prices series 0 bid 310 offer 295
execution-range 0
",
        "E 0 0 0 0\nE 1 0 0 0\nE 2 0 0 0\nE 3 0 0 0\nE 4 0 0 0\nE 5 14 0 0\nE 6 0 4 1\n",
        "\
line 1: national-prices series 0 bid 295 offer 310
  event 0: accepted, national prices of series 0: bid 295, offer 310
line 2: national-prices series 31 bid none offer 0
  event 1: accepted, national prices of series 31: bid none, offer none
line 3: execution-range 25
  event 2: accepted, execution range 25
line 4: bytes 0d 00 09 00 07 01 00 00 00 00 00 00 00 06 00 0a 00 0f 27
  event 3 (national-prices series 7 bid 1 offer none): accepted, national prices of series 7: bid 1, offer none
line 4, from its byte 14 on
  event 4 (execution-range 9999): accepted, execution range 9999
line 5: national-prices series 0 bid 310 offer 295
  event 5: refused 14, the national bid of series 0, 310, is above its national offer, 295
line 6: execution-range 0
  event 6: accepted, execution range 0; value 4; counts 1 records
totals of day 1, events 0 to 6
  6 events accepted, 1 refused: 1 with 14
  no auctions
  no fills
  no cancels
  cash in cents: 0 paid, 0 received
  nothing is live
",
    );
    // A frame that cannot be read says nothing that is set.
    tells(
        "bytes 04 00 09 00",
        "E 0 0 0 0\n",
        "\
line 1: bytes 04 00 09 00
  event 0: accepted
totals of day 1, event 0
  1 event accepted, none refused
  no auctions
  no fills
  no cancels
  cash in cents: 0 paid, 0 received
  nothing is live
",
    );
}

/// Whom kind 11 names is said where it is accepted.
#[test]
fn the_specialist_of_a_strategy() {
    tells(
        "\
strategy 0 buy 1, 1 sell 1
specialist member 7 strategy 0 percentage 40
specialist member 65535 strategy 0 percentage 0
specialist member 7 strategy 1 percentage 100
bytes 08 00 0b 00 08 00 00 64 08 00 0b 00 08 00 00 65
specialist member 9 strategy 0 percentage 1
",
        "E 0 0 0 0\nE 1 0 0 0\nE 2 0 0 0\nE 3 4 0 0\nE 4 0 0 0\nE 5 3 0 0\nE 6 0 5 1\n",
        "\
line 1: strategy 0 buy 1, 1 sell 1
  event 0: accepted, strategy 0
line 2: specialist member 7 strategy 0 percentage 40
  event 1: accepted, specialist of strategy 0: member 7, 40 per cent
line 3: specialist member 65535 strategy 0 percentage 0
  event 2: accepted, specialist of strategy 0: member 65535, 0 per cent
line 4: specialist member 7 strategy 1 percentage 100
  event 3: refused 4, strategy 1 is not defined
line 5: bytes 08 00 0b 00 08 00 00 64 08 00 0b 00 08 00 00 65
  event 4 (specialist member 8 strategy 0 percentage 100): accepted, specialist of strategy 0: member 8, 100 per cent
line 5, from its byte 9 on
  event 5: refused 3, a field of this frame of kind 11, specialist, is outside its range
line 6: specialist member 9 strategy 0 percentage 1
  event 6: accepted, specialist of strategy 0: member 9, 1 per cent; value 5; counts 1 records
totals of day 1, events 0 to 6
  5 events accepted, 2 refused: 1 with 3, 1 with 4
  no auctions
  no fills
  no cancels
  cash in cents: 0 paid, 0 received
  nothing is live
",
    );
    // A frame that cannot be read names nobody.
    tells(
        "bytes 04 00 0b 00",
        "E 0 0 0 0\n",
        "\
line 1: bytes 04 00 0b 00
  event 0: accepted
totals of day 1, event 0
  1 event accepted, none refused
  no auctions
  no fills
  no cancels
  cash in cents: 0 paid, 0 received
  nothing is live
",
    );
}

#[test]
fn numbers_begin_anew_after_a_day_end() {
    tells(
        "leg-order member 1 buy 2 of series 0 at 3\nday-end timer 1\nclock 1\nday-end timer 1\n",
        "E 0 0 1 0\nE 1 0 0 1\nR 3 1 0 0 2 0\nE 2 0 0 1\nR 5 1 0 0 0 0\nE 3 3 0 0\n",
        "\
line 1: leg-order member 1 buy 2 of series 0 at 3
  event 0: accepted, number 1
line 2: day-end timer 1
  event 1: accepted
  number 1 (leg order, member 1): 2 contracts of series 0 to buy are cancelled
totals of day 1, events 0 to 1
  2 events accepted, none refused
  no auctions
  no fills
  1 cancel: 1 of leg orders (2 contracts)
  cash in cents: 0 paid, 0 received
  nothing is live
line 3: clock 1
  event 2: accepted
  auction of number 1 (never entered) in strategy 0 ended
line 4: day-end timer 1
  event 3: refused 3, a field of this frame of kind 8, day end, is outside its range
totals of day 2, events 2 to 3
  1 event accepted, 1 refused: 1 with 3
  0 auctions begun, 1 ended
  no fills
  no cancels
  cash in cents: 0 paid, 0 received
  nothing is live
",
    );
}

#[test]
fn frames_that_are_no_line_of_their_own() {
    tells(
        "bytes 06 00 06 00 00 01 08 00\nbytes 07 00\nopen 4\nbytes 03 00 # stop\nopen 5\n",
        "E 0 0 0 0\nE 1 3 0 0\nE 2 2 0 0\n",
        "\
line 1: bytes 06 00 06 00 00 01 08 00
  event 0 (open 0): accepted
line 1, from its byte 7 on
line 2: bytes 07 00
line 3: open 4
  event 1 (lines 1 to 3 as one frame: clock 393222): refused 3, a field of this frame of kind 7, clock, is outside its range
line 3, from its byte 5 on
  event 2: refused 2, its length field is 260, past the end of the input
line 4: bytes 03 00
  not played
line 5: open 5
  not played
totals of day 1, events 0 to 2
  1 event accepted, 2 refused: 1 with 2, 1 with 3
  no auctions
  no fills
  no cancels
  cash in cents: 0 paid, 0 received
  nothing is live
",
    );
}

#[test]
fn what_tape_does_not_play_is_said() {
    tells(
        "open 0\nbytes 03 00 06\nopen 1\nopen 2\n",
        "E 0 0 0 0\nE 1 2 0 0\n",
        "\
line 1: open 0
  event 0: accepted
line 2: bytes 03 00 06
  event 1: refused 2, its length field is 3, under 4
line 3: open 1
  not played
line 4: open 2
  not played
totals of day 1, events 0 to 1
  1 event accepted, 1 refused: 1 with 2
  no auctions
  no fills
  no cancels
  cash in cents: 0 paid, 0 received
  nothing is live
",
    );
    // Fewer events than the day has, and more.
    tells(
        "open 0\nopen 1\n",
        "E 0 0 0 0\n",
        "\
line 1: open 0
  event 0: accepted
line 2: open 1
  no answer came
totals of day 1, event 0
  1 event accepted, none refused
  no auctions
  no fills
  no cancels
  cash in cents: 0 paid, 0 received
  nothing is live
",
    );
    tells(
        "day-end timer 1\n",
        "R 1 2 3 4 5 6\nE 0 0 0 0\nE 1 0 3 1\nR 5 6 0 0 0 0\nwhat\x1b\\\nR 1 1 1 1 1 1\nE 2 4",
        "\
tape prints: R 1 2 3 4 5 6
line 1: day-end timer 1
  event 0: accepted
totals of day 1, event 0
  1 event accepted, none refused
  no auctions
  no fills
  no cancels
  cash in cents: 0 paid, 0 received
  nothing is live
past the last event of the day
  event 1: accepted; value 3
  auction of number 6 (never entered) in strategy 0 ended
tape prints: what\\u{1b}\\\\
tape prints: R 1 1 1 1 1 1
tape prints without a line's end: E 2 4
totals of day 2, event 1
  1 event accepted, none refused
  0 auctions begun, 1 ended
  no fills
  no cancels
  cash in cents: 0 paid, 0 received
  nothing is live
",
    );
}

#[test]
fn totals() {
    let lines = lines(&[
        "1 5 0 0 3 99",
        "2 5 0 0 3 0",
        "2 5 1 1 6 0",
        "1 8 0 1 3 99",
        "2 8 0 1 3 0",
        "2 8 1 0 6 0",
        "1 6 0 1 4 94",
        "2 6 0 1 4 300",
        "2 6 1 0 8 103",
        "2 1 0 0 4 300",
        "2 4 1 1 8 103",
        "2 1 0 0 5 300",
        "2 2 0 1 5 300",
        "4 5 0 0 9 94",
        "3 8 0 1 6 0",
        "3 6 0 1 7 0",
        "3 4 0 1 1 0",
    ]);
    let words = words(DAY, lines.as_bytes());
    let totals = words.split_once("totals of day 1").expect("totals").1;
    // Paid: 3 x 99 + 4 x 300 + 5 x 300. Received: 3 x 99 + 4 x 94 + 8 x 103 + 5 x 300.
    let due = ", events 0 to 8
  9 events accepted, none refused
  1 auction begun, 0 ended
  3 fills: 1 of whole with whole (3 units), 1 of whole with the legs (4 units), 1 of leg orders alone (5 contracts)
  3 cancels: 2 of complex orders and sweeps (13 units), 1 of leg orders (1 contract)
  series 0: 12 contracts bought, 12 sold
  series 1: 14 contracts bought, 14 sold
  cash in cents: 2997 paid, 2997 received
  live: number 1 (leg order, member 1): 11 contracts of series 0 to buy
  live: number 2 (leg order, member 1): 15 contracts of series 0 to sell
  live: number 3 (leg order, member 2): 20 contracts of series 1 to buy
  live: number 4 (leg order, member 3): 11 contracts of series 1 to sell
  live: number 5 (customer order, member 20): 6 units of strategy 0 to buy
  live: number 6 (broker-dealer order, member 21): -2 units of strategy 0 to sell
  live: number 7 (market-maker order, member 22): 9 units of strategy 0 to buy
";
    assert_eq!(totals, due);
}

#[test]
fn a_long_line_is_cut() {
    let day = format!("bytes {}", "00 ".repeat(500));
    let words = words(&day, b"E 0 2 0 0\n");
    let first = words.lines().next().expect("a line");
    assert_eq!(first.chars().count(), "line 1: ".len() + 120);
    assert!(first.ends_with(".."), "{first}");
}

/// More records than an event can have: those past a bound are told as lines.
#[test]
fn an_event_without_an_end_of_records() {
    let count = 70_000;
    let lines = format!("E 0 0 0 {count}\n{}", "R 5 1 0 0 0 0\n".repeat(count));
    let words = words("clock 1", lines.as_bytes());
    assert!(words.contains("\n  event 0: accepted; counts 70000 records\n"));
    assert!(words.contains("\ntape prints: R 5 1 0 0 0 0\n"));
    assert!(reader::lines(&words) == Ok(lines.into_bytes()));
}
