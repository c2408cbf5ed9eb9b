//! Tests of the lines of events: their frames, their ranges, and what is said
//! of a bad one.

#![forbid(unsafe_code)]
#![deny(warnings)]

use assemble::assemble;
use assemble::codec::{read, write, Row};

/// Each form, with its frame written by hand from document 01's table, and from
/// requests 2026-01 and 2026-04.
const FRAMES: &[(&str, &[u8])] = &[
    ("open 0", &[6, 0, 6, 0, 0, 1]),
    ("open 31", &[6, 0, 6, 0, 31, 1]),
    ("shut 7", &[6, 0, 6, 0, 7, 0]),
    (
        "strategy 0 buy 1, 1 sell 1",
        &[11, 0, 1, 0, 2, 0, 0, 1, 1, 1, 1],
    ),
    (
        "strategy 31 sell 12, 2 buy 4, 0 buy 6, 3 sell 5, 9 buy 7, 8 buy 11",
        &[
            23, 0, 1, 0, 6, 31, 1, 12, 2, 0, 4, 0, 0, 6, 3, 1, 5, 9, 0, 7, 8, 0, 11,
        ],
    ),
    (
        "leg-order member 7 sell 5 of series 2 at 300",
        &[14, 0, 4, 0, 7, 0, 2, 1, 5, 0, 44, 1, 0, 0],
    ),
    (
        "leg-order member 65535 buy 9999 of series 31 at 99999",
        &[14, 0, 4, 0, 255, 255, 31, 0, 0x0f, 0x27, 0x9f, 0x86, 1, 0],
    ),
    (
        "complex-order member 9 market-maker buy 2 of strategy 4 immediate at 200",
        &[16, 0, 2, 0, 9, 0, 4, 0, 3, 1, 2, 0, 200, 0, 0, 0],
    ),
    (
        "complex-order member 256 customer sell 1 of strategy 15 day at -1",
        &[16, 0, 2, 0, 0, 1, 15, 1, 1, 0, 1, 0, 255, 255, 255, 255],
    ),
    (
        "complex-order member 1 broker-dealer buy 3 of strategy 0 response at 0",
        &[16, 0, 2, 0, 1, 0, 0, 0, 2, 2, 3, 0, 0, 0, 0, 0],
    ),
    (
        "complex-order member 1 customer buy 3 of strategy 0 do-not-auction at 9999999",
        &[16, 0, 2, 0, 1, 0, 0, 0, 1, 3, 3, 0, 0x7f, 0x96, 0x98, 0],
    ),
    (
        "sweep member 3 sell 10 of strategy 2 at -5",
        &[14, 0, 3, 0, 3, 0, 2, 1, 10, 0, 251, 255, 255, 255],
    ),
    (
        "sweep member 3 buy 0 of strategy 2 at 5",
        &[14, 0, 3, 0, 3, 0, 2, 0, 0, 0, 5, 0, 0, 0],
    ),
    (
        "cancel member 9 number 100000",
        &[10, 0, 5, 0, 9, 0, 0xa0, 0x86, 1, 0],
    ),
    ("clock 86400000", &[8, 0, 7, 0, 0, 0x5c, 0x26, 5]),
    ("day-end timer 5000", &[6, 0, 8, 0, 0x88, 0x13]),
    (
        "national-prices series 3 bid 295 offer 310",
        &[13, 0, 9, 0, 3, 0x27, 1, 0, 0, 0x36, 1, 0, 0],
    ),
    (
        "national-prices series 31 bid none offer 99999",
        &[13, 0, 9, 0, 31, 0, 0, 0, 0, 0x9f, 0x86, 1, 0],
    ),
    (
        "national-prices series 0 bid 1 offer none",
        &[13, 0, 9, 0, 0, 1, 0, 0, 0, 0, 0, 0, 0],
    ),
    // A bid above the offer is a frame; the book refuses it.
    (
        "national-prices series 0 bid 310 offer 295",
        &[13, 0, 9, 0, 0, 0x36, 1, 0, 0, 0x27, 1, 0, 0],
    ),
    ("execution-range 25", &[6, 0, 10, 0, 25, 0]),
    ("execution-range 9999", &[6, 0, 10, 0, 0x0f, 0x27]),
    (
        "specialist member 7 strategy 3 percentage 40",
        &[8, 0, 11, 0, 7, 0, 3, 40],
    ),
    (
        "specialist member 65535 strategy 15 percentage 100",
        &[8, 0, 11, 0, 255, 255, 15, 100],
    ),
    (
        "specialist member 256 strategy 0 percentage 0",
        &[8, 0, 11, 0, 0, 1, 0, 0],
    ),
];

#[test]
fn each_form_has_its_frame() {
    for (line, frame) in FRAMES {
        assert_eq!(assemble(line.as_bytes()), Ok(frame.to_vec()), "{line}");
    }
}

#[test]
fn a_text_is_the_frames_of_its_lines() {
    let text: Vec<&str> = FRAMES.iter().map(|(line, _)| *line).collect();
    let frames: Vec<u8> = FRAMES
        .iter()
        .flat_map(|(_, frame)| frame.to_vec())
        .collect();
    assert_eq!(assemble(text.join("\n").as_bytes()), Ok(frames.clone()));
    // With blanks, comments and the line ends of another system.
    let wide = text.join(" # so, and so\r\n\r\n\t# nothing\r\n  ");
    let wide = wide.replace(' ', " \t ").replace("buy", "  buy");
    assert_eq!(assemble(wide.as_bytes()), Ok(frames));
}

#[test]
fn commas_stand_with_or_without_blanks() {
    let frame = Ok(vec![11, 0, 1, 0, 2, 0, 0, 1, 1, 1, 1]);
    for line in [
        "strategy 0 buy 1,1 sell 1",
        "strategy 0 buy 1 ,1 sell 1",
        "strategy 0 buy 1 , 1 sell 1",
    ] {
        assert_eq!(assemble(line.as_bytes()), frame, "{line}");
    }
}

/// Each number of each form as `@`, with its name and its range in document 01 or
/// in requests 2026-01 and 2026-04.
const RANGES: &[(&str, &str, i64, i64)] = &[
    ("open @", "series", 0, 31),
    ("shut @", "series", 0, 31),
    ("strategy @ buy 1, 1 buy 1", "series", 0, 31),
    ("strategy 0 buy @, 1 buy 1", "ratio", 1, 12),
    ("strategy 0 buy 1, @ sell 1", "series", 0, 31),
    ("strategy 0 buy 1, 1 sell @", "ratio", 1, 12),
    (
        "strategy 0 buy 1, 1 buy 1, 2 buy 1, 3 buy 1, 4 buy 1, @ buy 1",
        "series",
        0,
        31,
    ),
    (
        "strategy 0 buy 1, 1 buy 1, 2 buy 1, 3 buy 1, 4 buy 1, 5 buy @",
        "ratio",
        1,
        12,
    ),
    (
        "leg-order member @ buy 1 of series 0 at 1",
        "member",
        1,
        65_535,
    ),
    (
        "leg-order member 1 buy @ of series 0 at 1",
        "contracts",
        1,
        9_999,
    ),
    (
        "leg-order member 1 sell 1 of series @ at 1",
        "series",
        0,
        31,
    ),
    (
        "leg-order member 1 sell 1 of series 0 at @",
        "price",
        1,
        99_999,
    ),
    (
        "complex-order member @ customer buy 1 of strategy 0 day at 1",
        "member",
        1,
        65_535,
    ),
    (
        "complex-order member 1 customer buy @ of strategy 0 day at 1",
        "units",
        1,
        9_999,
    ),
    (
        "complex-order member 1 customer buy 1 of strategy @ day at 1",
        "strategy",
        0,
        15,
    ),
    (
        "complex-order member 1 customer buy 1 of strategy 0 day at @",
        "limit",
        -9_999_999,
        9_999_999,
    ),
    (
        "sweep member @ buy 1 of strategy 0 at 1",
        "member",
        1,
        65_535,
    ),
    ("sweep member 1 buy @ of strategy 0 at 1", "units", 0, 9_999),
    ("sweep member 1 buy 1 of strategy @ at 1", "strategy", 0, 15),
    (
        "sweep member 1 buy 1 of strategy 0 at @",
        "limit",
        -9_999_999,
        9_999_999,
    ),
    ("cancel member @ number 1", "member", 1, 65_535),
    ("cancel member 1 number @", "number", 1, 100_000),
    ("clock @", "milliseconds", 0, 86_400_000),
    ("day-end timer @", "timer", 1, 5_000),
    ("national-prices series @ bid 1 offer 2", "series", 0, 31),
    ("national-prices series 0 bid @ offer 2", "bid", 0, 99_999),
    (
        "national-prices series 0 bid none offer @",
        "offer",
        0,
        99_999,
    ),
    ("execution-range @", "cents", 0, 9_999),
    (
        "specialist member @ strategy 0 percentage 40",
        "member",
        1,
        65_535,
    ),
    (
        "specialist member 1 strategy @ percentage 40",
        "strategy",
        0,
        15,
    ),
    (
        "specialist member 1 strategy 0 percentage @",
        "percentage",
        0,
        100,
    ),
];

#[test]
fn every_number_has_its_range_and_beyond_it_the_line_is_named() {
    for (form, name, low, high) in RANGES {
        for value in [*low, low + 1, high - 1, *high] {
            let line = form.replace('@', &value.to_string());
            assert!(assemble(line.as_bytes()).is_ok(), "{line}");
        }
        let mut beyond: Vec<String> = [
            low - 1,
            high + 1,
            high + 65_536,
            high + (1 << 32),
            low - (1 << 32),
            i64::MIN,
            i64::MAX,
        ]
        .map(|value| value.to_string())
        .to_vec();
        beyond.extend(["9".repeat(40), format!("-{}", "9".repeat(39))]);
        for value in beyond {
            let text = format!("open 0\n\n{}\nopen 1\n", form.replace('@', &value));
            let said = format!("{name} {value} is outside its range, {low} to {high}");
            assert_eq!(assemble(text.as_bytes()), Err(vec![(3, said)]), "{text}");
        }
    }
}

#[test]
fn a_strategy_has_2_to_6_legs() {
    for count in 1..=9 {
        let legs: Vec<String> = (0..count).map(|leg| format!("{leg} buy 1")).collect();
        let line = format!("strategy {}", legs.join(", "));
        let result = assemble(line.as_bytes());
        if (2..=6).contains(&count) {
            assert_eq!(result.map(|frame| frame.len()), Ok(5 + 3 * count));
        } else {
            let said = format!("leg count {count} is outside its range, 2 to 6");
            assert_eq!(result, Err(vec![(1, said)]));
        }
    }
}

/// Bad lines, with a part of what is said of each.
const BAD: &[(&str, &str)] = &[
    ("06 00 06 00 00 01", "'06' begins no event"),
    ("Open 0", "'Open' begins no event"),
    ("order member 1 number 2", "'order' begins no event"),
    ("open", "the line ends before the series"),
    ("open zero", "'zero' is no whole number for the series"),
    ("open 1.0", "'1.0' is no whole number for the series"),
    ("open +1", "'+1' is no whole number"),
    ("open -", "'-' is no whole number"),
    ("open 0x1", "'0x1' is no whole number"),
    ("open 1,", "'1,' is no whole number"),
    ("open 0 1", "'1' stands after the end of the event"),
    ("shut 0 open", "'open' stands after the end of the event"),
    ("strategy", "the line ends before the series"),
    ("strategy 0", "the line ends before the side"),
    ("strategy 0 buy", "the line ends before the ratio"),
    ("strategy 0 buy 1,", "the line ends before the series"),
    ("strategy 0 buy 1 1 sell 1", "'1' stands after the end"),
    (
        "strategy 0 buy 1,, 1 sell 1",
        "the line ends before the series",
    ),
    (
        "strategy 0 long 1, 1 sell 1",
        "'long' is no side, which is one of: buy, sell",
    ),
    (
        "leg-order 7 sell 5 of series 0 at 300",
        "'7' stands in the place of 'member'",
    ),
    (
        "leg-order member 7 sells 5 of series 0 at 300",
        "'sells' is no side",
    ),
    (
        "leg-order member 7 sell 5 of strategy 0 at 300",
        "'strategy' stands in the place of 'series'",
    ),
    (
        "leg-order member 7 sell 5 series 0 at 300",
        "'series' stands in the place of 'of'",
    ),
    (
        "leg-order member 7 sell 5 of series 0 at 3.00",
        "'3.00' is no whole number of cents for the price",
    ),
    (
        "leg-order member 7 sell 5 of series 0 at",
        "the line ends before the price",
    ),
    (
        "leg-order member 7 sell 5 of series 0",
        "the line ends before 'at'",
    ),
    (
        "complex-order member 9 maker buy 2 of strategy 0 day at 1",
        "'maker' is no class, which is one of: customer, broker-dealer, market-maker",
    ),
    (
        "complex-order member 9 buy 2 of strategy 0 day at 1",
        "'buy' is no class",
    ),
    (
        "complex-order member 9 customer buy 2 of strategy 0 at 1",
        "'at' is no life, which is one of: day, immediate, response, do-not-auction",
    ),
    (
        "complex-order member 9 customer buy 2 of strategy 0 day at 1.5",
        "'1.5' is no whole number of cents for the limit",
    ),
    (
        "sweep member 9 customer buy 2 of strategy 0 at 1",
        "'customer' is no side",
    ),
    ("cancel member 9 number", "the line ends before the number"),
    (
        "cancel number 4 member 9",
        "'number' stands in the place of 'member'",
    ),
    ("clock", "the line ends before the milliseconds"),
    ("clock 5s", "'5s' is no whole number for the milliseconds"),
    ("day-end 5000", "'5000' stands in the place of 'timer'"),
    ("day-end timer", "the line ends before the timer"),
    (
        "national-prices 0 bid 1 offer 2",
        "'0' stands in the place of 'series'",
    ),
    (
        "national-prices series none bid 1 offer 2",
        "'none' is no whole number for the series",
    ),
    (
        "national-prices series 0 offer 2 bid 1",
        "'offer' stands in the place of 'bid'",
    ),
    (
        "national-prices series 0 bid 1",
        "the line ends before 'offer'",
    ),
    (
        "national-prices series 0 bid 1 offer",
        "the line ends before the offer",
    ),
    (
        "national-prices series 0 bid 2.95 offer 310",
        "'2.95' is no whole number of cents for the bid; the form is: national-prices series SERIES bid BID|none offer OFFER|none",
    ),
    (
        "national-prices series 0 bid 295 offer None",
        "'None' is no whole number of cents for the offer",
    ),
    (
        "national-prices series 0 bid none offer none none",
        "'none' stands after the end of the event",
    ),
    ("execution-range", "the line ends before the cents"),
    (
        "execution-range none",
        "'none' is no whole number for the cents; the form is: execution-range CENTS",
    ),
    ("execution-range 25 cents", "'cents' stands after the end"),
    ("specialist", "the line ends before 'member'"),
    (
        "specialist 7 strategy 0 percentage 40",
        "'7' stands in the place of 'member'",
    ),
    ("specialist member", "the line ends before the member"),
    (
        "specialist member none strategy 0 percentage 40",
        "'none' is no whole number for the member",
    ),
    (
        "specialist member 7 of strategy 0 percentage 40",
        "'of' stands in the place of 'strategy'",
    ),
    (
        "specialist strategy 0 member 7 percentage 40",
        "'strategy' stands in the place of 'member'",
    ),
    (
        "specialist member 7 strategy 0 40",
        "'40' stands in the place of 'percentage'",
    ),
    (
        "specialist member 7 strategy 0",
        "the line ends before 'percentage'",
    ),
    (
        "specialist member 7 strategy 0 percentage",
        "the line ends before the percentage",
    ),
    (
        "specialist member 7 strategy 0 percentage 40%",
        "'40%' is no whole number for the percentage; the form is: specialist member MEMBER strategy STRATEGY percentage PERCENTAGE",
    ),
    (
        "specialist member 7 strategy 0 percentage 0.4",
        "'0.4' is no whole number for the percentage",
    ),
    (
        "specialist member 7 strategy 0 percentage 40 60",
        "'60' stands after the end of the event",
    ),
    (
        "specialists member 7 strategy 0 percentage 40",
        "'specialists' begins no event; one of these does: strategy, open, shut, leg-order, complex-order, sweep, cancel, clock, day-end, national-prices, execution-range, specialist, bytes",
    ),
];

#[test]
fn bad_lines_are_refused_with_their_number() {
    for (line, said) in BAD {
        for before in [0, 1, 7] {
            let text = format!("{}{line}\nopen 0\n", "open 0\n".repeat(before));
            match assemble(text.as_bytes()).as_ref().map_err(Vec::as_slice) {
                Err([(number, wrong)]) => {
                    assert_eq!(*number, before as u64 + 1, "{line}");
                    assert!(wrong.contains(said), "{line}: {wrong}");
                }
                other => panic!("{line}: {other:?}"),
            }
        }
        // In a comment nothing is bad.
        let comment = format!("open 0 # {line}");
        assert_eq!(assemble(comment.as_bytes()), Ok(vec![6, 0, 6, 0, 0, 1]));
    }
}

#[test]
fn every_bad_line_is_told() {
    let lines: Vec<&str> = BAD.iter().map(|(line, _)| *line).collect();
    let text = lines.join("\nopen 0 # good\n\n");
    let Err(bad) = assemble(text.as_bytes()) else {
        panic!("the lines are taken");
    };
    assert_eq!(bad.len(), BAD.len());
    for (at, ((number, wrong), (line, said))) in bad.iter().zip(BAD).enumerate() {
        assert_eq!(*number, 3 * at as u64 + 1);
        assert!(wrong.contains(said), "{line}: {wrong}");
    }
}

/// The line of an event that the reader found, written anew.
fn line(row: &Row) -> String {
    let side = ["buy", "sell"];
    let limit = |at: usize| i64::from(row[at]) - 10_000_000;
    match row[0] {
        1 => {
            let legs: Vec<String> = (0..row[1] as usize)
                .map(|leg| &row[2 + 3 * leg..5 + 3 * leg])
                .map(|leg| format!("{} {} {}", leg[0], side[leg[1] as usize], leg[2]))
                .collect();
            format!("strategy {}", legs.join(", "))
        }
        2 => {
            let class = ["", "customer", "broker-dealer", "market-maker"][row[4] as usize];
            let life = ["day", "immediate", "response", "do-not-auction"][row[5] as usize];
            format!(
                "complex-order member {} {class} {} {} of strategy {} {life} at {}",
                row[1],
                side[row[3] as usize],
                row[6],
                row[2],
                limit(7)
            )
        }
        3 => format!(
            "sweep member {} {} {} of strategy {} at {}",
            row[1],
            side[row[3] as usize],
            row[4],
            row[2],
            limit(5)
        ),
        4 => format!(
            "leg-order member {} {} {} of series {} at {}",
            row[1], side[row[3] as usize], row[4], row[2], row[5]
        ),
        5 => format!("cancel member {} number {}", row[1], row[2]),
        6 => format!("{} {}", ["shut", "open"][row[2] as usize], row[1]),
        7 => format!("clock {}", row[1]),
        8 => format!("day-end timer {}", row[1]),
        9 => format!(
            "national-prices series {} bid {} offer {}",
            row[1],
            national(row[2]),
            national(row[3])
        ),
        10 => format!("execution-range {}", row[1]),
        _ => format!(
            "specialist member {} strategy {} percentage {}",
            row[1], row[2], row[3]
        ),
    }
}

fn national(price: u32) -> String {
    match price {
        0 => "none".to_string(),
        _ => price.to_string(),
    }
}

/// "0 meaning missing": the word and the number are one price.
#[test]
fn a_missing_national_price_is_none_or_0() {
    for line in [
        "national-prices series 7 bid @ offer 310",
        "national-prices series 7 bid 295 offer @",
        "national-prices series 7 bid @ offer @",
    ] {
        let with = |price: &str| assemble(line.replace('@', price).as_bytes());
        let frame = with("none").expect("a line");
        assert_eq!(frame.len(), 13, "{line}");
        for price in ["0", "00", "-0"] {
            assert_eq!(with(price), Ok(frame.clone()), "{line}");
        }
    }
}

/// Numbers that look random and are the same in every run.
fn random(state: &mut u64) -> u32 {
    *state = state
        .wrapping_mul(6_364_136_223_846_793_005)
        .wrapping_add(1_442_695_040_888_963_407);
    (*state >> 33) as u32
}

#[test]
fn what_is_read_from_a_frame_is_written_as_its_line_and_back() {
    let mut state = 1;
    let mut counts = [0; 12];
    while counts[1..].iter().any(|count| *count < 500) {
        // Any row; the writer says which are events.
        let mut row: Row = [0; 20];
        row[0] = 1 + random(&mut state) % 11;
        let legs = 2 + random(&mut state) as usize % 5;
        for number in &mut row[1..2 + 3 * legs] {
            *number = random(&mut state) >> (random(&mut state) % 31);
        }
        if row[0] == 1 {
            row[1] = legs as u32;
            row[2..].iter_mut().for_each(|number| *number %= 13);
        } else {
            row[8..].fill(0);
            row[2..6].iter_mut().for_each(|number| *number %= 8_000_000);
        }
        for number in &mut row[3..6] {
            if random(&mut state) & 1 == 0 {
                *number %= 4;
            }
        }
        let Ok(frame) = write(&row) else { continue };
        let Ok(event) = read(&frame) else {
            panic!("{frame:?} is not read");
        };
        let line = line(&event);
        assert_eq!(assemble(line.as_bytes()), Ok(frame), "{line}");
        counts[row[0] as usize] += 1;
    }
    println!("events by kind: {:?}", &counts[1..]);
}
