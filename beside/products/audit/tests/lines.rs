//! What cannot be read is an error; and how frames, lines and tables are read
//! and laid out.

#![forbid(unsafe_code)]
#![deny(warnings)]

mod common;

use assemble::assemble;
use assemble::framing::Why;
use audit::audit;
use audit::frames::{event, with_day_end, Event, Leg, Part, Parts, Terms, What};
use audit::stop::Stop;
use audit::table::Column::{Number, Word};
use audit::table::Table;
use common::audited;
use std::io::{self, Read};

const DAY: &str = "open 0\nleg-order member 1 buy 2 of series 0 at 3\ncancel member 1 number 1\n";
const LINES: &str = "E 0 0 0 0\nE 1 0 1 0\nE 2 0 0 1\nR 3 1 0 0 2 0\n";
const END: &str = "E 3 0 0 0\n";

fn day(text: &str) -> Vec<u8> {
    assemble(text.as_bytes()).expect("a day")
}

#[test]
fn lines_that_are_not_those_of_the_frames() {
    let read = |lines: &str, end: &str| {
        let ended = format!("{LINES}{end}");
        audited(&day(DAY), lines, &ended).map(|report| report.failures)
    };
    assert_eq!(read(LINES, END), Ok(vec![]));
    for (from, to, said) in [
        ("R 3 1 0 0 2 0\n", "", "1 records fewer than the last event"),
        ("E 2 0 0 1", "E 2 0 0 0", "line 4: a record past the count"),
        ("E 2 0 0 1\n", "", "line 3: a record past the count"),
        ("E 1 0 1 0", "E 1 0 1 1", "line 3: 1 records fewer than"),
        ("E 1 0 1 0", "E 2 0 1 0", "line 2: index 2 instead of 1"),
        ("E 1 0 1 0", "E 1 6 1 0", "line 2: a refusal with a value"),
        ("E 1 0 1 0", "E 1 0 1 -1", "line 2: 'E 1 0 1 -1' is no line"),
        (
            "E 1 0 1 0\n",
            "E 1 0 1 0\r\n",
            "line 2: 'E 1 0 1 0\\r' is no",
        ),
        ("E 1 0 1 0", "E 01 0 1 0", "line 2: 'E 01 0 1 0' is no line"),
        ("E 1 0 1 0", "E 1 -0 1 0", "line 2: 'E 1 -0 1 0' is no line"),
        (
            "R 3 1 0 0 2 0",
            "R 6 1 0 0 2 0",
            "line 4: no record has kind 6",
        ),
        (
            "R 3 1 0 0 2 0",
            "R 3 1 0 0 2",
            "line 4: 'R 3 1 0 0 2' is no",
        ),
        ("R 3 1 0 0 2 0", "R 3 1 0 0 2 0 0", "line 4: 'R 3 1 0"),
        ("R 3 1 0 0 2 0", "R 3 1 0 0 2  0", "line 4: 'R 3 1 0"),
        ("R 3 1 0 0 2 0", "R 3 1 0 0 +2 0", "line 4: 'R 3 1 0"),
        (
            "R 3 1 0 0 2 0",
            "R 3 1 0 0 9999999999 0",
            "line 4: 'R 3 1 0",
        ),
        ("R 3 1 0 0 2 0", "X", "line 4: 'X' is no line of tape"),
        ("E 0 0 0 0\n", "\n", "line 1: '' is no line of tape"),
        (
            "R 3 1 0 0 2 0\n",
            "R 3 1 0 0 2 0\nE 3 2 0 0\n",
            "4 events are answered, and the input has 3",
        ),
    ] {
        let lines = LINES.replace(from, to);
        match read(&lines, END) {
            Err(wrong) => assert!(
                wrong.starts_with("lines: ") && wrong.contains(said),
                "{wrong}"
            ),
            other => panic!("{lines}: {other:?}"),
        }
    }
    match read(LINES, "") {
        Err(wrong) => assert!(
            wrong.starts_with("lines with the day end: 3 events"),
            "{wrong}"
        ),
        other => panic!("{other:?}"),
    }
}

/// The frames of an input, and whether it stops after them.
fn parts(input: &[u8]) -> (Vec<Vec<u8>>, bool) {
    let mut parts = Parts::new(input);
    let mut frames = Vec::new();
    let mut stops = false;
    while let Some(part) = parts.part().expect("it is read") {
        assert!(!stops, "a stop is the last part");
        match part {
            Part::Frame(frame) => frames.push(frame.to_vec()),
            Part::Stop => stops = true,
        }
    }
    assert_eq!((parts.frames(), parts.stopped()), (frames.len(), stops));
    (frames, stops)
}

fn ended(input: &[u8]) -> Vec<u8> {
    let mut output = Vec::new();
    with_day_end(input, &mut output).expect("a Vec takes every byte");
    output
}

#[test]
fn an_input_is_parted_as_tape_parts_it() {
    let one = [6, 0, 6, 0, 0, 1];
    let end = [6, 0, 8, 0, 0x88, 0x13];
    assert_eq!(parts(&[]), (vec![], false));
    assert_eq!(parts(&one), (vec![one.to_vec()], false));
    for rest in [
        &[9][..],
        &[3, 0],
        &[0, 0, 0, 0],
        &[0, 0, 6, 0, 6, 0, 0, 1],
        &[7, 0, 6, 0, 0, 1],
        &one[..5],
    ] {
        let input = [&one[..], rest].concat();
        assert_eq!(parts(&input), (vec![one.to_vec()], true));
        assert_eq!(ended(&input), [one, end].concat());
    }
    let input = [one, one].concat();
    assert_eq!(parts(&input), (vec![one.to_vec(); 2], false));
    assert_eq!(ended(&[]), end);
    let long = [&[255, 255][..], &[7; 65_533]].concat();
    let input = [&long[..], &one].concat();
    assert_eq!(parts(&input), (vec![long, one.to_vec()], false));
}

/// The input stops after its last frame: the day end comes in its place.
#[test]
fn an_input_that_stops() {
    let mut bytes = day(DAY);
    bytes.push(6);
    let lines = format!("{LINES}E 3 2 0 0\n");
    let ended = format!("{LINES}{END}");
    let report = audited(&bytes, &lines, &ended).expect("a report");
    assert!(report.failures.is_empty());
    assert!(report.text.ends_with("\ntotals hold\n"));
}

/// Where an input stops, and what is said of it.
fn stop(input: &[u8]) -> Option<(Stop, String)> {
    let mut parts = Parts::new(input);
    while parts.part().expect("bytes can be read").is_some() {}
    let stop = parts.stop().expect("bytes can be read");
    assert_eq!(parts.stop().expect("the same"), stop);
    stop.map(|stop| (stop, stop.to_string()))
}

/// What stands after the frames, why it is no frame, how many of its bytes are
/// after the stop, and what is said after the place.
const STOPS: &[(&[u8], Why, u64, &str)] = &[
    (
        &[0, 0],
        Why::Under4(0),
        0,
        "whose length field is 0 (under 4); nothing stands after it",
    ),
    (
        &[0, 0, 0],
        Why::Under4(0),
        1,
        "whose length field is 0 (under 4); 1 byte after it was not played",
    ),
    (
        &[1, 0, 6, 0, 6, 0, 0, 1],
        Why::Under4(1),
        6,
        "whose length field is 1 (under 4); 6 bytes after it were not played",
    ),
    (
        &[2, 0, 6, 0],
        Why::Under4(2),
        2,
        "whose length field is 2 (under 4); 2 bytes after it were not played",
    ),
    // The third byte of a length 3 is the stop's own.
    (
        &[3, 0],
        Why::Under4(3),
        0,
        "whose length field is 3 (under 4); nothing stands after it",
    ),
    (
        &[3, 0, 6],
        Why::Under4(3),
        0,
        "whose length field is 3 (under 4); nothing stands after it",
    ),
    (
        &[3, 0, 6, 0, 6],
        Why::Under4(3),
        2,
        "whose length field is 3 (under 4); 2 bytes after it were not played",
    ),
    // All that is left is the stop's own.
    (
        &[6, 0, 6, 0, 0],
        Why::PastEnd(6),
        0,
        "whose length field is 6 (past the end of the input); nothing stands after it",
    ),
    (
        &[255, 255, 6, 0, 6, 0, 0, 1],
        Why::PastEnd(65_535),
        0,
        "whose length field is 65535 (past the end of the input); nothing stands after it",
    ),
    (
        &[4, 0],
        Why::PastEnd(4),
        0,
        "whose length field is 4 (past the end of the input); nothing stands after it",
    ),
    (
        &[6],
        Why::LoneByte,
        0,
        "a lone last byte; nothing stands after it",
    ),
];

#[test]
fn where_an_input_stops_is_said() {
    assert_eq!(stop(&[]), None);
    let frames = day(DAY);
    assert_eq!(stop(&frames), None);
    for (rest, why, after, said) in STOPS {
        for before in [0, 1, 3] {
            let frames = frames.repeat(before);
            let at = frames.len() as u64;
            let seen = stop(&[&frames[..], rest].concat());
            let said = format!("tape stopped at byte {at} of the frames, {said}");
            let due = Stop {
                at,
                why: *why,
                after: *after,
            };
            assert_eq!(seen, Some((due, said)), "{rest:?}");
        }
    }
}

/// An input that fails where it is read.
struct Fails;

impl Read for Fails {
    fn read(&mut self, _: &mut [u8]) -> io::Result<usize> {
        Err(io::Error::other("it fails"))
    }
}

/// What comes after the stop is read before the last day is printed.
#[test]
fn an_input_that_fails_after_its_stop() {
    let frames = [&day(DAY)[..], &[0, 0, 6]].concat();
    let lines = format!("{LINES}E 3 2 0 0\n");
    let ended = format!("{LINES}{END}");
    let mut text = Vec::new();
    let wrong = audit(
        frames.chain(Fails),
        lines.as_bytes(),
        ended.as_bytes(),
        &mut text,
    );
    assert_eq!(wrong.expect_err("no report").to_string(), "it fails");
    assert_eq!(text, b"");
    // For a day end nothing is read after it.
    let mut output = Vec::new();
    with_day_end(frames.chain(Fails), &mut output).expect("a day end");
    assert_eq!(output, self::ended(&day(DAY)));
}

#[test]
fn events_are_read_with_their_terms() {
    let read = |line: &str| event(Part::Frame(&day(line)));
    let terms = |what, member, side, quantity, limit| {
        Event::Entry(Terms {
            what,
            member,
            side,
            quantity,
            limit,
        })
    };
    assert_eq!(
        read("complex-order member 65535 customer sell 9999 of strategy 15 day at -9999999"),
        terms(
            What::ComplexOrder { strategy: 15 },
            65_535,
            1,
            9_999,
            -9_999_999
        )
    );
    assert_eq!(
        read("complex-order member 2 broker-dealer buy 3 of strategy 4 response at 9999999"),
        terms(What::ComplexOrder { strategy: 4 }, 2, 0, 3, 9_999_999)
    );
    assert_eq!(
        read("sweep member 2 sell 0 of strategy 5 at -1"),
        terms(What::Sweep { strategy: 5 }, 2, 1, 0, -1)
    );
    assert_eq!(
        read("leg-order member 7 buy 8 of series 31 at 99999"),
        terms(What::LegOrder { series: 31 }, 7, 0, 8, 99_999)
    );
    let leg = |series, side, ratio| Leg {
        series,
        side,
        ratio,
    };
    assert_eq!(
        read("strategy 9 buy 12, 3 sell 8, 5 buy 4"),
        Event::Strategy(vec![leg(3, 1, 2), leg(5, 0, 1), leg(9, 0, 3)])
    );
    assert_eq!(
        read("strategy 0 buy 2, 1 sell 6"),
        Event::Strategy(vec![leg(0, 0, 1), leg(1, 1, 3)])
    );
    assert_eq!(read("day-end timer 1"), Event::DayEnd);
    assert_eq!(
        read("national-prices series 31 bid 99999 offer none"),
        Event::National {
            series: 31,
            prices: [99_999, 0]
        }
    );
    assert_eq!(read("execution-range 25"), Event::Range(25));
    for line in [
        "open 0",
        "cancel member 1 number 1",
        "clock 0",
        "specialist member 7 strategy 0 percentage 40",
    ] {
        assert_eq!(read(line), Event::Other);
    }
    assert_eq!(read("bytes 06 00 06 00 20 01"), Event::Refused(3));
    assert_eq!(read("bytes 04 00 0b 00"), Event::Refused(2));
    assert_eq!(read("bytes 04 00 0c 00"), Event::Refused(2));
    assert_eq!(read("bytes 04 00 09 00"), Event::Refused(2));
    assert_eq!(read("bytes 06 00 0a 00 10 27"), Event::Refused(3));
    assert_eq!(read("bytes 08 00 0b 00 07 00 00 65"), Event::Refused(3));
    assert_eq!(event(Part::Stop), Event::Refused(2));
}

#[test]
fn columns_are_as_wide_as_what_they_hold() {
    let columns = [Number("n"), Word("what"), Number("long"), Word("")];
    let written = |rows: &[[&str; 4]]| {
        let rows = || rows.iter().map(|row| row.map(str::to_string));
        let table = Table::new(columns, rows());
        assert_eq!(table.is_empty(), rows().count() == 0);
        let mut text = Vec::new();
        (table.write(&mut text, rows())).expect("a Vec takes every line");
        String::from_utf8(text).expect("text")
    };
    assert_eq!(
        written(&[
            ["1", "a", "2", "holds"],
            ["100", "bcdef", "-34567", "no"],
            ["", "", "3", ""]
        ]),
        "  n  what     long\n  1  a           2  holds\n100  bcdef  -34567  no\n                 3\n"
    );
    assert_eq!(written(&[]), "n  what  long\n");
}
