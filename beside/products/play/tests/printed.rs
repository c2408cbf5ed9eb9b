//! The lines of `tape` as they are read and checked.

#![forbid(unsafe_code)]
#![deny(warnings)]

use play::printed::{read, Answer, Checker, Printed, Record, Splitter};

#[test]
fn lines_have_one_form() {
    let answer = Answer {
        index: 5,
        answer: 0,
        value: 3,
        count: 6,
    };
    assert_eq!(read(b"E 5 0 3 6"), Printed::Answer(answer));
    let record = Record {
        kind: 1,
        number: 3,
        place: 0,
        side: 1,
        quantity: 5,
        price: -200,
    };
    assert_eq!(read(b"R 1 3 0 1 5 -200"), Printed::Record(record));
    for line in [
        "",
        "E",
        "R",
        "E 1 2 3",
        "E 1 2 3 4 5",
        "R 1 2 3 4 5",
        "R 1 2 3 4 5 6 7",
        "X 1 2 3 4",
        "E  1 2 3 4",
        " E 1 2 3 4",
        "E 1 2 3 4 ",
        "E 1 2 3 04",
        "E 1 2 3 +4",
        "E 1 2 3 -0",
        "E 1 2 3 4\r",
        "e 1 2 3 4",
        "E 1 2 3 99999999999999999999",
        "E 1 2 3 -",
        "E 1 2 3 \u{664}",
    ] {
        assert_eq!(read(line.as_bytes()), Printed::Other, "{line}");
    }
}

/// The lines of a text that comes in pieces of this size.
fn split(text: &[u8], size: usize) -> (Vec<Vec<u8>>, Vec<u8>) {
    let mut splitter = Splitter::default();
    let mut lines = Vec::new();
    for piece in text.chunks(size) {
        let result: Result<(), ()> = splitter.push(piece, &mut |line| {
            lines.push(line.to_vec());
            Ok(())
        });
        assert!(result.is_ok());
    }
    (lines, splitter.rest())
}

#[test]
fn lines_come_whole_from_pieces() {
    let text = b"E 0 0 0 0\n\nR 1 2 3 4 5 6\nE 1";
    for size in 1..=text.len() {
        let (lines, rest) = split(text, size);
        assert_eq!(lines, [&b"E 0 0 0 0"[..], b"", b"R 1 2 3 4 5 6"], "{size}");
        assert_eq!(rest, b"E 1");
    }
    // A line that does not end is not held.
    let (lines, rest) = split(&[b'x'; 100_000], 100);
    assert!(lines.len() > 50 && rest.len() <= 1_000);
    assert_eq!(lines.concat().len() + rest.len(), 100_000);
}

/// What is wrong with these lines.
fn wrong(text: &str) -> Option<String> {
    let mut checker = Checker::default();
    let (lines, rest) = split(text.as_bytes(), 7);
    for line in lines {
        checker.line(&line, &read(&line));
    }
    checker.end(&rest)
}

#[test]
fn lines_are_checked() {
    let good = "E 0 0 0 0\nE 1 0 1 2\nR 1 2 3 4 5 6\nR 1 2 3 4 5 6\nE 2 7 0 0\n";
    assert_eq!(wrong(good), None);
    assert_eq!(wrong(""), None);
    let cases = [
        ("E 1 0 0 0\n", "line 1 of its output: index 1 instead of 0"),
        (
            "E 0 0 0 0\nE 0 0 0 0\n",
            "line 2 of its output: index 0 instead of 1",
        ),
        (
            "R 1 2 3 4 5 6\n",
            "line 1 of its output: a record past the count of its event",
        ),
        (
            "E 0 0 0 1\nR 1 2 3 4 5 6\nR 1 2 3 4 5 6\n",
            "line 3 of its output: a record past the count of its event",
        ),
        (
            "E 0 0 0 2\nR 1 2 3 4 5 6\nE 1 0 0 0\n",
            "line 3 of its output: 1 record fewer than the event before counts",
        ),
        (
            "E 0 0 0 2\n",
            "line 2 of its output: 2 records fewer than the event before counts",
        ),
        (
            "E 0 0 0 0\nwhat\x1b\n",
            "line 2 of its output: 'what\\u{1b}' is no line of tape",
        ),
        (
            "E 0 0 0 0\nE 1 0",
            "line 2 of its output: 'E 1 0' is no whole line",
        ),
    ];
    for (lines, said) in cases {
        assert_eq!(wrong(lines).as_deref(), Some(said), "{lines}");
    }
}
