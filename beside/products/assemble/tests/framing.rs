//! Tests of the frames that `tape` takes from the lines of a day, and of the
//! warnings.

#![forbid(unsafe_code)]
#![deny(warnings)]

use assemble::check::{changed, check, Checked};
use assemble::day::Day;
use assemble::framing::{Part, Parts, What, Why};
use assemble::lines::Lines;
use std::fs;
use std::path::Path;

fn parts(text: &str) -> Vec<Part> {
    Parts::new(Lines::new(text.as_bytes()))
        .map(|part| part.expect("a good line"))
        .collect()
}

/// A part in short: what it is, where it begins and ends, the lines that begin in
/// it.
fn short(part: &Part) -> String {
    let what = match &part.what {
        What::Frame(frame) => format!("frame of {}", frame.len()),
        What::Stop(why) => format!("stop {why:?}"),
        What::NotReached => "not reached".to_string(),
    };
    let lines: Vec<String> = (part.lines.iter())
        .map(|line| line.number.to_string())
        .collect();
    format!(
        "{what}: {}+{} to {}-{}: {}",
        part.first,
        part.inside,
        part.last,
        part.left,
        lines.join(" ")
    )
}

#[test]
fn each_part_has_its_lines() {
    let cases: &[(&str, &[&str])] = &[
        ("", &[]),
        ("# nothing\n\n", &[]),
        (
            "open 0\n\n# so\nclock 1",
            &["frame of 6: 1+0 to 1-0: 1", "frame of 8: 4+0 to 4-0: 4"],
        ),
        // Two frames in a line.
        (
            "bytes 06 00 06 00 00 01 04 00 09 00\nopen 0",
            &[
                "frame of 6: 1+0 to 1-4: 1",
                "frame of 4: 1+6 to 1-0: ",
                "frame of 6: 2+0 to 2-0: 2",
            ],
        ),
        // A frame over three lines, which ends inside the last.
        (
            "bytes 0c 00\nopen 0\n\nclock 0\nopen 1",
            &[
                "frame of 12: 1+0 to 4-4: 1 2 4",
                "stop Under4(0): 4+4 to 4-2: ",
                "not reached: 5+0 to 5-0: 5",
            ],
        ),
        // A length field over two lines.
        (
            "bytes 06\nbytes 00 06 00 00 01",
            &["frame of 6: 1+0 to 2-0: 1 2"],
        ),
        (
            "open 0\nbytes 03 00 06\nopen 1\nbytes 00\n",
            &[
                "frame of 6: 1+0 to 1-0: 1",
                "stop Under4(3): 2+0 to 2-1: 2",
                "not reached: 3+0 to 3-0: 3",
                "not reached: 4+0 to 4-0: 4",
            ],
        ),
        (
            "bytes 0d 00\nopen 0\n",
            &["stop PastEnd(13): 1+0 to 2-0: 1 2"],
        ),
        (
            "open 0\nbytes ff",
            &["frame of 6: 1+0 to 1-0: 1", "stop LoneByte: 2+0 to 2-0: 2"],
        ),
        ("bytes ff ff", &["stop PastEnd(65535): 1+0 to 1-0: 1"]),
    ];
    for (text, short_parts) in cases {
        let parts: Vec<String> = parts(text).iter().map(short).collect();
        assert_eq!(parts, *short_parts, "{text}");
    }
}

/// The frames are those of the bytes in a row, whatever the lines.
#[test]
fn frames_do_not_depend_on_the_lines() {
    let bytes: Vec<String> = (0..20u8)
        .flat_map(|at| {
            let mut frame = vec![4 + at, 0];
            frame.extend((0..2 + at).map(|byte| byte ^ at));
            frame
        })
        .chain([1, 0, 5, 0])
        .map(|byte| format!("{byte:02x}"))
        .collect();
    let whole = parts(&format!("bytes {}", bytes.join(" ")));
    assert_eq!(whole.len(), 21);
    assert_eq!(whole[20].what, What::Stop(Why::Under4(1)));
    for size in 1..30 {
        let lines: Vec<String> = (bytes.chunks(size))
            .map(|line| format!("bytes {}", line.join(" ")))
            .collect();
        let cut = parts(&lines.join("\n"));
        for (one, two) in cut.iter().zip(&whole) {
            assert_eq!(one.what, two.what, "{size}");
        }
        let reached = |part: &&Part| part.what != What::NotReached;
        assert_eq!(cut.iter().filter(reached).count(), 21);
        let lines_of_parts: usize = cut.iter().map(|part| part.lines.len()).sum();
        assert_eq!(lines_of_parts, lines.len());
    }
}

/// What is told of a text.
fn told(text: &str) -> (Checked, Vec<String>) {
    let mut told = Vec::new();
    let day = Day::Text(text.as_bytes().to_vec());
    let seen = check(&day, &mut |message| told.push(message)).expect("a text can be read");
    (seen, told)
}

#[test]
fn lines_that_are_no_frame_are_warned_of() {
    let cases: &[(&str, &[&str])] = &[
        ("bytes 06 00 06 00 00 01\nopen 0", &[]),
        // Of a wrong kind or out of range, but a frame.
        ("bytes 05 00 0c 00 ff", &[]),
        (
            "bytes 06 00 06 00 00 01 06 00 06 00 01 01",
            &["line 1: warning: the length field is 6 and the line has 12 bytes: tape begins another frame inside the line, after 6 bytes"],
        ),
        (
            "open 0\nbytes 02 00 06 00 00 01\nopen 1",
            &["line 2: warning: the length field is 2 and the line has 6 bytes: tape stops there (under 4)"],
        ),
        // The length field is the line's length, and no frame is so short.
        (
            "bytes 03 00 06\nopen 1",
            &["line 1: warning: the length field is 3 and the line has 3 bytes: tape stops there (under 4)"],
        ),
        (
            "bytes 06 00 06 00 00",
            &["line 1: warning: the length field is 6 and the line has 5 bytes: tape stops there (past the end of the input)"],
        ),
        (
            "bytes 0c 00 06 00 00 01\n\nopen 1\nopen 2",
            &["line 1: warning: the length field is 12 and the line has 6 bytes: tape takes bytes of the next lines, up to line 3, into the frame"],
        ),
        (
            "bytes 08 00 06 00\nopen 1\nbytes 04 00 09 00",
            &["line 1: warning: the length field is 8 and the line has 4 bytes: tape takes bytes of the next lines, up to line 2, into the frame, and begins the next inside line 2"],
        ),
        (
            "bytes 06",
            &["line 1: warning: the line has 1 byte, too few for a length field: tape stops there (a lone last byte)"],
        ),
        (
            "bytes 06\nbytes 00 06 00 00 01",
            &[
                "line 1: warning: the line has 1 byte, too few for a length field: tape takes bytes of the next lines, up to line 2, into the frame",
                "line 2: warning: the length field is 1536 and the line has 5 bytes: tape takes it into the frame that begins at line 1",
            ],
        ),
        (
            "bytes 00 00\nbytes 05\nopen 0\nbytes 06 00",
            &[
                "line 1: warning: the length field is 0 and the line has 2 bytes: tape stops there (under 4)",
                "line 2: warning: the line has 1 byte, too few for a length field: tape does not come to it, as it stops at line 1",
                "line 4: warning: the length field is 6 and the line has 2 bytes: tape does not come to it, as it stops at line 1",
            ],
        ),
        (
            "bytes ff ff\nbytes 05\n",
            &[
                "line 1: warning: the length field is 65535 and the line has 2 bytes: tape stops there (past the end of the input)",
                "line 2: warning: the line has 1 byte, too few for a length field: tape does not play it, as it stops at line 1",
            ],
        ),
    ];
    for (text, warnings) in cases {
        let (seen, told) = told(text);
        assert_eq!(told, *warnings, "{text}");
        assert_eq!((seen.bad, seen.odd), (0, warnings.len() as u64), "{text}");
        assert_eq!(
            seen.lines,
            text.split_whitespace().filter(|w| w.len() > 3).count() as u64
        );
    }
}

#[test]
fn where_a_line_is_bad_there_are_no_warnings() {
    let (seen, told) = told("bytes 00 00\nopen 32\n\nopen 33\n");
    assert_eq!((seen.bad, seen.odd, seen.lines), (2, 1, 1));
    assert_eq!(
        told,
        [
            "line 2: series 32 is outside its range, 0 to 31",
            "line 4: series 33 is outside its range, 0 to 31"
        ]
    );
}

/// Where a day is no longer what was checked, no bytes of it are made up.
#[test]
fn a_day_that_changes_is_an_error() {
    let path = Path::new(env!("CARGO_TARGET_TMPDIR")).join("changes.txt");
    fs::write(&path, "open 0\nopen 1\n").expect("a file");
    let day = Day::open(&path).expect("a day");
    let mut none = |message| panic!("{message}");
    assert_eq!(check(&day, &mut none).expect("it is read").lines, 2);
    fs::write(&path, "open 0\nopen 99\n").expect("a file");
    let wrong = day.lines().find_map(Result::err).expect("a bad line");
    let said = changed(wrong).to_string();
    assert_eq!(said, "line 2 changed while the day was read");
}
