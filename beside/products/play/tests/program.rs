//! The program `play`: its messages and its status, with the proved `tape` and
//! with tapes that do something else.

#![forbid(unsafe_code)]
#![deny(warnings)]

mod runs;

use runs::{repository, run, tape, Run, PLAY};
use std::fs;
use std::io::{self, Read};
use std::path::{Path, PathBuf};
use std::process::{Command, Stdio};
use std::time::{Duration, Instant};

/// A file with this content.
fn file(name: &str, content: impl AsRef<[u8]>) -> PathBuf {
    let folder = Path::new(env!("CARGO_TARGET_TMPDIR")).join("play");
    fs::create_dir_all(&folder).expect("a folder");
    let path = folder.join(name);
    fs::write(&path, content).expect("a file");
    path
}

/// A tape that does as it is told.
fn odd_tape() -> PathBuf {
    Path::new(env!("CARGO_MANIFEST_DIR")).join("tests/tape.sh")
}

/// The last part of what is said names the file by its end.
fn said(run: &Run) -> Vec<String> {
    let name = |line: &str| {
        let (first, rest) = line.split_once(": ").expect("a name");
        match rest.split_once(".txt: ") {
            Some((path, rest)) => {
                let file = path.rsplit('/').next().unwrap_or(path);
                format!("{first}: {file}.txt: {rest}")
            }
            None => line.to_string(),
        }
    };
    run.said.lines().map(name).collect()
}

fn play(tape: &Path, words: &[&str], day: &Path) -> Run {
    run(Command::new(PLAY)
        .arg("--tape")
        .arg(tape)
        .args(words)
        .arg(day))
}

/// The day by the proved tape, in lines and in words: both end alike.
fn both(name: &str, day: &str, status: i32, messages: &[&str]) -> [Run; 2] {
    let path = file(name, day);
    [&[][..], &["--words"]].map(|words| {
        let run = play(&tape(), words, &path);
        assert_eq!(said(&run), messages, "{day}");
        assert_eq!(run.status, Some(status), "{day}");
        run
    })
}

/// The day by a tape that acts so.
fn acted(name: &str, day: &str, variables: &[(&str, &str)]) -> [Run; 2] {
    let path = file(name, day);
    [&[][..], &["--words"]].map(|words| {
        run(Command::new(PLAY)
            .arg("--tape")
            .arg(odd_tape())
            .args(words)
            .arg(&path)
            .envs(variables.iter().copied()))
    })
}

#[test]
fn a_good_day_says_nothing() {
    let [lines, words] = both("good.txt", "open 0\n# so\nopen 1", 0, &[]);
    assert_eq!(lines.printed, "E 0 0 0 0\nE 1 0 0 0\n");
    assert!(words
        .printed
        .starts_with("line 1: open 0\n  event 0: accepted\nline 3: open 1\n"));
}

#[test]
fn a_day_without_events_is_told() {
    for (name, day) in [
        ("empty.txt", ""),
        ("blank.txt", "\n \t\n"),
        ("comment.txt", "# open 0\n"),
    ] {
        let said = format!("play: {name}: the day has no events");
        let [lines, words] = both(name, day, 0, &[&said]);
        assert_eq!((lines.printed.as_str(), words.printed.as_str()), ("", ""));
    }
}

#[test]
fn a_day_with_bad_lines_is_not_played() {
    let runs = both(
        "high.txt",
        "open 0\n\nopen 32 # too high\nopen 1\nopen\n",
        1,
        &[
            "play: high.txt: line 3: series 32 is outside its range, 0 to 31",
            "play: high.txt: line 5: the line ends before the series; the form is: open SERIES",
        ],
    );
    assert!(runs.iter().all(|run| run.printed.is_empty()));
}

#[test]
fn a_stop_is_told() {
    let first = "E 0 0 0 0\nE 1 2 0 0\n";
    let [lines, _] = both(
        "under.txt",
        "open 0\nbytes 02 00 06 00\nopen 1\n\nopen 2\nclock 1\n",
        3,
        &[
            "play: under.txt: line 2: warning: the length field is 2 and the line has 4 bytes: tape stops there (under 4)",
            "play: under.txt: tape stopped at line 2, whose length field is 2 (under 4); 3 lines after it were not played",
        ],
    );
    assert_eq!(lines.printed, first);
    let [lines, _] = both(
        "past.txt",
        "open 0\nbytes 60 00 06 00\nopen 1\n",
        3,
        &[
            "play: past.txt: line 2: warning: the length field is 96 and the line has 4 bytes: tape stops there (past the end of the input)",
            "play: past.txt: tape stopped at line 2, whose length field is 96 (past the end of the input); 1 line after it was not played",
        ],
    );
    assert_eq!(lines.printed, first);
    both(
        "past-all.txt",
        "bytes 14 00 06 00 00 01\nopen 5\nopen 6\n",
        3,
        &[
            "play: past-all.txt: line 1: warning: the length field is 20 and the line has 6 bytes: tape stops there (past the end of the input)",
            "play: past-all.txt: tape stopped at line 1, whose length field is 20 (past the end of the input); 2 lines after it were not played",
        ],
    );
    let [lines, _] = both(
        "lone.txt",
        "open 0\nbytes 60\n",
        0,
        &[
            "play: lone.txt: line 2: warning: the line has 1 byte, too few for a length field: tape stops there (a lone last byte)",
            "play: lone.txt: tape stopped at line 2, a lone last byte; it is the last event of the day",
        ],
    );
    assert_eq!(lines.printed, first);
    both(
        "inside.txt",
        "bytes 04 00 09 00 03 00\nopen 1\n",
        3,
        &[
            "play: inside.txt: line 1: warning: the length field is 4 and the line has 6 bytes: tape begins another frame inside the line, after 4 bytes",
            "play: inside.txt: tape stopped inside line 1, after 4 bytes, where the length field is 3 (under 4); 1 line after it was not played",
        ],
    );
}

#[test]
fn lines_that_become_one_frame_are_told() {
    let [lines, _] = both(
        "joined.txt",
        "open 0\nbytes 0a 00 06 00\n\nopen 1\nopen 2\n",
        3,
        &[
            "play: joined.txt: line 2: warning: the length field is 10 and the line has 4 bytes: tape takes bytes of the next lines, up to line 4, into the frame",
            "play: joined.txt: lines 2 to 4 became one frame: 1 line was not played as it stands",
        ],
    );
    assert_eq!(lines.printed, "E 0 0 0 0\nE 1 2 0 0\nE 2 0 0 0\n");
    let [lines, _] = both(
        "my-day.txt",
        "bytes 12 00 06 00 00 01\nopen 5\nopen 6\n",
        3,
        &[
            "play: my-day.txt: line 1: warning: the length field is 18 and the line has 6 bytes: tape takes bytes of the next lines, up to line 3, into the frame",
            "play: my-day.txt: lines 1 to 3 became one frame: 2 lines were not played as they stand",
        ],
    );
    assert_eq!(lines.printed, "E 0 2 0 0\n");
    // Not more than twenty are named.
    let path = file("many.txt", "bytes 04 00\nbytes 09 00\n".repeat(23));
    let run = play(&tape(), &[], &path);
    let told = said(&run);
    assert_eq!(run.status, Some(3));
    let warnings = 46;
    assert_eq!(told.len(), warnings + 21);
    assert_eq!(
        told[warnings],
        "play: many.txt: lines 1 to 2 became one frame: 1 line was not played as it stands"
    );
    assert_eq!(
        told[warnings + 20],
        "play: many.txt: 3 frames more of several lines: 3 lines were not played as they stand"
    );
    // Several frames in one line take no other line.
    let frames = "bytes 06 00 06 00 00 01 04 00 09 00\nopen 1\n";
    let [lines, _] = both(
        "within.txt",
        frames,
        0,
        &["play: within.txt: line 1: warning: the length field is 6 and the line has 10 bytes: tape begins another frame inside the line, after 6 bytes"],
    );
    assert_eq!(lines.printed, "E 0 0 0 0\nE 1 2 0 0\nE 2 0 0 0\n");
}

/// A frame of several lines ends inside the last, whose rest is no frame.
#[test]
fn a_stop_after_lines_that_became_one_frame_is_told() {
    let [lines, words] = both(
        "then.txt",
        "bytes 10 00 06 00 00 01\nopen 5\nopen 6\n",
        3,
        &[
            "play: then.txt: line 1: warning: the length field is 16 and the line has 6 bytes: tape takes bytes of the next lines, up to line 3, into the frame, and begins the next inside line 3",
            "play: then.txt: lines 1 to 3 became one frame: 2 lines were not played as they stand",
            "play: then.txt: tape stopped inside line 3, after 4 bytes, where the length field is 262 (past the end of the input); no line stands after it",
        ],
    );
    assert_eq!(lines.printed, "E 0 2 0 0\nE 1 2 0 0\n");
    assert!(words.printed.contains(" (lines 1 to 3 as one frame): "));
    let run = play(
        &tape(),
        &[],
        &file("then-more.txt", "bytes 0c 00\nopen 0\nclock 0\nopen 1\n"),
    );
    assert_eq!(
        said(&run)[1..],
        [
            "play: then-more.txt: lines 1 to 3 became one frame: 2 lines were not played as they stand",
            "play: then-more.txt: tape stopped inside line 3, after 4 bytes, where the length field is 0 (under 4); 1 line after it was not played",
        ]
    );
    assert_eq!(run.status, Some(3));
}

#[test]
fn what_cannot_be_read_or_run_is_named() {
    let run = play(&tape(), &[], Path::new("none.txt"));
    assert_eq!(
        run.said,
        "play: none.txt: No such file or directory (os error 2)\n"
    );
    assert_eq!(run.status, Some(1));
    let run = play(&tape(), &[], &repository("days"));
    assert!(
        run.said.ends_with("/days: Is a directory (os error 21)\n"),
        "{}",
        run.said
    );
    assert_eq!(run.status, Some(1));
    let day = repository("days/worked-example.txt");
    let run = play(Path::new("target/none"), &[], &day);
    assert_eq!(run.said, "play: the program target/none is missing\n");
    assert_eq!((run.status, run.printed.as_str()), (Some(1), ""));
    // A name alone is not looked for among the programs of the system.
    let run = play(Path::new("cat"), &[], &day);
    assert_eq!(run.said, "play: the program cat is missing\n");
    for path in ["days", "days/worked-example.txt"] {
        let run = play(&repository(path), &[], &day);
        assert!(
            run.said.contains("cannot be run: Permission denied"),
            "{}",
            run.said
        );
        assert_eq!(run.status, Some(1));
    }
}

#[test]
fn uses() {
    let day = repository("days/worked-example.txt");
    let day = day.to_str().expect("text");
    let cases: &[&[&str]] = &[
        &[],
        &[day],
        &["--tape"],
        &["--tape", "t"],
        &["--tape", "t", day, day],
        &["--tape", "t", "--unknown", day],
        &["--tape", "t", "--tape", "t", day],
        &["--words", "--words", "--tape", "t", day],
        &["--help", "--words"],
    ];
    for words in cases {
        let run = run(Command::new(PLAY).args(*words));
        assert_eq!(
            (run.status, run.printed.as_str()),
            (Some(2), ""),
            "{words:?}"
        );
        assert!(run
            .said
            .starts_with("usage: play --tape TAPE [--words] DAY\n"));
    }
    let run = run(Command::new(PLAY).arg("--help"));
    assert_eq!((run.status, run.said.as_str()), (Some(0), ""));
    assert!(run
        .printed
        .starts_with("usage: play --tape TAPE [--words] DAY\n"));
    let three = "3 where lines of
events were not played, as the program stopped before them or took them into the
frame of another line.";
    assert!(run.printed.contains(three));
}

/// The worked example by the proved tape, run by a shell with this redirection.
fn redirected(redirection: &str, words: &str) -> Run {
    let script = format!("exec \"$0\" --tape \"$1\" {words} \"$2\" {redirection}");
    run(Command::new("bash")
        .args(["-c", &script, PLAY])
        .arg(tape())
        .arg(repository("days/worked-example.txt")))
}

#[test]
fn output_that_does_not_arrive_is_an_error() {
    for words in ["", "--words"] {
        for (redirection, wrong) in [
            (">/dev/full", "No space left on device (os error 28)"),
            (">&-", "standard output is closed"),
            ("1</dev/null", "Bad file descriptor (os error 9)"),
        ] {
            let run = redirected(redirection, words);
            assert_eq!(run.said, format!("play: writing the output: {wrong}\n"));
            assert_eq!(run.status, Some(1), "{redirection}");
        }
        for redirection in [">/dev/null", "1<>/dev/null", "<&-", "2>&-", "2>/dev/full"] {
            let run = redirected(redirection, words);
            assert_eq!(
                (run.status, run.said.as_str()),
                (Some(0), ""),
                "{redirection}"
            );
        }
        assert_eq!(redirected("2>&- >&-", words).status, Some(1));
    }
}

#[test]
fn a_reader_that_goes_away_is_an_error() {
    let day = file("long.txt", "open 0\n".repeat(100_000));
    for words in ["", "--words"] {
        let script = format!("{{ \"$0\" --tape \"$1\" {words} \"$2\"; echo $? >&2; }} | head -n 1");
        let run = run(Command::new("bash")
            .args(["-c", &script, PLAY])
            .arg(tape())
            .arg(&day));
        assert_eq!(
            run.said,
            "play: writing the output: Broken pipe (os error 32)\n1\n"
        );
    }
}

/// The program is ended where nobody takes what it prints.
#[test]
fn a_tape_is_ended_with_the_output() {
    let start = Instant::now();
    let day = file("ended.txt", "open 0\n");
    let run = run(Command::new("bash")
        .args(["-c", "exec \"$0\" --tape \"$1\" \"$2\" >/dev/full", PLAY])
        .arg(odd_tape())
        .arg(&day)
        .env("ACT", "much"));
    assert_eq!(
        run.said,
        "play: writing the output: No space left on device (os error 28)\n"
    );
    assert_eq!(run.status, Some(1));
    assert!(start.elapsed() < Duration::from_secs(30));
}

#[test]
fn a_tape_that_ends_by_a_signal_is_told() {
    for run in acted("segment.txt", "open 0\n", &[("ACT", "segment")]) {
        let stack = "play: tape: ended by signal 11: it may have run out of stack, of which it needs 400 KB or more (ulimit -s)";
        assert_eq!(
            said(&run),
            [stack, "play: tape: 0 events answered, and the day has 1"]
        );
        assert_eq!(run.status, Some(1));
    }
    for run in acted("killed.txt", "open 0\n", &[("ACT", "killed")]) {
        assert_eq!(said(&run)[0], "play: tape: ended by signal 9");
        assert_eq!(run.status, Some(1));
    }
    for run in acted("status.txt", "", &[("ACT", "status")]) {
        assert_eq!(said(&run), ["play: tape: ended with status 7"]);
        assert_eq!(run.status, Some(1));
    }
}

#[test]
fn a_tape_that_runs_out_of_stack_is_told() {
    let script = "ulimit -s 150; exec \"$0\" --tape \"$1\" \"$2\"";
    // Without the variables, which stand on the stack, too.
    let run = run(Command::new("bash")
        .env_clear()
        .args(["-c", script, PLAY])
        .arg(tape())
        .arg(repository("days/worked-example.txt")));
    assert!(
        run.said
            .starts_with("play: tape: ended by signal 11: it may have run out of stack"),
        "{}",
        run.said
    );
    assert_eq!(run.status, Some(1));
}

#[test]
fn what_a_tape_says_is_told() {
    let act = [
        ("ACT", "both"),
        ("LINES_TO_PRINT", "E 0 0 0 0\\n"),
        ("SAID", "so\\033[1m\\n\\nand\\xffso"),
    ];
    for run in acted("said.txt", "open 0\n", &act) {
        assert_eq!(
            said(&run),
            ["play: tape: so\\u{1b}[1m", "play: tape: and\\xffso"]
        );
        assert_eq!(run.status, Some(1));
        assert!(run.printed.contains('0'));
    }
    let long = "x\\n".repeat(30) + &"y".repeat(300);
    let act = [
        ("ACT", "both"),
        ("LINES_TO_PRINT", ""),
        ("SAID", long.as_str()),
    ];
    for run in acted("long-said.txt", "", &act) {
        let told = said(&run);
        assert_eq!(told.len(), 11);
        assert_eq!(told[10], "play: tape: and more");
    }
}

/// Lines that a tape prints for a day of two opens, and what is told of them.
const ODD: &[(&str, &[&str])] = &[
    ("", &["play: tape: 0 events answered, and the day has 2"]),
    (
        "E 0 0 0 0\\n",
        &["play: tape: 1 event answered, and the day has 2"],
    ),
    (
        "E 0 0 0 0\\nE 1 0 0 0\\nE 2 0 0 0\\n",
        &["play: tape: 3 events answered, and the day has 2"],
    ),
    (
        "E 0 0 0 0\\nE 1 0 0 0",
        &[
            "play: tape: line 2 of its output: 'E 1 0 0 0' is no whole line",
            "play: tape: 1 event answered, and the day has 2",
        ],
    ),
    (
        "E 0 0 0 0\\nwhat\\nE 1 0 0 0\\n",
        &["play: tape: line 2 of its output: 'what' is no line of tape"],
    ),
    (
        "E 0 0 0 1\\nE 1 0 0 0\\n",
        &["play: tape: line 2 of its output: 1 record fewer than the event before counts"],
    ),
    (
        "E 0 0 0 0\\nR 1 2 3 4 5 6\\nE 1 0 0 0\\n",
        &["play: tape: line 2 of its output: a record past the count of its event"],
    ),
    (
        "E 0 0 0 0\\nE 2 0 0 0\\n",
        &["play: tape: line 2 of its output: index 2 instead of 1"],
    ),
];

#[test]
fn lines_that_are_not_those_of_the_day_are_told() {
    for (lines, messages) in ODD {
        let act = [("ACT", "lines"), ("LINES_TO_PRINT", *lines)];
        let [passed, words] = acted("odd.txt", "open 0\nopen 1\n", &act);
        // What came is passed on all the same.
        assert_eq!(passed.printed, lines.replace("\\n", "\n"));
        for run in [passed, words] {
            assert_eq!(said(&run), *messages, "{lines}");
            assert_eq!(run.status, Some(1), "{lines}");
        }
    }
}

/// A tape need not read its input; where it answers, nothing is wrong.
#[test]
fn a_tape_that_stops_reading_is_no_error() {
    let day = "bytes 00 00\n".to_string() + &"open 0 # one more line\n".repeat(200_000);
    let path = file("early.txt", day);
    let run = play(&tape(), &[], &path);
    assert_eq!((run.status, run.printed.as_str()), (Some(3), "E 0 2 0 0\n"));
    assert!(said(&run)[1].ends_with("(under 4); 200000 lines after it were not played"));
    let act = [("ACT", "early")];
    for run in acted("early-empty.txt", "", &act) {
        let said = said(&run);
        let none = "play: early-empty.txt: the day has no events";
        assert_eq!((run.status, &said[..]), (Some(0), &[none.to_string()][..]));
    }
}

#[test]
fn a_day_that_changes_is_told() {
    let day = "open 0\n".repeat(200_000);
    for words in [&[][..], &["--words"]] {
        let path = file("change.txt", &day);
        let run = run(Command::new(PLAY)
            .arg("--tape")
            .arg(odd_tape())
            .args(words)
            .arg(&path)
            .env("ACT", "change")
            .env("DAY", &path));
        let changed = "play: change.txt: line 142858 changed while the day was read";
        assert_eq!(said(&run), [changed]);
        assert_eq!(run.status, Some(1));
    }
}

/// What is printed comes while the program still runs: it waits until this was
/// seen.
#[test]
fn lines_and_words_come_as_they_are_printed() {
    let day = file("slow.txt", "open 0\nopen 1\n");
    let seen = day.with_extension("seen");
    for (words, due) in [
        (&[][..], "E 0 0 0 0\nE 1 0 0 0\n"),
        (&["--words"], "line 1: open 0\n  event 0: accepted\n"),
    ] {
        fs::remove_file(&seen).ok();
        let mut child = Command::new(PLAY)
            .arg("--tape")
            .arg(Path::new(env!("CARGO_MANIFEST_DIR")).join("tests/slow.sh"))
            .args(words)
            .arg(&day)
            .env("SEEN", &seen)
            .stdout(Stdio::piped())
            .spawn()
            .expect("it runs");
        let mut first = vec![0; due.len()];
        let mut output = child.stdout.take().expect("a pipe");
        output.read_exact(&mut first).expect("text");
        assert_eq!(first, due.as_bytes());
        fs::write(&seen, "").expect("a file");
        io::copy(&mut output, &mut io::sink()).expect("the rest");
        assert!(child.wait().expect("it ends").success());
    }
}

#[test]
fn a_day_from_a_pipe() {
    let script = "printf 'open 0\\nopen 1\\n' | \"$0\" --tape \"$1\" /dev/stdin";
    let run = run(Command::new("bash").args(["-c", script, PLAY]).arg(tape()));
    assert_eq!((run.status, run.said.as_str()), (Some(0), ""));
    assert_eq!(run.printed, "E 0 0 0 0\nE 1 0 0 0\n");
}

/// A day of 60 MB in 40 MB of memory.
#[test]
fn memory_does_not_grow_with_the_day() {
    let comment = "x".repeat(90);
    let path = file(
        "memory.txt",
        format!("open 0 # {comment}\n").repeat(600_000),
    );
    for (words, lines) in [("", 600_000), ("--words", 1_200_007)] {
        let script = format!("ulimit -v 40000; exec \"$0\" --tape \"$1\" {words} \"$2\"");
        let run = run(Command::new("bash")
            .args(["-c", &script, PLAY])
            .arg(tape())
            .arg(&path)
            // Else each thread asks for an address space of its own.
            .env("MALLOC_ARENA_MAX", "1"));
        assert_eq!((run.status, run.said.as_str()), (Some(0), ""));
        assert_eq!(run.printed.lines().count(), lines);
    }
    fs::remove_file(path).expect("it is there");
}
