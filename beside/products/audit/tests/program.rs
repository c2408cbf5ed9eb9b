//! Tests of the program `audit`: its output, its messages and its status.

#![forbid(unsafe_code)]
#![deny(warnings)]

use assemble::assemble;
use std::fs;
use std::path::PathBuf;
use std::process::{Command, Output};

const AUDIT: &str = env!("CARGO_BIN_EXE_audit");
const DAY: &str = include_str!("../../../../days/worked-example.txt");
const LINES: &str = include_str!("../../../../days/worked-example.out");
const PRINTED: &str = include_str!("../../../../days/worked-example.audit");
const REFUSALS: [&str; 3] = [
    include_str!("../../../../days/refusals.txt"),
    include_str!("../../../../days/refusals.out"),
    include_str!("../../../../days/refusals.audit"),
];
/// What `tape` prints for a day end after the worked example.
const END: &str = "E 6 0 0 2\nR 3 1 0 1 3 0\nR 3 2 0 0 3 0\n";

/// The path of a file with this content.
fn file(name: &str, content: &[u8]) -> String {
    let folder = PathBuf::from(env!("CARGO_TARGET_TMPDIR")).join("audit");
    fs::create_dir_all(&folder).expect("a folder");
    let path = folder.join(name);
    fs::write(&path, content).expect("a file");
    path.to_str().expect("text").to_string()
}

/// The files of a list: frames, lines, and lines with a day end.
fn files(name: &str, day: &str, lines: &str, ended: &str) -> [String; 3] {
    let frames = assemble(day.as_bytes()).expect("a day");
    [
        file(&format!("{name}.frames"), &frames),
        file(&format!("{name}.lines"), lines.as_bytes()),
        file(&format!("{name}.ended"), ended.as_bytes()),
    ]
}

fn worked_example(name: &str) -> [String; 3] {
    files(name, DAY, LINES, &format!("{LINES}{END}"))
}

fn run(words: &[String]) -> Output {
    let output = Command::new(AUDIT).args(words).output();
    output.expect("audit runs")
}

/// A script of bash that has the program and its words as "$0" and "$@".
fn script(text: &str, words: &[String]) -> Output {
    let output = Command::new("bash")
        .args(["-c", text, AUDIT])
        .args(words)
        .output();
    output.expect("bash runs")
}

fn text(bytes: &[u8]) -> String {
    String::from_utf8(bytes.to_vec()).expect("text")
}

/// The status, what is printed, and what is said on standard error.
fn seen(output: &Output) -> (i32, String, String) {
    let status = output.status.code().expect("no signal");
    (status, text(&output.stdout), text(&output.stderr))
}

fn strings(words: &[&str]) -> Vec<String> {
    words.iter().map(|word| word.to_string()).collect()
}

#[test]
fn totals_that_hold_and_totals_that_do_not() {
    let words = worked_example("holds");
    let printed = (0, PRINTED.to_string(), String::new());
    assert_eq!(seen(&run(&words)), printed);
    let wrong = END.replace("R 3 2 0 0 3 0", "R 3 2 0 0 4 0");
    let words = files("fails", DAY, LINES, &format!("{LINES}{wrong}"));
    let (status, printed, said) = seen(&run(&words));
    assert_eq!((status, said.as_str()), (1, ""));
    let end = "totals do not hold:\n  \
        day 1, number 2: entered 5, but filled 2 + cancelled 0 + live 4 = 6\n";
    assert!(printed.ends_with(end), "{printed}");
}

#[test]
fn a_day_end_after_the_frames() {
    let [frames, ..] = worked_example("day-end");
    let output = run(&["--with-day-end".to_string(), frames.clone()]);
    let mut ended = fs::read(frames).expect("a file");
    ended.extend([6, 0, 8, 0, 0x88, 0x13]);
    assert_eq!((output.status.code(), output.stdout), (Some(0), ended));
}

/// The worked example and these bytes after it.
fn stopped(name: &str, rest: &str, end: &str) -> [String; 3] {
    let day = format!("{DAY}\nbytes {rest}\n");
    let lines = format!("{LINES}E 6 2 0 0\n");
    files(name, &day, &lines, &format!("{LINES}{end}"))
}

/// What is printed is what would be without the bytes that were not played, but
/// for the event that was refused.
#[test]
fn bytes_that_were_not_played_are_told() {
    let printed = PRINTED.replace("Day 1: 6 events", "Day 1: 7 events");
    for (rest, status, said) in [
        (
            "00 00 00 06 00 06 00 00 01",
            3,
            "whose length field is 0 (under 4); 7 bytes after it were not played",
        ),
        (
            "03 00 06 00",
            3,
            "whose length field is 3 (under 4); 1 byte after it was not played",
        ),
        (
            "03 00 06",
            0,
            "whose length field is 3 (under 4); nothing stands after it",
        ),
        (
            "07 00 06 00 00 01",
            0,
            "whose length field is 7 (past the end of the input); nothing stands after it",
        ),
        ("07", 0, "a lone last byte; nothing stands after it"),
    ] {
        let words = stopped("stopped", rest, END);
        let said = format!("audit: tape stopped at byte 67 of the frames, {said}\n");
        assert_eq!(seen(&run(&words)), (status, printed.clone(), said));
        // The frames with a day end are written without a word.
        let output = run(&["--with-day-end".to_string(), words[0].clone()]);
        assert_eq!(output.status.code(), Some(0));
        assert_eq!(
            (output.stdout.len(), text(&output.stderr)),
            (73, String::new())
        );
    }
}

/// Totals that do not hold, and files that do not belong together, stay so.
#[test]
fn a_stop_beside_something_wrong() {
    let rest = "00 00 00";
    let wrong = END.replace("R 3 2 0 0 3 0", "R 3 2 0 0 4 0");
    let (status, printed, said) = seen(&run(&stopped("stop-fails", rest, &wrong)));
    assert_eq!(
        (status, said.as_str()),
        (1, "audit: tape stopped at byte 67 of the frames, whose length field is 0 (under 4); 1 byte after it was not played\n")
    );
    assert!(printed.contains("totals do not hold:\n"), "{printed}");
    let (status, printed, said) = seen(&run(&stopped("stop-wrong", rest, "")));
    assert_eq!((status, printed.as_str()), (2, ""));
    assert_eq!(
        said,
        "audit: lines with the day end: 6 events are answered, and the input has 7\n"
    );
}

/// The day of refusals ends in a length past its end.
#[test]
fn a_stop_at_the_end_leaves_the_status_0() {
    let [day, lines, printed] = REFUSALS;
    let (before, _) = lines.split_once("E 47 ").expect("the last event");
    let live = "R 3 1 0 0 5 0\nR 3 2 0 1 15 0\nR 3 3 0 0 3 0\nR 3 4 0 0 2 0\nR 3 5 0 1 2 0\n";
    let end = format!("E 47 0 0 6\nR 5 3 0 0 0 0\n{live}");
    let words = files("refusals", day, lines, &format!("{before}{end}"));
    let at = fs::metadata(&words[0]).expect("a file").len() - 5;
    let said = format!("audit: tape stopped at byte {at} of the frames, whose length field is 6 (past the end of the input); nothing stands after it\n");
    assert_eq!(seen(&run(&words)), (0, printed.to_string(), said));
}

#[test]
fn uses() {
    for words in [&[][..], &["a"], &["a", "b"], &["a", "b", "c", "d"]] {
        let (status, printed, said) = seen(&run(&strings(words)));
        assert_eq!((status, printed.as_str()), (2, ""), "{words:?}");
        assert!(said.starts_with("usage: audit FRAMES LINES ENDED\n"));
    }
    let (status, printed, said) = seen(&run(&strings(&["--help"])));
    assert_eq!((status, said.as_str()), (0, ""));
    assert!(printed.starts_with("usage: audit FRAMES LINES ENDED\n"));
    assert!(printed.contains("'and N more'"));
    assert!(printed.contains("The exit status is 3 if there are such bytes and the totals of\n"));
}

#[test]
fn what_cannot_be_read_is_named() {
    let words = worked_example("unread");
    for at in 0..3 {
        for (name, said) in [
            ("none", "none: No such file or directory (os error 2)"),
            ("/", "/: Is a directory (os error 21)"),
            (
                "none\x1b[31m",
                "none\\u{1b}[31m: No such file or directory (os error 2)",
            ),
        ] {
            let mut words = words.clone();
            words[at] = name.to_string();
            let said = (2, String::new(), format!("audit: {said}\n"));
            assert_eq!(seen(&run(&words)), said);
            if at == 0 {
                let words = ["--with-day-end".to_string(), name.to_string()];
                assert_eq!(seen(&run(&words)), said);
            }
        }
    }
}

/// The worked example, its day end, and the worked example again.
fn two_days(name: &str, from: &str, to: &str) -> [String; 3] {
    let day = format!("{DAY}\nday-end timer 5000\n");
    let second = |line: &str| match line.strip_prefix("E ") {
        Some(rest) => {
            let (index, rest) = rest.split_once(' ').expect("an index");
            format!(
                "E {} {rest}\n",
                index.parse::<usize>().expect("a number") + 7
            )
        }
        None => format!("{line}\n"),
    };
    let again: String = format!("{LINES}{END}").lines().map(second).collect();
    let lines = format!("{LINES}{END}{again}").replacen(from, to, 1);
    let ended = format!("{lines}E 14 0 0 0\n");
    files(name, &day.repeat(2), &lines, &ended)
}

#[test]
fn days_before_an_error_are_printed() {
    let (status, whole, said) = seen(&run(&two_days("days", "E 7 ", "E 7 ")));
    assert_eq!((status, said.as_str()), (0, ""));
    let (first, _) = whole.split_once("Day 2: ").expect("two days");
    for (name, from, to, days, said) in [
        (
            "second",
            "E 12 0 3 5\n",
            "X\n",
            first,
            "lines: line 20: 'X' is no line of tape",
        ),
        (
            "end",
            "E 13 0 0 2\n",
            "E 13 0 0 1\n",
            first,
            "lines: line 28: a record past the count of its event",
        ),
        (
            "first",
            "E 6 0 0 2\n",
            "E 6 0 0 1\n",
            "",
            "lines: line 14: a record past the count of its event",
        ),
        // A day is printed when the event after it was read.
        (
            "after",
            "E 7 0 0 0\n",
            "E 7 0\n",
            "",
            "lines: line 15: 'E 7 0' is no line of tape",
        ),
    ] {
        let (status, printed, told) = seen(&run(&two_days(name, from, to)));
        assert_eq!((status, told), (2, format!("audit: {said}\n")));
        assert_eq!(printed, days, "{name}");
    }
}

/// Nothing of one day is printed where it has an error, also after its day end.
#[test]
fn nothing_of_one_day_is_printed_before_an_error() {
    let day = format!("{DAY}\nday-end timer 5000\n");
    let lines = format!("{LINES}{END}");
    let ended = format!("{lines}E 7 0 0 0\n");
    let words = files("one", &day, &lines, &ended);
    assert_eq!(seen(&run(&words)).0, 0);
    for (lines, ended, said) in [
        (
            format!("{lines}E 7 0 0 0\n"),
            ended.clone(),
            "lines: 8 events are answered, and the input has 7",
        ),
        (
            LINES.to_string(),
            ended.clone(),
            "lines: 6 events are answered, and the input has 7",
        ),
        (
            lines.clone(),
            lines.clone(),
            "lines with the day end: 7 events are answered, and the input has 8",
        ),
        (
            lines.clone(),
            LINES.to_string(),
            "lines with the day end: 6 events are answered, and the input has 8",
        ),
        (
            lines.clone(),
            format!("{ended}E 8 0 0 1\nR 3 1 0 0 1 0\nE 9 0 0 0\n"),
            "lines with the day end: 10 events are answered, and the input has 8",
        ),
        (
            lines.clone(),
            ended.replace("E 7 0 0 0", "E 7 0 0 2\nR 3 1 0 0 1 0"),
            "lines with the day end: 1 records fewer than the last event counts",
        ),
    ] {
        let words = files("one", &day, &lines, &ended);
        let said = (2, String::new(), format!("audit: {said}\n"));
        assert_eq!(seen(&run(&words)), said);
    }
}

#[test]
fn output_that_does_not_arrive_is_an_error() {
    let words = worked_example("output");
    let with_day_end = strings(&["--with-day-end", &words[0]]);
    let help = strings(&["--help"]);
    for words in [&words[..], &with_day_end, &help] {
        for (redirection, wrong) in [
            (">/dev/full", "No space left on device (os error 28)"),
            (">&-", "standard output is closed"),
            ("1</dev/null", "Bad file descriptor (os error 9)"),
        ] {
            let output = script(&format!("exec \"$0\" \"$@\" {redirection}"), words);
            let said = format!("audit: writing the output: {wrong}\n");
            assert_eq!(seen(&output), (2, String::new(), said), "{words:?}");
        }
        for redirection in [
            ">/dev/null",
            "1<>/dev/null",
            "2>&- >/dev/null",
            "<&-  >/dev/null",
        ] {
            let output = script(&format!("exec \"$0\" \"$@\" {redirection}"), words);
            assert_eq!(
                seen(&output),
                (0, String::new(), String::new()),
                "{redirection}"
            );
        }
        // The status does not need standard error.
        let output = script("exec \"$0\" \"$@\" 2>/dev/full >/dev/full", words);
        assert_eq!(seen(&output), (2, String::new(), String::new()));
    }
}

/// More than a pipe and the buffer hold.
#[test]
fn a_reader_that_goes_away_is_an_error() {
    let count = 4_000;
    let text = "open 0\nday-end timer 5000\n".repeat(count);
    let lines: String = (0..2 * count)
        .map(|index| format!("E {index} 0 0 0\n"))
        .collect();
    let ended = format!("{lines}E {} 0 0 0\n", 2 * count);
    let words = files("reader", &text, &lines, &ended);
    assert!(run(&words).stdout.len() > 400_000);
    let text = "{ \"$0\" \"$@\"; echo $? >&2; } | head -c 1";
    let said = "audit: writing the output: Broken pipe (os error 32)\n2\n";
    let output = script(text, &words);
    assert_eq!(seen(&output), (0, "D".to_string(), said.to_string()));
}
