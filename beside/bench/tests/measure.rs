//! Medians, ratios and costs are reckoned right. No time is tested.

#![forbid(unsafe_code)]
#![deny(warnings)]

use bench::measure::{median, medians, printed, seconds, Both};
use bench::text::{grouped, ratio};
use std::io::Write;
use std::path::Path;
use std::process::{Command, Stdio};

fn both(proved: f64, reckoning: f64) -> Both {
    Both { proved, reckoning }
}

#[test]
fn the_median_is_in_the_middle() {
    assert_eq!(median(&[]), None);
    assert_eq!(median(&[7.0]), Some(7.0));
    assert_eq!(median(&[3.0, 1.0]), Some(2.0));
    assert_eq!(median(&[9.0, 1.0, 2.0]), Some(2.0));
    assert_eq!(median(&[9.0, 1.0, 2.0, 4.0]), Some(3.0));
    assert_eq!(median(&[5.0, 5.0, 1.0, 1_000.0, 5.0]), Some(5.0));
    assert_eq!(median(&[-1.0, 2.0, 0.5]), Some(0.5));
}

#[test]
fn a_ratio_of_1_or_more_means_that_the_proved_one_is_as_fast() {
    assert_eq!(both(2.0, 1.0).ratio(), Some(0.5));
    assert_eq!(both(1.0, 1.0).ratio(), Some(1.0));
    assert_eq!(both(0.5, 2.0).ratio(), Some(4.0));
    for none in [
        both(0.0, 1.0),
        both(1.0, 0.0),
        both(-1.0, 1.0),
        both(1.0, -1.0),
    ] {
        assert_eq!(none.ratio(), None);
        assert_eq!(ratio(&none), "-");
    }
    assert_eq!(ratio(&both(3.0, 1.0)), "0.33");
    assert_eq!(ratio(&both(600.0, 1.0)), "0.002");
    assert_eq!(ratio(&both(1.0, 12.0)), "12.00");
}

#[test]
fn a_cost_is_the_difference_over_the_tail() {
    let cost = Both::cost(both(3.0, 1.5), both(1.0, 0.5), 4);
    assert_eq!(cost, both(0.5, 0.25));
    assert_eq!(cost.ratio(), Some(0.5));
    assert_eq!(both(2.0, 0.5).rates(100), both(50.0, 200.0));
}

/// Each program has its own times, and they run in turn.
#[test]
fn the_programs_run_in_turn_and_keep_their_times() {
    let programs = [Path::new("p"), Path::new("r")];
    let inputs = [Path::new("1"), Path::new("2")];
    let mut calls = Vec::new();
    let mut time = |program: &Path, input: &Path| {
        calls.push(format!("{}{}", program.display(), input.display()));
        // The first round takes long.
        let late = if calls.len() <= 4 { 100.0 } else { 0.0 };
        let own = calls.len() as f64 / 1_000.0;
        Ok(match (program == programs[0], input == inputs[0]) {
            (true, true) => late + own + 10.0,
            (true, false) => late + own + 20.0,
            (false, true) => late + own + 30.0,
            (false, false) => late + own + 40.0,
        })
    };
    let times = medians(programs, &inputs, 3, &mut time).expect("times");
    assert_eq!(calls.join(" "), "p1 r1 p2 r2 r1 p1 r2 p2 p1 r1 p2 r2",);
    let near = |one: f64, two: f64| (one - two).abs() < 1e-9;
    // Of p1, for example, the calls 1, 6 and 9: the middle one is the last.
    assert!(near(times[0].proved, 10.009) && near(times[0].reckoning, 30.010));
    assert!(near(times[1].proved, 20.011) && near(times[1].reckoning, 40.012));
    let mut bad = |_: &Path, _: &Path| Err("bad".to_string());
    assert_eq!(
        medians(programs, &inputs, 3, &mut bad),
        Err("bad".to_string())
    );
    let mut good = |_: &Path, _: &Path| Ok(1.0);
    assert_eq!(
        medians(programs, &inputs, 0, &mut good),
        Err("no rounds".to_string())
    );
}

#[test]
fn programs_that_fail() {
    let input = Path::new(concat!(env!("CARGO_MANIFEST_DIR"), "/Cargo.toml"));
    let said = |program: &str, input: &Path| {
        let program = Path::new(program);
        let one = seconds(program, input)
            .map(|_| ())
            .expect_err(&format!("{program:?}"));
        assert_eq!(printed(program, input), Err(one.clone()));
        one
    };
    assert!(said("/none", input).starts_with("/none cannot be run: "));
    assert!(said("/bin/false", input).starts_with("/bin/false ended badly: "));
    assert!(said("/bin/cat", Path::new("/none")).starts_with("/none: "));
    assert_eq!(
        printed(Path::new("/bin/cat"), input).ok(),
        std::fs::read(input).ok()
    );
    assert!(seconds(Path::new("/bin/cat"), input).is_ok_and(|time| time > 0.0));
}

#[test]
fn numbers_as_text() {
    for (number, text) in [
        (0.0, "0"),
        (999.4, "999"),
        (999.6, "1,000"),
        (12_345.0, "12,345"),
        (123_456.0, "123,456"),
        (1_234_567.0, "1,234,567"),
    ] {
        assert_eq!(grouped(number), text);
    }
}

/// What `bench costs` prints for lines of counts.
fn costs(lines: &str) -> (Option<i32>, String, String) {
    let mut child = Command::new(env!("CARGO_BIN_EXE_bench"))
        .arg("costs")
        .stdin(Stdio::piped())
        .stdout(Stdio::piped())
        .stderr(Stdio::piped())
        .spawn()
        .expect("the program");
    let mut to = child.stdin.take().expect("its input");
    to.write_all(lines.as_bytes()).expect("lines");
    drop(to);
    let output = child.wait_with_output().expect("its output");
    let text = |bytes: &[u8]| String::from_utf8_lossy(bytes).to_string();
    (
        output.status.code(),
        text(&output.stdout),
        text(&output.stderr),
    )
}

#[test]
fn costs_from_counts() {
    let (status, said, _) = costs("strategy 10 1000 31000 500 15500\nrefused 4 0 4 0 8\n");
    assert_eq!(status, Some(0));
    let rows: Vec<Vec<&str>> = said
        .lines()
        .map(|l| l.split_whitespace().collect())
        .collect();
    assert_eq!(
        rows,
        [
            vec!["proved", "reckoning", "ratio"],
            vec!["1", "strategy", "3,000", "1,500", "0.50"],
            vec!["refused", "1", "2", "2.00"],
        ]
    );
    for bad in [
        "none 1 1 1 1 1",
        "strategy 1 1 1 1",
        "strategy 1 1 1 1 1 1",
        "strategy x 1 1 1 1",
        "strategy",
    ] {
        let (status, _, said) = costs(bad);
        assert_eq!(status, Some(1));
        assert_eq!(said, format!("bench: '{bad}' is no line of counts\n"));
    }
}

/// The script and the program take only what their help says.
#[test]
fn bad_uses() {
    let script = concat!(env!("CARGO_MANIFEST_DIR"), "/../../bench");
    let program = env!("CARGO_BIN_EXE_bench");
    for (path, words, status, said) in [
        (script, "--unknown", 2, "usage: ./bench"),
        (script, "day.txt", 2, "usage: ./bench"),
        (script, "--rounds", 2, "--rounds takes a number from 1"),
        (script, "--rounds 0", 2, "--rounds takes a number from 1"),
        (script, "--events -5", 2, "--events takes a number from 1"),
        (script, "--tail 99001", 2, "--tail is 99000 at most"),
        (program, "", 2, "usage: bench"),
        (program, "day all", 2, "usage: bench"),
        (program, "day all 0", 1, "'0' is no number from 1"),
        (
            program,
            "day none 5",
            1,
            "'none' is no day; one is: all, strategy, ",
        ),
        (program, "long", 2, "usage: bench"),
        (
            program,
            "long none",
            1,
            "'none' is no long day; one is: full-book, ",
        ),
        (
            program,
            "copies /none /none 1 1 /none",
            1,
            "no size of the state",
        ),
        (
            program,
            "copies /none /none 1 1 /none 9",
            1,
            "no size of a table",
        ),
        (
            program,
            "copies /none /none 1 1 /none 9 x",
            1,
            "'x' is no number from 1",
        ),
        (
            program,
            "copies /none /none 1 1 /none 9 8",
            1,
            "/none/some: ",
        ),
        (program, "tails /none /none /none 1 1", 2, "usage: bench"),
        (
            program,
            "tails /none /none /none 1 1 /none",
            1,
            "/none/events: ",
        ),
        (program, "time /none /none 1 1 1 /none", 1, "/none/all: "),
    ] {
        let output = (Command::new(path).args(words.split_whitespace()).output())
            .unwrap_or_else(|error| panic!("{path}: {error}"));
        let errors = String::from_utf8_lossy(&output.stderr);
        assert!(errors.contains(said), "{words}: {errors}");
        assert_eq!(output.status.code(), Some(status), "{words}");
        assert!(output.stdout.is_empty(), "{words}");
    }
    for path in [script, program] {
        let output = Command::new(path).arg("--help").output();
        let output = output.unwrap_or_else(|error| panic!("{path}: {error}"));
        assert!(output.status.success());
        assert!(String::from_utf8_lossy(&output.stdout).starts_with("usage: "));
    }
}
