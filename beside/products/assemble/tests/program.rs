//! Tests of the program `assemble`: its output, its messages and its status.

#![forbid(unsafe_code)]
#![deny(warnings)]

use std::fs;
use std::io::Write;
use std::path::PathBuf;
use std::process::{Command, Output, Stdio};

const ASSEMBLE: &str = env!("CARGO_BIN_EXE_assemble");
const OPEN: &[u8] = &[6, 0, 6, 0, 0, 1];

/// A file with this content.
fn file(name: &str, content: &[u8]) -> PathBuf {
    let folder = PathBuf::from(env!("CARGO_TARGET_TMPDIR")).join("assemble");
    fs::create_dir_all(&folder).expect("a folder");
    let path = folder.join(name);
    fs::write(&path, content).expect("a file");
    path
}

fn run(words: &[&str]) -> Output {
    Command::new(ASSEMBLE)
        .args(words)
        .output()
        .expect("assemble runs")
}

/// The program run by a shell with this redirection.
fn redirected(redirection: &str, path: &str) -> Output {
    Command::new("bash")
        .args(["-c", &format!("exec \"$0\" \"$1\" {redirection}")])
        .args([ASSEMBLE, path])
        .output()
        .expect("bash runs")
}

fn said(output: &Output) -> String {
    String::from_utf8(output.stderr.clone()).expect("text")
}

fn status(output: &Output) -> i32 {
    output.status.code().expect("no signal")
}

#[test]
fn frames_are_written() {
    let path = file("good.txt", b"open 0\n# so\nopen 0\n");
    let output = run(&[path.to_str().expect("text")]);
    assert_eq!((status(&output), said(&output)), (0, String::new()));
    assert_eq!(output.stdout, OPEN.repeat(2));
}

#[test]
fn every_bad_line_is_told_and_nothing_is_written() {
    let path = file("bad.txt", b"open 0\nopen 32\nopen 1\nopen\n");
    let path = path.to_str().expect("text");
    for (words, name) in [
        (vec![path], "assemble"),
        (vec!["--as", "play", path], "play"),
    ] {
        let output = run(&words);
        assert_eq!(status(&output), 1);
        assert!(output.stdout.is_empty());
        let told = said(&output);
        let lines: Vec<&str> = told.lines().collect();
        assert_eq!(lines.len(), 2, "{told}");
        for line in &lines {
            assert!(line.starts_with(&format!("{name}: ")), "{line}");
        }
        let first = "bad.txt: line 2: series 32 is outside its range, 0 to 31";
        assert!(lines[0].ends_with(first), "{told}");
        let second = "bad.txt: line 4: the line ends before the series; the form is: open SERIES";
        assert!(lines[1].ends_with(second), "{told}");
    }
}

#[test]
fn a_warning_leaves_the_status_0() {
    let path = file("odd.txt", b"open 0\nbytes 06 00 06\n");
    let output = run(&["--as", "audit", path.to_str().expect("text")]);
    assert_eq!(status(&output), 0);
    assert_eq!(output.stdout, [OPEN, &[6, 0, 6]].concat());
    let told = said(&output);
    assert!(told.starts_with("audit: "), "{told}");
    assert!(
        told.contains("odd.txt: line 2: warning: the length field is 6 and the line has 3 bytes"),
        "{told}"
    );
    assert_eq!(told.lines().count(), 1);
}

#[test]
fn what_cannot_be_read_is_named() {
    let output = run(&["none.txt"]);
    let missing = "assemble: none.txt: No such file or directory (os error 2)\n";
    assert_eq!((status(&output), said(&output).as_str()), (1, missing));
    let output = run(&[env!("CARGO_MANIFEST_DIR")]);
    assert_eq!(status(&output), 1);
    let told = said(&output);
    assert!(told.contains("assemble: Is a directory"), "{told}");
    let output = run(&["none\x1b[31m"]);
    assert!(said(&output).starts_with("assemble: none\\u{1b}[31m: No such file"));
}

#[test]
fn uses() {
    for words in [&[][..], &["a", "b"], &["--as", "a"], &["--unknown"]] {
        let output = run(words);
        assert_eq!((status(&output), output.stdout.len()), (2, 0), "{words:?}");
        assert!(said(&output).starts_with("usage: assemble [--as NAME] FILE\n"));
    }
    let output = run(&["--help"]);
    assert_eq!((status(&output), said(&output)), (0, String::new()));
    assert!(output.stdout.starts_with(b"usage: assemble"));
}

#[test]
fn output_that_does_not_arrive_is_an_error() {
    let path = file("full.txt", b"open 0\n");
    let path = path.to_str().expect("text");
    for (redirection, wrong) in [
        (">/dev/full", "No space left on device (os error 28)"),
        (">&-", "standard output is closed"),
        ("1</dev/null", "Bad file descriptor (os error 9)"),
    ] {
        let output = redirected(redirection, path);
        let message = format!("assemble: writing the output: {wrong}\n");
        assert_eq!((status(&output), said(&output)), (1, message));
        let help = redirected(redirection, "--help");
        assert_eq!(status(&help), 1, "{redirection}");
    }
    for redirection in [">/dev/null", "1<>/dev/null", "2>&- >/dev/null", "<&-"] {
        let output = redirected(redirection, path);
        assert_eq!((status(&output), said(&output)), (0, String::new()));
    }
    // What is said on a standard error that is full is lost; the status is not.
    let output = redirected("2>/dev/full >/dev/full", path);
    assert_eq!(status(&output), 1);
}

#[test]
fn a_reader_that_goes_away_is_an_error() {
    let path = file("long.txt", "open 0\n".repeat(100_000).as_bytes());
    let path = path.to_str().expect("text");
    let script = "set -o pipefail; { \"$0\" \"$1\"; echo $? >&2; } | head -c 1";
    let output = Command::new("bash")
        .args(["-c", script, ASSEMBLE, path])
        .output()
        .expect("bash runs");
    let told = said(&output);
    let broken = "assemble: writing the output: Broken pipe (os error 32)\n1\n";
    assert_eq!(told, broken);
}

/// A pipe cannot be read twice.
#[test]
fn a_day_from_a_pipe() {
    let mut child = Command::new(ASSEMBLE)
        .arg("/dev/stdin")
        .stdin(Stdio::piped())
        .stdout(Stdio::piped())
        .spawn()
        .expect("assemble runs");
    let mut input = child.stdin.take().expect("a pipe");
    input.write_all(b"open 0\nopen 0").expect("it reads");
    drop(input);
    let output = child.wait_with_output().expect("it ends");
    assert_eq!((status(&output), output.stdout), (0, OPEN.repeat(2)));
}

#[test]
fn memory_does_not_grow_with_the_day() {
    let path = file(
        "day.txt",
        "open 0 # a comment\n".repeat(3_000_000).as_bytes(),
    );
    let script = "ulimit -v 30000; exec \"$0\" \"$1\"";
    let output = Command::new("bash")
        .args(["-c", script, ASSEMBLE])
        .arg(&path)
        .output()
        .expect("bash runs");
    fs::remove_file(&path).expect("it is there");
    assert_eq!((status(&output), said(&output)), (0, String::new()));
    assert!(output.stdout == OPEN.repeat(3_000_000));
}

/// Each package of this folder says from which Rust on it can be built.
#[test]
fn the_least_rust_is_named() {
    let folder = PathBuf::from(env!("CARGO_MANIFEST_DIR")).join("..");
    let mut packages = 0;
    for entry in fs::read_dir(folder).expect("a folder") {
        let manifest = entry.expect("an entry").path().join("Cargo.toml");
        if let Ok(text) = fs::read_to_string(&manifest) {
            packages += 1;
            let named = text.lines().any(|line| line == "rust-version = \"1.85\"");
            assert!(named, "{}", manifest.display());
        }
    }
    assert!(packages >= 3, "{packages}");
}
