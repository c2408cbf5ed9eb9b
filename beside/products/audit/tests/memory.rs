//! Memory grows neither with the days nor with the events of a day: long lists,
//! audited under a limit.

#![forbid(unsafe_code)]
#![deny(warnings)]

use reckoning::frames::{bytes, Event};
use reckoning::generate::{long_list, stream};
use reckoning::tape::tape;
use std::fs::{self, File};
use std::io::{BufWriter, Write};
use std::path::{Path, PathBuf};
use std::process::Command;

const AUDIT: &str = env!("CARGO_BIN_EXE_audit");

/// The files of a list: frames, lines, and lines with a day end.
struct Files {
    folder: PathBuf,
    frames: PathBuf,
    lines: PathBuf,
    ended: PathBuf,
}

impl Files {
    /// Files with these frames, and with lines that are written twice.
    fn new(name: &str, frames: &[u8], lines: &dyn Fn(&mut dyn Write), end: &str) -> Files {
        let folder = PathBuf::from(env!("CARGO_TARGET_TMPDIR")).join(name);
        fs::create_dir_all(&folder).expect("a folder");
        let files = Files {
            frames: folder.join("frames"),
            lines: folder.join("lines"),
            ended: folder.join("ended"),
            folder,
        };
        fs::write(&files.frames, frames).expect("a file");
        for (path, end) in [(&files.lines, ""), (&files.ended, end)] {
            let mut file = BufWriter::new(File::create(path).expect("a file"));
            lines(&mut file);
            file.write_all(end.as_bytes()).expect("room");
            file.flush().expect("room");
        }
        files
    }

    /// The size of frames and lines together.
    fn size(&self) -> u64 {
        let size = |path| fs::metadata(path).expect("a file").len();
        size(&self.frames) + size(&self.lines)
    }

    /// The lines `Day` and `totals` that the audit prints with so many KB of
    /// virtual memory.
    fn audited(&self, limit: usize) -> String {
        let paths = [&*self.frames, &self.lines, &self.ended];
        limited(limit, "\"$@\"", &paths, "grep -E '^(Day|totals) '")
    }

    /// The bytes, in hex, of a day end after the frames.
    fn day_end(&self, limit: usize) -> String {
        let rest = "tail -c +$(($(wc -c <\"$1\") + 1)) | od -An -tx1";
        limited(limit, "--with-day-end \"$1\"", &[&self.frames], rest)
    }
}

impl Drop for Files {
    fn drop(&mut self) {
        fs::remove_dir_all(&self.folder).ok();
    }
}

/// What the command after the pipe prints, which has the paths as "$@", where the
/// audit with these words is under the limit.
fn limited(limit: usize, words: &str, paths: &[&Path], command: &str) -> String {
    let audit = format!("(ulimit -v {limit}; exec \"$0\" {words})");
    let text = format!("set -o pipefail; {audit} | {command}");
    let output = Command::new("bash")
        .args(["-c", &text, AUDIT])
        .args(paths)
        .output()
        .expect("bash runs");
    let said = String::from_utf8_lossy(&output.stderr);
    assert_eq!((output.status.code(), &*said), (Some(0), ""));
    String::from_utf8(output.stdout).expect("text")
}

/// A day that gives all 100,000 numbers, and several shorter ones, the last with
/// its day end, too: the book is then a first book again.
fn days() -> Vec<u8> {
    let end = bytes(&Event::DayEnd { timer: 5_000 });
    let long = long_list(3, 1_000, false);
    let mut list: Vec<u8> = long.into_iter().flat_map(|input| input.frame).collect();
    list.extend(&end);
    list.extend(stream(4, 20_000));
    list.extend(&end);
    list
}

/// Writes the lines as often: other indices, else the same.
fn repeat(lines: &str, events: usize, times: usize, output: &mut dyn Write) {
    for time in 0..times {
        for line in lines.lines() {
            match line
                .strip_prefix("E ")
                .and_then(|rest| rest.split_once(' '))
            {
                Some((index, rest)) => {
                    let index = index.parse::<usize>().expect("a number") + time * events;
                    writeln!(output, "E {index} {rest}").expect("room");
                }
                None => writeln!(output, "{line}").expect("room"),
            }
        }
    }
}

#[test]
fn many_days() {
    let times = 9;
    let list = days();
    let mut printed = Vec::new();
    tape(&list, &mut printed).expect("a Vec takes every line");
    let lines = String::from_utf8(printed).expect("text");
    let events = lines.lines().filter(|line| line.starts_with('E')).count();
    let end = format!("E {} 0 0 0\n", times * events);
    let files = Files::new(
        "days",
        &list.repeat(times),
        &|output| repeat(&lines, events, times, output),
        &end,
    );
    assert!(files.size() > 60_000_000);
    let printed = files.audited(60_000);
    let (days, last): (Vec<&str>, Vec<&str>) =
        printed.lines().partition(|line| line.starts_with("Day "));
    assert_eq!(last, ["totals hold"]);
    assert!(days.len() >= 9 * times, "{}", days.len());
    assert_eq!(files.day_end(20_000).trim(), "06 00 08 00 88 13");
}

/// One day with many events, and one event with many records.
#[test]
fn many_events_and_records() {
    let (events, records) = (1_500_000, 2_000_000);
    let clock = bytes(&Event::Clock { milliseconds: 0 });
    let lines = |output: &mut dyn Write| {
        for index in 0..events - 1 {
            writeln!(output, "E {index} 0 0 0").expect("room");
        }
        writeln!(output, "E {} 0 0 {records}", events - 1).expect("room");
        for _ in 0..records {
            writeln!(output, "R 5 1 0 0 0 0").expect("room");
        }
    };
    let end = format!("E {events} 0 0 0\n");
    let files = Files::new("events", &clock.repeat(events), &lines, &end);
    assert!(files.size() > 60_000_000);
    assert_eq!(
        files.audited(20_000),
        "Day 1: 1500000 events from index 0, not ended; live is what a day end would cancel\n\
         totals hold\n"
    );
    assert_eq!(files.day_end(20_000).trim(), "06 00 08 00 88 13");
}

/// Many bytes after a stop: they are counted, not held.
#[test]
fn many_bytes_after_a_stop() {
    let count = 300_000_000;
    let clock = bytes(&Event::Clock { milliseconds: 0 });
    let frames = [&clock[..], &[0, 0]].concat();
    let lines = |output: &mut dyn Write| writeln!(output, "E 0 0 0 0").expect("room");
    let files = Files::new("after", &frames, &lines, "E 1 0 0 0\n");
    fs::write(&files.lines, "E 0 0 0 0\nE 1 2 0 0\n").expect("room");
    // Zeros that take no room.
    let file = File::options().append(true).open(&files.frames);
    file.and_then(|file| file.set_len(frames.len() as u64 + count))
        .expect("room");
    let output = Command::new("bash")
        .args(["-c", "ulimit -v 20000; exec \"$0\" \"$@\"", AUDIT])
        .args([&files.frames, &files.lines, &files.ended])
        .output()
        .expect("bash runs");
    let said = format!("audit: tape stopped at byte {} of the frames, whose length field is 0 (under 4); {count} bytes after it were not played\n", clock.len());
    assert_eq!(String::from_utf8_lossy(&output.stderr), said);
    assert_eq!(output.status.code(), Some(3));
    assert!(output.stdout.ends_with(b"\ntotals hold\n"));
}
