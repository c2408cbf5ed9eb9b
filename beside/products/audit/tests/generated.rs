//! Days of the reckoning's generator with the lines of its tape: the totals hold,
//! and no longer where one record was tampered with.

#![forbid(unsafe_code)]
#![deny(warnings)]

mod common;
mod specialists;

use audit::frames::with_day_end;
use common::audited;
use reckoning::generate::{long_list, stream, Random};
use reckoning::tape::tape;
use specialists::{named, with_another, with_specialists};

fn lines(input: &[u8]) -> Vec<String> {
    let mut printed = Vec::new();
    tape(input, &mut printed).expect("a Vec takes every line");
    let text = String::from_utf8(printed).expect("text");
    text.lines().map(str::to_string).collect()
}

fn failures(input: &[u8], lines: &[String], ended: &[String]) -> Vec<String> {
    match audited(input, &lines.join("\n"), &ended.join("\n")) {
        Ok(report) => report.failures,
        Err(wrong) => panic!("{wrong}"),
    }
}

/// A day, its lines, and those with a day end after it.
struct Played {
    input: Vec<u8>,
    lines: Vec<String>,
    ended: Vec<String>,
}

impl Played {
    fn new(input: Vec<u8>) -> Played {
        let mut ended = Vec::new();
        with_day_end(&input[..], &mut ended).expect("a day end");
        Played {
            lines: lines(&input),
            ended: lines(&ended),
            input,
        }
    }

    fn failures(&self) -> Vec<String> {
        failures(&self.input, &self.lines, &self.ended)
    }

    /// The same edit in both plays. A line of a record is in the same place in
    /// both.
    fn edited(&self, at: usize, line: &str) -> Vec<String> {
        let mut both = [self.lines.clone(), self.ended.clone()];
        for lines in &mut both {
            if let Some(place) = lines.get_mut(at) {
                *place = line.to_string();
            }
        }
        failures(&self.input, &both[0], &both[1])
    }
}

#[test]
fn the_totals_hold_on_generated_days() {
    for seed in 1..=40 {
        let day = Played::new(stream(seed, 1_500));
        assert_eq!(day.failures(), [""; 0], "seed {seed}");
    }
}

/// "What members enter still ends as filled, cancelled or live": also where the sweeps
/// of specialists have their portions, without which the lines would be others.
#[test]
fn the_totals_hold_where_specialists_are_named() {
    let mut random = Random::new(19);
    let (mut specialists, mut portions) = (0, 0);
    for seed in 1..=40 {
        let day = Played::new(with_specialists(&stream(seed, 1_500), &mut random));
        assert_eq!(day.failures(), [""; 0], "seed {seed}");
        specialists += named(&day.input, &day.lines);
        portions += usize::from(lines(&with_another(&day.input)) != day.lines);
    }
    println!("{specialists} specialists, {portions} lists with portions");
    assert!(
        specialists > 1_000 && portions > 10,
        "{specialists} {portions}"
    );
}

#[test]
fn the_totals_hold_on_a_day_that_gives_every_number() {
    let inputs = long_list(3, 1_000, false);
    let day = Played::new(inputs.into_iter().flat_map(|input| input.frame).collect());
    assert!(day.lines.iter().any(|line| line.contains(" 0 100000 ")));
    assert_eq!(day.failures(), [""; 0]);
}

/// A record 1, 2 or 3 with another quantity or number; a fill with another side,
/// and a leg order's fill or a whole fill with another price.
#[test]
fn a_record_that_was_tampered_with_is_reported() {
    let mut random = Random::new(7);
    let mut seen = 0;
    for seed in 1..=12 {
        let day = Played::new(stream(seed, 400));
        let records: Vec<usize> = (0..day.ended.len())
            .filter(|at| matches!(&day.ended[*at][..3], "R 1" | "R 2" | "R 3"))
            .collect();
        for _ in 0..60 {
            if records.is_empty() {
                break;
            }
            let at = random.pick(&records);
            let line = &day.ended[at];
            let mut words: Vec<i64> = (line.split(' ').skip(1))
                .map(|word| word.parse().expect("a number"))
                .collect();
            match (random.below(4), words[0]) {
                (0, 1) if words[5] != 0 => words[3] = 1 - words[3],
                (0, 2) => words[3] = 1 - words[3],
                (1, 1) => words[5] += random.pick(&[-1, 1]),
                (2, _) => words[1] += 1,
                _ => words[4] += random.pick(&[-1, 1]),
            }
            let words: Vec<String> = words.iter().map(i64::to_string).collect();
            let edited = format!("R {}", words.join(" "));
            let failures = day.edited(at, &edited);
            assert!(!failures.is_empty(), "seed {seed}: {line} -> {edited}");
            seen += 1;
        }
    }
    assert!(seen > 500, "{seen}");
}
