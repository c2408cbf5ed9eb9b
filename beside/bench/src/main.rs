//! Times two tapes, or writes a day that is timed.

#![forbid(unsafe_code)]
#![deny(warnings)]

use bench::copies::{Bounds, Copies};
use bench::days::{busy_day, days, names, Day, Frame};
use bench::measure::{medians, preloaded, printed, seconds, Both};
use bench::tails::{in_turn, keep_least, tail, timed, times_of, KINDS};
use bench::text::{grouped, kind_row, long_row, micro, ratio, row, tail_row, worst_row};
use bench::worst::{long_days, LongDay};
use std::fs;
use std::io::{self, Write};
use std::path::{Path, PathBuf};
use std::process::ExitCode;

const USAGE: &str = "\
usage: bench time PROVED RECKONING ROUNDS EVENTS TAIL FOLDER
       bench day all|NAME EVENTS
       bench kinds TAIL FOLDER
       bench costs
       bench copies PROVED LIBRARY EVENTS TAIL FOLDER STATE TABLE..
       bench tails PROVED RECKONING LIBRARY ROUNDS EVENTS FOLDER
       bench long NAME

The first form times the two programs on the busy day of EVENTS events, and on
the days of one kind with a tail of TAIL events each (a tenth for kind 6),
in ROUNDS rounds. The days are written to FOLDER. The second form writes the
frames of a day to standard output, the busy day or that of one kind with its
tail. The third writes the days of one kind to FOLDER, each as NAME.head and NAME,
and prints a line 'NAME EVENTS' for each, the events of its tail. The fourth reads
lines 'NAME EVENTS HEAD WHOLE HEAD WHOLE', counts of the proved program and of the
reckoning, and prints what one event of each tail costs.

The fifth prints how many copies of the state and of tables the program makes for an
event, of the busy day and of the days of one kind. LIBRARY is copies.c, built; STATE
and TABLE are the bytes of the state and of each of its tables. The sixth times each
event of the busy day and of the days whose events take long, the least of ROUNDS
rounds; LIBRARY is times.c, built. The last writes a day whose events take long to
standard output.
";

fn file(folder: &Path, name: &str, frames: &[Frame]) -> Result<PathBuf, String> {
    let path = folder.join(name);
    let written = fs::write(&path, frames.concat());
    written.map_err(|error| format!("{}: {error}", path.display()))?;
    Ok(path)
}

/// An error if the two programs do not print the same.
fn same(programs: [&Path; 2], input: &Path) -> Result<(), String> {
    if printed(programs[0], input)? == printed(programs[1], input)? {
        return Ok(());
    }
    let input = input.display();
    Err(format!("the two programs differ on {input}"))
}

fn say(line: &str) -> Result<(), String> {
    let mut output = io::stdout().lock();
    let written = writeln!(output, "{line}").and_then(|()| output.flush());
    written.map_err(|error| format!("writing the output: {error}"))
}

/// The busy day.
fn all(programs: [&Path; 2], rounds: usize, events: usize, folder: &Path) -> Result<(), String> {
    let frames = busy_day(events);
    let input = file(folder, "all", &frames)?;
    same(programs, &input)?;
    let times = medians(programs, &[&input], rounds, &mut seconds)?[0];
    let rates = times.rates(frames.len());
    let count = grouped(frames.len() as f64);
    say(&format!(
        "In all: a busy day of {count} events, medians of {rounds} rounds"
    ))?;
    say(&row("", "proved", "reckoning", "ratio"))?;
    say(&row(
        "seconds",
        &format!("{:.3}", times.proved),
        &format!("{:.3}", times.reckoning),
        &ratio(&times),
    ))?;
    say(&row(
        "events a second",
        &grouped(rates.proved),
        &grouped(rates.reckoning),
        "",
    ))
}

/// The name of a day with its kind.
fn shown(day: &Day) -> String {
    match day.kind {
        0 => day.name.to_string(),
        kind => format!("{kind} {}", day.name),
    }
}

/// Writes the two files of a day of one kind: its head, and all of it.
fn files(folder: &Path, day: &Day) -> Result<[PathBuf; 2], String> {
    let head = file(folder, &format!("{}.head", day.name), &day.head)?;
    let frames = [day.head.clone(), day.tail.clone()].concat();
    Ok([head, file(folder, day.name, &frames)?])
}

/// The days of one kind.
fn kinds(programs: [&Path; 2], rounds: usize, tail: usize, folder: &Path) -> Result<(), String> {
    say("")?;
    say("By kind: microseconds for one event of the tail that follows a busy book's making")?;
    say(&kind_row([
        "kind",
        "the tail",
        "events",
        "proved",
        "reckoning",
        "ratio",
    ]))?;
    for day in days(tail) {
        let [head, whole] = files(folder, &day)?;
        same(programs, &whole)?;
        let times = medians(programs, &[&head, &whole], rounds, &mut seconds)?;
        let costs = Both::cost(times[1], times[0], day.tail.len());
        let micro = |seconds: f64| format!("{:.2}", 1e6 * seconds);
        say(&kind_row([
            &shown(&day),
            day.about,
            &grouped(day.tail.len() as f64),
            &micro(costs.proved),
            &micro(costs.reckoning),
            &ratio(&costs),
        ]))?;
    }
    Ok(())
}

/// The counts of one event of each tail, from lines of counts.
fn costs(text: &str) -> Result<(), String> {
    let known = days(1);
    say(&row("", "proved", "reckoning", "ratio"))?;
    for line in text.lines() {
        let wrong = || format!("'{line}' is no line of counts");
        let mut words = line.split(' ');
        let name = words.next().unwrap_or("");
        let day = known.iter().find(|day| day.name == name);
        let numbers: Result<Vec<u64>, _> = words.map(str::parse).collect();
        let (Some(day), Ok([events, counts @ ..])) = (day, numbers.as_deref()) else {
            return Err(wrong());
        };
        let [proved_head, proved, head, whole] = *counts else {
            return Err(wrong());
        };
        let both = |proved: u64, reckoning: u64| Both {
            proved: proved as f64,
            reckoning: reckoning as f64,
        };
        let with = both(proved, whole);
        let costs = Both::cost(with, both(proved_head, head), *events as usize);
        say(&row(
            &shown(day),
            &grouped(costs.proved),
            &grouped(costs.reckoning),
            &ratio(&costs),
        ))?;
    }
    Ok(())
}

/// The copies that the program makes for an input.
fn copies(
    program: &Path,
    library: &Path,
    input: &Path,
    bounds: Bounds,
    folder: &Path,
) -> Result<Copies, String> {
    let counted = preloaded(program, library, input, "COPIES", &folder.join("copies"))?;
    let lines = String::from_utf8_lossy(&counted);
    Copies::of(&lines, bounds).ok_or("the library wrote no lines of copies".to_string())
}

/// The copies for one event, in all and by kind.
fn all_copies(
    program: &Path,
    library: &Path,
    events: usize,
    tail: usize,
    folder: &Path,
    sizes: &[usize],
) -> Result<(), String> {
    let [state, tables @ ..] = sizes else {
        return Err("no size of the state".to_string());
    };
    let bounds = Bounds::of(*state, tables).ok_or("no size of a table")?;
    let of = |input: &Path| copies(program, library, input, bounds, folder);
    let each = |number: u64, events: usize| format!("{:.2}", number as f64 / events as f64);
    let busy = of(&file(folder, "some", &busy_day(events))?)?;
    let mut longer = busy.longer;
    say(&format!(
        "Copies: calls of memcpy and memmove in the proved tape for one event: of the whole state, {} to {}\n\
         bytes, and of tables, {} bytes or more. In all: the first {} events of the busy day; by kind: of a tail\n\
         of {tail}, {} for kind 6",
        grouped(bounds.whole as f64),
        grouped(bounds.longest as f64),
        grouped(bounds.table as f64),
        grouped(events as f64),
        tail.div_ceil(10),
    ))?;
    say(&row("", "whole", "tables", ""))?;
    say(&row(
        "in all",
        &each(busy.whole, events),
        &each(busy.tables, events),
        "",
    ))?;
    for day in days(tail) {
        let [head, whole] = files(folder, &day)?;
        let (without, with) = (of(&head)?, of(&whole)?);
        longer += with.longer;
        let own = |with: u64, without: u64| each(with.saturating_sub(without), day.tail.len());
        say(&row(
            &shown(&day),
            &own(with.whole, without.whole),
            &own(with.tables, without.tables),
            "",
        ))?;
    }
    match longer {
        0 => Ok(()),
        _ => say(&format!(
            "Besides, {} copies on these days are longer than the state",
            grouped(longer as f64)
        )),
    }
}

/// The busy day, and then the days whose events take long.
fn timed_days(events: usize) -> Vec<LongDay> {
    let busy = LongDay {
        name: "busy",
        about: "the busy day",
        frames: busy_day(events),
    };
    [vec![busy], long_days()].concat()
}

/// The least time of each event over the rounds, and of a look at the clock. In each
/// round a new process plays the days twice, so that it has met all before.
fn event_times(
    programs: [&Path; 2],
    library: &Path,
    rounds: usize,
    frames: &[Frame],
    folder: &Path,
) -> Result<(u64, Vec<u64>), String> {
    let day = file(folder, "events", frames)?;
    same(programs, &day)?;
    let twice = file(folder, "twice", &[frames, frames].concat())?;
    let mut clock = u64::MAX;
    let mut kept = vec![u64::MAX; frames.len()];
    for _ in 0..rounds {
        let written = preloaded(programs[0], library, &twice, "TIMES", &folder.join("times"))?;
        let (look, times) = times_of(&written).ok_or("the library wrote no times")?;
        clock = clock.min(look);
        if !keep_least(&mut kept, &times) {
            return Err("an event has no time of its own".to_string());
        }
    }
    Ok((clock, kept))
}

/// The times of single events: of the busy day by kind, the worst of each kind, and
/// the longest of each day that is made for it.
fn tails(
    programs: [&Path; 2],
    library: &Path,
    rounds: usize,
    events: usize,
    folder: &Path,
) -> Result<(), String> {
    let days = timed_days(events);
    let (clock, times) = event_times(programs, library, rounds, &in_turn(&days), folder)?;
    let all = timed(&days, &times);
    let kinds = || (1..KINDS.len() as u8).chain([0]);
    let name = |kind: u8| KINDS[usize::from(kind)];
    say(&format!(
        "Single events: microseconds in the proved tape, from the return of the read that hands out one frame to\n\
         the call of the next read, what it writes thrown away; the least of {rounds} rounds; {clock} ns of each are the clock's"
    ))?;
    say(&format!(
        "The busy day of {} events",
        grouped(events as f64)
    ))?;
    say(&tail_row([
        "kind", "events", "p50", "p99", "p99.9", "worst", "event",
    ]))?;
    for kind in kinds() {
        let own = all.iter().filter(|one| one.day == 0 && one.kind == kind);
        if let Some(tail) = tail(own) {
            say(&tail_row([
                name(kind),
                &grouped(tail.events as f64),
                &micro(tail.half),
                &micro(tail.most),
                &micro(tail.nearly_all),
                &micro(tail.worst.nanoseconds),
                &tail.worst.index.to_string(),
            ]))?;
        }
    }
    say("The worst of each kind, on the busy day and on the days made for it")?;
    say(&worst_row(["kind", "worst", "records", "day", "event"]))?;
    for kind in kinds() {
        if let Some(tail) = tail(all.iter().filter(|one| one.kind == kind)) {
            let worst = tail.worst;
            say(&worst_row([
                name(kind),
                &micro(worst.nanoseconds),
                &grouped(worst.records as f64),
                days[worst.day].name,
                &worst.index.to_string(),
            ]))?;
        }
    }
    say("The days made for it")?;
    say(&long_row(["day", "worst", "kind", "what it has"]))?;
    for (number, day) in days.iter().enumerate().skip(1) {
        if let Some(tail) = tail(all.iter().filter(|one| one.day == number)) {
            let worst = tail.worst;
            let time = micro(worst.nanoseconds);
            say(&long_row([day.name, &time, name(worst.kind), day.about]))?;
        }
    }
    Ok(())
}

fn put(frames: &[Frame]) -> Result<(), String> {
    let mut output = io::stdout().lock();
    let written = (output.write_all(&frames.concat())).and_then(|()| output.flush());
    written.map_err(|error| format!("writing the output: {error}"))
}

fn long(name: &str) -> Result<(), String> {
    let days = long_days();
    let known: Vec<&str> = days.iter().map(|day| day.name).collect();
    let day = days.iter().find(|day| day.name == name);
    let known = known.join(", ");
    put(&day
        .ok_or(format!("'{name}' is no long day; one is: {known}"))?
        .frames)
}

fn day(name: &str, events: usize) -> Result<(), String> {
    let frames = match name {
        "all" => busy_day(events),
        _ => {
            let day = days(events).into_iter().find(|day| day.name == name);
            let known = names().join(", ");
            let day = day.ok_or(format!("'{name}' is no day; one is: all, {known}"))?;
            [day.head, day.tail].concat()
        }
    };
    put(&frames)
}

fn run(words: &[String]) -> Result<ExitCode, String> {
    let words: Vec<&str> = words.iter().map(String::as_str).collect();
    let number = |word: &str| {
        let number = word.parse::<usize>().ok().filter(|number| *number > 0);
        number.ok_or(format!("'{word}' is no number from 1"))
    };
    match words.as_slice() {
        ["--help"] => print!("{USAGE}"),
        ["time", proved, reckoning, rounds, events, tail, folder] => {
            let programs = [Path::new(proved), Path::new(reckoning)];
            let folder = Path::new(folder);
            let rounds = number(rounds)?;
            all(programs, rounds, number(events)?, folder)?;
            kinds(programs, rounds, number(tail)?, folder)?;
        }
        ["day", name, events] => day(name, number(events)?)?,
        ["kinds", tail, folder] => {
            for day in days(number(tail)?) {
                files(Path::new(folder), &day)?;
                say(&format!("{} {}", day.name, day.tail.len()))?;
            }
        }
        ["costs"] => {
            let text = io::read_to_string(io::stdin());
            costs(&text.map_err(|error| error.to_string())?)?;
        }
        ["copies", program, library, events, tail, folder, sizes @ ..] => {
            let sizes: Result<Vec<usize>, String> = sizes.iter().map(|size| number(size)).collect();
            all_copies(
                Path::new(program),
                Path::new(library),
                number(events)?,
                number(tail)?,
                Path::new(folder),
                &sizes?,
            )?;
        }
        ["tails", proved, reckoning, library, rounds, events, folder] => tails(
            [Path::new(proved), Path::new(reckoning)],
            Path::new(library),
            number(rounds)?,
            number(events)?,
            Path::new(folder),
        )?,
        ["long", name] => long(name)?,
        _ => {
            eprint!("{USAGE}");
            return Ok(ExitCode::from(2));
        }
    }
    Ok(ExitCode::SUCCESS)
}

fn main() -> ExitCode {
    let words: Vec<String> = std::env::args().skip(1).collect();
    run(&words).unwrap_or_else(|wrong| {
        eprintln!("bench: {wrong}");
        ExitCode::FAILURE
    })
}
