//! The tables of generated days, with right lines and with lines that were
//! tampered with, beside sums that are taken here over lists of all events and
//! records. The reckoning reads the frames.

#![forbid(unsafe_code)]
#![deny(warnings)]

mod common;
mod specialists;

use audit::frames::with_day_end;
use common::audited;
use reckoning::frames::{read, values};
use reckoning::generate::{stream, Random};
use reckoning::tape::tape;
use specialists::{named, with_another, with_specialists};
use std::collections::BTreeSet;

/// Kind, number, place, side, quantity, price.
type Record = [i64; 6];

/// An event with its answer: its kind, 0 for a refused one, and its fields.
struct Logged {
    kind: u32,
    fields: [i64; 19],
    value: i64,
    records: Vec<Record>,
}

/// An order or sweep with its number.
struct Entered {
    number: i64,
    kind: u32,
    member: i64,
    place: i64,
    side: i64,
    quantity: i64,
    limit: i64,
}

/// A day, and the records of the day end after the list.
#[derive(Default)]
struct Day {
    first: usize,
    log: Vec<Logged>,
    ended: bool,
    live: Vec<Record>,
}

fn numbers(line: &str) -> Vec<i64> {
    let words = line.split(' ').skip(1);
    words.map(|word| word.parse().expect("a number")).collect()
}

fn record(line: &str) -> Record {
    numbers(line).try_into().expect("six numbers")
}

/// The kind and the fields of the event that the input begins with, and the rest.
fn first(input: &[u8]) -> ((u32, [i64; 19]), &[u8]) {
    let length = match input {
        [low, high, ..] => usize::from(*low) + 256 * usize::from(*high),
        _ => 0,
    };
    match input.get(..length).map(read) {
        Some(Ok(event)) => (values(&event), &input[length..]),
        _ => ((0, [0; 19]), input.get(length..).unwrap_or(&[])),
    }
}

/// The days of an input with its lines, and those with the day end.
fn days(mut input: &[u8], lines: &[String], ended: &[String]) -> Vec<Day> {
    let mut days = vec![Day::default()];
    let mut index = 0;
    for line in lines {
        if days.last().is_some_and(|day| day.ended) && line.starts_with('E') {
            days.push(Day {
                first: index,
                ..Day::default()
            });
        }
        let day = days.last_mut().expect("a day");
        if line.starts_with('R') {
            let last = day.log.last_mut().expect("an event");
            last.records.push(record(line));
            continue;
        }
        let ((kind, fields), rest) = first(input);
        input = rest;
        let answer = numbers(line);
        let accepted = answer[1] == 0;
        day.ended = accepted && kind == 8;
        day.log.push(Logged {
            kind: if accepted { kind } else { 0 },
            fields,
            value: answer[2],
            records: Vec::new(),
        });
        index += 1;
    }
    let live = ended.iter().rev().take_while(|line| line.starts_with('R'));
    let live: Vec<Record> = live.map(|line| record(line)).collect();
    if days.last().is_some_and(|day| day.ended) && !live.is_empty() {
        days.push(Day {
            first: index,
            ..Day::default()
        });
    }
    days.last_mut().expect("a day").live = live;
    days.retain(|day| !day.log.is_empty() || !day.live.is_empty());
    days
}

fn quantity(records: &[Record]) -> i64 {
    records.iter().map(|record| record[4]).sum()
}

/// Cash of a side.
fn cash(fills: &[Record], side: i64) -> i64 {
    let own = fills.iter().filter(|fill| fill[3] == side);
    own.map(|fill| fill[4] * fill[5]).sum()
}

fn said(holds: bool) -> &'static str {
    ["FAILS", "holds"][usize::from(holds)]
}

impl Entered {
    fn of(logged: &Logged) -> Option<Entered> {
        let at = match logged.kind {
            2 => 5,
            3 | 4 => 3,
            _ => return None,
        };
        let [member, place, side, ..] = logged.fields;
        (logged.value != 0).then_some(Entered {
            number: logged.value,
            kind: logged.kind,
            member,
            place,
            side,
            quantity: logged.fields[at],
            limit: logged.fields[at + 1],
        })
    }

    fn side(&self) -> &'static str {
        ["buy", "sell"][self.side as usize]
    }
}

impl Day {
    fn entered(&self) -> Vec<Entered> {
        let mut list: Vec<Entered> = self.log.iter().filter_map(Entered::of).collect();
        list.sort_by_key(|entered| entered.number);
        list
    }

    /// The records that are asked for.
    fn records(&self, asked: impl Fn(&Record) -> bool) -> Vec<Record> {
        let all = self.log.iter().flat_map(|logged| &logged.records);
        all.filter(|record| asked(record)).copied().collect()
    }

    fn fills(&self, entered: &Entered) -> Vec<Record> {
        let kind = if entered.kind == 4 { 2 } else { 1 };
        self.records(|record| record[..2] == [kind, entered.number])
    }

    fn live(&self, number: i64) -> i64 {
        let own = self.live.iter().filter(|record| record[..2] == [3, number]);
        own.map(|record| record[4]).sum()
    }

    /// Series and ratio of each leg.
    fn legs(&self, strategy: i64) -> Vec<(i64, i64)> {
        let answered = |logged: &&Logged| logged.kind == 1 && logged.value == strategy;
        let fields = self.log.iter().find(answered).expect("a definition").fields;
        let given = fields[1..].chunks(3).take(fields[0] as usize);
        let divides = |by: &i64| given.clone().all(|leg| leg[2] % by == 0);
        let common = (1..=12).filter(divides).max().expect("1 divides");
        given.map(|leg| (leg[0], leg[2] / common)).collect()
    }

    fn numbers(&self) -> Vec<String> {
        let row = |entered: &Entered| {
            let number = entered.number;
            let filled = quantity(&self.fills(entered));
            let cancelled = quantity(&self.records(|record| record[..2] == [3, number]));
            let live = self.live(number);
            let (what, place) = match entered.kind {
                2 => ("complex order", "strategy"),
                3 => ("sweep", "strategy"),
                _ => ("leg order", "series"),
            };
            format!(
                "{number} {what} {} {place} {} {} {} {} {filled} {cancelled} {live} {}",
                entered.member,
                entered.place,
                entered.side(),
                entered.limit,
                entered.quantity,
                said(entered.quantity == filled + cancelled + live)
            )
        };
        self.entered().iter().map(row).collect()
    }

    fn worst_fills(&self) -> Vec<String> {
        let row = |entered: &Entered| {
            // A buy's prices and a sell's less than 0: the higher, the worse.
            let sign = 1 - 2 * entered.side;
            let fills = self.fills(entered);
            let worst = fills.iter().map(|fill| sign * fill[5]).max()?;
            let better = sign * entered.limit - worst;
            Some(format!(
                "{} {} {} {} {better} {}",
                entered.number,
                entered.side(),
                entered.limit,
                sign * worst,
                said(better >= 0)
            ))
        };
        self.entered().iter().filter_map(row).collect()
    }

    /// The bid net of a strategy, with `of` 1 its offer net, at the price that each
    /// series and side has, 0 for a missing one; none where a price of it is missing,
    /// or no event up to this one answered the strategy.
    fn net(
        &self,
        strategy: i64,
        of: i64,
        at: usize,
        price: impl Fn(i64, i64) -> i64,
    ) -> Option<i64> {
        let answered = |logged: &&Logged| logged.kind == 1 && logged.value == strategy;
        let fields = self.log[..=at].iter().find(answered)?.fields;
        let ratios = self.legs(strategy);
        let given = fields[1..].chunks(3).take(ratios.len());
        let nets: Vec<(i64, i64)> = given
            .zip(ratios)
            .map(|(leg, (series, ratio))| {
                let price = price(series, (leg[1] + of) % 2);
                (price, price * ratio * (1 - 2 * leg[1]))
            })
            .collect();
        let known = nets.iter().all(|(price, _)| *price > 0);
        known.then(|| nets.iter().map(|(_, net)| net).sum())
    }

    /// The best price of the leg orders that entered before this event, with more
    /// contracts than the records 2 and 3 before it took; 0 if there is none.
    fn best(&self, series: i64, side: i64, at: usize) -> i64 {
        let before = &self.log[..at];
        let live = |one: &Entered| {
            let records = before.iter().flat_map(|logged| &logged.records);
            let own = records.filter(|record| [2, 3].contains(&record[0]));
            let own = own.filter(|record| record[1] == one.number);
            one.quantity > own.map(|record| record[4]).sum()
        };
        let entered = before.iter().filter_map(Entered::of);
        let prices = entered
            .filter(|one| (one.kind, one.place, one.side) == (4, series, side) && live(one))
            .map(|one| one.limit);
        let best = if side == 0 {
            prices.max()
        } else {
            prices.min()
        };
        best.unwrap_or(0)
    }

    fn sweeps(&self) -> Vec<String> {
        let mut rows = Vec::new();
        for (at, logged) in self.log.iter().enumerate() {
            let Some(sweep) = Entered::of(logged).filter(|one| one.kind == 3) else {
                continue;
            };
            let prices = |series, side| self.best(series, side, at);
            let net = self.net(sweep.place, sweep.side, at, prices);
            let better = net.map(|net| (1 - 2 * sweep.side) * (sweep.limit - net));
            let row = format!(
                "{} {} {} {} {} {}",
                sweep.number,
                sweep.side(),
                sweep.limit,
                net.map_or("unknown".to_string(), |net| net.to_string()),
                better.map_or("-".to_string(), |better| better.to_string()),
                said(better.unwrap_or(1) > 0)
            );
            rows.push((sweep.number, row));
        }
        rows.sort_by_key(|(number, _)| *number);
        rows.into_iter().map(|(_, row)| row).collect()
    }

    /// Number, side, price, net, range and how much better of each bounded fill.
    fn bounded_fills(&self) -> Vec<[i64; 6]> {
        let (mut prices, mut range) = ([[0; 2]; 32], 9_999);
        let mut entered: Vec<Entered> = Vec::new();
        let mut list = Vec::new();
        for (at, logged) in self.log.iter().enumerate() {
            entered.extend(Entered::of(logged));
            for fill in logged.records.iter().filter(|record| record[0] == 1) {
                let [_, number, place, side, _, price] = *fill;
                let (place, side) = match entered.iter().find(|one| one.number == number) {
                    Some(own) if own.kind == 4 => continue,
                    Some(own) => (own.place, own.side),
                    None if side == 0 || side == 1 => (place, side),
                    None => continue,
                };
                let national = |series: i64, side: i64| prices[series as usize][side as usize];
                // A buyer is bound by the offer net.
                if let Some(net) = self.net(place, 1 - side, at, national) {
                    let sign = 1 - 2 * side;
                    let better = sign * net + range - sign * price;
                    list.push([number, side, price, net, range, better]);
                }
            }
            match logged.kind {
                9 => {
                    let [series, bid, offer, ..] = logged.fields;
                    prices[series as usize] = [bid, offer];
                }
                10 => range = logged.fields[0],
                _ => {}
            }
        }
        list
    }

    fn bounded(&self) -> Vec<String> {
        let fills = self.bounded_fills();
        let numbers: BTreeSet<i64> = fills.iter().map(|fill| fill[0]).collect();
        let row = |number: i64| {
            let own: Vec<&[i64; 6]> = fills.iter().filter(|fill| fill[0] == number).collect();
            let worst = own.iter().min_by_key(|fill| fill[5]).expect("a fill");
            let [_, side, price, net, range, better] = **worst;
            format!(
                "{number} {} {} {price} {net} {range} {better} {}",
                ["buy", "sell"][side as usize],
                own.len(),
                said(better >= 0)
            )
        };
        numbers.into_iter().map(row).collect()
    }

    fn on_legs(&self) -> Vec<String> {
        let mut rows = Vec::new();
        for entered in self.entered().iter().filter(|entered| entered.kind != 4) {
            let fills = self.fills(entered);
            let units = quantity(&fills);
            let legs = self.legs(entered.place);
            let own = self.records(|record| record[..2] == [2, entered.number]);
            let mut series: BTreeSet<i64> = own.iter().map(|record| record[2]).collect();
            series.extend(legs.iter().map(|leg| leg.0));
            for series in series {
                let ratio = legs
                    .iter()
                    .find(|leg| leg.0 == series)
                    .map_or(0, |leg| leg.1);
                let on_leg = own.iter().filter(|record| record[2] == series);
                let contracts: i64 = on_leg.map(|record| record[4]).sum();
                let holds = contracts == ratio * units;
                if !fills.is_empty() || !holds {
                    rows.push(format!(
                        "{} {} {units} {series} {ratio} {} {contracts} {}",
                        entered.number,
                        entered.place,
                        ratio * units,
                        said(holds)
                    ));
                }
            }
        }
        rows
    }

    fn series(&self) -> Vec<String> {
        let trades = self.records(|record| record[0] == 2);
        let series: BTreeSet<i64> = trades.iter().map(|trade| trade[2]).collect();
        let row = |series: i64| {
            let sum = |side| quantity(&self.records(|r| r[0] == 2 && r[2..4] == [series, side]));
            let (bought, sold) = (sum(0), sum(1));
            format!("{series} {bought} {sold} {}", said(bought == sold))
        };
        series.into_iter().map(row).collect()
    }

    fn cash(&self) -> Vec<String> {
        let mut fills = self.records(|record| record[0] == 1);
        for entered in self.entered().iter().filter(|entered| entered.kind == 4) {
            fills.extend(self.fills(entered));
        }
        let (paid, received) = (cash(&fills, 0), cash(&fills, 1));
        vec![format!("{paid} {received} {}", said(paid == received))]
    }

    /// How many failures no table shows: numbers that did not enter, leg orders
    /// with records 1, and events with a quantity below 0.
    fn unseen(&self) -> usize {
        let entered = self.entered();
        let own = self.records(|record| record[0] <= 3);
        let other = |numbers: BTreeSet<i64>| {
            let entered = |number: &&i64| entered.iter().any(|one| one.number == **number);
            numbers.len() - numbers.iter().filter(entered).count()
        };
        let with_records = other(own.iter().map(|record| record[1]).collect());
        let live: BTreeSet<i64> = self.live.iter().map(|record| record[1]).collect();
        let with_live = other(live.into_iter().filter(|n| self.live(*n) != 0).collect());
        let whole = |one: &&Entered| own.iter().any(|record| record[..2] == [1, one.number]);
        let legs = entered.iter().filter(|one| one.kind == 4);
        let negative = |logged: &&Logged| logged.records.iter().any(|record| record[4] < 0);
        let events = self.log.iter().filter(negative).count();
        with_records + with_live + legs.filter(whole).count() + events
    }

    /// Its report, with one blank between words.
    fn report(&self, number: usize) -> Vec<String> {
        let events = match self.log.len() {
            1 => "1 event".to_string(),
            count => format!("{count} events"),
        };
        let end = match self.ended {
            true => "its day end is the last, so nothing is live",
            false => "not ended; live is what a day end would cancel",
        };
        let heading = format!("Day {number}: {events} from index {}, {end}", self.first);
        let nothing = self.entered().is_empty()
            && self.records(|record| record[0] <= 3).is_empty()
            && self.live.iter().all(|record| record[0] != 3);
        if nothing {
            let said = "No order or sweep entered, and no record 1 to 3 was written.";
            return [&heading, "", said, ""].map(str::to_string).to_vec();
        }
        let mut lines = vec![heading];
        for (heading, columns, none, rows) in [
            (
                "Each number: entered = filled + cancelled + live, in units, of a leg order in contracts",
                "number what member place side limit entered filled cancelled live sum",
                "no number was given",
                self.numbers(),
            ),
            (
                "Each number with a fill: its worst fill against its limit, in cents",
                "number side limit worst fill better by",
                "no number has a fill",
                self.worst_fills(),
            ),
            (
                "Each number with a fill that a national net bounds: its worst against net and range, in cents",
                "number side bounded fills worst fill national net range better by",
                "no national net bounds a fill",
                self.bounded(),
            ),
            (
                "Each sweep: its limit against the leg net of its own side at its arrival, in cents",
                "number side limit leg net better by",
                "no sweep entered",
                self.sweeps(),
            ),
            (
                "Each leg of a complex order or sweep with a fill: contracts = ratio x units",
                "number strategy units series ratio ratio x units contracts",
                "no complex order or sweep has a fill",
                self.on_legs(),
            ),
            (
                "Each series: contracts bought = contracts sold",
                "series bought sold",
                "no contract was traded",
                self.series(),
            ),
            (
                "Cash: paid = received, in cents",
                "paid received",
                "",
                self.cash(),
            ),
        ] {
            let first = if rows.is_empty() { none } else { columns };
            lines.extend(["", heading, first].map(str::to_string));
            lines.extend(rows);
        }
        lines.push(String::new());
        lines
    }
}

fn played(input: &[u8]) -> Vec<String> {
    let mut printed = Vec::new();
    tape(input, &mut printed).expect("a Vec takes every line");
    let text = String::from_utf8(printed).expect("text");
    text.lines().map(str::to_string).collect()
}

/// How many numbers have a fill that a national net bounds, and how many sweeps met a
/// known leg net.
fn reached(input: &[u8], lines: &[String], ended: &[String]) -> [usize; 2] {
    let days = days(input, lines, ended);
    let known = |row: &&String| !row.contains("unknown");
    [
        days.iter().map(|day| day.bounded().len()).sum(),
        (days.iter())
            .map(|day| day.sweeps().iter().filter(known).count())
            .sum(),
    ]
}

/// Compares what is printed with the sums, and answers how many failures there
/// are.
fn compared(input: &[u8], lines: &[String], ended: &[String], name: &str) -> usize {
    let audit = audited(input, &lines.join("\n"), &ended.join("\n"));
    let audit = audit.unwrap_or_else(|wrong| panic!("{name}: {wrong}"));
    let days = days(input, lines, ended);
    let reports = days.iter().zip(1..).flat_map(|(day, at)| day.report(at));
    let expected: Vec<String> = reports.collect();
    let fails = expected
        .iter()
        .filter(|line| line.ends_with("FAILS"))
        .count();
    let failures = fails + days.iter().map(Day::unseen).sum::<usize>();
    let words = |line: &str| line.split_whitespace().collect::<Vec<&str>>().join(" ");
    let printed: Vec<String> = audit.text.lines().map(words).collect();
    let (tables, last) = printed.split_at(expected.len());
    assert_eq!(tables, expected, "{name}");
    assert_eq!(audit.failures.len(), failures, "{name}: {last:?}");
    match failures {
        0 => assert_eq!(last, ["totals hold"], "{name}"),
        _ => assert_eq!(last[0], "totals do not hold:", "{name}"),
    }
    failures
}

fn with_end(input: &[u8]) -> Vec<u8> {
    let mut bytes = Vec::new();
    with_day_end(input, &mut bytes).expect("a Vec takes every byte");
    bytes
}

#[test]
fn the_tables_of_generated_days() {
    let (mut numbers, mut sweeps) = (0, 0);
    for seed in 1..=48 {
        let input = stream(seed, 250);
        let (lines, ended) = (played(&input), played(&with_end(&input)));
        let failures = compared(&input, &lines, &ended, &format!("seed {seed}"));
        assert_eq!(failures, 0);
        let [bounded, known] = reached(&input, &lines, &ended);
        numbers += bounded;
        sweeps += known;
    }
    assert!(numbers > 100 && sweeps > 100, "{numbers} {sweeps}");
}

/// The tables where specialists are named, and the same lines for frames that name
/// another member: the claims do not ask who is the specialist.
#[test]
fn the_tables_where_specialists_are_named() {
    let mut random = Random::new(23);
    let (mut specialists, mut portions) = (0, 0);
    for seed in 1..=48 {
        let input = with_specialists(&stream(seed, 250), &mut random);
        let (lines, ended) = (played(&input), played(&with_end(&input)));
        let another = with_another(&input);
        for frames in [&input, &another] {
            let failures = compared(frames, &lines, &ended, &format!("seed {seed}"));
            assert_eq!(failures, 0, "seed {seed}");
        }
        specialists += named(&input, &lines);
        portions += usize::from(played(&another) != lines);
    }
    println!("{specialists} specialists, {portions} lists with portions");
    assert!(
        specialists > 500 && portions > 10,
        "{specialists} {portions}"
    );
}

/// Another value in a field of a record 1, 2 or 3.
fn tampered(line: &str, random: &mut Random) -> String {
    let mut words = numbers(line);
    match random.below(6) {
        0 => words[0] = random.range(1, 3),
        1 => words[1] += random.pick(&[-1, 1, 100_000]),
        2 => words[2] = random.range(-1, 33),
        3 => words[3] = random.range(0, 2),
        4 => words[4] += random.pick(&[-1, 1, -50, 1_000_000]),
        _ => words[5] += random.pick(&[-1, 1, 300, -70_000]),
    }
    let words: Vec<String> = words.iter().map(i64::to_string).collect();
    format!("R {}", words.join(" "))
}

#[test]
fn the_tables_of_lines_that_were_tampered_with() {
    let mut random = Random::new(11);
    let mut failures = 0;
    for seed in 1..=150 {
        let input = stream(seed, 120);
        let (lines, mut ended) = (played(&input), played(&with_end(&input)));
        let records: Vec<usize> = (0..ended.len())
            .filter(|at| matches!(&ended[*at][..3], "R 1" | "R 2" | "R 3"))
            .collect();
        for _ in 0..random.range(1, 6) {
            if !records.is_empty() {
                let at = random.pick(&records);
                ended[at] = tampered(&ended[at], &mut random);
            }
        }
        // Where it stops, the first play has a line that the second has not.
        let mut first: Vec<String> = ended.iter().take(lines.len()).cloned().collect();
        if lines.last().is_some_and(|line| line.starts_with("E")) {
            first.truncate(lines.len() - 1);
            first.extend(lines.last().cloned());
        }
        failures += compared(&input, &first, &ended, &format!("seed {seed}"));
    }
    assert!(failures > 500, "{failures}");
}

/// The input with each of its frames edited.
fn edited(input: &[u8], mut edit: impl FnMut(&mut [u8])) -> Vec<u8> {
    let mut bytes = input.to_vec();
    let mut rest = &mut bytes[..];
    while rest.len() >= 4 {
        let length = usize::from(rest[0]) + 256 * usize::from(rest[1]);
        if length < 4 || length > rest.len() {
            break;
        }
        let (frame, after) = rest.split_at_mut(length);
        edit(frame);
        rest = after;
    }
    bytes
}

/// The frames with other bids in kind 9 and other ranges in kind 10.
fn with_other_prices(input: &[u8], random: &mut Random) -> Vec<u8> {
    edited(input, |frame| match (frame[2], frame.len()) {
        // The highest price, 99,999, ends in four ones: none leaves its range.
        (9, 13) => frame[5] ^= random.below(16) as u8,
        (10, 6) => frame[4..].copy_from_slice(&[random.below(8) as u8, 0]),
        _ => {}
    })
}

/// The frames with other limits of sweeps.
fn with_other_limits(input: &[u8], random: &mut Random) -> Vec<u8> {
    edited(input, |frame| {
        if (frame[2], frame.len()) == (3, 14) {
            let limit = i32::from_le_bytes([frame[10], frame[11], frame[12], frame[13]]);
            let change = 2 * random.below(64) as u8;
            // Near an end of its range a limit stays, so that none leaves it.
            if limit.unsigned_abs() < 9_999_000 {
                frame[10] ^= change;
            }
        }
    })
}

/// The same lines for frames with other national prices: fills that were between
/// their bounds no longer are, and nothing else fails.
#[test]
fn the_tables_where_national_prices_are_others() {
    let mut random = Random::new(13);
    let mut failures = 0;
    for seed in 1..=48 {
        let input = stream(seed, 250);
        let (lines, ended) = (played(&input), played(&with_end(&input)));
        let others = with_other_prices(&input, &mut random);
        failures += compared(&others, &lines, &ended, &format!("seed {seed}"));
    }
    assert!(failures > 50, "{failures}");
}

/// The same lines for frames with other limits of sweeps: some no longer better the leg
/// net, and some fills are worse than the limit.
#[test]
fn the_tables_where_limits_of_sweeps_are_others() {
    let mut random = Random::new(17);
    let (mut failures, mut sweeps) = (0, 0);
    for seed in 1..=48 {
        let input = stream(seed, 250);
        let (lines, ended) = (played(&input), played(&with_end(&input)));
        let others = with_other_limits(&input, &mut random);
        failures += compared(&others, &lines, &ended, &format!("seed {seed}"));
        let days = days(&others, &lines, &ended);
        let rows = days.iter().flat_map(Day::sweeps);
        sweeps += rows.filter(|row| row.ends_with("FAILS")).count();
    }
    assert!(failures > sweeps && sweeps > 50, "{failures} {sweeps}");
}
