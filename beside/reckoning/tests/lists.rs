//! Tests over generated lists: coverage, the totals, the bound on records.

#![forbid(unsafe_code)]
#![deny(warnings)]

mod common;

use common::two_walks;
use reckoning::book::{depth, Book, Entry, BUY, RECORDS, SELL, SPACE};
use reckoning::coverage::{self, LAST_SITUATIONS, SITUATIONS};
use reckoning::events::Answer;
use reckoning::frames::{bytes, read, Event, Leg};
use reckoning::generate::{list, long_list, national_list, stream, tail, Input, Options};
use reckoning::records::{Record, CANCELLED, LEG_FILL, WHOLE_FILL};
use reckoning::tape::tape;
use reckoning::totals::check;
use std::collections::BTreeMap;

/// One day of a list: the timer of its fresh book, its events and answers, and
/// the book after them.
#[derive(Clone)]
struct Day {
    timer: u32,
    inputs: Vec<Input>,
    answers: Vec<Answer>,
    book: Book,
}

/// Runs a list from the first book and parts it after every accepted day end,
/// each part beginning with a fresh book.
fn days(inputs: &[Input]) -> Vec<Day> {
    let mut parts = Vec::new();
    let mut book = Book::first();
    let mut day = Day {
        timer: book.timer,
        inputs: Vec::new(),
        answers: Vec::new(),
        book: book.clone(),
    };
    for input in inputs {
        let answer = book.step(&input.frame, input.space);
        let ended = answer.answer == 0 && matches!(read(&input.frame), Ok(Event::DayEnd { .. }));
        day.inputs.push(input.clone());
        day.answers.push(answer);
        if ended {
            day.book = book.clone();
            let next = Day {
                timer: book.timer,
                inputs: Vec::new(),
                answers: Vec::new(),
                book: book.clone(),
            };
            parts.push(std::mem::replace(&mut day, next));
        }
    }
    day.book = book;
    parts.push(day);
    parts
}

fn holds(day: &Day) -> Result<(), String> {
    check(&day.inputs, &day.answers, &|number| day.book.live(number))
}

/// Facts that hold between events: no auction beside a shut series; sweeps,
/// responses and immediates live only while their strategy's auction runs; a
/// starter is live; no buy meets a sell in a series' leg orders, nor, on a day
/// without national prices, where the strategy is all open and no auction runs.
/// Each table stands by number, and the depths that are kept are those of the leg
/// orders. Only a strategy that is held has a specialist.
fn sound(book: &Book, national: bool) {
    assert!(book.complex_orders().count() <= 16 && book.sweeps().count() <= 16);
    assert!(book.leg_orders.len() <= 32 && book.strategies.len() <= 16);
    assert!(book.entries.is_sorted_by(|a, b| a.number < b.number));
    let undefined = &book.specialists[book.strategies.len()..];
    assert!(undefined.iter().all(Option::is_none));
    assert!(book.leg_orders.is_sorted_by(|a, b| a.number < b.number));
    for series in 0..32 {
        for side in [BUY, SELL] {
            let row = book.row();
            let kept = book.depth(series, side);
            let kept = kept.map(|best| (best.price, best.contracts));
            assert_eq!(kept, two_walks(&row, series, side));
            assert_eq!(depth(&row, u32::from(series), u32::from(side)), Ok(kept));
        }
    }
    for strategy in 0..book.strategies.len() as u8 {
        let entries: Vec<&Entry> = book.entries_of(strategy).collect();
        if let Some(auction) = &book.auctions[usize::from(strategy)] {
            assert!(book.all_open(strategy));
            let starter = book.entry(auction.starter).expect("the starter is live");
            // Of class 1 or 2, life 0 or 1.
            assert!(starter.group != 1 && starter.life.is_some_and(|life| life <= 1));
        } else {
            assert!(entries.iter().all(|entry| entry.life == Some(0)));
            if book.all_open(strategy) && !national {
                let buys = entries.iter().filter(|e| e.side == 0).map(|e| e.limit);
                let sells = entries.iter().filter(|e| e.side == 1).map(|e| e.limit);
                if let (Some(buy), Some(sell)) = (buys.max(), sells.min()) {
                    assert!(buy < sell);
                }
            }
        }
        if let (Some(bid), Some(offer)) = (book.bid_net(strategy), book.offer_net(strategy)) {
            assert!(bid < offer);
        }
    }
}

/// What lists held, and the situations that they reached.
#[derive(Default)]
struct Reached {
    events: usize,
    /// Events by answer, accepted events by kind, records by kind.
    answers: [u64; 16],
    accepted: [u64; 12],
    records: [u64; 6],
    /// The most records of one event.
    most: usize,
    situations: BTreeMap<&'static str, u64>,
}

impl Reached {
    fn add(&mut self, lists: &[Vec<Input>]) {
        // The lists' makers have a book of their own, which is not counted.
        coverage::take();
        for inputs in lists {
            let mut book = Book::first();
            let mut national = false;
            for input in inputs {
                let before = book.clone();
                let answer = book.step(&input.frame, input.space);
                coverage::observe(&before, &input.frame, &answer, &book);
                self.events += 1;
                self.answers[answer.answer as usize] += 1;
                if answer.answer == 0 {
                    let event = read(&input.frame).expect("an accepted frame reads");
                    self.accepted[reckoning::frames::values(&event).0 as usize] += 1;
                    national |= matches!(event, Event::NationalPrices { .. });
                    national &= !matches!(event, Event::DayEnd { .. });
                    if self.events.is_multiple_of(16) {
                        sound(&book, national);
                    }
                } else {
                    assert_eq!(book, before, "a refusal leaves the book as it was");
                    assert!(answer.records.is_empty() && answer.value == 0);
                }
                self.most = self.most.max(answer.records.len());
                for record in &answer.records {
                    self.records[record.kind as usize] += 1;
                    assert!(!(1..=3).contains(&record.kind) || record.quantity > 0);
                }
            }
            for (situation, count) in coverage::take() {
                *self.situations.entry(situation).or_default() += count;
            }
        }
    }

    fn count(&self, situation: &str) -> u64 {
        self.situations.get(situation).copied().unwrap_or(0)
    }
}

#[test]
fn every_situation_occurs() {
    let options = Options {
        loose: true,
        day_ends: true,
    };
    let mut reached = Reached::default();
    let plain: Vec<Vec<Input>> = (0..100).map(|seed| list(seed, 2_000, options)).collect();
    reached.add(&plain);
    // Without national prices nothing on the other side meets the starter's limit
    // after its pass, no order rests crossed, and no pass stops. Every sweep betters
    // its net. No specialist is named.
    for situation in reached.situations.keys() {
        assert!(
            *situation != "end: a later pass meets the starter's rest"
                && !situation.contains("crossed")
                && !situation.contains("stop")
                && !situation.contains("15")
                && !situation.contains("specialist")
                && !situation.contains("portion"),
            "{situation}"
        );
    }
    assert_eq!(reached.answers[15], 0);
    let mut lists: Vec<Vec<Input>> = (0..130)
        .map(|seed| national_list(seed, 2_000, options))
        .collect();
    lists.push(long_list(1, 2_000, true));
    reached.add(&lists);
    println!(
        "events {}, most records of one event {}",
        reached.events, reached.most
    );
    println!("answers 0 to 15: {:?}", reached.answers);
    println!("accepted by kind 1 to 11: {:?}", &reached.accepted[1..]);
    println!("records by kind 1 to 5: {:?}", &reached.records[1..]);
    for (situation, count) in &reached.situations {
        println!("{count:>8}  {situation}");
    }
    for (number, count) in reached.answers.iter().enumerate() {
        assert!(*count >= 100, "answer {number} occurs {count} times");
    }
    for (kind, count) in reached.accepted.iter().enumerate().skip(1) {
        assert!(*count >= 30, "kind {kind} is accepted {count} times");
    }
    for (kind, count) in reached.records.iter().enumerate().skip(1) {
        assert!(*count >= 1_000, "record kind {kind} occurs {count} times");
    }
    assert!(reached.most <= RECORDS);
    for situation in SITUATIONS {
        let count = reached.count(situation);
        assert!(count >= 25, "{situation}: {count} times");
    }
    for situation in LAST_SITUATIONS {
        let count = reached.count(situation);
        assert!(count >= 2, "{situation}: {count} times");
    }
    for situation in reached.situations.keys() {
        assert!(
            SITUATIONS.contains(situation) || LAST_SITUATIONS.contains(situation),
            "{situation} is not listed"
        );
    }
}

/// A number that another list would hardly have.
fn digest(lists: impl Iterator<Item = Vec<Input>>) -> u64 {
    let mut digest = 0xcbf2_9ce4_8422_2325_u64;
    for input in lists.flatten() {
        let space = (input.space as u64).to_le_bytes();
        for byte in input.frame.into_iter().chain(space) {
            digest = (digest ^ u64::from(byte)).wrapping_mul(0x100_0000_01b3);
        }
    }
    digest
}

/// They changed last with request 2026-03: their sweeps better the net.
#[test]
fn the_lists_of_kinds_1_to_8_stay_as_they_are() {
    for (loose, day_ends, expected) in [
        (false, true, 0x3a1d_d930_34bf_92c1_u64),
        (true, true, 0x8952_74f3_d9b1_4644),
    ] {
        let options = Options { loose, day_ends };
        let lists = (1..=60).map(|seed| list(seed, 2_500, options));
        assert_eq!(digest(lists), expected, "loose {loose}");
    }
}

#[test]
fn totals_hold_over_a_million_events_and_no_event_needs_more_than_2560_records() {
    let mut events = 0;
    let mut parts = 0;
    let mut most = 0;
    let mut seed = 1_000;
    while events < 1_000_000 {
        let options = Options {
            loose: true,
            day_ends: seed % 2 == 0,
        };
        let length = 500 + 137 * (seed as usize % 40);
        let inputs = match seed % 4 {
            0 => list(seed, length, options),
            _ => national_list(seed, length, options),
        };
        for day in days(&inputs) {
            events += day.inputs.len();
            parts += 1;
            let largest = day.answers.iter().map(|answer| answer.records.len()).max();
            most = most.max(largest.unwrap_or(0));
            if let Err(claim) = holds(&day) {
                panic!("seed {seed}, timer {}: {claim}", day.timer);
            }
        }
        seed += 1;
    }
    println!("{events} events in {parts} lists; most records of one event {most}");
    assert!(most <= RECORDS);
}

#[test]
fn totals_hold_over_a_list_that_gives_every_number() {
    for seed in [7, 8] {
        let inputs = long_list(seed, 1_500, true);
        let parts = days(&inputs);
        let values = parts.iter().flat_map(|day| &day.answers).map(|a| a.value);
        let given = values.max().unwrap_or(0);
        println!("{} events, highest number given {given}", inputs.len());
        assert_eq!(given, 100_000);
        let refused = parts.iter().flat_map(|day| &day.answers);
        assert!(refused.filter(|answer| answer.answer == 13).count() > 20);
        let withdrawn = parts.iter().any(|day| {
            let last = (day.answers.iter()).position(|answer| answer.value == 100_000);
            let after = last.unwrap_or(day.answers.len());
            (day.inputs.iter().zip(&day.answers))
                .skip(after)
                .any(|(input, answer)| {
                    let event = read(&input.frame);
                    answer.answer == 0 && matches!(event, Ok(Event::Sweep { units: 0, .. }))
                })
        });
        assert!(withdrawn, "a sweep of 0 units when all numbers are given");
        for day in &parts {
            assert_eq!(holds(day), Ok(()), "seed {seed}");
        }
    }
}

/// A list with fills, cancels and live orders.
fn sample() -> Day {
    let options = Options {
        loose: true,
        day_ends: false,
    };
    (12..)
        .filter_map(|seed| days(&list(seed, 1_500, options)).pop())
        .find(|day| day.inputs.len() > 1_000 && !day.book.live_numbers().is_empty())
        .expect("some list ends without a day end")
}

/// The first record of the kind in the answers, by event and place; `nth`
/// counts from 0.
fn find(day: &Day, kind: i32, nth: usize) -> (usize, usize) {
    let mut seen = 0;
    for (event, answer) in day.answers.iter().enumerate() {
        for (place, record) in answer.records.iter().enumerate() {
            if record.kind == kind {
                if seen == nth {
                    return (event, place);
                }
                seen += 1;
            }
        }
    }
    panic!("no such record");
}

#[test]
fn the_checker_finds_every_changed_record() {
    let good = sample();
    assert_eq!(holds(&good), Ok(()));
    let mut found: BTreeMap<&str, u32> = BTreeMap::new();
    for kind in [WHOLE_FILL, LEG_FILL, CANCELLED] {
        for nth in (0..30).chain([50, 99, 100, 101]) {
            for change in [
                "quantity up",
                "quantity down",
                "dropped",
                "written twice",
                "another number",
                "a number never given",
                "another place",
                "the other side",
                "price up",
                "price down",
            ] {
                let mut day = good.clone();
                let (event, place) = find(&day, kind, nth);
                let leg_order = {
                    let number = day.answers[event].records[place].number;
                    day.inputs.iter().zip(&day.answers).any(|(input, answer)| {
                        answer.answer == 0
                            && answer.value as i32 == number
                            && matches!(read(&input.frame), Ok(Event::LegOrder { .. }))
                    })
                };
                let records = &mut day.answers[event].records;
                match change {
                    "quantity up" => records[place].quantity += 1,
                    "quantity down" => records[place].quantity -= 1,
                    "dropped" => {
                        records.remove(place);
                    }
                    "written twice" => records.insert(place, records[place]),
                    "another number" => records[place].number += 1,
                    "a number never given" => records[place].number = 99_999,
                    "another place" => records[place].place += 1,
                    "the other side" => records[place].side = 1 - records[place].side,
                    "price up" => records[place].price += 1,
                    _ => records[place].price -= 1,
                }
                // The claims speak of no price of a cancel or of a complex
                // party's leg fill, of no place or side of a cancel, and of no
                // place of a whole fill.
                let fill = kind == WHOLE_FILL || (kind == LEG_FILL && leg_order);
                let claimed = match change {
                    "another place" => kind == LEG_FILL,
                    "the other side" => kind != CANCELLED,
                    "price up" | "price down" => fill,
                    _ => true,
                };
                let verdict = holds(&day);
                if claimed {
                    assert!(verdict.is_err(), "kind {kind}, {nth}: {change}");
                    *found.entry(change).or_default() += 1;
                } else {
                    assert_eq!(verdict, Ok(()), "kind {kind}, {nth}: {change}");
                }
            }
        }
    }
    println!("found: {found:?}");
}

#[test]
fn the_checker_finds_invented_cancels_and_wrong_lookups() {
    let mut day = sample();
    let (event, place) = find(&day, WHOLE_FILL, 5);
    let mut invented = day.answers[event].records[place];
    invented.kind = CANCELLED;
    day.answers[event].records.push(invented);
    assert!(holds(&day).is_err());

    let day = sample();
    let number = day.book.live_numbers()[0];
    for change in [-1i64, 1] {
        let live = |asked: u32| {
            let change = if asked == number { change } else { 0 };
            (i64::from(day.book.live(asked)) + change) as u32
        };
        assert!(check(&day.inputs, &day.answers, &live).is_err());
    }
    for never in [0, day.book.given + 1, 100_000, 100_001] {
        let live = |asked: u32| day.book.live(asked) + u32::from(asked == never);
        assert!(check(&day.inputs, &day.answers, &live).is_err());
    }
}

#[test]
fn the_checker_finds_fills_worse_than_the_limit() {
    // Both parties of one whole fill at another price: the cash still balances.
    let mut worse = 0;
    let good = sample();
    for nth in 0..200 {
        let mut day = good.clone();
        let (event, place) = find(&day, WHOLE_FILL, nth);
        let records = &mut day.answers[event].records;
        let first = records[place];
        let other = (place + 1..records.len())
            .find(|at| records[*at].kind == WHOLE_FILL && records[*at].side != first.side);
        let Some(other) = other else { continue };
        if records[other].quantity != first.quantity || records[other].price != first.price {
            continue;
        }
        records[place].price += 20_000_000;
        records[other].price += 20_000_000;
        let claim = holds(&day).expect_err("a price above the buy's limit");
        assert!(claim.contains("worse than its limit"), "{claim}");
        worse += 1;
    }
    assert!(worse > 10);
}

/// Prices one past a bound that the limits of both parties of a whole fill allow:
/// the event, the places of the two records 1, and the price.
fn prices_past_a_bound(day: &Day) -> Vec<(usize, usize, usize, i64)> {
    let mut book = Book::fresh(day.timer);
    let mut limits: BTreeMap<i32, i64> = BTreeMap::new();
    let mut list = Vec::new();
    for (event, (input, answer)) in day.inputs.iter().zip(&day.answers).enumerate() {
        if let Ok(Event::Complex { limit, .. } | Event::Sweep { limit, .. }) = read(&input.frame) {
            limits.insert(answer.value as i32, i64::from(limit));
        }
        let records = &answer.records;
        let mut at = 0;
        while at < records.len() {
            let first = at;
            at += 1;
            // Where whole met whole, the legs have price 0.
            if records[first].kind != WHOLE_FILL || records[at].price != 0 {
                continue;
            }
            let strategy = records[first].place as u8;
            let second = at + book.legs(strategy).len();
            at = second + 1;
            let limit = |side: u8| {
                let own = [first, second].map(|place| records[place]);
                let party = own.iter().find(|record| record.side == i32::from(side));
                limits[&party.expect("a party of each side").number]
            };
            let bounds = book.bounds(strategy);
            let past = [
                bounds.lowest.saturating_sub(1),
                bounds.highest.saturating_add(1),
            ];
            for price in past {
                if (limit(SELL)..=limit(BUY)).contains(&price) {
                    list.push((event, first, second, price));
                }
            }
        }
        book.step(&input.frame, input.space);
    }
    list
}

#[test]
fn the_checker_finds_fills_outside_the_range() {
    // Both parties of a whole fill at a price one past a bound, which both their
    // limits allow: the cash still balances.
    let options = Options {
        loose: true,
        day_ends: false,
    };
    let mut found = 0;
    for seed in 0..12 {
        for good in days(&national_list(seed, 800, options)) {
            assert_eq!(holds(&good), Ok(()));
            for (event, first, second, price) in prices_past_a_bound(&good) {
                let mut day = good.clone();
                for place in [first, second] {
                    day.answers[event].records[place].price = price as i32;
                }
                let claim = holds(&day).expect_err("a price past a bound");
                assert!(claim.contains("outside the range"), "{claim}");
                found += 1;
            }
        }
    }
    println!("found: {found}");
    assert!(found > 50, "{found}");
}

/// A day with one whole fill at 200, between a buy at 200 and a sale at 180, when
/// the national nets are 197 and 205 and the range is 2; then wider prices and
/// another range.
fn one_fill() -> Day {
    let series = |series| Event::Series { series, state: 1 };
    let prices = |series, bid, offer| Event::NationalPrices { series, bid, offer };
    let range = |cents| Event::ExecutionRange { cents };
    let leg = |series, side, ratio| Leg {
        series,
        side,
        ratio,
    };
    let mut legs = [Leg::default(); 6];
    // 1:1 after the division.
    legs[..2].copy_from_slice(&[leg(1, SELL, 3), leg(0, BUY, 3)]);
    let order = |side, limit| Event::Complex {
        member: 9,
        strategy: 0,
        side,
        class: 3,
        life: 0,
        units: 2,
        limit,
    };
    let events = [
        series(0),
        series(1),
        prices(0, 300, 305),
        prices(1, 100, 103),
        range(2),
        Event::Strategy { count: 2, legs },
        order(BUY, 200),
        order(SELL, 180),
        prices(0, 100, 900),
        range(5_000),
    ];
    let inputs: Vec<Input> = (events.iter())
        .map(|event| Input {
            frame: bytes(event),
            space: SPACE,
        })
        .collect();
    days(&inputs).pop().expect("one day")
}

#[test]
fn the_range_claim_goes_by_what_was_accepted_before_the_fill() {
    const FILL: usize = 7;
    let good = one_fill();
    assert_eq!(holds(&good), Ok(()));
    let at = |price: i32, change: &dyn Fn(&mut Day)| {
        let mut day = good.clone();
        // The buyer's limit shall allow the price.
        day.inputs[FILL - 1].frame[12..].copy_from_slice(&220i32.to_le_bytes());
        for record in &mut day.answers[FILL].records {
            if record.kind == WHOLE_FILL {
                record.price = price;
            }
        }
        change(&mut day);
        holds(&day)
    };
    let nothing = |_: &mut Day| {};
    // From 197 - 2 to 205 + 2, whatever comes after.
    for price in [195, 200, 207] {
        assert_eq!(at(price, &nothing), Ok(()), "{price}");
    }
    for (price, number) in [(194, 2), (208, 1)] {
        let claim = format!("number {number} filled outside the range");
        assert_eq!(at(price, &nothing), Err(claim), "{price}");
    }
    // With a price or the range refused, or after the fill, the bound is another.
    let refused = |event: usize| move |day: &mut Day| day.answers[event].answer = 1;
    assert_eq!(at(208, &refused(2)), Ok(()));
    assert_eq!(at(194, &refused(3)), Ok(()));
    assert_eq!(at(208, &refused(4)), Ok(()), "a range of 9,999");
    assert!(at(208, &refused(8)).is_err());
    let after = |event: usize| {
        move |day: &mut Day| {
            day.inputs[event..=FILL].rotate_left(1);
            day.answers[event..=FILL].rotate_left(1);
        }
    };
    assert_eq!(at(208, &after(2)), Ok(()));
    assert_eq!(at(208, &after(4)), Ok(()));
}

/// The claim that a sweep betters nothing, if the checker makes it.
fn bettered_nothing(day: &Day) -> Option<String> {
    holds(day)
        .err()
        .filter(|claim| claim.contains("a sweep that betters nothing"))
}

/// The limit in a sweep's frame becomes this one.
fn set_limit(input: &mut Input, limit: i64) {
    input.frame[10..].copy_from_slice(&(limit as i32).to_le_bytes());
}

#[test]
fn the_checker_finds_sweeps_that_better_nothing() {
    let options = Options {
        loose: true,
        day_ends: false,
    };
    let (mut told, mut moved) = (0, 0);
    for seed in 0..6 {
        for good in days(&national_list(seed, 800, options)) {
            assert_eq!(holds(&good), Ok(()));
            let mut book = Book::fresh(good.timer);
            for (at, input) in good.inputs.iter().enumerate() {
                let before = book.clone();
                let answer = book.step(&input.frame, input.space);
                let Ok(Event::Sweep {
                    strategy,
                    side,
                    units: units @ 1..,
                    ..
                }) = read(&input.frame)
                else {
                    continue;
                };
                let mut day = good.clone();
                if answer.answer == 15 {
                    // Told as accepted under a number of its own, and cancelled at
                    // once: every sum is right.
                    day.answers[at].answer = 0;
                    day.answers[at].value = 99_999;
                    let record = Record::cancelled(99_999, side, u32::from(units));
                    day.answers[at].records.push(record);
                    let claim = "number 99999 is a sweep that betters nothing";
                    assert_eq!(holds(&day), Err(claim.to_string()));
                    told += 1;
                    continue;
                }
                let own = |record: &&Record| record.number as u32 == answer.value;
                let records = day.answers.iter().flat_map(|answer| &answer.records);
                let kinds: Vec<i32> = records.filter(own).map(|record| record.kind).collect();
                if answer.answer != 0 || kinds != [CANCELLED] {
                    continue;
                }
                // Another limit near the net: nothing else is claimed of what was
                // cancelled.
                let net = before.leg_net(strategy, 1 - side);
                let Some(net) = net else { continue };
                let worse = if side == BUY { -1 } else { 1 };
                for (cents, found) in [(-2, false), (-1, false), (0, true), (1, true)] {
                    set_limit(&mut day.inputs[at], net + worse * cents);
                    let number = answer.value;
                    let claim = format!("number {number} is a sweep that betters nothing");
                    assert_eq!(holds(&day), if found { Err(claim) } else { Ok(()) });
                }
                moved += 1;
            }
        }
    }
    println!("told as accepted: {told}, another limit: {moved}");
    assert!(told > 100 && moved > 100, "{told}, {moved}");
}

/// A day whose offer net is 205 when a sweep of 5 units sells at 204, number 9: the
/// leg orders 6 and 7, with offer nets of 203 and 202, were cancelled and filled
/// before; 10, with 203, comes after it. Two units are filled, three cancelled.
fn one_sweep() -> Day {
    let series = |series| Event::Series { series, state: 1 };
    let leg = |series, side, ratio| Leg {
        series,
        side,
        ratio,
    };
    let mut legs = [Leg::default(); 6];
    // 1:1 after the division.
    legs[..2].copy_from_slice(&[leg(1, SELL, 3), leg(0, BUY, 3)]);
    let leg_order = |series, side, contracts, price| Event::LegOrder {
        member: 7,
        series,
        side,
        contracts,
        price,
    };
    let events = [
        series(0),
        series(1),
        Event::Strategy { count: 2, legs },
        leg_order(0, BUY, 10, 300),
        leg_order(0, SELL, 10, 305),
        leg_order(1, BUY, 10, 100),
        leg_order(1, SELL, 10, 103),
        Event::Complex {
            member: 8,
            strategy: 0,
            side: BUY,
            class: 1,
            life: 0,
            units: 2,
            limit: 206,
        },
        leg_order(0, SELL, 3, 303),
        Event::Cancel {
            member: 7,
            number: 6,
        },
        leg_order(0, SELL, 4, 302),
        leg_order(0, BUY, 4, 302),
        Event::Sweep {
            member: 9,
            strategy: 0,
            side: SELL,
            units: 5,
            limit: 204,
        },
        leg_order(0, SELL, 1, 303),
        Event::Clock {
            milliseconds: 5_000,
        },
    ];
    let inputs: Vec<Input> = (events.iter())
        .map(|event| Input {
            frame: bytes(event),
            space: SPACE,
        })
        .collect();
    days(&inputs).pop().expect("one day")
}

#[test]
fn the_sweep_claim_goes_by_the_leg_orders_before_it() {
    const CANCEL: usize = 9;
    const TRADE: usize = 11;
    const SWEEP: usize = 12;
    const LATER: usize = 13;
    const END: usize = 14;
    let good = one_sweep();
    assert_eq!(holds(&good), Ok(()));
    assert!(good.answers.iter().all(|answer| answer.answer == 0));
    let of_sweep = |day: &Day| -> Vec<i32> {
        let own = (day.answers[END].records.iter()).filter(|record| record.number == 9);
        own.map(|record| record.kind).collect()
    };
    assert_eq!(of_sweep(&good), [1, 2, 2, 3]);
    // The sweep and its fill at another limit, which the buyer's allows.
    let at = |limit: i64| {
        let mut day = good.clone();
        set_limit(&mut day.inputs[SWEEP], limit);
        for record in &mut day.answers[END].records {
            if record.kind == WHOLE_FILL {
                record.price = limit as i32;
            }
        }
        day
    };
    let claim = "number 9 is a sweep that betters nothing";
    for limit in [-5, 203, 204] {
        assert_eq!(holds(&at(limit)), Ok(()), "{limit}");
    }
    for limit in [205, 206] {
        assert_eq!(holds(&at(limit)), Err(claim.to_string()), "{limit}");
    }
    // The leg orders that are gone, and the one that comes after it.
    for (event, best) in [(CANCEL, 203), (TRADE, 202)] {
        for limit in [best - 1, best] {
            let mut day = at(i64::from(limit));
            day.answers[event].records.clear();
            assert_eq!(bettered_nothing(&day).is_some(), limit == best, "{event}");
        }
    }
    for limit in [202, 203] {
        let mut day = at(limit);
        day.inputs.swap(SWEEP, LATER);
        day.answers.swap(SWEEP, LATER);
        assert_eq!(bettered_nothing(&day).is_some(), limit == 203);
    }
    // A part of the trade leaves the rest at 302.
    let mut day = at(202);
    for record in &mut day.answers[TRADE].records {
        record.quantity -= 1;
    }
    assert!(bettered_nothing(&day).is_some());
    // Of the leg orders that the offer net takes none may be missing; those of the
    // bid net play no part.
    for (event, unknown) in [(3, false), (4, true), (5, true), (6, false)] {
        let mut day = at(206);
        day.answers[event].answer = 1;
        assert_eq!(bettered_nothing(&day).is_none(), unknown, "{event}");
    }
    // The legs are those of the strategy's own event: offers 2 x 305 less 100.
    let mut day = at(206);
    day.inputs[2].frame[7] = 1;
    day.inputs[2].frame[10] = 2;
    assert_eq!(bettered_nothing(&day), None);
    // Whichever of its records are told, or none.
    for kept in [0, 1, 2, 3] {
        let mut day = at(205);
        let records = &mut day.answers[END].records;
        records.retain(|record| record.number != 9 || record.kind == kept);
        assert!(bettered_nothing(&day).is_some(), "{kept}");
    }
    // One that did not enter has no such claim: refused, or with no number.
    for (answer, value) in [(15, 0), (0, 0)] {
        let mut day = at(205);
        day.answers[SWEEP].answer = answer;
        day.answers[SWEEP].value = value;
        assert_eq!(bettered_nothing(&day), None, "{answer}");
    }
    // A sweep that is told as an order has no such claim.
    let mut day = at(205);
    day.inputs[SWEEP].frame = bytes(&Event::Complex {
        member: 9,
        strategy: 0,
        side: SELL,
        class: 3,
        life: 2,
        units: 5,
        limit: 205,
    });
    assert_eq!(holds(&day), Ok(()));
}

#[test]
fn the_checker_finds_live_sweeps_that_better_nothing() {
    // The list ends with the sweep: all 5 units of it are live, and no record is of
    // it, so that no other claim looks at its limit.
    const SWEEP: usize = 12;
    let inputs = &one_sweep().inputs[..=SWEEP];
    let claim = "number 9 is a sweep that betters nothing";
    let limits = [
        (SELL, [-5, 203, 204], [205, 206]),
        (BUY, [198, 199, 206], [-5, 197]),
    ];
    for (side, better, not_better) in limits {
        let mut inputs = inputs.to_vec();
        inputs[SWEEP].frame = bytes(&Event::Sweep {
            member: 9,
            strategy: 0,
            side,
            units: 5,
            limit: better[0],
        });
        let good = days(&inputs).pop().expect("one day");
        assert_eq!(good.answers[SWEEP].value, 9);
        let mut records = good.answers.iter().flat_map(|answer| &answer.records);
        assert!(records.all(|record| record.number != 9));
        assert_eq!(good.book.live(9), 5);
        let at = |limit: i32| {
            let mut day = good.clone();
            set_limit(&mut day.inputs[SWEEP], i64::from(limit));
            day
        };
        for limit in better {
            assert_eq!(holds(&at(limit)), Ok(()), "{side}, {limit}");
        }
        for limit in not_better {
            let verdict = holds(&at(limit));
            assert_eq!(verdict, Err(claim.to_string()), "{side}, {limit}");
        }
    }

    // Sweeps that were refused 15, told as accepted and live.
    let options = Options {
        loose: true,
        day_ends: false,
    };
    let mut told = 0;
    for seed in 0..6 {
        for good in days(&national_list(seed, 800, options)) {
            for (at, input) in good.inputs.iter().enumerate() {
                let Ok(Event::Sweep { units, .. }) = read(&input.frame) else {
                    continue;
                };
                if good.answers[at].answer != 15 {
                    continue;
                }
                let mut answers = good.answers.clone();
                answers[at].answer = 0;
                answers[at].value = 99_999;
                let live = |asked: u32| match asked {
                    99_999 => u32::from(units),
                    _ => good.book.live(asked),
                };
                let claim = "number 99999 is a sweep that betters nothing";
                let verdict = check(&good.inputs, &answers, &live);
                assert_eq!(verdict, Err(claim.to_string()));
                told += 1;
            }
        }
    }
    println!("told as live: {told}");
    assert!(told > 100, "{told}");
}

#[test]
fn the_checker_finds_records_1_of_leg_orders() {
    // A leg buy and a leg sell at one price that both allow, for the same
    // quantity: every sum stays as it was.
    let good = sample();
    let (mut buys, mut sells) = (Vec::new(), Vec::new());
    for (at, input) in good.inputs.iter().enumerate() {
        if let (0, Ok(Event::LegOrder { side, price, .. })) =
            (good.answers[at].answer, read(&input.frame))
        {
            let number = good.answers[at].value;
            if side == BUY {
                buys.push((at, number, price));
            } else {
                sells.push((at, number, price));
            }
        }
    }
    let mut tried = 0;
    for buy in &buys {
        for sell in sells.iter().filter(|sell| sell.2 <= buy.2).take(20) {
            for price in [sell.2, buy.2] {
                let mut day = good.clone();
                let records = &mut day.answers[buy.0.max(sell.0)].records;
                for (number, side) in [(buy.1, BUY), (sell.1, SELL)] {
                    let price = i64::from(price);
                    records.push(Record::new(WHOLE_FILL, number, 0, side, 3, price));
                }
                let claim = holds(&day).expect_err("a leg order with a record 1");
                assert!(claim.contains("a leg order with a record 1"), "{claim}");
                tried += 1;
            }
        }
    }
    assert!(tried > 100, "{tried}");
}

#[test]
fn the_checker_finds_changed_answers() {
    // An accepted order told as refused, and a number given twice.
    let mut day = sample();
    let (event, place) = find(&day, WHOLE_FILL, 0);
    let number = day.answers[event].records[place].number as u32;
    let entering = |day: &Day| {
        (0..day.inputs.len())
            .find(|at| {
                let kinds = matches!(
                    read(&day.inputs[*at].frame),
                    Ok(Event::Complex { .. } | Event::Sweep { .. } | Event::LegOrder { .. })
                );
                kinds && day.answers[*at].answer == 0 && day.answers[*at].value == number
            })
            .expect("the order entered")
    };
    let at = entering(&day);
    day.answers[at].answer = 12;
    assert!(holds(&day).is_err());
    let mut day = sample();
    let at = entering(&day);
    day.answers[at].value += 1;
    assert!(holds(&day).is_err());
}

#[test]
fn a_list_ends_with_its_day() {
    let options = Options {
        loose: true,
        day_ends: true,
    };
    let mut seen = 0;
    for seed in 0..20 {
        let inputs = list(seed, 3_000, options);
        let mut book = Book::first();
        let answers: Vec<Answer> = (inputs.iter())
            .map(|input| book.step(&input.frame, input.space))
            .collect();
        if days(&inputs)
            .iter()
            .filter(|day| !day.inputs.is_empty())
            .count()
            > 1
        {
            let verdict = check(&inputs, &answers, &|number| book.live(number));
            assert!(verdict.is_err());
            seen += 1;
        }
    }
    assert!(seen > 3);
}

#[test]
fn a_stream_is_read_to_its_end() {
    for seed in 0..16 {
        let input = stream(seed, 1_000);
        let mut output = Vec::new();
        tape(&input, &mut output).expect("a Vec takes every line");
        let text = String::from_utf8(output).expect("the lines are ASCII");
        let events = text.lines().filter(|line| line.starts_with('E')).count();
        let mut frames = 0;
        let mut rest = &input[..input.len() - tail(seed).len()];
        while !rest.is_empty() {
            let length = usize::from(u16::from_le_bytes([rest[0], rest[1]]));
            assert!(length >= 4 && length <= rest.len());
            rest = &rest[length..];
            frames += 1;
        }
        assert!(frames >= 1_000);
        assert_eq!(events, frames + usize::from(!tail(seed).is_empty()));
    }
}
