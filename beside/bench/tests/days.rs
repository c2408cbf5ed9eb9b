//! The days that are timed: what they hold is what is said of them.

#![forbid(unsafe_code)]
#![deny(warnings)]

use bench::days::{busy_day, days, names, Frame};
use bench::worst::long_days;
use reckoning::book::{Book, SPACE};
use reckoning::coverage;
use reckoning::events::Answer;
use reckoning::national::Bounds;
use std::collections::{BTreeMap, BTreeSet};

fn play(book: &mut Book, frames: &[Frame]) -> Vec<Answer> {
    frames.iter().map(|frame| book.step(frame, SPACE)).collect()
}

/// How many strategies, complex orders, sweeps and leg orders are held.
fn held(book: &Book) -> [usize; 4] {
    [
        book.strategies.len(),
        book.complex_orders().count(),
        book.sweeps().count(),
        book.leg_orders.len(),
    ]
}

#[test]
fn a_busy_day_has_every_kind_and_most_answers() {
    let frames = busy_day(20_000);
    assert_eq!(frames.len(), 20_000);
    assert_eq!(busy_day(3_001), frames[..3_001]);
    assert_eq!(busy_day(1).len(), 1);
    let answers = play(&mut Book::first(), &frames);
    let mut kinds: BTreeMap<u8, usize> = BTreeMap::new();
    for (frame, answer) in frames.iter().zip(&answers) {
        if answer.answer == 0 {
            *kinds.entry(frame[2]).or_default() += 1;
        }
    }
    // The day is of kinds 1 to 8; a few of its damaged frames may be of kind 10 or 11.
    let damaged = kinds.remove(&10).unwrap_or(0) + kinds.remove(&11).unwrap_or(0);
    assert!(damaged < 5, "{damaged}");
    assert_eq!(
        kinds.keys().copied().collect::<Vec<u8>>(),
        [1, 2, 3, 4, 5, 6, 7, 8]
    );
    assert!(kinds.values().all(|count| *count >= 10), "{kinds:?}");
    let accepted: usize = kinds.values().sum();
    assert!(2 * accepted > frames.len(), "{accepted}");
    let seen: BTreeSet<u32> = answers.iter().map(|answer| answer.answer).collect();
    assert!((2..=12).all(|refusal| seen.contains(&refusal)), "{seen:?}");
    assert!(!seen.contains(&15), "every sweep betters its net");
}

/// The figures of two versions compare only on the same day: this is the one of
/// request 2026-03, which those before it play with the same lines, by a sum over its
/// bytes (FNV-1a, 64 bits).
#[test]
fn the_busy_day_stays_as_it_is() {
    let sum = |events: usize| {
        let add = |sum: u64, byte: u8| (sum ^ u64::from(byte)).wrapping_mul(0x100_0000_01b3);
        let bytes = busy_day(events).concat();
        bytes.into_iter().fold(0xcbf2_9ce4_8422_2325, add)
    };
    assert_eq!(sum(20_000), 0x867c_a271_6c9d_1314);
    assert_eq!(sum(200_000), 0xb849_5946_e387_42fd);
}

/// Both bounds of each strategy.
fn all_bound(book: &Book) -> bool {
    (0..book.strategies.len() as u8).all(|strategy| {
        let Bounds { lowest, highest } = book.bounds(strategy);
        lowest > i64::MIN && highest < i64::MAX
    })
}

/// Of two days of one kind that differ by national prices alone.
#[test]
fn a_tail_with_national_prices_does_the_same() {
    let days = days(600);
    let day = |name: &str| days.iter().find(|day| day.name == name).expect(name);
    for (name, other) in [
        ("complex-bound", "complex"),
        ("legs-bound", "complex-legs"),
        ("leg-order-bound", "leg-order"),
        ("series-bound", "series"),
        ("auction-bound", "clock-auction"),
    ] {
        let (bound, plain) = (day(name), day(other));
        assert_eq!(bound.tail, plain.tail, "{name}");
        let (mut book, mut fresh) = (Book::first(), Book::first());
        play(&mut book, &bound.head);
        play(&mut fresh, &plain.head);
        assert!(all_bound(&book) && !all_bound(&fresh), "{name}");
        assert_eq!(
            play(&mut book, &bound.tail),
            play(&mut fresh, &plain.tail),
            "{name}"
        );
    }
}

#[test]
fn the_events_of_a_tail_are_accepted_and_leave_the_book_as_busy() {
    for day in days(1_000) {
        let name = day.name;
        let mut book = Book::first();
        assert!(
            play(&mut book, &day.head).iter().all(|a| a.answer == 0),
            "{name}"
        );
        let before = held(&book);
        let orders = if name == "first-price" { 28 } else { 30 };
        assert!(
            before[0] == 16 && before[1] >= 12 && before[3] == orders,
            "{name}: {before:?}"
        );
        let answers = play(&mut book, &day.tail);
        let wanted = if name == "refused" { 2 } else { 0 };
        assert!(answers.iter().all(|a| a.answer == wanted), "{name}");
        let after = held(&book);
        if name == "day-end" {
            assert_eq!(after, [0; 4]);
        } else {
            assert_eq!(after, before, "{name}");
        }
        let least = if day.kind == 6 { 100 } else { 1_000 };
        let turn = if name == "busy-day" { 91 } else { 3 };
        assert!((least..least + turn).contains(&day.tail.len()), "{name}");
        let own = day.tail.iter().filter(|frame| frame[2] == day.kind).count();
        assert!(
            day.kind == 0 || turn * own >= day.tail.len(),
            "{name}: {own}"
        );
    }
}

/// Of each turn of a tail the last event writes these kinds of records.
#[test]
fn the_events_of_a_tail_do_what_is_said_of_them() {
    for (name, turn, kinds) in [
        ("strategy", 1, &[][..]),
        ("complex", 2, &[1, 2]),
        ("complex-bound", 2, &[1, 2]),
        ("complex-legs", 3, &[1, 2]),
        ("legs-bound", 3, &[1, 2]),
        ("sweep", 1, &[3]),
        ("leg-order", 2, &[2]),
        ("leg-order-bound", 2, &[2]),
        ("first-price", 2, &[3]),
        ("cancel", 2, &[3]),
        ("leg-cancel", 2, &[3]),
        ("series", 2, &[]),
        ("series-bound", 2, &[]),
        ("clock", 1, &[]),
        ("clock-auction", 3, &[1, 2, 3, 5]),
        ("auction-bound", 3, &[1, 2, 3, 5]),
        ("portion", 3, &[1, 2, 3, 5]),
        ("national", 1, &[]),
        ("range", 1, &[]),
        ("specialist", 1, &[]),
        ("refused", 1, &[]),
    ] {
        let days = days(600);
        let day = days.iter().find(|day| day.name == name).expect(name);
        let mut book = Book::first();
        play(&mut book, &day.head);
        for (index, answer) in play(&mut book, &day.tail).iter().enumerate() {
            let written: BTreeSet<i32> = answer.records.iter().map(|r| r.kind).collect();
            let written: Vec<i32> = written.into_iter().collect();
            match index % turn == turn - 1 {
                true => assert_eq!(written, kinds, "{name}, {index}"),
                false => assert!(written.iter().all(|kind| *kind == 4), "{name}, {index}"),
            }
        }
    }
}

/// The best prices of the series with leg orders.
fn prices(book: &Book) -> Vec<Option<u32>> {
    let sides = (0..8).flat_map(|series| [(series, 0), (series, 1)]);
    let depths = sides.map(|(series, side)| book.depth(series, side));
    depths.map(|depth| depth.map(|depth| depth.price)).collect()
}

/// One gives its side the first price, the sides in turn; the other rests beside those
/// at the best price. The cancel leaves the prices as they were.
#[test]
fn a_leg_order_that_is_cancelled_gives_a_price_or_none() {
    let days = days(600);
    let day = |name: &str| days.iter().find(|day| day.name == name).expect(name);
    for (name, none) in [("first-price", &[14, 15][..]), ("leg-cancel", &[])] {
        let mut book = Book::first();
        play(&mut book, &day(name).head);
        let before = prices(&book);
        let without: Vec<usize> = (0..16).filter(|at| before[*at].is_none()).collect();
        assert_eq!(without, none, "{name}");
        for (index, pair) in day(name).tail.chunks(2).enumerate() {
            play(&mut book, &pair[..1]);
            let other = prices(&book);
            let changed: Vec<usize> = (0..16).filter(|at| other[*at] != before[*at]).collect();
            let given: Vec<usize> = none.iter().copied().skip(index % 2).take(1).collect();
            assert_eq!(changed, given, "{name}, {index}");
            play(&mut book, &pair[1..]);
            assert_eq!(prices(&book), before, "{name}, {index}");
        }
    }
}

/// Each group is what builds the busy book, and its day end cancels the last one's.
#[test]
fn a_busy_book_is_made_anew() {
    let days = days(600);
    let day = days.iter().find(|day| day.name == "busy-day");
    let day = day.expect("busy-day");
    assert_eq!((day.head.len(), day.tail.len()), (91, 7 * 91));
    let mut book = Book::first();
    play(&mut book, &day.head);
    for group in day.tail.chunks(91) {
        assert_eq!(group, day.head);
        let answers = play(&mut book, group);
        let written: Vec<usize> = answers.iter().map(|a| a.records.len()).collect();
        assert_eq!(written, [vec![42], vec![0; 90]].concat());
        assert_eq!(held(&book), [16, 12, 0, 30]);
    }
}

#[test]
fn every_kind_has_a_day() {
    let kinds: BTreeSet<u8> = days(1).iter().map(|day| day.kind).collect();
    assert_eq!(
        kinds.into_iter().collect::<Vec<u8>>(),
        [0, 1, 2, 3, 4, 5, 6, 7, 8, 9, 10, 11]
    );
    let known: BTreeSet<&str> = names().into_iter().collect();
    assert_eq!(known.len(), names().len());
}

/// What is held before the last event of a long day, and what that one writes: its
/// kind, and of records whole fills, leg fills, cancels, auctions begun and ended.
#[test]
fn the_last_event_of_a_long_day_does_what_is_said_of_it() {
    let rows: [(&str, [usize; 4], usize, u8, [usize; 5]); 13] = [
        ("full-book", [16, 16, 16, 31], 16, 6, [0; 5]),
        // 15 limits with 2 whole fills of 6 legs each; 27 leg nets with a whole fill,
        // its 6 legs and 6 leg orders each; what is left is cancelled.
        ("complex-order", [16, 15, 0, 32], 0, 2, [57, 504, 1, 0, 0]),
        ("leg-order", [16, 16, 0, 31], 0, 4, [42, 504, 0, 0, 0]),
        ("opening", [16, 16, 0, 32], 0, 6, [42, 504, 0, 0, 0]),
        ("opening-bound", [16, 16, 0, 32], 0, 6, [42, 504, 0, 0, 0]),
        ("crossing", [16, 16, 0, 32], 0, 6, [57, 504, 0, 0, 0]),
        ("halt", [16, 16, 16, 32], 16, 6, [0, 0, 32, 0, 16]),
        ("auction", [16, 16, 16, 32], 1, 7, [105, 876, 0, 0, 1]),
        ("auction-bound", [16, 16, 16, 32], 1, 7, [105, 876, 0, 0, 1]),
        ("portion", [16, 16, 16, 32], 1, 7, [105, 876, 0, 0, 1]),
        ("answers", [16, 16, 16, 32], 1, 7, [147, 1_044, 1, 0, 1]),
        ("auctions", [16, 16, 16, 32], 16, 7, [40, 480, 17, 0, 16]),
        ("day-end", [16, 16, 16, 32], 16, 8, [0, 0, 64, 0, 16]),
    ];
    let days = long_days();
    let known: Vec<&str> = days.iter().map(|day| day.name).collect();
    assert_eq!(known, rows.map(|row| row.0));
    for (day, (name, tables, running, kind, written)) in days.iter().zip(rows) {
        let mut book = Book::first();
        let (last, before) = day.frames.split_last().expect(name);
        let answers = play(&mut book, before);
        let refused = answers.iter().filter(|a| a.answer != 0).count();
        assert_eq!(refused, if name == "full-book" { 4 } else { 0 }, "{name}");
        assert_eq!(held(&book), tables, "{name}");
        let auctions = book.auctions.iter().flatten().count();
        assert_eq!(auctions, running, "{name}");
        assert_eq!(all_bound(&book), name.ends_with("-bound"), "{name}");
        assert_eq!(last[2], kind, "{name}");
        let answer = book.step(last, SPACE);
        assert_eq!(answer.answer, 0, "{name}");
        let count = |kind: i32| answer.records.iter().filter(|r| r.kind == kind).count();
        assert_eq!([1, 2, 3, 4, 5].map(count), written, "{name}");
    }
}

/// A specialist is named, and its sweep is shared at the auction's end: in the tail it
/// is alone in its group, in the long day 56 of 801 are its portion.
#[test]
fn a_specialist_has_its_portion() {
    let days = days(600);
    let day = |name: &str| days.iter().find(|day| day.name == name).expect(name);
    let mut book = Book::first();
    play(&mut book, &day("portion").head);
    assert!(book.specialists.iter().all(Option::is_some));
    coverage::take();
    play(&mut book, &day("portion").tail);
    let reached = coverage::take();
    assert_eq!(reached.get("portion: of the whole group"), Some(&200));

    let long = long_days();
    let day = |name: &str| long.iter().find(|day| day.name == name).expect(name);
    let fills = |name: &str| -> Vec<i32> {
        let answers = play(&mut Book::first(), &day(name).frames);
        let last = answers.last().expect(name);
        let whole = last.records.iter().filter(|r| r.kind == 1 && r.side == 1);
        whole.take(16).map(|record| record.quantity).collect()
    };
    assert_eq!(fills("auction"), [vec![51], vec![50; 15]].concat());
    let shared = [vec![50; 10], vec![49; 5], vec![56]].concat();
    assert_eq!(fills("portion"), shared);
}

/// The last 13 events of the full book: refusals, then an event of each kind.
#[test]
fn the_full_book_refuses_what_has_no_room() {
    let days = long_days();
    let frames = &days[0].frames;
    let mut book = Book::first();
    let (before, last) = frames.split_at(frames.len() - 13);
    play(&mut book, before);
    assert_eq!(held(&book), [16, 16, 16, 32]);
    let kinds: Vec<u8> = last.iter().map(|frame| frame[2]).collect();
    assert_eq!(kinds, [2, 3, 4, 1, 1, 3, 3, 3, 5, 5, 4, 7, 6]);
    let answers = play(&mut book, last);
    let refusals: Vec<u32> = answers.iter().map(|answer| answer.answer).collect();
    assert_eq!(refusals, [12, 12, 12, 12, 0, 0, 0, 0, 0, 0, 0, 0, 0]);
    // A strategy that is held, the last but one; a sweep replaced and one removed.
    assert_eq!(answers[4].value, 14);
    let records: Vec<usize> = answers.iter().map(|a| a.records.len()).collect();
    assert_eq!(records, [0, 0, 0, 0, 0, 1, 1, 0, 1, 1, 0, 0, 0]);
}
