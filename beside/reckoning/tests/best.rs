//! Request 2026-02, "Best price and its contracts together": the running pair after
//! each slot, and short lists of events whose records and depths depend on the pair.

#![forbid(unsafe_code)]
#![deny(warnings)]

mod common;

use common::*;
use reckoning::book::{depth, Book, Depth, RowEntry, SPACE};
use reckoning::calls::{calls, item};
use reckoning::coverage::{self, ROW_SITUATIONS};
use reckoning::frames::{bytes, Event};
use reckoning::generate::{list, national_list, order_row, Input, Options, Random};
use reckoning::nets::add_slot;

fn entry(series: u8, side: u8, contracts: u16, price: u32) -> RowEntry {
    RowEntry {
        series,
        side,
        contracts,
        price,
    }
}

/// The pair after each slot of the row, from the empty pair on.
fn pairs(row: &[RowEntry], series: u8, side: u8) -> Vec<Option<(u32, u32)>> {
    let mut pair: Option<Depth> = None;
    (row.iter())
        .map(|slot| {
            add_slot(&mut pair, slot, series, side);
            pair.map(|best| (best.price, best.contracts))
        })
        .collect()
}

/// The pairs of orders of one side of series 3, given as contracts and price.
fn pairs_of(side: u8, orders: &[(u16, u32)]) -> Vec<Option<(u32, u32)>> {
    let row: Vec<RowEntry> = (orders.iter())
        .map(|(contracts, price)| entry(3, side, *contracts, *price))
        .collect();
    let found = pairs(&row, 3, side);
    assert_eq!(depth(&row, 3, u32::from(side)), Ok(found[row.len() - 1]));
    found
}

// The walk.

#[test]
fn a_running_pair_starts_afresh_at_a_better_price() {
    assert_eq!(
        pairs_of(BUY, &[(5, 20), (2, 21), (9, 30)]),
        [Some((20, 5)), Some((21, 2)), Some((30, 9))]
    );
    assert_eq!(
        pairs_of(SELL, &[(5, 20), (2, 19), (9, 10)]),
        [Some((20, 5)), Some((19, 2)), Some((10, 9))]
    );
}

#[test]
fn an_equal_price_adds_also_after_a_fresh_start() {
    assert_eq!(
        pairs_of(BUY, &[(5, 20), (1, 20), (2, 21), (4, 21), (8, 21)]),
        [
            Some((20, 5)),
            Some((20, 6)),
            Some((21, 2)),
            Some((21, 6)),
            Some((21, 14))
        ]
    );
    assert_eq!(
        pairs_of(SELL, &[(5, 20), (1, 20), (2, 19), (4, 19), (8, 19)]),
        [
            Some((20, 5)),
            Some((20, 6)),
            Some((19, 2)),
            Some((19, 6)),
            Some((19, 14))
        ]
    );
}

#[test]
fn a_worse_price_changes_nothing() {
    // Nor does the price that was best before the pair started afresh.
    assert_eq!(
        pairs_of(BUY, &[(5, 20), (7, 19), (2, 21), (6, 20), (1, 1), (3, 21)]),
        [
            Some((20, 5)),
            Some((20, 5)),
            Some((21, 2)),
            Some((21, 2)),
            Some((21, 2)),
            Some((21, 5))
        ]
    );
    assert_eq!(
        pairs_of(
            SELL,
            &[(5, 20), (7, 21), (2, 19), (6, 20), (1, 99_999), (3, 19)]
        ),
        [
            Some((20, 5)),
            Some((20, 5)),
            Some((19, 2)),
            Some((19, 2)),
            Some((19, 2)),
            Some((19, 5))
        ]
    );
}

#[test]
fn an_empty_side_is_the_empty_pair() {
    for side in [BUY, SELL] {
        assert_eq!(depth(&[], 3, u32::from(side)), Ok(None));
        // The other side, another series, and an empty slot.
        let row = [
            entry(3, 1 - side, 5, 20),
            entry(4, side, 5, 20),
            entry(3, side, 0, 20),
        ];
        assert_eq!(pairs(&row, 3, side), [None, None, None]);
        assert_eq!(depth(&row, 3, u32::from(side)), Ok(None));
        assert_eq!(depth(&row, 3, u32::from(1 - side)), Ok(Some((20, 5))));
    }
    let book = Book::first();
    for series in 0..32 {
        for side in [BUY, SELL] {
            assert_eq!(book.depth(series, side), None);
        }
    }
}

#[test]
fn an_order_of_another_series_or_side_or_of_0_contracts_changes_nothing() {
    for (side, better, worse) in [(BUY, 30, 10), (SELL, 10, 30)] {
        let mut row = vec![entry(3, side, 5, 20)];
        for price in [better, 20, worse] {
            row.push(entry(2, side, 7, price));
            row.push(entry(4, side, 7, price));
            row.push(entry(3, 1 - side, 7, price));
            row.push(entry(3, side, 0, price));
        }
        assert_eq!(pairs(&row, 3, side), [Some((20, 5)); 13]);
        row.push(entry(3, side, 2, 20));
        assert_eq!(pairs(&row, 3, side)[13], Some((20, 7)));
        assert_eq!(depth(&row, 3, u32::from(side)), Ok(Some((20, 7))));
    }
}

#[test]
fn the_ends_of_the_prices_are_prices_like_any_other() {
    assert_eq!(
        pairs_of(BUY, &[(1, 1), (2, 1), (3, 99_999), (4, 99_999)]),
        [
            Some((1, 1)),
            Some((1, 3)),
            Some((99_999, 3)),
            Some((99_999, 7))
        ]
    );
    assert_eq!(
        pairs_of(SELL, &[(1, 99_999), (2, 99_999), (3, 1), (4, 1)]),
        [
            Some((99_999, 1)),
            Some((99_999, 3)),
            Some((1, 3)),
            Some((1, 7))
        ]
    );
}

#[test]
fn the_contracts_of_32_orders_add() {
    for side in [BUY, SELL] {
        let found = pairs_of(side, &[(9_999, 20); 32]);
        assert_eq!(found[6], Some((20, 69_993)), "over 65,535");
        assert_eq!(found[31], Some((20, 319_968)));
    }
    // The last slot is walked as the first is.
    let mut orders = [(1, 20); 32];
    orders[31] = (7, 21);
    assert_eq!(
        pairs_of(BUY, &orders)[30..],
        [Some((20, 31)), Some((21, 7))]
    );
    assert_eq!(pairs_of(SELL, &orders)[30..], [Some((20, 31)); 2]);
    orders.reverse();
    assert_eq!(pairs_of(BUY, &orders), [Some((21, 7)); 32]);
}

#[test]
fn a_field_out_of_range_in_any_slot_is_refused_3_and_an_empty_slot_is_not() {
    let row = [entry(3, SELL, 2, 20); 32];
    let wrong = [
        entry(32, SELL, 1, 20),
        entry(3, 2, 1, 20),
        entry(3, SELL, 10_000, 20),
        entry(3, SELL, 1, 0),
        entry(3, SELL, 1, 100_000),
        // Of another series and of the other side, too.
        entry(4, SELL, 10_000, 20),
        entry(3, BUY, 1, 0),
    ];
    for at in 0..32 {
        for wrong in wrong {
            let mut row = row;
            row[at] = wrong;
            assert_eq!(depth(&row, 3, 1), Err(3), "{wrong:?} in slot {at}");
            row[at].contracts = 0;
            assert_eq!(depth(&row, 3, 1), Ok(Some((20, 62))), "slot {at}");
        }
    }
    let mut longer = row.to_vec();
    longer.push(entry(0, BUY, 0, 0));
    assert_eq!(depth(&longer, 3, 1), Err(3));
}

/// Every pair of the walk is that of two walks over the slots so far.
fn walked(row: &[RowEntry], series: u8, side: u8) {
    for (at, pair) in pairs(row, series, side).into_iter().enumerate() {
        let so_far = &row[..=at];
        assert_eq!(pair, two_walks(so_far, series, side), "{so_far:?}");
    }
}

#[test]
fn after_each_slot_the_pair_is_that_of_the_slots_walked_so_far() {
    let mut random = Random::new(1);
    for _ in 0..40_000 {
        let row = order_row(&mut random);
        for series in [0, 31, random.range(0, 31) as u8] {
            for side in [BUY, SELL] {
                walked(&row, series, side);
            }
        }
    }
    // Every row of five slots: series 0 at three prices, with one contract or two;
    // another series; the other side; an empty slot.
    for side in [BUY, SELL] {
        let mut slots: Vec<RowEntry> = (1..=3)
            .flat_map(|price| [1, 2].map(|contracts| entry(0, side, contracts, price)))
            .collect();
        slots.push(entry(1, side, 4, 2));
        slots.push(entry(0, 1 - side, 4, 2));
        slots.push(entry(0, side, 0, 2));
        for number in 0..slots.len().pow(5) {
            let place = |at: u32| slots[number / slots.len().pow(at) % slots.len()];
            walked(&[0, 1, 2, 3, 4].map(place), 0, side);
        }
    }
}

#[test]
fn at_the_end_price_and_contracts_are_those_of_today_an_empty_side_included() {
    let mut random = Random::new(2);
    coverage::take();
    for _ in 0..40_000 {
        let row = order_row(&mut random);
        let mut turned = row.clone();
        turned.reverse();
        let turn = random.below(row.len().max(1));
        turned.rotate_left(turn);
        for series in [0, 31, random.range(0, 31) as u8] {
            for side in [BUY, SELL] {
                coverage::observe_row(&row, series, side);
                let fits = row.len() <= 32
                    && (row.iter()).all(|entry| {
                        entry.contracts == 0
                            || entry.series <= 31
                                && entry.side <= 1
                                && entry.contracts <= 9_999
                                && (1..=99_999).contains(&entry.price)
                    });
                let expected = match fits {
                    true => Ok(two_walks(&row, series, side)),
                    false => Err(3),
                };
                let (series, side) = (u32::from(series), u32::from(side));
                assert_eq!(depth(&row, series, side), expected, "{row:?}");
                // The order of the slots plays no part.
                assert_eq!(depth(&turned, series, side), expected, "{turned:?}");
            }
        }
    }
    let reached = coverage::take();
    for (situation, count) in &reached {
        println!("{count:>8}  {situation}");
        assert!(ROW_SITUATIONS.contains(situation), "{situation}");
    }
    for situation in ROW_SITUATIONS {
        let count = reached.get(situation).copied().unwrap_or(0);
        assert!(count >= 500, "{situation}: {count} times");
    }
}

#[test]
fn after_each_event_the_depths_are_those_of_the_leg_orders() {
    let options = Options {
        loose: true,
        day_ends: true,
    };
    for seed in 500..540 {
        let inputs = match seed % 2 {
            0 => list(seed, 1_000, options),
            _ => national_list(seed, 1_000, options),
        };
        let mut book = Book::first();
        for Input { frame, space } in inputs {
            book.step(&frame, space);
            let row = book.row();
            for series in 0..32 {
                for side in [BUY, SELL] {
                    let kept = book.depth(series, side);
                    let kept = kept.map(|best| (best.price, best.contracts));
                    assert_eq!(kept, two_walks(&row, series, side), "seed {seed}");
                }
            }
        }
    }
}

// Lists of events. A side is tried as offers and as bids: `away` from 300 is worse.

fn price(side: u8, away: u32) -> u32 {
    match side {
        BUY => 300 - away,
        _ => 300 + away,
    }
}

/// The net where series 0 has the price that is so far away.
fn net(side: u8, ratio: u8, away: u32) -> i32 {
    i32::from(ratio) * price(side, away) as i32 - 100
}

/// Strategy 0 buys the ratio of series 0 and sells 1 of series 1. Number 1 has 50
/// contracts in series 1 at 100, on the side that is taken together with orders of
/// this side in series 0. Those have numbers 2 and up, given as contracts and how
/// far away.
fn market(side: u8, ratio: u8, orders: &[(u16, u32)]) -> Bench {
    let mut bench = Bench::new();
    bench.value(open(0));
    bench.value(open(1));
    bench.value(strategy(&[(0, BUY, ratio), (1, SELL, 1)]));
    bench.value(leg_order(1, 1, 1 - side, 50, 100));
    for (contracts, away) in orders {
        bench.value(leg_order(2, 0, side, *contracts, price(side, *away)));
    }
    bench
}

/// A market maker's order that takes leg orders of this side up to so far away.
fn taker(side: u8, life: u8, units: u16, ratio: u8, away: u32) -> Event {
    complex(9, 0, 1 - side, MAKER, life, units, net(side, ratio, away))
}

/// The records of one fill by legs at a price of series 0, which takes the
/// contracts from the orders of these numbers.
fn by_legs(side: u8, number: i32, ratio: u8, away: u32, taken: &[(i32, i32)]) -> Records {
    let (own, other) = (i32::from(1 - side), i32::from(side));
    let contracts: i32 = taken.iter().map(|(_, contracts)| contracts).sum();
    let units = contracts / i32::from(ratio);
    let level = price(side, away) as i32;
    let mut records = vec![
        [1, number, 0, own, units, net(side, ratio, away)],
        [2, number, 0, own, contracts, level],
        [2, number, 1, 1 - own, units, 100],
    ];
    for (order, contracts) in taken {
        records.push([2, *order, 0, other, *contracts, level]);
    }
    records.push([2, 1, 1, 1 - other, units, 100]);
    records
}

/// The depth of a side of series 0, as it is kept and as it is looked up.
fn best(bench: &Bench, side: u8) -> Option<(u32, u32)> {
    let kept = bench.book.depth(0, side);
    let kept = kept.map(|best| (best.price, best.contracts));
    assert_eq!(depth(&bench.book.row(), 0, u32::from(side)), Ok(kept));
    kept
}

/// The records, and one that cancels what is left of an immediate order.
fn then_cancelled(mut records: Records, number: i32, side: u8, units: i32) -> Records {
    records.push([3, number, 0, i32::from(1 - side), units, 0]);
    records
}

#[test]
fn the_records_of_a_fill_from_two_orders_of_the_best_price() {
    // By hand in full: 2 and 2 contracts at 302 behind a worse 303; ratio 3, and a
    // buyer at 3 x 303 - 100.
    let mut bench = market(SELL, 3, &[(9, 3), (2, 2), (2, 2)]);
    assert_eq!(best(&bench, SELL), Some((302, 4)));
    assert_eq!(best(&bench, BUY), None);
    assert_eq!(
        bench.records(complex(9, 0, BUY, MAKER, DAY, 4, 809)),
        [
            [1, 5, 0, 0, 1, 806],
            [2, 5, 0, 0, 3, 302],
            [2, 5, 1, 1, 1, 100],
            [2, 3, 0, 1, 2, 302],
            [2, 4, 0, 1, 1, 302],
            [2, 1, 1, 0, 1, 100],
        ]
    );
    // One contract is left at 302, so the legs are not ready for the other units.
    assert_eq!(best(&bench, SELL), Some((302, 1)));
    assert_eq!(bench.book.live(5), 3);
    // When it is cancelled, 303 counts; a cancel gives no pass, a leg order does.
    bench.value(cancel(2, 4));
    assert_eq!(best(&bench, SELL), Some((303, 9)));
    assert_eq!(
        bench.records(leg_order(2, 0, SELL, 1, 304)),
        [
            [1, 5, 0, 0, 3, 809],
            [2, 5, 0, 0, 9, 303],
            [2, 5, 1, 1, 3, 100],
            [2, 2, 0, 1, 9, 303],
            [2, 1, 1, 0, 3, 100],
        ]
    );
    assert_eq!(best(&bench, SELL), Some((304, 1)));
}

#[test]
fn two_orders_of_the_best_price_hold_the_ratio_together() {
    for side in [BUY, SELL] {
        // Neither 2 nor 1 hold a ratio of 3.
        let mut bench = market(side, 3, &[(2, 1), (1, 1)]);
        let records = bench.records(taker(side, IMMEDIATE, 1, 3, 1));
        assert_eq!(records, by_legs(side, 4, 3, 1, &[(2, 2), (3, 1)]));
        assert_eq!(best(&bench, side), None);
        // The same behind a worse price, where the pair has started afresh, and
        // with a worse one between.
        let mut bench = market(side, 3, &[(9, 2), (2, 1), (9, 2), (1, 1)]);
        let records = bench.records(taker(side, IMMEDIATE, 1, 3, 1));
        assert_eq!(records, by_legs(side, 6, 3, 1, &[(3, 2), (5, 1)]));
        assert_eq!(best(&bench, side), Some((price(side, 2), 18)));
        // One contract less.
        let mut bench = market(side, 3, &[(1, 1), (1, 1)]);
        let records = bench.records(taker(side, IMMEDIATE, 1, 3, 1));
        assert_eq!(records, then_cancelled(vec![], 4, side, 1));
    }
}

#[test]
fn a_better_price_that_came_later_with_fewer_contracts_than_the_ratio() {
    for side in [BUY, SELL] {
        // 30 contracts one further away would do; the best price has 2 of 3. The
        // order's limit would meet both.
        let mut bench = market(side, 3, &[(30, 2), (2, 1)]);
        assert_eq!(best(&bench, side), Some((price(side, 1), 2)));
        let records = bench.records(taker(side, IMMEDIATE, 5, 3, 2));
        assert_eq!(records, then_cancelled(vec![], 4, side, 5));
        // The net goes by the better price all the same.
        let book = &bench.book;
        assert_eq!(book.leg_net(0, 1 - side), Some(i64::from(net(side, 3, 1))));
        // With one contract more at the better price it fills there, and then at
        // the worse one.
        bench.value(leg_order(2, 0, side, 1, price(side, 1)));
        let mut expected = by_legs(side, 6, 3, 1, &[(3, 2), (5, 1)]);
        expected.extend(by_legs(side, 6, 3, 2, &[(2, 12)]));
        assert_eq!(bench.records(taker(side, IMMEDIATE, 5, 3, 2)), expected);
        assert_eq!(best(&bench, side), Some((price(side, 2), 18)));
    }
}

#[test]
fn a_worse_price_does_not_add_up_to_the_ratio() {
    for side in [BUY, SELL] {
        // Before the best price, behind it, and on both sides of it.
        for orders in [
            &[(1, 2), (2, 1)][..],
            &[(2, 1), (1, 2)],
            &[(1, 3), (1, 2), (2, 1), (1, 2), (1, 3)],
        ] {
            let mut bench = market(side, 3, orders);
            assert_eq!(best(&bench, side), Some((price(side, 1), 2)));
            let records = bench.records(taker(side, IMMEDIATE, 1, 3, 9));
            let number = 2 + orders.len() as i32;
            assert_eq!(records, then_cancelled(vec![], number, side, 1));
        }
    }
}

#[test]
fn the_units_of_a_fill_are_those_of_the_best_price() {
    for side in [BUY, SELL] {
        // 5 contracts at ratio 2 give 2 units; with a worse price they would give
        // more, and one contract of the best price stays and bars the next.
        for orders in [&[(7, 2), (5, 1)][..], &[(5, 1), (7, 2)]] {
            let mut bench = market(side, 2, orders);
            let at = if orders[0].1 == 1 { 2 } else { 3 };
            let expected = by_legs(side, 4, 2, 1, &[(at, 4)]);
            let records = bench.records(taker(side, IMMEDIATE, 9, 2, 2));
            assert_eq!(records, then_cancelled(expected, 4, side, 7));
            assert_eq!(best(&bench, side), Some((price(side, 1), 1)));
        }
    }
}

#[test]
fn where_the_best_order_is_filled_away_the_next_price_counts() {
    for side in [BUY, SELL] {
        // 4 at the best, then 2 and 2, then 1: three prices in one pass at ratio 2,
        // of which the last is not enough.
        let mut bench = market(side, 2, &[(1, 3), (2, 2), (4, 1), (2, 2)]);
        let mut expected = by_legs(side, 6, 2, 1, &[(4, 4)]);
        expected.extend(by_legs(side, 6, 2, 2, &[(3, 2), (5, 2)]));
        let records = bench.records(taker(side, IMMEDIATE, 9, 2, 3));
        assert_eq!(records, then_cancelled(expected, 6, side, 5));
        assert_eq!(best(&bench, side), Some((price(side, 3), 1)));
        // A free slot is taken again, by a worse price and by a better one.
        bench.value(leg_order(2, 0, side, 8, price(side, 4)));
        assert_eq!(best(&bench, side), Some((price(side, 3), 1)));
        bench.value(leg_order(2, 0, side, 3, price(side, 2)));
        assert_eq!(best(&bench, side), Some((price(side, 2), 3)));
    }
}

#[test]
fn a_day_order_waits_until_the_best_price_holds_the_ratio() {
    for side in [BUY, SELL] {
        let mut bench = market(side, 3, &[(30, 2), (1, 1)]);
        assert_eq!(
            bench.records(taker(side, DAY, 2, 3, 1)),
            Records::new(),
            "it rests"
        );
        // A worse price, an equal one that is not enough, and one that is.
        let add = |contracts: u16, away: u32| leg_order(2, 0, side, contracts, price(side, away));
        assert_eq!(bench.records(add(20, 3)), Records::new());
        assert_eq!(bench.records(add(1, 1)), Records::new());
        assert_eq!(best(&bench, side), Some((price(side, 1), 2)));
        let expected = by_legs(side, 4, 3, 1, &[(3, 1), (6, 1), (7, 1)]);
        assert_eq!(bench.records(add(2, 1)), expected);
        assert_eq!(best(&bench, side), Some((price(side, 1), 1)));
        // A better price starts afresh: the one contract there plays no part.
        let expected = by_legs(side, 4, 3, 0, &[(8, 3)]);
        assert_eq!(bench.records(add(4, 0)), expected);
        assert_eq!(best(&bench, side), Some((price(side, 0), 1)));
        assert_eq!(bench.book.live(4), 0);
    }
}

#[test]
fn a_leg_order_trades_with_each_order_of_the_best_price_and_then_the_next() {
    for side in [BUY, SELL] {
        let mut bench = market(side, 1, &[(3, 2), (2, 1), (5, 2), (4, 1)]);
        let records = bench.records(leg_order(8, 0, 1 - side, 7, price(side, 2)));
        let (own, other) = (i32::from(1 - side), i32::from(side));
        let mut expected = Records::new();
        for (number, contracts, away) in [(3, 2, 1), (5, 4, 1), (2, 1, 2)] {
            let level = price(side, away) as i32;
            expected.push([2, 6, 0, own, contracts, level]);
            expected.push([2, number, 0, other, contracts, level]);
        }
        assert_eq!(records, expected);
        assert_eq!(best(&bench, side), Some((price(side, 2), 7)));
        assert_eq!(best(&bench, 1 - side), None);
    }
}

#[test]
fn an_empty_side_has_no_net_and_starts_no_auction() {
    for side in [BUY, SELL] {
        let mut bench = market(side, 1, &[(5, 1)]);
        bench.value(leg_order(3, 1, side, 9, if side == BUY { 90 } else { 110 }));
        // The net of a customer's own side takes the other side of series 0: it is
        // empty, then it is not, then it is again.
        let customer = complex(9, 0, 1 - side, CUSTOMER, IMMEDIATE, 1, net(side, 1, 1));
        assert_eq!(best(&bench, 1 - side), None);
        assert_eq!(
            bench.records(customer),
            by_legs(side, 4, 1, 1, &[(2, 1)]),
            "a pass at once"
        );
        let other = price(1 - side, 10);
        bench.value(leg_order(3, 0, 1 - side, 1, other));
        assert_eq!(best(&bench, 1 - side), Some((other, 1)));
        let begun = [4, 6, 0, i32::from(1 - side), 1, net(side, 1, 1)];
        assert_eq!(bench.records(customer), [begun]);
        let mut expected = by_legs(side, 6, 1, 1, &[(2, 1)]);
        expected.push([5, 6, 0, 0, 0, 0]);
        assert_eq!(bench.records(clock(5_000)), expected);
        bench.value(cancel(3, 5));
        assert_eq!(best(&bench, 1 - side), None);
        let records = bench.records(customer);
        assert_eq!(records, by_legs(side, 7, 1, 1, &[(2, 1)]));
        assert_eq!(best(&bench, side), Some((price(side, 1), 2)));
    }
}

#[test]
fn the_depths_after_a_list_are_printed_with_the_contracts_of_the_best_price() {
    let mut events = vec![open(0), open(1), open(31)];
    for (series, side, contracts, price) in [
        (0, SELL, 9, 303),
        (0, SELL, 2, 302),
        (0, BUY, 4, 299),
        (0, SELL, 2, 302),
        (0, BUY, 1, 299),
        (0, BUY, 8, 298),
        (1, SELL, 3, 50),
    ] {
        events.push(leg_order(7, series, side, contracts, price));
    }
    events.extend([leg_order(7, 31, BUY, 9_999, 99_999); 7]);
    let lookups = |events: &[Event]| {
        let input: Vec<u8> = (events.iter())
            .flat_map(|event| {
                item(&Input {
                    frame: bytes(event),
                    space: SPACE,
                })
            })
            .collect();
        let mut lines = Vec::new();
        calls(&input, &mut lines).expect("a Vec takes every line");
        let text = String::from_utf8(lines).expect("the lines are ASCII");
        let lines = text.lines().filter(|line| line.starts_with('D'));
        lines.map(str::to_string).collect::<Vec<String>>()
    };
    assert_eq!(
        lookups(&events),
        [
            "D 0 0 299 5",
            "D 0 1 302 4",
            "D 1 1 50 3",
            "D 31 0 99999 69993"
        ]
    );
    // A better price, an equal one, a cancel of the best, the last order of a side.
    events.push(leg_order(8, 0, BUY, 1, 300));
    events.push(leg_order(8, 0, SELL, 5, 302));
    events.push(cancel(7, 7));
    events.push(cancel(7, 8));
    assert_eq!(
        lookups(&events),
        ["D 0 0 300 1", "D 0 1 302 9", "D 31 0 99999 59994"]
    );
    // It trades with 300, then with the two orders at 299.
    events.push(leg_order(8, 0, SELL, 6, 299));
    assert_eq!(
        lookups(&events),
        ["D 0 0 298 8", "D 0 1 302 9", "D 31 0 99999 59994"]
    );
}
