//! One short list of events for each numbered reading of document 01, with the
//! exact records; the rows of "To be proved of the rules" at the end.

#![forbid(unsafe_code)]
#![deny(warnings)]

mod common;

use common::*;
use reckoning::book::{depth, Book, RowEntry, SPACE};
use reckoning::events::{Causes, ORDER};
use reckoning::frames::{bytes, Event, Leg};
use reckoning::nets::normal;
use reckoning::passes::{share, Given};
use reckoning::tape::tape;

// Reading 1.

#[test]
fn unknown_own_net_starts_no_auction() {
    let mut bench = Bench::market();
    bench.value(cancel(1, 1));
    assert_eq!(bench.book.bid_net(0), None);
    let records = bench.records(complex(9, 0, BUY, CUSTOMER, DAY, 2, 205));
    assert_eq!(records, bought_by_legs(5, 2));
}

#[test]
fn known_net_starts_an_auction_though_its_legs_are_not_ready() {
    let mut bench = Bench::market();
    bench.value(strategy(&[(0, BUY, 2), (1, SELL, 1)]));
    bench.value(cancel(1, 1));
    bench.value(leg_order(1, 0, BUY, 1, 300));
    assert_eq!(bench.book.bid_net(1), Some(497));
    let records = bench.records(complex(9, 1, BUY, CUSTOMER, DAY, 2, 498));
    assert_eq!(records, [[4, 6, 1, 0, 2, 498]]);
}

// Reading 2.

#[test]
fn starter_trades_nothing_on_arrival() {
    let mut bench = Bench::market();
    assert_eq!(
        bench.records(complex(8, 0, SELL, MAKER, DAY, 3, 204)),
        Records::new()
    );
    let records = bench.records(complex(9, 0, BUY, CUSTOMER, DAY, 5, 205));
    assert_eq!(records, [[4, 6, 0, 0, 5, 205]]);
    let mut expected = whole((6, BUY), 5, 3, 204);
    expected.extend(bought_by_legs(6, 2));
    expected.push([5, 6, 0, 0, 0, 0]);
    assert_eq!(bench.records(clock(5_000)), expected);
}

// Reading 3.

#[test]
fn cancelled_on_arrival_has_a_number_and_needs_a_slot() {
    let mut bench = Bench::market();
    bench.value(complex(9, 0, BUY, CUSTOMER, DAY, 1, 198));
    let (value, records) = bench.accepted(complex(9, 0, SELL, MAKER, DO_NOT_AUCTION, 4, 198));
    assert_eq!((value, records), (6, vec![[3, 6, 0, 1, 4, 0]]));
    bench.value(shut(1));
    for (life, number) in [(IMMEDIATE, 7), (DO_NOT_AUCTION, 8)] {
        let (value, records) = bench.accepted(complex(9, 0, BUY, MAKER, life, 5, 900));
        assert_eq!(
            (value, records),
            (number, vec![[3, number as i32, 0, 0, 5, 0]])
        );
    }
    for _ in 0..15 {
        bench.value(complex(9, 0, BUY, MAKER, DAY, 1, 100));
    }
    assert_eq!(
        bench.answer(complex(9, 0, BUY, MAKER, IMMEDIATE, 5, 900)),
        12
    );
    assert_eq!(bench.value(leg_order(9, 0, BUY, 1, 1)), 24);
}

#[test]
fn a_do_not_auction_order_starts_no_auction() {
    let mut bench = Bench::market();
    let records = bench.records(complex(9, 0, BUY, CUSTOMER, DO_NOT_AUCTION, 12, 205));
    let mut expected = bought_by_legs(5, 10);
    expected.push([3, 5, 0, 0, 2, 0]);
    assert_eq!(records, expected);
}

// Reading 4.

#[test]
fn response_beside_a_shut_series_is_refused_9() {
    let mut bench = Bench::market();
    bench.value(complex(9, 0, BUY, CUSTOMER, DAY, 1, 198));
    bench.value(shut(0));
    assert_eq!(
        bench.answer(complex(9, 0, SELL, MAKER, RESPONSE, 1, 198)),
        9
    );
}

// Readings 5 and 9.

#[test]
fn entries_from_before_and_during_the_auction_share_one_group() {
    let mut bench = Bench::market();
    bench.value(complex(8, 0, SELL, MAKER, DAY, 7, 204));
    bench.value(complex(9, 0, BUY, CUSTOMER, DAY, 10, 204));
    bench.value(sweep(10, 0, SELL, 7, 204));
    bench.value(complex(11, 0, SELL, MAKER, RESPONSE, 7, 204));
    let mut expected = whole((6, BUY), 5, 4, 204);
    expected.extend(whole((6, BUY), 7, 3, 204));
    expected.extend(whole((6, BUY), 8, 3, 204));
    expected.push([3, 7, 0, 1, 4, 0]);
    expected.push([3, 8, 0, 1, 4, 0]);
    expected.push([5, 6, 0, 0, 0, 0]);
    assert_eq!(bench.records(clock(5_000)), expected);
    assert_eq!(bench.book.live(5), 3);
}

#[test]
fn live_units_are_shared_and_the_groups_go_in_their_order() {
    let mut bench = Bench::market();
    bench.value(complex(5, 0, SELL, BROKER, DAY, 8, 205));
    assert_eq!(
        bench.records(complex(6, 0, BUY, MAKER, IMMEDIATE, 7, 205)),
        whole((6, BUY), 5, 7, 205)
    );
    bench.value(complex(7, 0, BUY, CUSTOMER, IMMEDIATE, 10, 205));
    bench.value(complex(8, 0, SELL, BROKER, RESPONSE, 9, 205));
    // With an unknown offer net the sweep betters it (2026-03).
    bench.value(cancel(2, 2));
    bench.value(sweep(9, 0, SELL, 3, 205));
    bench.value(complex(10, 0, SELL, CUSTOMER, RESPONSE, 2, 205));
    let mut expected = whole((7, BUY), 10, 2, 205);
    expected.extend(whole((7, BUY), 9, 3, 205));
    // 5 units over 1 and 9.
    expected.extend(whole((7, BUY), 5, 1, 205));
    expected.extend(whole((7, BUY), 8, 4, 205));
    expected.push([3, 8, 0, 1, 5, 0]);
    expected.push([5, 7, 0, 0, 0, 0]);
    assert_eq!(bench.records(clock(5_000)), expected);
}

#[test]
fn a_group_not_larger_than_what_remains_is_filled_by_number() {
    let mut bench = Bench::market();
    bench.value(complex(5, 0, SELL, MAKER, DAY, 4, 204));
    bench.value(complex(6, 0, SELL, MAKER, DAY, 2, 204));
    let mut expected = whole((7, BUY), 5, 4, 204);
    expected.extend(whole((7, BUY), 6, 2, 204));
    expected.push([3, 7, 0, 0, 1, 0]);
    let records = bench.records(complex(7, 0, BUY, MAKER, IMMEDIATE, 7, 204));
    assert_eq!(records, expected);
}

#[test]
fn an_arriving_order_without_an_auction_has_a_shared_pass() {
    let mut bench = Bench::market();
    bench.value(complex(5, 0, SELL, MAKER, DAY, 7, 204));
    bench.value(complex(6, 0, SELL, MAKER, DAY, 7, 204));
    let mut expected = whole((7, BUY), 5, 3, 204);
    expected.extend(whole((7, BUY), 6, 2, 204));
    let records = bench.records(complex(7, 0, BUY, MAKER, IMMEDIATE, 5, 204));
    assert_eq!(records, expected);
}

// Reading 6.

#[test]
fn each_turn_chooses_anew() {
    let mut bench = Bench::market();
    bench.value(cancel(2, 2));
    bench.value(leg_order(2, 0, SELL, 2, 305));
    bench.value(leg_order(2, 0, SELL, 9, 308));
    assert_eq!(
        bench.records(complex(8, 0, SELL, MAKER, DAY, 2, 206)),
        Records::new()
    );
    let mut expected = vec![
        [1, 8, 0, 0, 2, 205],
        [2, 8, 0, 0, 2, 305],
        [2, 8, 1, 1, 2, 100],
        [2, 5, 0, 1, 2, 305],
        [2, 3, 1, 0, 2, 100],
    ];
    expected.extend(whole((8, BUY), 7, 2, 206));
    expected.extend([
        [1, 8, 0, 0, 2, 208],
        [2, 8, 0, 0, 2, 308],
        [2, 8, 1, 1, 2, 100],
        [2, 6, 0, 1, 2, 308],
        [2, 3, 1, 0, 2, 100],
    ]);
    let records = bench.records(complex(9, 0, BUY, MAKER, IMMEDIATE, 6, 210));
    assert_eq!(records, expected);
}

#[test]
fn an_equal_leg_net_gives_way_to_the_opposite_limit() {
    let mut bench = Bench::market();
    bench.value(complex(8, 0, SELL, MAKER, DAY, 1, 205));
    let mut expected = whole((6, BUY), 5, 1, 205);
    expected.extend(bought_by_legs(6, 1));
    let records = bench.records(complex(9, 0, BUY, MAKER, IMMEDIATE, 2, 205));
    assert_eq!(records, expected);
}

#[test]
fn legs_that_are_not_ready_give_way_to_a_worse_limit() {
    let mut bench = Bench::market();
    bench.value(strategy(&[(0, BUY, 2), (1, SELL, 1)]));
    bench.value(cancel(2, 2));
    bench.value(leg_order(2, 0, SELL, 1, 305));
    bench.value(complex(8, 1, SELL, MAKER, DAY, 1, 515));
    assert_eq!(bench.book.offer_net(1), Some(510));
    let records = bench.records(complex(9, 1, BUY, MAKER, IMMEDIATE, 2, 520));
    assert_eq!(
        records,
        [
            [1, 7, 1, 0, 1, 515],
            [2, 7, 0, 0, 2, 0],
            [2, 7, 1, 1, 1, 0],
            [1, 6, 1, 1, 1, 515],
            [2, 6, 0, 1, 2, 0],
            [2, 6, 1, 0, 1, 0],
            [3, 7, 0, 0, 1, 0],
        ]
    );
}

// Reading 7.

#[test]
fn ready_looks_only_at_the_prices_that_the_net_takes() {
    let mut bench = Bench::market();
    bench.value(strategy(&[(0, BUY, 2), (1, SELL, 1)]));
    bench.value(cancel(1, 1));
    bench.value(leg_order(1, 0, BUY, 1, 300));
    bench.value(cancel(4, 4));
    let records = bench.records(complex(9, 1, BUY, MAKER, IMMEDIATE, 1, 510));
    assert_eq!(
        records,
        [
            [1, 6, 1, 0, 1, 510],
            [2, 6, 0, 0, 2, 305],
            [2, 6, 1, 1, 1, 100],
            [2, 2, 0, 1, 2, 305],
            [2, 3, 1, 0, 1, 100],
        ]
    );
}

// Reading 8.

#[test]
fn numbered_pass_takes_the_best_limit_before_a_lower_number() {
    let mut bench = Bench::market();
    bench.value(complex(5, 0, BUY, CUSTOMER, DAY, 1, 198));
    bench.value(complex(6, 0, BUY, MAKER, RESPONSE, 5, 200));
    bench.value(sweep(7, 0, SELL, 2, 200));
    bench.value(sweep(8, 0, SELL, 2, 199));
    let mut expected = whole((6, BUY), 8, 2, 199);
    expected.extend(whole((6, BUY), 7, 2, 200));
    expected.push([3, 6, 0, 0, 1, 0]);
    expected.push([5, 5, 0, 0, 0, 0]);
    assert_eq!(bench.records(clock(5_000)), expected);
    assert_eq!(bench.book.live(5), 1);
}

#[test]
fn numbered_pass_knows_no_groups() {
    let mut bench = Bench::market();
    bench.value(complex(5, 0, BUY, CUSTOMER, DAY, 1, 198));
    bench.value(complex(6, 0, BUY, MAKER, RESPONSE, 5, 200));
    bench.value(complex(7, 0, SELL, BROKER, RESPONSE, 2, 200));
    bench.value(sweep(8, 0, SELL, 2, 200));
    bench.value(complex(9, 0, SELL, CUSTOMER, DAY, 2, 200));
    let mut expected = whole((6, BUY), 7, 2, 200);
    expected.extend(whole((6, BUY), 8, 2, 200));
    expected.extend(whole((6, BUY), 9, 1, 200));
    expected.push([5, 5, 0, 0, 0, 0]);
    assert_eq!(bench.records(clock(5_000)), expected);
    assert_eq!(bench.book.live(9), 1);
}

// Reading 10.

#[test]
fn legs_only_pass_is_bound_by_the_own_limit() {
    let mut bench = Bench::market();
    bench.value(complex(8, 0, BUY, MAKER, DAY, 3, 203));
    bench.value(complex(9, 0, SELL, MAKER, DAY, 3, 204));
    assert_eq!(bench.records(leg_order(7, 0, SELL, 1, 304)), Records::new());
    let records = bench.records(leg_order(7, 0, SELL, 1, 303));
    assert_eq!(
        records,
        [
            [1, 5, 0, 0, 1, 203],
            [2, 5, 0, 0, 1, 303],
            [2, 5, 1, 1, 1, 100],
            [2, 8, 0, 1, 1, 303],
            [2, 3, 1, 0, 1, 100],
        ]
    );
    assert_eq!(bench.book.live(5), 2);
}

// Reading 11.

#[test]
fn leg_fill_has_one_record_per_leg_then_the_leg_orders_by_leg() {
    let mut bench = Bench::market();
    bench.value(cancel(2, 2));
    bench.value(leg_order(6, 1, BUY, 4, 100));
    bench.value(leg_order(7, 0, SELL, 2, 305));
    bench.value(leg_order(8, 0, SELL, 12, 305));
    let records = bench.records(complex(9, 0, BUY, MAKER, IMMEDIATE, 12, 205));
    assert_eq!(
        records,
        [
            [1, 8, 0, 0, 12, 205],
            [2, 8, 0, 0, 12, 305],
            [2, 8, 1, 1, 12, 100],
            [2, 6, 0, 1, 2, 305],
            [2, 7, 0, 1, 10, 305],
            [2, 3, 1, 0, 10, 100],
            [2, 5, 1, 0, 2, 100],
        ]
    );
}

// Reading 12.

#[test]
fn leg_order_trades_incoming_then_resting_trade_by_trade() {
    let mut bench = Bench::market();
    bench.value(leg_order(5, 0, BUY, 3, 300));
    bench.value(leg_order(6, 0, BUY, 2, 301));
    let records = bench.records(leg_order(7, 0, SELL, 14, 300));
    assert_eq!(
        records,
        [
            [2, 7, 0, 1, 2, 301],
            [2, 6, 0, 0, 2, 301],
            [2, 7, 0, 1, 10, 300],
            [2, 1, 0, 0, 10, 300],
            [2, 7, 0, 1, 2, 300],
            [2, 5, 0, 0, 2, 300],
        ]
    );
}

// Reading 13.

#[test]
fn record_5_has_zeros_and_record_3_its_own_side() {
    let mut bench = Bench::market();
    let records = bench.records(complex(5, 0, SELL, CUSTOMER, IMMEDIATE, 4, 204));
    assert_eq!(records, [[4, 5, 0, 1, 4, 204]]);
    assert_eq!(
        bench.records(clock(5_000)),
        [[3, 5, 0, 1, 4, 0], [5, 5, 0, 0, 0, 0]]
    );
}

// Reading 14.

#[test]
fn day_orders_of_both_sides_pass_by_strategy_then_number() {
    let mut bench = Bench::market();
    bench.value(strategy(&[(0, SELL, 1), (1, BUY, 1)]));
    bench.value(cancel(1, 1));
    bench.value(complex(5, 1, BUY, MAKER, DAY, 2, -197));
    bench.value(complex(6, 0, SELL, MAKER, DAY, 2, 197));
    bench.value(complex(7, 0, SELL, MAKER, DAY, 2, 197));
    let records = bench.records(leg_order(8, 0, BUY, 5, 300));
    let sold = |number: i32| {
        vec![
            [1, number, 0, 1, 2, 197],
            [2, number, 0, 1, 2, 300],
            [2, number, 1, 0, 2, 103],
            [2, 8, 0, 0, 2, 300],
            [2, 4, 1, 1, 2, 103],
        ]
    };
    let mut expected = sold(6);
    expected.extend(sold(7));
    expected.extend([
        [1, 5, 1, 0, 1, -197],
        [2, 5, 0, 1, 1, 300],
        [2, 5, 1, 0, 1, 103],
        [2, 8, 0, 0, 1, 300],
        [2, 4, 1, 1, 1, 103],
    ]);
    assert_eq!(records, expected);
}

#[test]
fn a_leg_order_that_trades_in_full_gives_no_passes() {
    let mut bench = Bench::market();
    bench.value(complex(5, 0, BUY, MAKER, DAY, 2, 204));
    bench.value(complex(6, 0, BUY, CUSTOMER, DAY, 1, 198));
    // The auction holds back the pass, and its end gives none (reading 15).
    assert_eq!(bench.records(leg_order(7, 0, SELL, 5, 303)), Records::new());
    assert_eq!(bench.records(clock(5_000)), [[5, 6, 0, 0, 0, 0]]);
    assert_eq!(
        bench.records(leg_order(8, 0, BUY, 1, 303)),
        [[2, 8, 0, 0, 1, 303], [2, 7, 0, 1, 1, 303]]
    );
    assert_eq!(
        bench.records(leg_order(9, 0, BUY, 1, 301)),
        [
            [1, 5, 0, 0, 2, 203],
            [2, 5, 0, 0, 2, 303],
            [2, 5, 1, 1, 2, 100],
            [2, 7, 0, 1, 2, 303],
            [2, 3, 1, 0, 2, 100],
        ]
    );
}

#[test]
fn a_strategy_with_a_shut_series_gets_no_legs_only_pass() {
    let mut bench = Bench::two_strategies();
    bench.value(shut(1));
    bench.value(complex(7, 0, BUY, MAKER, DAY, 2, 209));
    bench.value(complex(8, 1, BUY, MAKER, DAY, 1, 254));
    assert_eq!(
        bench.records(leg_order(9, 0, SELL, 3, 304)),
        [
            [1, 8, 1, 0, 1, 254],
            [2, 8, 0, 0, 1, 304],
            [2, 8, 2, 1, 1, 50],
            [2, 9, 0, 1, 1, 304],
            [2, 5, 2, 0, 1, 50],
        ]
    );
    assert_eq!(bench.book.live(7), 2);
}

// Reading 15.

#[test]
fn a_cancel_gives_no_passes() {
    let mut bench = Bench::new();
    bench.value(open(0));
    bench.value(open(1));
    bench.value(strategy(&[(0, BUY, 2), (1, SELL, 1)]));
    bench.value(leg_order(1, 0, SELL, 1, 300));
    bench.value(leg_order(2, 0, SELL, 10, 305));
    bench.value(leg_order(3, 1, BUY, 10, 100));
    assert_eq!(
        bench.records(complex(4, 0, BUY, MAKER, DAY, 1, 510)),
        Records::new()
    );
    assert_eq!(bench.records(cancel(1, 1)), [[3, 1, 0, 1, 1, 0]]);
    assert_eq!(bench.book.live(4), 1);
    assert_eq!(
        bench.records(leg_order(5, 0, BUY, 1, 1)),
        [
            [1, 4, 0, 0, 1, 510],
            [2, 4, 0, 0, 2, 305],
            [2, 4, 1, 1, 1, 100],
            [2, 2, 0, 1, 2, 305],
            [2, 3, 1, 0, 1, 100],
        ]
    );
}

// Reading 16.

#[test]
fn all_strategies_match_at_the_opening_before_any_legs() {
    let mut bench = Bench::two_strategies();
    bench.value(shut(0));
    bench.value(complex(7, 0, BUY, CUSTOMER, DAY, 3, 210));
    bench.value(complex(8, 0, SELL, CUSTOMER, DAY, 2, 200));
    bench.value(complex(9, 1, SELL, CUSTOMER, DAY, 2, 240));
    bench.value(complex(10, 1, BUY, CUSTOMER, DAY, 3, 250));
    bench.value(complex(11, 1, SELL, MAKER, DAY, 1, 240));
    let mut expected = whole((7, BUY), 8, 2, 210);
    expected.extend(whole_on(1, (0, 2), (9, SELL), 10, 2, 240));
    expected.extend(whole_on(1, (0, 2), (10, BUY), 11, 1, 250));
    expected.extend(bought_by_legs(7, 1));
    assert_eq!(bench.records(open(0)), expected);
    assert_eq!(bench.records(open(0)), Records::new());
}

// Reading 17.

#[test]
fn shutting_leaves_leg_orders_alone() {
    let mut bench = Bench::market();
    assert_eq!(bench.records(shut(0)), Records::new());
    assert_eq!(depth(&bench.book.row(), 0, 1), Ok(Some((305, 10))));
    assert_eq!(bench.book.offer_net(0), Some(205));
    assert_eq!(bench.answer(leg_order(9, 0, BUY, 1, 305)), 6);
    assert_eq!(bench.records(cancel(2, 2)), [[3, 2, 0, 1, 10, 0]]);
    assert_eq!(bench.book.offer_net(0), None);
}

// Reading 18.

#[test]
fn an_opposite_sweep_bars_the_legs_even_when_withdrawn() {
    let mut bench = Bench::market();
    bench.value(complex(5, 0, BUY, CUSTOMER, DAY, 2, 205));
    // Where the offer net is unknown a sale at any price betters it (2026-03).
    bench.value(cancel(2, 2));
    bench.value(sweep(6, 0, SELL, 1, 9_000_000));
    bench.value(leg_order(2, 0, SELL, 10, 305));
    let (value, records) = bench.accepted(sweep(6, 0, SELL, 0, 9_000_000));
    assert_eq!((value, records), (0, vec![[3, 6, 0, 1, 1, 0]]));
    assert_eq!(bench.records(clock(5_000)), [[5, 5, 0, 0, 0, 0]]);
    assert_eq!(bench.book.live(5), 2);
}

#[test]
fn an_opposite_waiting_order_bars_the_legs_even_when_cancelled() {
    let mut bench = Bench::market();
    bench.value(complex(5, 0, BUY, CUSTOMER, DAY, 2, 205));
    bench.value(complex(6, 0, SELL, BROKER, DAY, 1, 9_000_000));
    bench.value(cancel(6, 6));
    assert_eq!(bench.records(clock(5_000)), [[5, 5, 0, 0, 0, 0]]);
}

#[test]
fn entries_of_the_same_side_and_do_not_auction_bar_nothing() {
    let mut bench = Bench::market();
    bench.value(complex(5, 0, BUY, CUSTOMER, DAY, 2, 205));
    bench.value(complex(6, 0, SELL, MAKER, DO_NOT_AUCTION, 1, 300));
    bench.value(sweep(7, 0, BUY, 1, 198));
    bench.value(complex(8, 0, BUY, MAKER, DAY, 1, 190));
    let mut expected = bought_by_legs(5, 2);
    expected.push([3, 7, 0, 0, 1, 0]);
    expected.push([5, 5, 0, 0, 0, 0]);
    assert_eq!(bench.records(clock(5_000)), expected);
}

#[test]
fn an_opposite_order_from_before_the_auction_bars_nothing() {
    let mut bench = Bench::market();
    bench.value(complex(6, 0, SELL, MAKER, DAY, 1, 300));
    bench.value(complex(5, 0, BUY, CUSTOMER, DAY, 2, 205));
    let mut expected = bought_by_legs(6, 2);
    expected.push([5, 6, 0, 0, 0, 0]);
    assert_eq!(bench.records(clock(5_000)), expected);
}

// Reading 19.

#[test]
fn waiting_orders_use_legs_and_sweeps_never_do() {
    let mut bench = Bench::market();
    bench.value(complex(5, 0, BUY, CUSTOMER, DAY, 1, 198));
    bench.value(sweep(6, 0, BUY, 2, 205));
    bench.value(complex(7, 0, BUY, MAKER, RESPONSE, 2, 205));
    bench.value(complex(8, 0, BUY, BROKER, DAY, 1, 205));
    // It bars the starter, and only the starter. It comes where the offer net is
    // unknown (2026-03), before the leg order 10.
    bench.value(cancel(2, 2));
    bench.value(sweep(9, 0, SELL, 1, 300));
    bench.value(leg_order(2, 0, SELL, 10, 305));
    let mut expected = bought_by_legs(7, 2);
    expected.extend(bought_by_legs(8, 1));
    for record in expected.iter_mut().filter(|record| record[1] == 2) {
        record[1] = 10;
    }
    expected.push([3, 6, 0, 0, 2, 0]);
    expected.push([3, 9, 0, 1, 1, 0]);
    expected.push([5, 5, 0, 0, 0, 0]);
    assert_eq!(bench.records(clock(5_000)), expected);
}

// Reading 20.

#[test]
fn an_immediate_starter_is_cancelled_with_the_others_by_number() {
    let mut bench = Bench::market();
    bench.value(complex(5, 0, BUY, BROKER, IMMEDIATE, 3, 198));
    bench.value(complex(6, 0, BUY, MAKER, RESPONSE, 2, 199));
    bench.value(sweep(7, 0, SELL, 3, 199));
    bench.value(complex(8, 0, SELL, MAKER, IMMEDIATE, 4, 204));
    let mut expected = whole((6, BUY), 7, 2, 199);
    expected.push([3, 5, 0, 0, 3, 0]);
    expected.push([3, 7, 0, 1, 1, 0]);
    expected.push([3, 8, 0, 1, 4, 0]);
    expected.push([5, 5, 0, 0, 0, 0]);
    assert_eq!(bench.records(clock(5_000)), expected);
}

#[test]
fn the_starter_has_one_pass() {
    // The legs become ready when the next strategy's auction ends, too late
    // for the first strategy's starter.
    let mut bench = Bench::market();
    bench.value(strategy(&[(0, BUY, 2), (1, SELL, 1)]));
    bench.value(strategy(&[(0, BUY, 1), (1, BUY, 1)]));
    bench.value(cancel(2, 2));
    bench.value(leg_order(2, 0, SELL, 1, 304));
    bench.value(leg_order(2, 0, SELL, 10, 305));
    bench.value(complex(7, 1, BUY, CUSTOMER, DAY, 1, 510));
    bench.value(complex(8, 2, BUY, CUSTOMER, DAY, 1, 407));
    // Strategy 1 ends first and finds one contract at 304; strategy 2 then
    // takes that contract.
    assert_eq!(
        bench.records(clock(5_000)),
        [
            [5, 7, 1, 0, 0, 0],
            [1, 8, 2, 0, 1, 407],
            [2, 8, 0, 0, 1, 304],
            [2, 8, 1, 0, 1, 103],
            [2, 5, 0, 1, 1, 304],
            [2, 4, 1, 1, 1, 103],
            [5, 8, 2, 0, 0, 0],
        ]
    );
    assert_eq!(bench.book.live(7), 1);
    assert_eq!(bench.book.offer_net(1), Some(510));
}

// Reading 21.

#[test]
fn each_auction_is_finished_before_the_next() {
    let mut bench = Bench::two_strategies();
    bench.value(complex(7, 1, BUY, CUSTOMER, DAY, 1, 255));
    bench.value(complex(8, 0, BUY, CUSTOMER, DAY, 1, 205));
    bench.value(sweep(9, 1, BUY, 1, 248));
    bench.value(sweep(10, 0, BUY, 1, 198));
    let mut expected = bought_by_legs(8, 1);
    expected.push([3, 10, 0, 0, 1, 0]);
    expected.push([5, 8, 0, 0, 0, 0]);
    expected.extend([
        [1, 7, 1, 0, 1, 255],
        [2, 7, 0, 0, 1, 305],
        [2, 7, 2, 1, 1, 50],
        [2, 2, 0, 1, 1, 305],
        [2, 5, 2, 0, 1, 50],
    ]);
    expected.push([3, 9, 0, 0, 1, 0]);
    expected.push([5, 7, 1, 0, 0, 0]);
    assert_eq!(bench.records(clock(5_000)), expected);
}

#[test]
fn a_shut_series_ends_its_auctions_one_by_one_without_fills() {
    let mut bench = Bench::two_strategies();
    bench.value(complex(7, 1, BUY, CUSTOMER, IMMEDIATE, 2, 255));
    bench.value(complex(8, 0, BUY, CUSTOMER, DAY, 1, 205));
    bench.value(sweep(9, 1, SELL, 1, 190));
    bench.value(sweep(10, 0, SELL, 1, 190));
    assert_eq!(
        bench.records(shut(0)),
        [
            [3, 10, 0, 1, 1, 0],
            [5, 8, 0, 0, 0, 0],
            [3, 7, 0, 0, 2, 0],
            [3, 9, 0, 1, 1, 0],
            [5, 7, 1, 0, 0, 0],
        ]
    );
    assert_eq!(bench.records(shut(0)), Records::new());
    assert_eq!(bench.book.live(8), 1);
}

#[test]
fn day_end_writes_ended_auctions_by_strategy_then_cancels_by_number() {
    let mut bench = Bench::two_strategies();
    bench.value(complex(7, 1, SELL, CUSTOMER, DAY, 2, 254));
    bench.value(complex(8, 0, BUY, CUSTOMER, IMMEDIATE, 1, 205));
    bench.value(sweep(9, 1, BUY, 3, 250));
    let mut expected: Records = vec![[5, 8, 0, 0, 0, 0], [5, 7, 1, 0, 0, 0]];
    for number in 1..=6 {
        expected.push([3, number, 0, 1 - number % 2, 10, 0]);
    }
    expected.extend([[3, 7, 0, 1, 2, 0], [3, 8, 0, 0, 1, 0], [3, 9, 0, 0, 3, 0]]);
    assert_eq!(bench.records(Event::DayEnd { timer: 1 }), expected);
    assert_eq!(bench.book, Book::fresh(1));
    assert_eq!(bench.answer(complex(7, 0, SELL, MAKER, DAY, 2, 254)), 4);
}

// Reading 22.

#[test]
fn the_rest_of_a_day_order_rests_and_starts_no_auction() {
    let mut bench = Bench::market();
    bench.value(complex(5, 0, BUY, CUSTOMER, IMMEDIATE, 1, 198));
    bench.value(complex(6, 0, BUY, CUSTOMER, DAY, 4, 204));
    assert_eq!(
        bench.records(clock(5_000)),
        [[3, 5, 0, 0, 1, 0], [5, 5, 0, 0, 0, 0]]
    );
    assert_eq!(bench.book.live(6), 4);
    assert_eq!(bench.answer(sweep(7, 0, SELL, 1, 204)), 9);
    assert_eq!(bench.records(clock(10_000)), Records::new());
}

#[test]
fn a_resting_order_from_before_the_auction_gets_no_pass_at_its_end() {
    let mut bench = Bench::market();
    bench.value(complex(5, 0, SELL, MAKER, DAY, 4, 204));
    bench.value(complex(6, 0, SELL, CUSTOMER, DAY, 1, 203));
    // The net that 5 would take comes to stand during the auction.
    assert_eq!(bench.records(leg_order(7, 1, SELL, 5, 101)), Records::new());
    assert_eq!(bench.records(leg_order(8, 0, BUY, 4, 304)), Records::new());
    assert_eq!(bench.book.bid_net(0), Some(203));
    bench.value(complex(9, 0, SELL, BROKER, DAY, 1, 203));
    let sold = |number: i32| {
        vec![
            [1, number, 0, 1, 1, 203],
            [2, number, 0, 1, 1, 304],
            [2, number, 1, 0, 1, 101],
            [2, 8, 0, 0, 1, 304],
            [2, 7, 1, 1, 1, 101],
        ]
    };
    let mut expected = sold(6);
    expected.extend(sold(9));
    expected.push([5, 6, 0, 0, 0, 0]);
    assert_eq!(bench.records(clock(5_000)), expected);
    assert_eq!(bench.book.live(5), 4);
}

// Reading 23.

#[test]
fn member_is_1_to_65535_wherever_it_stands() {
    let mut bench = Bench::market();
    for (member, order, sweep_answer, cancelled) in [(0, 3, 3, 3), (1, 0, 9, 7), (65_535, 0, 9, 7)]
    {
        let complex_event = complex(member, 0, BUY, MAKER, DAY, 1, 1);
        assert_eq!(bench.answer(complex_event), order);
        assert_eq!(bench.answer(sweep(member, 0, BUY, 1, 1)), sweep_answer);
        assert_eq!(bench.answer(leg_order(member, 0, BUY, 1, 1)), order);
        assert_eq!(bench.answer(cancel(member, 99)), cancelled);
    }
}

// Reading 24, with requests 2026-01 and 2026-03: the first in the order in which
// they are checked. Among the causes that one event can have, the first is the
// smallest, but for a sweep's 15 (tests/sweeps.rs).

#[test]
fn the_smallest_refusal_is_given() {
    let mut bench = Bench::market();
    let frame = bytes(&complex(9, 9, BUY, MAKER, RESPONSE, 1, 1));
    assert_eq!(bench.book.step(&frame, SPACE - 1).answer, 1);
    assert_eq!(bench.book.step(&frame[1..], SPACE - 1).answer, 1);
    assert_eq!(bench.book.step(&frame, SPACE).answer, 4);
    assert_eq!(bench.answer(sweep(9, 9, BUY, 0, 1)), 4, "and 9 and 10");
    assert_eq!(bench.answer(sweep(9, 0, BUY, 0, 1)), 9, "and 10");
    // 14 can stand beside 1 alone: a frame refused 2 or 3 has no prices.
    let crossed = bytes(&national(3, 6, 5));
    assert_eq!(bench.book.step(&crossed, SPACE - 1).answer, 1);
    assert_eq!(bench.book.step(&crossed, SPACE).answer, 14);
    assert_eq!(bench.book.step(&crossed[1..], SPACE).answer, 2);
    assert_eq!(bench.answer(national(32, 6, 5)), 3);
    bench.value(complex(9, 0, BUY, CUSTOMER, DAY, 1, 198));
    assert_eq!(bench.answer(cancel(8, 5)), 7, "another member's starter");
    assert_eq!(bench.answer(cancel(9, 5)), 8);
    bench.value(clock(5_000));
    for _ in 0..15 {
        bench.value(complex(9, 0, BUY, MAKER, DAY, 1, 100));
    }
    assert_eq!(bench.answer(complex(9, 0, BUY, MAKER, DAY, 1, 100)), 12);
    assert_eq!(bench.answer(complex(9, 0, BUY, MAKER, RESPONSE, 1, 100)), 9);
    for _ in 0..28 {
        bench.value(leg_order(9, 0, BUY, 1, 1));
    }
    assert_eq!(bench.answer(leg_order(9, 0, BUY, 1, 1)), 12);
    assert_eq!(bench.answer(leg_order(9, 2, BUY, 1, 1)), 6);
}

#[test]
fn fourteen_is_checked_after_3_and_fifteen_between_10_and_11() {
    // No kind has 14 and one of 4 to 13, or 15 and 11, so this is asked of the set of
    // causes and not of a book.
    let place = |cause: u32| match cause {
        14 => (3, 1),
        15 => (10, 1),
        _ => (cause, 0),
    };
    assert_eq!(Causes::default().first(), None);
    let mut all = Causes::default();
    for first in 1..=15 {
        all.add(first);
        let mut one = Causes::default();
        one.add(first);
        assert_eq!(one.first(), Some(first));
        for second in (1..=15).filter(|second| *second != first) {
            let mut both = one;
            both.add(second);
            let answered = if place(first) < place(second) {
                first
            } else {
                second
            };
            assert_eq!(both.first(), Some(answered), "{first} and {second}");
        }
    }
    assert_eq!(all.first(), Some(1));
    assert_eq!(ORDER, [1, 2, 3, 14, 4, 5, 6, 7, 8, 9, 10, 15, 11, 12, 13]);
}

#[test]
fn series_twice_is_5_in_a_full_table() {
    let mut bench = Bench::new();
    for series in 1..=16 {
        bench.value(strategy(&[(0, BUY, 1), (series, BUY, 1)]));
    }
    assert_eq!(bench.answer(strategy(&[(0, BUY, 1), (17, BUY, 1)])), 12);
    assert_eq!(bench.answer(strategy(&[(0, BUY, 1), (0, BUY, 1)])), 5);
}

// Reading 25.

#[test]
fn a_sweep_that_replaces_one_takes_its_slot() {
    let mut bench = Bench::market();
    bench.value(complex(5, 0, BUY, CUSTOMER, DAY, 1, 198));
    for member in 1..=16 {
        bench.value(sweep(member, 0, SELL, 1, 204));
    }
    assert_eq!(bench.answer(sweep(17, 0, SELL, 1, 204)), 12);
    assert_eq!(bench.answer(sweep(17, 0, SELL, 0, 204)), 10);
    assert_eq!(bench.answer(sweep(1, 0, SELL, 1, 203)), 12);
    assert_eq!(bench.answer(sweep(1, 0, BUY, 1, 204)), 12);
    let (value, records) = bench.accepted(sweep(3, 0, SELL, 2, 204));
    assert_eq!((value, records), (22, vec![[3, 8, 0, 1, 1, 0]]));
    assert_eq!(
        bench.answer(cancel(3, 22)),
        7,
        "a sweep is not cancelled by 5"
    );
    let (value, records) = bench.accepted(sweep(3, 0, SELL, 0, 204));
    assert_eq!((value, records), (0, vec![[3, 22, 0, 1, 2, 0]]));
    assert_eq!(bench.value(sweep(17, 0, SELL, 1, 204)), 23);
}

#[test]
fn an_equal_strategy_needs_no_slot() {
    let mut bench = Bench::new();
    for series in 1..=16 {
        bench.value(strategy(&[(0, BUY, 1), (series, BUY, 1)]));
    }
    assert_eq!(bench.value(strategy(&[(9, BUY, 2), (0, BUY, 2)])), 8);
}

#[test]
fn when_all_numbers_are_given_a_sweep_of_0_units_is_accepted() {
    let mut bench = Bench::market();
    for _ in 5..=99_997 {
        bench.value(complex(5, 0, BUY, MAKER, DO_NOT_AUCTION, 1, 1));
    }
    bench.value(complex(5, 0, BUY, CUSTOMER, DAY, 1, 198));
    assert_eq!(bench.value(sweep(6, 0, SELL, 1, 204)), 99_999);
    assert_eq!(bench.value(sweep(7, 0, SELL, 1, 204)), 100_000);
    assert_eq!(bench.answer(sweep(6, 0, SELL, 1, 204)), 13);
    assert_eq!(bench.answer(sweep(8, 0, SELL, 1, 204)), 13);
    assert_eq!(bench.answer(complex(8, 0, SELL, MAKER, DAY, 1, 300)), 13);
    assert_eq!(bench.answer(leg_order(8, 0, SELL, 1, 300)), 13);
    assert_eq!(bench.answer(leg_order(8, 9, SELL, 1, 300)), 6);
    assert_eq!(bench.answer(sweep(8, 0, SELL, 0, 204)), 10);
    let (value, records) = bench.accepted(sweep(6, 0, SELL, 0, 204));
    assert_eq!((value, records), (0, vec![[3, 99_999, 0, 1, 1, 0]]));
    assert_eq!(
        bench.records(clock(5_000)),
        [[3, 100_000, 0, 1, 1, 0], [5, 99_998, 0, 0, 0, 0]]
    );
    let day_end = bench.records(Event::DayEnd { timer: 7 });
    let expected: Records = vec![
        [3, 1, 0, 0, 10, 0],
        [3, 2, 0, 1, 10, 0],
        [3, 3, 0, 0, 10, 0],
        [3, 4, 0, 1, 10, 0],
        [3, 99_998, 0, 0, 1, 0],
    ];
    assert_eq!(day_end, expected);
    assert_eq!(bench.book, Book::fresh(7));
}

// Reading 26.

#[test]
fn an_auction_ends_when_the_timer_has_run_from_its_begin() {
    let mut bench = Bench::market();
    bench.value(clock(100));
    assert_eq!(bench.answer(clock(99)), 11);
    assert_eq!(bench.answer(clock(100)), 0);
    bench.value(complex(5, 0, BUY, CUSTOMER, DAY, 1, 198));
    assert_eq!(bench.records(clock(5_099)), Records::new());
    assert_eq!(bench.records(clock(5_100)), [[5, 5, 0, 0, 0, 0]]);
}

// Reading 27.

#[test]
fn depth_looks_no_further_at_an_empty_entry() {
    let entry = |series: u8, side: u8, contracts: u16, price: u32| RowEntry {
        series,
        side,
        contracts,
        price,
    };
    let empty = entry(255, 9, 0, 0);
    let row = [
        empty,
        entry(3, 1, 4, 20),
        entry(3, 1, 5, 20),
        entry(3, 1, 9, 21),
    ];
    assert_eq!(depth(&row, 3, 1), Ok(Some((20, 9))));
    assert_eq!(depth(&row, 3, 0), Ok(None));
    assert_eq!(depth(&row, 32, 0), Err(3));
    assert_eq!(depth(&row, 3, 2), Err(3));
    assert_eq!(depth(&[empty; 32], 3, 1), Ok(None));
    assert_eq!(depth(&[empty; 33], 3, 1), Err(3));
    let bids = [
        entry(3, 0, 4, 20),
        entry(3, 0, 5, 22),
        entry(31, 0, 1, 99_999),
    ];
    assert_eq!(depth(&bids, 3, 0), Ok(Some((22, 5))));
    for wrong in [
        entry(32, 0, 1, 1),
        entry(0, 2, 1, 1),
        entry(0, 0, 10_000, 1),
        entry(0, 0, 1, 0),
        entry(0, 0, 1, 100_000),
    ] {
        assert_eq!(depth(&[wrong], 3, 1), Err(3));
    }
}

#[test]
fn shut_legs_and_live_quantity() {
    let mut bench = Bench::market();
    bench.value(strategy(&[(31, BUY, 1), (1, SELL, 1), (7, BUY, 1)]));
    assert_eq!(bench.book.shut_legs(0), Ok((0, 32)));
    assert_eq!(bench.book.shut_legs(1), Ok((2, 7)));
    bench.value(shut(1));
    assert_eq!(bench.book.shut_legs(1), Ok((3, 1)));
    for undefined in [2, 15, 16, 255, u32::MAX] {
        assert_eq!(bench.book.shut_legs(undefined), Err(4));
    }
    assert_eq!(bench.book.live(4), 10);
    for never in [0, 5, 100_000, 100_001, u32::MAX] {
        assert_eq!(bench.book.live(never), 0);
    }
}

// Reading 28.

#[test]
fn the_tape_stops_at_a_length_past_its_end() {
    for (tail, lines) in [
        (&[][..], "E 0 0 0 0\n"),
        (&[6][..], "E 0 0 0 0\nE 1 2 0 0\n"),
        (&[3, 0, 0, 0, 0, 0][..], "E 0 0 0 0\nE 1 2 0 0\n"),
        (&[7, 0, 6, 0, 0, 1][..], "E 0 0 0 0\nE 1 2 0 0\n"),
        (&[4, 0, 6, 0][..], "E 0 0 0 0\nE 1 2 0 0\n"),
        (
            &[4, 0, 6, 0, 6, 0, 6, 0, 0, 1][..],
            "E 0 0 0 0\nE 1 2 0 0\nE 2 0 0 0\n",
        ),
    ] {
        let mut input = vec![6, 0, 6, 0, 0, 1];
        input.extend(tail);
        let mut output = Vec::new();
        tape(&input, &mut output).expect("a Vec takes every line");
        assert_eq!(String::from_utf8(output).expect("ASCII"), lines);
    }
}

// Reading 29.

#[test]
fn strategies_are_equal_after_sorting_and_division_and_a_mirror_is_another() {
    let mut bench = Bench::new();
    assert_eq!(bench.value(strategy(&[(4, SELL, 4), (2, BUY, 2)])), 0);
    assert_eq!(bench.value(strategy(&[(2, BUY, 1), (4, SELL, 2)])), 0);
    assert_eq!(bench.value(strategy(&[(2, BUY, 6), (4, SELL, 12)])), 0);
    assert_eq!(bench.value(strategy(&[(2, SELL, 1), (4, BUY, 2)])), 1);
    assert_eq!(bench.value(strategy(&[(2, BUY, 2), (4, SELL, 1)])), 2);
    let longer = [(2, BUY, 1), (4, SELL, 2), (5, BUY, 1)];
    assert_eq!(bench.value(strategy(&longer)), 3);
}

// "To be proved of the rules".

#[test]
fn ratios_are_divided_and_held_to_three_times() {
    let legs = |first: u8, second: u8| {
        let leg = |series: u8, ratio: u8| Leg {
            series,
            side: 0,
            ratio,
        };
        [leg(0, first), leg(1, second)]
    };
    assert_eq!(normal(&legs(2, 4)).legs[..], legs(1, 2));
    let mut bench = Bench::new();
    assert_eq!(bench.answer(strategy(&[(0, BUY, 2), (1, BUY, 6)])), 0);
    assert_eq!(bench.answer(strategy(&[(0, BUY, 1), (1, BUY, 4)])), 5);
}

#[test]
fn sharing_as_in_the_paper() {
    let shared = |remaining: u32, sizes: &[u32]| {
        let size = |units: &u32| Given {
            number: 1,
            units: *units,
        };
        let mut group: Vec<Given> = sizes.iter().map(size).collect();
        share(remaining, &mut group);
        group.iter().map(|given| given.units).collect::<Vec<u32>>()
    };
    assert_eq!(shared(10, &[7, 7, 7]), [4, 3, 3]);
    assert_eq!(shared(5, &[1, 9]), [1, 4]);
    assert_eq!(shared(0, &[3, 4]), [0, 0]);
    assert_eq!(shared(7, &[3, 4]), [3, 4]);
    assert_eq!(shared(8, &[3, 4]), [3, 4]);
}

#[test]
fn nets_and_the_start_of_an_auction_as_in_the_paper() {
    for (limit, begins) in [(94, false), (95, true)] {
        let mut bench = Bench::new();
        bench.value(open(0));
        bench.value(open(1));
        bench.value(strategy(&[(0, BUY, 1), (1, SELL, 2)]));
        bench.value(leg_order(1, 0, BUY, 9, 300));
        bench.value(leg_order(1, 0, SELL, 9, 305));
        bench.value(leg_order(1, 1, BUY, 9, 100));
        bench.value(leg_order(1, 1, SELL, 9, 103));
        assert_eq!(bench.book.bid_net(0), Some(94));
        assert_eq!(bench.book.offer_net(0), Some(105));
        let records = bench.records(complex(2, 0, BUY, CUSTOMER, DAY, 1, limit));
        if begins {
            assert_eq!(records, [[4, 5, 0, 0, 1, limit]]);
        } else {
            assert_eq!(records, Records::new());
        }
        assert_eq!(bench.book.auction_runs(0), begins);
    }
}

#[test]
fn five_contracts_at_ratio_2_give_2_units_and_one_gives_none() {
    for (contracts, units) in [(5, 2), (1, 0)] {
        let mut bench = Bench::new();
        bench.value(open(0));
        bench.value(open(1));
        bench.value(strategy(&[(0, BUY, 2), (1, SELL, 1)]));
        bench.value(leg_order(1, 0, SELL, contracts, 300));
        bench.value(leg_order(1, 1, BUY, 9, 100));
        let records = bench.records(complex(2, 0, BUY, MAKER, IMMEDIATE, 7, 500));
        let mut expected = Records::new();
        if units > 0 {
            expected.extend([
                [1, 3, 0, 0, units, 500],
                [2, 3, 0, 0, 2 * units, 300],
                [2, 3, 1, 1, units, 100],
                [2, 1, 0, 1, 2 * units, 300],
                [2, 2, 1, 0, units, 100],
            ]);
        }
        expected.push([3, 3, 0, 0, 7 - units, 0]);
        assert_eq!(records, expected);
    }
}
