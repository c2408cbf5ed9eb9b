//! Request 2026-03, "Sweeps must better the leg market": one short list of events
//! for each of its readings, and for each place of refusal 15; what another reading
//! would answer stands beside it.

#![forbid(unsafe_code)]
#![deny(warnings)]

mod common;

use common::*;
use reckoning::book::{Book, LAST_NUMBER, SPACE};
use reckoning::events::Answer;
use reckoning::frames::{bytes, judge, Event};

/// The market with an auction in strategy 0, begun by number 5, a buy at 198: nets
/// 197 bid, 205 offer.
fn auction() -> Bench {
    let mut bench = Bench::market();
    bench.value(complex(9, 0, BUY, CUSTOMER, DAY, 2, 198));
    assert_eq!(nets(&bench.book, 0), (Some(197), Some(205)));
    bench
}

/// The bid net and the offer net.
fn nets(book: &Book, strategy: u8) -> (Option<i64>, Option<i64>) {
    (book.bid_net(strategy), book.offer_net(strategy))
}

/// The event is refused 15: the number only, and the book is as it was.
fn refused_15(bench: &mut Bench, event: Event) {
    let before = bench.book.clone();
    let answer = bench.book.step(&bytes(&event), SPACE);
    let number_only = Answer {
        answer: 15,
        value: 0,
        records: Vec::new(),
    };
    assert_eq!(answer, number_only, "{event:?}");
    assert_eq!(bench.book, before, "{event:?}");
}

/// A sweep of member 10 at each limit is accepted, or refused 15 and changes
/// nothing.
fn judged(bench: &mut Bench, strategy: u8, side: u8, limits: &[(i32, bool)]) {
    for (limit, betters) in limits {
        let event = sweep(10, strategy, side, 1, *limit);
        if *betters {
            let number = bench.book.given + 1;
            assert_eq!(bench.accepted(event), (number, Records::new()), "{limit}");
        } else {
            refused_15(bench, event);
        }
    }
}

// Reading 9: the net of its own side, strictly.

#[test]
fn a_buy_has_to_be_above_the_bid_net() {
    // Between the nets, and not above the offer net.
    let limits = [
        (-9_999_999, false),
        (196, false),
        (197, false),
        (198, true),
        (204, true),
        (205, true),
        (9_999_999, true),
    ];
    judged(&mut auction(), 0, BUY, &limits);
}

#[test]
fn a_sell_has_to_be_below_the_offer_net() {
    let limits = [
        (9_999_999, false),
        (206, false),
        (205, false),
        (204, true),
        (198, true),
        (197, true),
        (-9_999_999, true),
    ];
    judged(&mut auction(), 0, SELL, &limits);
}

#[test]
fn the_starter_s_side_plays_no_part() {
    // The same limits where a sell has begun the auction.
    let mut bench = Bench::market();
    let begun = bench.records(complex(9, 0, SELL, BROKER, IMMEDIATE, 2, 204));
    assert_eq!(begun, [[4, 5, 0, 1, 2, 204]]);
    judged(&mut bench, 0, BUY, &[(197, false), (198, true)]);
    judged(&mut bench, 0, SELL, &[(205, false), (204, true)]);
}

#[test]
fn nets_below_0_are_bettered_likewise() {
    // The mirror sells 0 and buys 1: nets -205 bid, -197 offer.
    let mut bench = Bench::market();
    assert_eq!(bench.value(strategy(&[(0, SELL, 1), (1, BUY, 1)])), 1);
    bench.value(complex(9, 1, BUY, CUSTOMER, DAY, 2, -204));
    assert_eq!(nets(&bench.book, 1), (Some(-205), Some(-197)));
    judged(
        &mut bench,
        1,
        BUY,
        &[(-206, false), (-205, false), (-204, true)],
    );
    judged(
        &mut bench,
        1,
        SELL,
        &[(-196, false), (-197, false), (-198, true)],
    );
}

#[test]
fn a_net_of_0_is_a_net() {
    // A bid and an offer of 100 each.
    let mut bench = Bench::new();
    for event in [
        open(0),
        open(1),
        strategy(&[(0, BUY, 1), (1, SELL, 1)]),
        leg_order(1, 0, BUY, 9, 100),
        leg_order(1, 1, SELL, 9, 100),
        complex(9, 0, BUY, CUSTOMER, DAY, 2, 1),
    ] {
        bench.value(event);
    }
    assert_eq!(nets(&bench.book, 0), (Some(0), None));
    judged(&mut bench, 0, BUY, &[(-1, false), (0, false), (1, true)]);
}

#[test]
fn ratios_are_in_the_net() {
    // Legs 0 buy 1, 1 sell 2 of the paper: nets 94 bid, 105 offer.
    let mut bench = Bench::market();
    assert_eq!(bench.value(strategy(&[(0, BUY, 2), (1, SELL, 4)])), 1);
    bench.value(complex(9, 1, BUY, CUSTOMER, DAY, 2, 95));
    assert_eq!(nets(&bench.book, 1), (Some(94), Some(105)));
    judged(&mut bench, 1, BUY, &[(94, false), (95, true)]);
    judged(&mut bench, 1, SELL, &[(105, false), (104, true)]);
}

#[test]
fn an_unknown_net_starts_no_auction_and_refuses_no_sweep() {
    // A starter needs a known net, a sweep none.
    let mut bench = auction();
    bench.value(cancel(1, 1));
    assert_eq!(nets(&bench.book, 0), (None, Some(205)));
    judged(&mut bench, 0, BUY, &[(-9_999_999, true)]);
    let mut bench = Bench::market();
    bench.value(cancel(1, 1));
    let records = bench.records(complex(9, 0, BUY, CUSTOMER, DAY, 2, 198));
    assert_eq!(records, Records::new());
    assert_eq!(bench.answer(sweep(10, 0, BUY, 1, 198)), 9);
}

// "Where that net is unknown, every price betters it."

#[test]
fn an_unknown_net_frees_its_own_side_alone() {
    // The bid net takes the bid of series 0 and the offer of series 1.
    for (member, number) in [(1, 1), (4, 4)] {
        let mut bench = auction();
        bench.value(cancel(member, number));
        assert_eq!(nets(&bench.book, 0), (None, Some(205)));
        let any = [(-9_999_999, true), (0, true), (197, true), (198, true)];
        judged(&mut bench, 0, BUY, &any);
        judged(&mut bench, 0, SELL, &[(205, false), (204, true)]);
    }
    // The offer net takes the other two.
    for (member, number) in [(2, 2), (3, 3)] {
        let mut bench = auction();
        bench.value(cancel(member, number));
        assert_eq!(nets(&bench.book, 0), (Some(197), None));
        let any = [(9_999_999, true), (206, true), (205, true), (204, true)];
        judged(&mut bench, 0, SELL, &any);
        judged(&mut bench, 0, BUY, &[(197, false), (198, true)]);
    }
}

#[test]
fn a_net_that_is_known_again_binds_again() {
    let mut bench = auction();
    bench.value(cancel(2, 2));
    judged(&mut bench, 0, SELL, &[(300, true)]);
    bench.value(leg_order(2, 0, SELL, 1, 320));
    assert_eq!(nets(&bench.book, 0), (Some(197), Some(220)));
    judged(
        &mut bench,
        0,
        SELL,
        &[(300, false), (220, false), (219, true)],
    );
}

// Reading 9: known counts, ready plays no part.

#[test]
fn a_net_binds_though_its_legs_are_not_ready() {
    // Ratio 2 in series 0, where a better bid and a better offer have one contract
    // each: nets 2 x 302 - 103 and 2 x 304 - 100. At the prices that hold the ratio
    // they would be 497 and 510.
    let mut bench = Bench::market();
    assert_eq!(bench.value(strategy(&[(0, BUY, 2), (1, SELL, 1)])), 1);
    bench.value(complex(9, 1, BUY, CUSTOMER, DAY, 2, 498));
    bench.value(leg_order(6, 0, BUY, 1, 302));
    bench.value(leg_order(7, 0, SELL, 1, 304));
    assert_eq!(nets(&bench.book, 1), (Some(501), Some(508)));
    judged(
        &mut bench,
        1,
        BUY,
        &[(498, false), (501, false), (502, true)],
    );
    judged(
        &mut bench,
        1,
        SELL,
        &[(509, false), (508, false), (507, true)],
    );
}

#[test]
fn a_best_price_of_several_orders_is_one_price() {
    let mut bench = auction();
    bench.value(leg_order(6, 0, BUY, 3, 300));
    bench.value(cancel(1, 1));
    assert_eq!(nets(&bench.book, 0), (Some(197), Some(205)));
    judged(&mut bench, 0, BUY, &[(197, false), (198, true)]);
}

#[test]
fn national_prices_play_no_part() {
    // National nets 210 and 215: a buy at 198 betters the leg net alone. With 180
    // and 190, one at 197 betters the national net alone.
    for (bid, offer) in [(313, 315), (283, 290)] {
        let mut bench = auction();
        bench.value(national(0, bid, offer));
        bench.value(national(1, 100, 103));
        bench.value(range(0));
        judged(&mut bench, 0, BUY, &[(197, false), (198, true)]);
        judged(&mut bench, 0, SELL, &[(205, false), (204, true)]);
    }
    // Nor do they make an unknown net known.
    let mut bench = auction();
    bench.value(national(0, 300, 305));
    bench.value(national(1, 100, 103));
    bench.value(cancel(1, 1));
    judged(&mut bench, 0, BUY, &[(100, true)]);
}

#[test]
fn complex_orders_and_other_sweeps_play_no_part() {
    // A resting buy, a waiting one and a sweep, all above the bid net: one cent
    // above that is enough.
    let mut bench = Bench::market();
    bench.value(complex(8, 0, BUY, MAKER, DAY, 1, 202));
    bench.value(complex(9, 0, BUY, CUSTOMER, DAY, 1, 198));
    bench.value(complex(7, 0, BUY, MAKER, RESPONSE, 1, 203));
    bench.value(sweep(6, 0, BUY, 1, 204));
    judged(&mut bench, 0, BUY, &[(197, false), (198, true)]);
    // Nor does an order have to better anything.
    assert_eq!(bench.answer(complex(7, 0, BUY, MAKER, RESPONSE, 1, 100)), 0);
    assert_eq!(bench.answer(complex(7, 0, SELL, MAKER, DAY, 1, 300)), 0);
}

#[test]
fn the_legs_of_the_sweep_s_own_strategy_count() {
    // Strategy 1 has nets 247 and 255, and its auction runs too.
    let mut bench = Bench::two_strategies();
    bench.value(complex(9, 0, BUY, CUSTOMER, DAY, 2, 198));
    bench.value(complex(9, 1, BUY, CUSTOMER, DAY, 2, 248));
    for (of, bid, offer) in [(0, 197, 205), (1, 247, 255)] {
        judged(&mut bench, of, BUY, &[(bid, false), (bid + 1, true)]);
        judged(&mut bench, of, SELL, &[(offer, false), (offer - 1, true)]);
    }
}

// A shut series. No auction runs in a strategy that holds one, so a sweep there gets
// 9 whatever its limit; what can be seen is the net once it is open again, and a
// series outside the strategy.

#[test]
fn leg_orders_of_a_series_that_was_shut_count() {
    let mut bench = auction();
    bench.value(leg_order(6, 0, BUY, 5, 301));
    bench.value(shut(0));
    for limit in [100, 198, 199, 300] {
        for side in [BUY, SELL] {
            assert_eq!(bench.answer(sweep(10, 0, side, 1, limit)), 9);
        }
    }
    assert_eq!(nets(&bench.book, 0), (Some(198), Some(205)));
    bench.value(open(0));
    bench.value(complex(9, 0, BUY, CUSTOMER, DAY, 2, 199));
    judged(&mut bench, 0, BUY, &[(198, false), (199, true)]);
    // A cancel while it is shut counts as well.
    bench.value(shut(0));
    bench.value(cancel(6, 6));
    bench.value(open(0));
    bench.value(complex(9, 0, BUY, BROKER, DAY, 2, 199));
    judged(&mut bench, 0, BUY, &[(197, false), (198, true)]);
}

#[test]
fn a_shut_series_of_another_strategy_plays_no_part() {
    let mut bench = Bench::two_strategies();
    bench.value(complex(9, 0, BUY, CUSTOMER, DAY, 2, 198));
    bench.value(shut(2));
    judged(&mut bench, 0, BUY, &[(197, false), (198, true)]);
    assert_eq!(bench.answer(sweep(10, 1, BUY, 1, 247)), 9);
}

// Reading 9: as it stands on its arrival.

#[test]
fn a_better_leg_order_binds_the_next_sweep() {
    let mut bench = auction();
    judged(&mut bench, 0, BUY, &[(198, true)]);
    bench.value(leg_order(6, 0, BUY, 1, 303));
    assert_eq!(nets(&bench.book, 0), (Some(200), Some(205)));
    judged(
        &mut bench,
        0,
        BUY,
        &[(199, false), (200, false), (201, true)],
    );
    // A worse one binds nobody.
    bench.value(leg_order(6, 0, BUY, 1, 299));
    judged(&mut bench, 0, BUY, &[(200, false), (202, true)]);
}

#[test]
fn a_leg_order_that_is_gone_binds_no_longer() {
    // By a cancel.
    let mut bench = auction();
    bench.value(leg_order(6, 0, BUY, 2, 303));
    judged(&mut bench, 0, BUY, &[(198, false)]);
    bench.value(cancel(6, 6));
    judged(&mut bench, 0, BUY, &[(197, false), (198, true)]);
    // By fills: one contract of two, then the other.
    let mut bench = auction();
    bench.value(leg_order(6, 0, BUY, 2, 303));
    for binds in [true, false] {
        let records = bench.records(leg_order(7, 0, SELL, 1, 303));
        assert_eq!(records.len(), 2);
        judged(&mut bench, 0, BUY, &[(198, !binds)]);
    }
    judged(&mut bench, 0, BUY, &[(197, false)]);
}

#[test]
fn fills_of_another_strategy_move_the_net() {
    // An order in strategy 1 takes the offers of series 0 that both nets take.
    let mut bench = Bench::two_strategies();
    bench.value(leg_order(8, 0, SELL, 2, 303));
    bench.value(complex(9, 0, BUY, CUSTOMER, DAY, 2, 198));
    judged(&mut bench, 0, SELL, &[(203, false), (202, true)]);
    let records = bench.records(complex(7, 1, BUY, MAKER, IMMEDIATE, 2, 253));
    assert_eq!(records[0][..5], [1, 10, 1, 0, 2]);
    judged(&mut bench, 0, SELL, &[(205, false), (204, true)]);
}

// "Sweeps already in are not looked at again when the legs move."

#[test]
fn a_sweep_that_the_net_has_passed_stays_and_is_filled() {
    // The offer net falls to 201 below the sale at 204, which the starter takes.
    let mut bench = Bench::market();
    bench.value(complex(9, 0, BUY, CUSTOMER, DAY, 5, 204));
    assert_eq!(bench.value(sweep(10, 0, SELL, 3, 204)), 6);
    assert_eq!(bench.records(leg_order(7, 0, SELL, 9, 301)), Records::new());
    assert_eq!(nets(&bench.book, 0), (Some(197), Some(201)));
    assert_eq!(bench.book.live(6), 3);
    let mut expected = whole((5, BUY), 6, 3, 204);
    expected.push([5, 5, 0, 0, 0, 0]);
    assert_eq!(bench.records(clock(5_000)), expected);
    assert_eq!(bench.book.live(5), 2);
}

#[test]
fn a_sweep_that_the_net_has_passed_has_its_own_pass() {
    // The bid net rises to 200: the buy at 199 meets a sale that came later.
    let mut bench = auction();
    assert_eq!(bench.value(sweep(10, 0, BUY, 3, 199)), 6);
    bench.value(leg_order(7, 0, BUY, 9, 303));
    bench.value(complex(8, 0, SELL, MAKER, RESPONSE, 1, 199));
    let mut expected = whole((6, BUY), 8, 1, 199);
    expected.push([3, 6, 0, 0, 2, 0]);
    expected.push([5, 5, 0, 0, 0, 0]);
    assert_eq!(bench.records(clock(5_000)), expected);
}

#[test]
fn a_sweep_from_an_unknown_net_stays_when_it_becomes_known() {
    let mut bench = auction();
    bench.value(cancel(2, 2));
    assert_eq!(bench.value(sweep(10, 0, SELL, 3, 900)), 6);
    bench.value(leg_order(2, 0, SELL, 9, 305));
    assert_eq!(nets(&bench.book, 0), (Some(197), Some(205)));
    assert_eq!(
        bench.records(clock(5_000)),
        [[3, 6, 0, 1, 3, 0], [5, 5, 0, 0, 0, 0]]
    );
}

// Reading 10: a sweep that replaces one.

#[test]
fn a_replacement_is_looked_at_and_refused_leaves_the_old_one() {
    let mut bench = auction();
    assert_eq!(bench.value(sweep(10, 0, SELL, 3, 204)), 6);
    // While it betters, it replaces.
    let replaced = bench.accepted(sweep(10, 0, SELL, 4, 204));
    assert_eq!(replaced, (7, vec![[3, 6, 0, 1, 3, 0]]));
    bench.value(leg_order(8, 0, SELL, 1, 304));
    assert_eq!(nets(&bench.book, 0), (Some(197), Some(204)));
    for units in [1, 4, 5, 9_999] {
        refused_15(&mut bench, sweep(10, 0, SELL, units, 204));
        assert_eq!(bench.book.live(7), 4);
    }
    // When the leg order is gone, it replaces again.
    bench.value(cancel(8, 8));
    let replaced = bench.accepted(sweep(10, 0, SELL, 5, 204));
    assert_eq!(replaced, (9, vec![[3, 7, 0, 1, 4, 0]]));
}

#[test]
fn a_refused_replacement_lets_the_old_one_fill() {
    let mut bench = Bench::market();
    bench.value(complex(9, 0, BUY, CUSTOMER, DAY, 5, 204));
    bench.value(sweep(10, 0, SELL, 3, 204));
    bench.value(leg_order(7, 0, SELL, 9, 301));
    refused_15(&mut bench, sweep(10, 0, SELL, 5, 204));
    let mut expected = whole((5, BUY), 6, 3, 204);
    expected.push([5, 5, 0, 0, 0, 0]);
    assert_eq!(bench.records(clock(5_000)), expected);
}

#[test]
fn a_refused_sweep_bars_no_legs() {
    // The starter fills by the legs, as if the sweep had not come.
    let mut bench = Bench::market();
    bench.value(complex(9, 0, BUY, CUSTOMER, DAY, 2, 205));
    refused_15(&mut bench, sweep(10, 0, SELL, 1, 205));
    let mut expected = bought_by_legs(5, 2);
    expected.push([5, 5, 0, 0, 0, 0]);
    assert_eq!(bench.records(clock(5_000)), expected);
}

// "a sweep of 1 unit or more".

#[test]
fn a_sweep_of_0_units_never_gets_15() {
    let mut bench = auction();
    bench.value(sweep(10, 0, SELL, 3, 204));
    bench.value(leg_order(7, 0, SELL, 9, 301));
    // With none to remove it is 10.
    for limit in [201, 205, 9_999_999] {
        assert_eq!(bench.answer(sweep(11, 0, SELL, 0, limit)), 10);
    }
    assert_eq!(bench.answer(sweep(11, 0, BUY, 0, -500)), 10);
    // The one that is in goes, though its limit no longer betters the net.
    refused_15(&mut bench, sweep(10, 0, SELL, 1, 204));
    let withdrawn = bench.accepted(sweep(10, 0, SELL, 0, 204));
    assert_eq!(withdrawn, (0, vec![[3, 6, 0, 1, 3, 0]]));
    assert_eq!(bench.answer(sweep(10, 0, SELL, 0, 204)), 10);
    refused_15(&mut bench, sweep(10, 0, SELL, 1, 204));
}

// "checked between 10 and 11": of the causes that a sweep can have, after 1, 2, 3, 4,
// 9 and 10, before 12 and 13.

#[test]
fn fifteen_comes_after_1_to_10() {
    let mut bench = auction();
    let frame = bytes(&sweep(10, 0, SELL, 1, 300));
    assert_eq!(judge(&frame), 0, "judged for 2 and 3 alone");
    for (answer, frame, space) in [
        (1, &frame[..], SPACE - 1),
        (1, &frame[..], 0),
        (2, &frame[1..], SPACE),
        (15, &frame[..], SPACE),
        (15, &frame[..], SPACE + 1),
    ] {
        assert_eq!(bench.book.step(frame, space).answer, answer);
    }
    assert_eq!(bench.answer(sweep(0, 0, SELL, 1, 300)), 3);
    assert_eq!(bench.answer(sweep(10, 0, SELL, 10_000, 300)), 3);
    assert_eq!(bench.answer(sweep(10, 0, SELL, 1, 10_000_000)), 3);
    assert_eq!(bench.answer(sweep(10, 16, SELL, 1, 300)), 3);
    // Strategy 1 is not defined; then it is, and no auction runs in it.
    assert_eq!(bench.answer(sweep(10, 1, SELL, 1, 300)), 4);
    assert_eq!(bench.value(strategy(&[(0, BUY, 2), (1, SELL, 2)])), 0);
    assert_eq!(bench.value(strategy(&[(0, BUY, 1), (1, SELL, 2)])), 1);
    assert_eq!(nets(&bench.book, 1), (Some(94), Some(105)));
    for (side, limit) in [(SELL, 105), (BUY, 94), (SELL, 104), (BUY, 95)] {
        assert_eq!(bench.answer(sweep(10, 1, side, 1, limit)), 9);
    }
    // 10 is of 0 units, 15 of 1 or more: they never apply together.
    assert_eq!(bench.answer(sweep(10, 0, SELL, 0, 300)), 10);
    refused_15(&mut bench, sweep(10, 0, SELL, 1, 300));
    bench.value(clock(5_000));
    assert_eq!(bench.answer(sweep(10, 0, SELL, 1, 300)), 9);
}

#[test]
fn fifteen_comes_before_12() {
    let mut bench = auction();
    for member in 11..=26 {
        bench.value(sweep(member, 0, SELL, 1, 204));
    }
    assert_eq!(bench.book.sweeps().count(), 16);
    // The table is full: 12 for one that betters, 15 for another.
    assert_eq!(bench.answer(sweep(10, 0, SELL, 1, 204)), 12);
    assert_eq!(bench.answer(sweep(10, 0, BUY, 1, 198)), 12);
    for event in [
        sweep(10, 0, SELL, 1, 205),
        sweep(11, 0, SELL, 1, 206),
        sweep(10, 0, BUY, 1, 197),
    ] {
        refused_15(&mut bench, event);
    }
    // One that replaces another never gets 12, and 15 when the net has passed it.
    assert_eq!(bench.answer(sweep(12, 0, SELL, 2, 204)), 0);
    bench.value(leg_order(8, 0, SELL, 1, 304));
    refused_15(&mut bench, sweep(12, 0, SELL, 3, 204));
    assert_eq!(bench.answer(sweep(12, 0, SELL, 0, 204)), 0);
    assert_eq!(bench.answer(sweep(12, 0, SELL, 0, 204)), 10);
}

#[test]
fn fifteen_comes_before_13() {
    let mut bench = Bench::market();
    for _ in 5..LAST_NUMBER - 3 {
        bench.value(complex(5, 0, BUY, MAKER, DO_NOT_AUCTION, 1, 1));
    }
    bench.value(complex(5, 0, BUY, CUSTOMER, DAY, 1, 198));
    bench.value(sweep(6, 0, SELL, 1, 204));
    bench.value(sweep(7, 0, SELL, 1, 203));
    assert_eq!(bench.value(leg_order(8, 0, SELL, 1, 304)), LAST_NUMBER);
    assert_eq!(nets(&bench.book, 0), (Some(197), Some(204)));
    // Every number is given: 13 for a sweep that betters, a replacement too.
    assert_eq!(bench.answer(sweep(9, 0, SELL, 1, 203)), 13);
    assert_eq!(bench.answer(sweep(7, 0, SELL, 1, 203)), 13);
    assert_eq!(bench.answer(sweep(9, 0, BUY, 1, 198)), 13);
    // 15 for one that betters nothing, a replacement too.
    refused_15(&mut bench, sweep(9, 0, SELL, 1, 204));
    refused_15(&mut bench, sweep(6, 0, SELL, 1, 204));
    refused_15(&mut bench, sweep(9, 0, BUY, 1, 197));
    // A sweep of 0 units gets neither.
    let withdrawn = bench.accepted(sweep(6, 0, SELL, 0, 204));
    assert_eq!(
        withdrawn,
        (0, vec![[3, LAST_NUMBER as i32 - 2, 0, 1, 1, 0]])
    );
    // When the leg order is cancelled the net is 205 again.
    bench.value(cancel(8, LAST_NUMBER));
    assert_eq!(bench.answer(sweep(9, 0, SELL, 1, 204)), 13);
}

#[test]
fn fifteen_comes_before_12_and_13_together() {
    let mut bench = Bench::market();
    for _ in 5..LAST_NUMBER - 16 {
        bench.value(complex(5, 0, BUY, MAKER, DO_NOT_AUCTION, 1, 1));
    }
    bench.value(complex(5, 0, BUY, CUSTOMER, DAY, 1, 198));
    for member in 1..=16 {
        bench.value(sweep(member, 0, SELL, 1, 204));
    }
    assert_eq!(bench.book.given, LAST_NUMBER);
    assert_eq!(bench.answer(sweep(20, 0, SELL, 1, 204)), 12, "and 13");
    assert_eq!(bench.answer(sweep(3, 0, SELL, 1, 204)), 13);
    refused_15(&mut bench, sweep(20, 0, SELL, 1, 205));
}
