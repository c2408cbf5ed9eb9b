//! One short list of events for each numbered reading of request 2026-01, with the
//! exact records; what another reading would write stands beside it.

#![forbid(unsafe_code)]
#![deny(warnings)]

mod common;

use common::*;
use reckoning::book::{Book, SPACE};
use reckoning::frames::{bytes, judge, Event};

/// The records of a sale by legs in strategy 0 of the market at 300 and 103.
fn sold_by_legs(number: i32, units: i32) -> Records {
    vec![
        [1, number, 0, 1, units, 197],
        [2, number, 0, 1, units, 300],
        [2, number, 1, 0, units, 103],
        [2, 1, 0, 0, units, 300],
        [2, 4, 1, 1, units, 103],
    ]
}

/// The market with national prices of series 0, and 100/103 of series 1: the
/// national nets are bid - 103 and offer - 100.
fn market(bid: u32, offer: u32, cents: u16) -> Bench {
    let mut bench = Bench::market();
    bench.value(national(0, bid, offer));
    bench.value(national(1, 100, 103));
    bench.value(range(cents));
    bench
}

/// An immediate order of a market maker, which starts no auction.
fn immediate(side: u8, units: u16, limit: i32) -> Event {
    complex(9, 0, side, MAKER, IMMEDIATE, units, limit)
}

/// A day order of a market maker.
fn day(side: u8, units: u16, limit: i32) -> Event {
    complex(9, 0, side, MAKER, DAY, units, limit)
}

// Reading 1.

#[test]
fn the_price_of_a_fill_is_bound_and_not_the_limit() {
    // National nets 193 and 201; the legs offer 205, 4 above. The buyer's limit
    // is above the bound all the time.
    for (cents, fills) in [(3, false), (4, true)] {
        let records = market(296, 301, cents).records(immediate(BUY, 2, 210));
        match fills {
            true => assert_eq!(records, bought_by_legs(5, 2)),
            false => assert_eq!(records, [[3, 5, 0, 0, 2, 0]]),
        }
    }
    // National nets 201 and 209; the legs bid 197, 4 below.
    for (cents, fills) in [(3, false), (4, true)] {
        let records = market(304, 309, cents).records(immediate(SELL, 2, 190));
        match fills {
            true => assert_eq!(records, sold_by_legs(5, 2)),
            false => assert_eq!(records, [[3, 5, 0, 1, 2, 0]]),
        }
    }
}

#[test]
fn each_side_is_bound_by_the_net_that_it_takes() {
    // National nets 197 and 205: a buyer pays up to 205, a seller gets from 197.
    // With the nets the other way round neither would fill.
    assert_eq!(
        market(300, 305, 0).records(immediate(BUY, 1, 205)),
        bought_by_legs(5, 1)
    );
    assert_eq!(
        market(300, 305, 0).records(immediate(SELL, 1, 197)),
        sold_by_legs(5, 1)
    );
}

#[test]
fn whole_against_whole_asks_both_parties() {
    // A seller gets from 201: the resting sale at 200 is out of range, though the
    // buyer may pay 200; at 201 it is not.
    for (limit, fills) in [(200, false), (201, true)] {
        let mut bench = market(304, 309, 0);
        bench.value(day(SELL, 2, limit));
        let records = bench.records(day(BUY, 2, 204));
        match fills {
            true => assert_eq!(records, whole((6, BUY), 5, 2, 201)),
            false => assert_eq!(records, Records::new()),
        }
    }
    // A buyer pays up to 201.
    for (limit, fills) in [(202, false), (201, true)] {
        let mut bench = market(296, 301, 0);
        bench.value(day(BUY, 2, limit));
        let records = bench.records(day(SELL, 2, 198));
        match fills {
            true => assert_eq!(records, whole((6, SELL), 5, 2, 201)),
            false => assert_eq!(records, Records::new()),
        }
    }
}

#[test]
fn leg_orders_are_bound_by_nothing() {
    // A leg order trades above the national offer.
    let mut bench = market(300, 301, 0);
    assert_eq!(
        bench.records(leg_order(8, 0, BUY, 1, 305)),
        [[2, 5, 0, 0, 1, 305], [2, 2, 0, 1, 1, 305]]
    );
    // A seller would get from 217 on, but the other side of the legs' fill is
    // made of leg orders.
    let mut bench = market(320, 325, 0);
    assert_eq!(bench.records(immediate(BUY, 2, 205)), bought_by_legs(5, 2));
    // A buyer would pay up to 180.
    let mut bench = market(275, 280, 0);
    assert_eq!(bench.records(immediate(SELL, 2, 197)), sold_by_legs(5, 2));
}

// Reading 2.

#[test]
fn a_forbidden_fill_ends_the_pass_though_legs_and_another_limit_could_trade() {
    // A seller gets from 201, a buyer pays up to 209. The sale at 200 is the best
    // limit; the one at 203 and the legs at 205 are within the range.
    let mut bench = market(304, 309, 0);
    bench.value(day(SELL, 2, 200));
    bench.value(day(SELL, 2, 203));
    assert_eq!(bench.records(immediate(BUY, 6, 205)), [[3, 7, 0, 0, 6, 0]]);
    bench.value(range(1));
    let mut expected = whole((8, BUY), 5, 2, 200);
    expected.extend(whole((8, BUY), 6, 2, 203));
    expected.extend(bought_by_legs(8, 2));
    assert_eq!(bench.records(immediate(BUY, 6, 205)), expected);
}

#[test]
fn a_forbidden_fill_by_legs_ends_the_pass_too() {
    // A buyer pays up to 204. The legs at 205 are better than the sale at 206, and
    // the pass ends at them after the fill at 204.
    let mut bench = market(299, 304, 0);
    bench.value(day(SELL, 2, 204));
    bench.value(day(SELL, 2, 206));
    let mut expected = whole((7, BUY), 5, 2, 204);
    expected.push([3, 7, 0, 0, 4, 0]);
    assert_eq!(bench.records(immediate(BUY, 6, 206)), expected);
}

#[test]
fn the_start_of_an_auction_does_not_look_at_the_range() {
    // A buyer pays up to 185, and yet 198 is better than the bid net 197.
    let mut bench = market(280, 285, 0);
    let records = bench.records(complex(9, 0, BUY, CUSTOMER, DAY, 2, 198));
    assert_eq!(records, [[4, 5, 0, 0, 2, 198]]);
}

// Reading 3.

#[test]
fn one_limit_fills_whole_or_not_at_all() {
    // Three groups at 200, where a seller gets from 201 or from 200 on.
    for (cents, fills) in [(0, false), (1, true)] {
        let mut bench = market(304, 309, cents);
        bench.value(shut(0));
        for class in [BROKER, MAKER, CUSTOMER] {
            bench.value(complex(8, 0, SELL, class, DAY, 3, 200));
        }
        bench.value(open(0));
        let before = bench.book.live_numbers();
        let records = bench.records(immediate(BUY, 8, 200));
        if fills {
            let mut expected = whole((8, BUY), 7, 3, 200);
            expected.extend(whole((8, BUY), 6, 3, 200));
            expected.extend(whole((8, BUY), 5, 2, 200));
            assert_eq!(records, expected);
        } else {
            assert_eq!(records, [[3, 8, 0, 0, 8, 0]]);
            assert_eq!(bench.book.live_numbers(), before);
        }
    }
}

// Reading 4.

#[test]
fn an_opening_match_that_stops_is_that_strategy_s_alone() {
    // A seller in strategy 0 gets from 197 on. Strategy 1 has no national net.
    let mut bench = Bench::two_strategies();
    bench.value(national(0, 300, 305));
    bench.value(national(1, 100, 103));
    bench.value(range(0));
    bench.value(shut(0));
    bench.value(complex(7, 0, SELL, MAKER, DAY, 1, 190));
    bench.value(complex(8, 0, BUY, MAKER, DAY, 1, 196));
    bench.value(complex(7, 1, SELL, MAKER, DAY, 1, 250));
    bench.value(complex(8, 1, BUY, MAKER, DAY, 1, 252));
    // Strategy 0 stops at 190, strategy 1 matches; then the sale of strategy 0
    // fills by legs.
    let mut expected = whole_on(1, (0, 2), (9, SELL), 10, 1, 250);
    expected.extend(sold_by_legs(7, 1));
    assert_eq!(bench.records(open(0)), expected);
    assert_eq!(bench.book.live(8), 1);
}

#[test]
fn an_opening_match_stops_at_its_first_forbidden_pair() {
    // The best pair is 190 with 204, and 190 is forbidden; 200 with 204 would be
    // within the range.
    let mut bench = market(300, 305, 0);
    bench.value(shut(0));
    for (side, limit) in [(SELL, 190), (BUY, 204), (SELL, 200), (BUY, 201)] {
        bench.value(day(side, 1, limit));
    }
    assert_eq!(bench.records(open(0)), sold_by_legs(5, 1));
    // A pass by legs took the sale at 190, so the next opening matches the others,
    // at the limit of the lower number.
    bench.value(shut(0));
    assert_eq!(bench.records(open(0)), whole((6, BUY), 7, 1, 204));
}

// Reading 5.

#[test]
fn after_a_stopped_starter_the_others_may_meet_its_rest() {
    // A seller gets from 197 on. The starter's pass stops at 190; each answer's
    // own pass meets the starter at its limit 204.
    let mut bench = market(300, 305, 0);
    bench.value(complex(9, 0, BUY, CUSTOMER, DAY, 5, 204));
    bench.value(complex(10, 0, SELL, MAKER, RESPONSE, 2, 190));
    bench.value(sweep(11, 0, SELL, 2, 191));
    let mut expected = whole((6, SELL), 5, 2, 204);
    expected.extend(whole((7, SELL), 5, 2, 204));
    expected.push([5, 5, 0, 0, 0, 0]);
    assert_eq!(bench.records(clock(5_000)), expected);
    assert_eq!(bench.book.live(5), 1);
}

// Reading 6.

#[test]
fn a_missing_net_frees_its_own_side_alone() {
    // The bid net takes the bid of series 0 and the offer of series 1: 198. The
    // offer net is missing.
    let bid_net = [national(0, 301, 0), national(1, 0, 103), range(0)];
    let mut bench = Bench::market();
    for event in bid_net {
        bench.value(event);
    }
    assert_eq!(bench.book.national_net(0, SELL), Some(198));
    assert_eq!(bench.book.national_net(0, BUY), None);
    assert_eq!(bench.records(immediate(SELL, 1, 190)), [[3, 5, 0, 1, 1, 0]]);
    assert_eq!(bench.records(immediate(BUY, 1, 210)), bought_by_legs(6, 1));
    // The offer net takes the others: 204. The bid net is missing.
    let mut bench = Bench::market();
    for event in [national(0, 0, 304), national(1, 100, 0), range(0)] {
        bench.value(event);
    }
    assert_eq!(bench.records(immediate(BUY, 1, 210)), [[3, 5, 0, 0, 1, 0]]);
    assert_eq!(bench.records(immediate(SELL, 1, 190)), sold_by_legs(6, 1));
    // With one price missing that it takes, a net is missing: nobody is bound.
    let mut bench = Bench::market();
    for event in [national(0, 301, 304), range(0)] {
        bench.value(event);
    }
    assert_eq!(bench.records(immediate(BUY, 1, 210)), bought_by_legs(5, 1));
    assert_eq!(bench.records(immediate(SELL, 1, 190)), sold_by_legs(6, 1));
}

#[test]
fn national_prices_of_a_shut_series_count() {
    let mut bench = Bench::market();
    bench.value(shut(0));
    bench.value(national(0, 301, 305));
    bench.value(national(1, 100, 103));
    bench.value(range(0));
    assert_eq!(bench.book.national_net(0, SELL), Some(198));
    bench.value(open(0));
    assert_eq!(bench.records(immediate(SELL, 1, 190)), [[3, 5, 0, 1, 1, 0]]);
}

#[test]
fn ratios_and_sides_of_the_legs_form_the_national_nets() {
    // Legs 0 buy 1, 1 sell 2, national prices 300/305 and 100/103.
    let mut bench = Bench::new();
    bench.value(strategy(&[(0, BUY, 2), (1, SELL, 4)]));
    bench.value(national(0, 300, 305));
    bench.value(national(1, 100, 103));
    assert_eq!(bench.book.national_net(0, SELL), Some(94));
    assert_eq!(bench.book.national_net(0, BUY), Some(105));
    let bounds = bench.book.bounds(0);
    assert_eq!((bounds.lowest, bounds.highest), (94 - 9_999, 105 + 9_999));
}

// Reading 7.

#[test]
fn kind_9_sets_both_prices_and_a_0_takes_one_away() {
    let mut bench = market(301, 305, 0);
    assert_eq!(bench.records(immediate(SELL, 1, 190)), [[3, 5, 0, 1, 1, 0]]);
    bench.value(national(0, 0, 305));
    assert_eq!(bench.book.national_net(0, SELL), None);
    assert_eq!(bench.book.national_net(0, BUY), Some(205));
    assert_eq!(bench.records(immediate(SELL, 1, 190)), sold_by_legs(6, 1));
    bench.value(national(0, 301, 0));
    assert_eq!(bench.book.national_net(0, BUY), None);
    bench.value(national(0, 0, 0));
    assert_eq!(bench.book.national_net(0, SELL), None);
    assert_eq!(bench.book.national.known(), 2);
}

#[test]
fn a_bid_above_the_offer_is_refused_14() {
    let mut bench = Bench::new();
    for (bid, offer, answer) in [
        (5, 5, 0),
        (6, 5, 14),
        (99_999, 1, 14),
        (6, 0, 0),
        (0, 5, 0),
        (0, 0, 0),
        (1, 99_999, 0),
    ] {
        let event = national(3, bid, offer);
        assert_eq!(judge(&bytes(&event)), 0, "judged for 2 and 3 alone");
        assert_eq!(bench.answer(event), answer, "{bid} {offer}");
    }
    // A refusal leaves the old prices.
    assert_eq!(bench.answer(national(3, 6, 5)), 14);
    assert_eq!(bench.book.national.price(3, BUY), Some(1));
    assert_eq!(bench.book.national.price(3, SELL), Some(99_999));
    // 14 after 1, 2 and 3.
    let crossed = bytes(&national(3, 6, 5));
    assert_eq!(bench.book.step(&crossed, SPACE - 1).answer, 1);
    assert_eq!(bench.book.step(&crossed[..12], SPACE).answer, 2);
    for event in [
        national(32, 6, 5),
        national(3, 100_000, 5),
        national(3, 100_001, 100_000),
    ] {
        assert_eq!(bench.answer(event), 3);
    }
    for (cents, answer) in [(9_999, 0), (0, 0), (10_000, 3)] {
        assert_eq!(bench.answer(range(cents)), answer);
    }
}

#[test]
fn kinds_9_and_10_start_no_pass() {
    let mut bench = market(304, 309, 0);
    bench.value(day(SELL, 2, 200));
    assert_eq!(bench.records(day(BUY, 2, 205)), Records::new());
    // Now the two could trade, and the buyer by legs, too.
    for event in [range(9_999), national(0, 0, 0), range(0)] {
        assert_eq!(bench.accepted(event), (0, Records::new()));
    }
    assert_eq!((bench.book.live(5), bench.book.live(6)), (2, 2));
    assert_eq!(
        bench.records(immediate(BUY, 1, 200)),
        whole((7, BUY), 5, 1, 200)
    );
}

#[test]
fn a_fresh_book_has_range_9999_and_no_price_also_after_a_day_end() {
    // Without a kind 10, a seller gets from 10,196 - 9,999 = 197 on, or from 198.
    for (bid, fills) in [(10_299, true), (10_300, false)] {
        let mut bench = Bench::market();
        bench.value(national(0, bid, 0));
        bench.value(national(1, 0, 103));
        let records = bench.records(immediate(SELL, 1, 190));
        match fills {
            true => assert_eq!(records, sold_by_legs(5, 1)),
            false => assert_eq!(records, [[3, 5, 0, 1, 1, 0]]),
        }
    }
    let mut bench = market(300, 305, 7);
    bench.value(Event::DayEnd { timer: 9 });
    assert_eq!(bench.book, Book::fresh(9));
    assert_eq!(bench.book.national.range, 9_999);
    assert_eq!(bench.book.national.known(), 0);
}

// Reading 8.

#[test]
fn orders_rest_crossed_and_a_legs_only_pass_looks_at_no_opposite_limit() {
    // A seller gets from 197 on.
    let mut bench = Bench::new();
    bench.value(open(0));
    bench.value(open(1));
    bench.value(strategy(&[(0, BUY, 1), (1, SELL, 1)]));
    bench.value(national(0, 300, 0));
    bench.value(national(1, 0, 103));
    bench.value(range(0));
    bench.value(day(SELL, 2, 190));
    assert_eq!(bench.records(day(BUY, 2, 195)), Records::new());
    assert_eq!((bench.book.live(1), bench.book.live(2)), (2, 2));
    // A leg order lets the buyer fill at 193, above the sale at 190 that a pass
    // with opposite limits would stop at.
    bench.value(leg_order(7, 1, BUY, 9, 100));
    assert_eq!(
        bench.records(leg_order(7, 0, SELL, 9, 293)),
        [
            [1, 2, 0, 0, 2, 193],
            [2, 2, 0, 0, 2, 293],
            [2, 2, 1, 1, 2, 100],
            [2, 4, 0, 1, 2, 293],
            [2, 3, 1, 0, 2, 100],
        ]
    );
}

#[test]
fn a_stopped_day_order_rests_and_is_met_later() {
    let mut bench = market(304, 309, 0);
    bench.value(day(SELL, 2, 200));
    bench.value(day(BUY, 2, 203));
    // The rest of the buyer stands at 203, within the range.
    assert_eq!(
        bench.records(immediate(SELL, 1, 199)),
        whole((7, SELL), 6, 1, 203)
    );
}
