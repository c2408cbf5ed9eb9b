//! Request 2026-05, "Leg nets kept in the strategy": one short list of events for each
//! of its readings; and over generated lists the kept nets after every event and every
//! fill, against nets found anew.

#![forbid(unsafe_code)]
#![deny(warnings)]

mod common;

use common::*;
use reckoning::book::{Book, SPACE, STRATEGIES};
use reckoning::calls::{calls, item};
use reckoning::coverage;
use reckoning::frames::{bytes, Event};
use reckoning::lists::{list, long_list, national_list, Input, Options};
use reckoning::nets::Nets;
use std::cell::Cell;

fn known(bid: i64, offer: i64) -> Nets {
    Nets {
        bid: Some(bid),
        offer: Some(offer),
    }
}

/// The best price of a series and side in a walk over the leg orders.
fn best_price(book: &Book, series: u8, side: u8) -> Option<i64> {
    let own = (book.leg_orders.iter()).filter(|order| (order.series, order.side) == (series, side));
    let prices = own.map(|order| i64::from(order.price));
    match side {
        BUY => prices.max(),
        _ => prices.min(),
    }
}

/// The nets of a strategy found anew from the leg orders.
fn found(book: &Book, strategy: u8) -> Nets {
    let legs = book.legs(strategy);
    let net = |buy_legs_take: u8| {
        let mut sum = 0;
        for leg in legs {
            let ratio = i64::from(leg.ratio);
            match leg.side {
                BUY => sum += ratio * best_price(book, leg.series, buy_legs_take)?,
                _ => sum -= ratio * best_price(book, leg.series, 1 - buy_legs_take)?,
            }
        }
        Some(sum)
    };
    Nets {
        bid: net(BUY),
        offer: net(SELL),
    }
}

/// "the stored nets of each strategy held are those of the leg books".
fn are_kept(book: &Book) {
    for strategy in 0..book.strategies.len() as u8 {
        let kept = book.nets(u32::from(strategy));
        assert_eq!(kept, Ok(found(book, strategy)), "strategy {strategy}");
        let kept = (book.bid_net(strategy), book.offer_net(strategy));
        let anew = found(book, strategy);
        assert_eq!(kept, (anew.bid, anew.offer), "strategy {strategy}");
    }
    for undefined in book.strategies.len() as u32..=STRATEGIES as u32 {
        assert_eq!(book.nets(undefined), Err(4));
    }
}

/// The nets of strategy 0, which are those of its leg books.
fn nets(bench: &Bench) -> Nets {
    are_kept(&bench.book);
    bench.book.nets(0).expect("it is defined")
}

/// The nets of strategy 0 after an accepted event.
fn after(bench: &mut Bench, event: Event) -> Nets {
    bench.value(event);
    nets(bench)
}

// Set at the definition.

#[test]
fn a_strategy_over_no_leg_order_has_unknown_nets() {
    let mut bench = Bench::new();
    assert_eq!(
        after(&mut bench, strategy(&[(0, BUY, 1), (1, SELL, 1)])),
        Nets::UNKNOWN
    );
}

#[test]
fn a_definition_sets_the_nets_of_the_leg_orders_that_stand() {
    // Not unknown until the next leg order comes.
    let mut bench = Bench::market();
    assert_eq!(bench.value(strategy(&[(0, BUY, 2), (1, BUY, 3)])), 1);
    assert_eq!(bench.book.nets(1), Ok(known(900, 919)));
    assert_eq!(nets(&bench), known(197, 205));
}

#[test]
fn an_equal_definition_leaves_the_nets_as_they_are_now() {
    // Neither unknown nor those of the first definition.
    let mut bench = Bench::market();
    bench.value(leg_order(5, 0, BUY, 1, 302));
    let before = bench.book.clone();
    for legs in [
        &[(0, BUY, 1), (1, SELL, 1)],
        &[(1, SELL, 1), (0, BUY, 1)],
        &[(1, SELL, 12), (0, BUY, 12)],
    ] {
        assert_eq!(bench.accepted(strategy(legs)), (0, Records::new()));
        assert_eq!(bench.book, before);
    }
    assert_eq!(nets(&bench), known(199, 205));
}

#[test]
fn an_equal_definition_is_told_by_its_legs_and_not_by_its_nets() {
    // A fresh definition would have unknown nets, the held one has known ones.
    let mut bench = Bench::market();
    for series in 2..=16 {
        bench.value(strategy(&[(0, BUY, 1), (series, SELL, 1)]));
    }
    assert_eq!(bench.book.strategies.len(), STRATEGIES);
    assert_eq!(bench.value(strategy(&[(0, BUY, 1), (1, SELL, 1)])), 0);
    assert_eq!(bench.answer(strategy(&[(0, SELL, 1), (1, BUY, 1)])), 12);
}

#[test]
fn a_refused_definition_leaves_the_nets() {
    let mut bench = Bench::market();
    let before = bench.book.clone();
    assert_eq!(bench.answer(strategy(&[(0, BUY, 1), (0, SELL, 1)])), 5);
    assert_eq!(bench.answer(strategy(&[(0, BUY, 4), (1, SELL, 1)])), 5);
    assert_eq!(bench.book, before);
}

#[test]
fn the_nets_of_a_mirror_are_its_own() {
    let mut bench = Bench::market();
    assert_eq!(bench.value(strategy(&[(0, SELL, 1), (1, BUY, 1)])), 1);
    assert_eq!(bench.book.nets(1), Ok(known(-205, -197)));
    bench.value(leg_order(5, 0, BUY, 1, 302));
    assert_eq!(bench.book.nets(0), Ok(known(199, 205)));
    assert_eq!(bench.book.nets(1), Ok(known(-205, -199)));
}

#[test]
fn a_net_is_of_the_ratios_after_the_division() {
    let mut bench = Bench::market();
    assert_eq!(bench.value(strategy(&[(1, SELL, 8), (0, BUY, 4)])), 1);
    assert_eq!(bench.book.nets(1), Ok(known(94, 105)));
}

// Known and unknown.

#[test]
fn a_net_is_unknown_only_by_a_missing_price_however_few_contracts() {
    let mut bench = Bench::new();
    bench.value(open(0));
    bench.value(open(1));
    bench.value(strategy(&[(0, BUY, 3), (1, SELL, 2)]));
    for (series, side, price) in [(0, BUY, 300), (0, SELL, 305), (1, BUY, 100)] {
        bench.value(leg_order(7, series, side, 1, price));
    }
    let offer_alone = Nets {
        bid: None,
        offer: Some(715),
    };
    assert_eq!(nets(&bench), offer_alone);
    // One contract where the ratio is 2 or 3: not ready, and known.
    assert_eq!(
        after(&mut bench, leg_order(7, 1, SELL, 1, 103)),
        known(694, 715)
    );
}

#[test]
fn one_net_is_unknown_and_the_other_known() {
    // Each net is unknown by the prices that it takes alone.
    for (member, bid, offer) in [
        (1, None, Some(205)),
        (2, Some(197), None),
        (3, Some(197), None),
        (4, None, Some(205)),
    ] {
        let mut bench = Bench::market();
        let number = u32::from(member);
        assert_eq!(
            after(&mut bench, cancel(member, number)),
            Nets { bid, offer }
        );
    }
}

#[test]
fn a_net_of_0_is_known() {
    // Both legs at one price: the bid net is 0, which no unknown net is.
    let mut bench = Bench::new();
    bench.value(open(0));
    bench.value(open(1));
    bench.value(strategy(&[(0, BUY, 1), (1, SELL, 1)]));
    bench.value(leg_order(7, 0, BUY, 5, 100));
    bench.value(leg_order(7, 1, SELL, 5, 100));
    let bid_alone = Nets {
        bid: Some(0),
        offer: None,
    };
    assert_eq!(nets(&bench), bid_alone);
    // A customer's buy at 1 starts an auction; a sweep at 0 betters nothing, one that
    // sells betters an unknown net.
    assert_eq!(
        bench.records(complex(9, 0, BUY, CUSTOMER, DAY, 1, 1)),
        [[4, 3, 0, 0, 1, 1]]
    );
    assert_eq!(bench.answer(sweep(8, 0, BUY, 1, 0)), 15);
    assert_eq!(bench.answer(sweep(8, 0, SELL, 1, 0)), 0);
    // Both unknown: no auction starts, at a limit above 0 either.
    let mut bench = Bench::new();
    bench.value(open(0));
    bench.value(open(1));
    bench.value(strategy(&[(0, BUY, 1), (1, SELL, 1)]));
    assert_eq!(
        bench.records(complex(9, 0, BUY, CUSTOMER, DAY, 1, 1)),
        Records::new()
    );
}

#[test]
fn nets_below_0() {
    let mut bench = Bench::new();
    bench.value(open(0));
    bench.value(open(1));
    bench.value(strategy(&[(0, BUY, 1), (1, SELL, 3)]));
    for (series, side, price) in [(0, BUY, 300), (0, SELL, 305), (1, BUY, 100), (1, SELL, 103)] {
        bench.value(leg_order(7, series, side, 9, price));
    }
    assert_eq!(nets(&bench), known(-9, 5));
    assert_eq!(
        after(&mut bench, leg_order(7, 1, BUY, 9, 102)),
        known(-9, -1)
    );
}

#[test]
fn the_largest_nets() {
    for (side, bid, offer) in [(BUY, 57, 5_699_943), (SELL, -5_699_943, -57)] {
        let mut bench = Bench::new();
        let legs: Vec<(u8, u8, u8)> = (0..6).map(|leg| (26 + leg, side, 12 - leg)).collect();
        for (series, _, _) in &legs {
            bench.value(open(*series));
            bench.value(leg_order(7, *series, BUY, 9_999, 1));
            bench.value(leg_order(7, *series, SELL, 9_999, 99_999));
        }
        assert_eq!(after(&mut bench, strategy(&legs)), known(bid, offer));
    }
}

// Leg orders that rest and trade.

#[test]
fn a_better_leg_order_that_rests_changes_one_net() {
    for (event, expected) in [
        (leg_order(5, 0, BUY, 1, 302), known(199, 205)),
        (leg_order(5, 0, SELL, 1, 303), known(197, 203)),
        (leg_order(5, 1, BUY, 1, 101), known(197, 204)),
        (leg_order(5, 1, SELL, 1, 102), known(198, 205)),
    ] {
        assert_eq!(after(&mut Bench::market(), event), expected, "{event:?}");
    }
}

#[test]
fn a_leg_order_behind_the_best_changes_none() {
    for event in [
        leg_order(5, 0, BUY, 99, 299),
        leg_order(5, 0, BUY, 99, 300),
        leg_order(5, 0, SELL, 99, 306),
        leg_order(5, 0, SELL, 99, 305),
        leg_order(5, 1, BUY, 99, 1),
        leg_order(5, 1, SELL, 99, 99_999),
    ] {
        let nets = after(&mut Bench::market(), event);
        assert_eq!(nets, known(197, 205), "{event:?}");
    }
}

#[test]
fn a_trade_with_a_part_of_the_best_order_changes_none() {
    let mut bench = Bench::market();
    assert_eq!(bench.records(leg_order(5, 0, BUY, 9, 305)).len(), 2);
    assert_eq!(nets(&bench), known(197, 205));
}

#[test]
fn a_trade_that_fills_the_best_order_leaves_the_next_price() {
    // The incoming order is wholly filled and rests nowhere: the net of the resting side
    // changes.
    let mut bench = Bench::market();
    bench.value(leg_order(5, 0, SELL, 10, 309));
    assert_eq!(
        after(&mut bench, leg_order(6, 0, BUY, 10, 305)),
        known(197, 209)
    );
    // The last one.
    let unknown_offer = Nets {
        bid: Some(197),
        offer: None,
    };
    assert_eq!(
        after(&mut bench, leg_order(6, 0, BUY, 10, 309)),
        unknown_offer
    );
}

#[test]
fn a_trade_and_what_rests_of_it_change_both_nets() {
    let mut bench = Bench::market();
    bench.value(leg_order(5, 0, SELL, 10, 309));
    assert_eq!(
        after(&mut bench, leg_order(6, 0, BUY, 12, 306)),
        known(203, 209)
    );
    // Through two prices, to an empty side.
    let mut bench = Bench::market();
    bench.value(leg_order(5, 0, SELL, 10, 309));
    let bid_alone = Nets {
        bid: Some(206),
        offer: None,
    };
    assert_eq!(after(&mut bench, leg_order(6, 0, BUY, 21, 309)), bid_alone);
}

#[test]
fn a_refused_leg_order_leaves_the_nets() {
    let mut bench = Bench::market();
    assert_eq!(bench.answer(leg_order(5, 2, BUY, 1, 302)), 6);
    let short = bytes(&leg_order(5, 0, BUY, 1, 302));
    assert_eq!(bench.book.step(&short, SPACE - 1).answer, 1);
    for _ in 4..32 {
        bench.value(leg_order(5, 0, BUY, 1, 1));
    }
    assert_eq!(bench.answer(leg_order(5, 0, BUY, 1, 302)), 12);
    assert_eq!(nets(&bench), known(197, 205));
}

// Cancels.

#[test]
fn a_cancel_of_the_best_leg_order_leaves_the_next_price() {
    let mut bench = Bench::market();
    bench.value(leg_order(5, 0, BUY, 1, 302));
    bench.value(leg_order(6, 0, BUY, 1, 301));
    assert_eq!(after(&mut bench, cancel(5, 5)), known(198, 205));
    assert_eq!(after(&mut bench, cancel(6, 6)), known(197, 205));
    let offer_alone = Nets {
        bid: None,
        offer: Some(205),
    };
    assert_eq!(after(&mut bench, cancel(1, 1)), offer_alone);
}

#[test]
fn a_cancel_behind_the_best_or_of_one_of_several_there_changes_none() {
    let mut bench = Bench::market();
    bench.value(leg_order(5, 0, BUY, 1, 300));
    bench.value(leg_order(6, 0, BUY, 1, 299));
    for (member, number) in [(6, 6), (1, 1)] {
        assert_eq!(
            after(&mut bench, cancel(member, number)),
            known(197, 205),
            "{number}"
        );
    }
}

#[test]
fn a_refused_cancel_leaves_the_nets() {
    let mut bench = Bench::market();
    assert_eq!(bench.answer(cancel(2, 1)), 7);
    assert_eq!(nets(&bench), known(197, 205));
}

// Fills by legs, read in the same event.

#[test]
fn the_next_turn_of_a_pass_reads_the_net_after_the_fill() {
    // 2 at 305, then 306: the second turn is at 206, and not at 205 once more.
    let mut bench = Bench::market();
    bench.value(cancel(2, 2));
    bench.value(leg_order(5, 0, SELL, 2, 305));
    bench.value(leg_order(6, 0, SELL, 5, 306));
    assert_eq!(nets(&bench), known(197, 205));
    let records = bench.records(complex(9, 0, BUY, MAKER, DAY, 4, 206));
    let whole_fills: Vec<[i32; 6]> = records.into_iter().filter(|r| r[0] == 1).collect();
    assert_eq!(whole_fills, [[1, 7, 0, 0, 2, 205], [1, 7, 0, 0, 2, 206]]);
    assert_eq!(nets(&bench), known(197, 206));
    // At a limit of 206 no more than the 3 left there; the rest stays.
    let records = bench.records(complex(9, 0, BUY, MAKER, DAY, 4, 206));
    assert_eq!(records[0], [1, 8, 0, 0, 3, 206]);
    assert_eq!(bench.book.live(8), 1);
    let unknown_offer = Nets {
        bid: Some(197),
        offer: None,
    };
    assert_eq!(nets(&bench), unknown_offer);
}

#[test]
fn a_pass_stops_where_its_fill_made_the_net_worse_than_the_limit() {
    let mut bench = Bench::market();
    bench.value(leg_order(6, 0, SELL, 5, 306));
    let mut expected = bought_by_legs(6, 10);
    expected.push([3, 6, 0, 0, 2, 0]);
    // Bids in series 1 are gone as well: 10 of 10.
    assert_eq!(
        bench.records(complex(9, 0, BUY, MAKER, IMMEDIATE, 12, 209)),
        expected
    );
    let unknown_offer = Nets {
        bid: Some(197),
        offer: None,
    };
    assert_eq!(nets(&bench), unknown_offer);
    // With more bids there the net is 206: past a limit of 205.
    let mut bench = Bench::market();
    bench.value(leg_order(6, 0, SELL, 5, 306));
    bench.value(leg_order(6, 1, BUY, 5, 100));
    let records = bench.records(complex(9, 0, BUY, MAKER, IMMEDIATE, 12, 205));
    assert_eq!(records.last(), Some(&[3, 7, 0, 0, 2, 0]));
    assert_eq!(nets(&bench), known(197, 206));
}

#[test]
fn a_turn_takes_an_opposite_limit_once_its_fill_made_the_net_worse() {
    // Legs at 205 are better than the sell at 206; after them at 207 they are not.
    let mut bench = Bench::market();
    bench.value(cancel(2, 2));
    bench.value(leg_order(5, 0, SELL, 2, 305));
    bench.value(leg_order(6, 0, SELL, 5, 307));
    bench.value(complex(8, 0, SELL, MAKER, DAY, 9, 206));
    let records = bench.records(complex(9, 0, BUY, MAKER, DAY, 4, 207));
    let mut expected = vec![
        [1, 8, 0, 0, 2, 205],
        [2, 8, 0, 0, 2, 305],
        [2, 8, 1, 1, 2, 100],
        [2, 5, 0, 1, 2, 305],
        [2, 3, 1, 0, 2, 100],
    ];
    expected.extend(whole((8, BUY), 7, 2, 206));
    assert_eq!(records, expected);
    assert_eq!(nets(&bench), known(197, 207));
}

#[test]
fn the_next_order_and_the_next_strategy_read_the_nets_after_a_fill() {
    // Two day orders of strategy 0 and one of strategy 1, which shares series 0. The leg
    // order that comes has 3 at 303: 2 for the first, 1 for the second, and none is left
    // for strategy 1 at a net of 253.
    let mut bench = Bench::two_strategies();
    bench.value(complex(8, 0, BUY, MAKER, DAY, 2, 203));
    bench.value(complex(8, 0, BUY, MAKER, DAY, 2, 203));
    bench.value(complex(8, 1, BUY, MAKER, DAY, 2, 253));
    let records = bench.records(leg_order(9, 0, SELL, 3, 303));
    let fills: Vec<[i32; 6]> = records.into_iter().filter(|r| r[0] == 1).collect();
    assert_eq!(fills, [[1, 7, 0, 0, 2, 203], [1, 8, 0, 0, 1, 203]]);
    assert_eq!(nets(&bench), known(197, 205));
    assert_eq!(bench.book.nets(1), Ok(known(247, 255)));
    assert_eq!(bench.book.live(9), 2);
    // With 5 there are two for strategy 1.
    let records = bench.records(leg_order(9, 0, SELL, 5, 303));
    let fills: Vec<[i32; 6]> = records.into_iter().filter(|r| r[0] == 1).collect();
    assert_eq!(fills, [[1, 8, 0, 0, 1, 203], [1, 9, 1, 0, 2, 253]]);
    assert_eq!(nets(&bench), known(197, 203));
    assert_eq!(bench.book.nets(1), Ok(known(247, 253)));
}

#[test]
fn the_passes_at_an_auction_s_end_read_the_nets_of_the_fills_before() {
    // The starter takes the two at 305, the waiting order the next at 307.
    let mut bench = Bench::market();
    bench.value(cancel(2, 2));
    bench.value(leg_order(5, 0, SELL, 2, 305));
    bench.value(leg_order(6, 0, SELL, 5, 307));
    bench.value(complex(8, 0, BUY, CUSTOMER, DAY, 2, 207));
    bench.value(complex(9, 0, BUY, MAKER, RESPONSE, 2, 207));
    let records = bench.records(clock(5_000));
    let fills: Vec<[i32; 6]> = records.into_iter().filter(|r| r[0] == 1).collect();
    assert_eq!(fills, [[1, 7, 0, 0, 2, 205], [1, 8, 0, 0, 2, 207]]);
    assert_eq!(nets(&bench), known(197, 207));
}

#[test]
fn the_passes_of_an_opening_read_the_nets_of_the_fills_before() {
    let mut bench = Bench::two_strategies();
    bench.value(leg_order(7, 0, SELL, 5, 306));
    bench.value(shut(0));
    bench.value(complex(8, 0, BUY, MAKER, DAY, 10, 205));
    bench.value(complex(8, 1, BUY, MAKER, DAY, 2, 256));
    let records = bench.records(open(0));
    let fills: Vec<[i32; 6]> = records.into_iter().filter(|r| r[0] == 1).collect();
    assert_eq!(fills, [[1, 8, 0, 0, 10, 205], [1, 9, 1, 0, 2, 256]]);
    assert_eq!(bench.book.nets(1), Ok(known(247, 256)));
    let unknown_offer = Nets {
        bid: Some(197),
        offer: None,
    };
    assert_eq!(nets(&bench), unknown_offer);
}

#[test]
fn a_fill_by_legs_changes_the_nets_by_every_leg() {
    // Both best prices go in one fill: 306 less 99 is left.
    let mut bench = Bench::market();
    bench.value(leg_order(5, 0, SELL, 5, 306));
    bench.value(leg_order(6, 1, BUY, 5, 99));
    bench.value(complex(9, 0, BUY, MAKER, DAY, 10, 205));
    assert_eq!(nets(&bench), known(197, 207));
}

#[test]
fn a_sale_by_legs_changes_the_bid_net() {
    let mut bench = Bench::market();
    bench.value(leg_order(5, 0, BUY, 5, 299));
    bench.value(leg_order(6, 1, SELL, 5, 104));
    bench.value(complex(9, 0, SELL, MAKER, DAY, 10, 197));
    assert_eq!(nets(&bench), known(195, 205));
}

// The checks that read them.

#[test]
fn an_auction_starts_by_the_net_of_now() {
    // At the definition the bid net was unknown, then 197; with a better bid it is 199.
    let mut bench = Bench::market();
    bench.value(leg_order(5, 0, BUY, 1, 302));
    let customer = |limit: i32| complex(9, 0, BUY, CUSTOMER, IMMEDIATE, 1, limit);
    assert_eq!(bench.records(customer(199)), [[3, 6, 0, 0, 1, 0]]);
    // Without it 199 betters the net again.
    bench.value(cancel(5, 5));
    assert_eq!(bench.records(customer(197)), [[3, 7, 0, 0, 1, 0]]);
    assert_eq!(bench.records(customer(198)), [[4, 8, 0, 0, 1, 198]]);
}

#[test]
fn a_sale_starts_an_auction_by_the_offer_net_of_now() {
    let mut bench = Bench::market();
    bench.value(leg_order(5, 1, BUY, 1, 102));
    let customer = |limit: i32| complex(9, 0, SELL, CUSTOMER, IMMEDIATE, 1, limit);
    assert_eq!(bench.records(customer(203)), [[3, 6, 0, 1, 1, 0]]);
    assert_eq!(bench.records(customer(202)), [[4, 7, 0, 1, 1, 202]]);
}

#[test]
fn an_unknown_net_starts_no_auction_after_it_was_known() {
    let mut bench = Bench::market();
    bench.value(cancel(1, 1));
    let records = bench.records(complex(9, 0, BUY, CUSTOMER, IMMEDIATE, 1, 204));
    assert_eq!(records, [[3, 5, 0, 0, 1, 0]]);
}

#[test]
fn refusal_15_goes_by_the_net_of_now() {
    let mut bench = Bench::market();
    bench.value(complex(9, 0, BUY, CUSTOMER, DAY, 2, 204));
    bench.value(leg_order(5, 0, BUY, 1, 302));
    assert_eq!(bench.answer(sweep(8, 0, BUY, 1, 199)), 15);
    assert_eq!(bench.answer(sweep(8, 0, BUY, 1, 200)), 0);
    bench.value(cancel(5, 6));
    assert_eq!(bench.answer(sweep(8, 0, BUY, 1, 198)), 0);
    bench.value(cancel(1, 1));
    assert_eq!(bench.answer(sweep(8, 0, BUY, 1, -500)), 0);
}

// Shut series.

#[test]
fn a_series_that_shuts_leaves_the_nets() {
    let mut bench = Bench::market();
    for event in [shut(0), shut(1), open(0), open(1)] {
        assert_eq!(after(&mut bench, event), known(197, 205), "{event:?}");
    }
}

#[test]
fn a_strategy_with_a_shut_series_keeps_its_nets_true() {
    let mut bench = Bench::market();
    bench.value(leg_order(5, 0, BUY, 1, 302));
    bench.value(shut(0));
    // The leg orders of the shut series count, and may be cancelled.
    assert_eq!(nets(&bench), known(199, 205));
    assert_eq!(after(&mut bench, cancel(5, 5)), known(197, 205));
    // A leg order in the open one.
    assert_eq!(
        after(&mut bench, leg_order(6, 1, BUY, 1, 102)),
        known(197, 203)
    );
    assert_eq!(after(&mut bench, open(0)), known(197, 203));
}

#[test]
fn a_strategy_defined_beside_a_shut_series_has_its_nets() {
    let mut bench = Bench::market();
    bench.value(shut(0));
    bench.value(shut(1));
    assert_eq!(bench.value(strategy(&[(0, BUY, 1), (1, BUY, 1)])), 1);
    assert_eq!(bench.book.nets(1), Ok(known(400, 408)));
}

// Several strategies.

#[test]
fn every_strategy_that_holds_the_series_changes_and_no_other() {
    let mut bench = Bench::two_strategies();
    bench.value(strategy(&[(1, BUY, 1), (2, BUY, 1)]));
    bench.value(strategy(&[(0, SELL, 3), (1, BUY, 1), (2, BUY, 2)]));
    let all = |bench: &Bench| {
        are_kept(&bench.book);
        [0, 1, 2, 3].map(|number| bench.book.nets(number).expect("it is defined"))
    };
    let market = [
        known(197, 205),
        known(247, 255),
        known(150, 156),
        known(-715, -691),
    ];
    assert_eq!(all(&bench), market);
    bench.value(leg_order(8, 0, SELL, 1, 303));
    let better = [
        known(197, 203),
        known(247, 253),
        known(150, 156),
        known(-709, -691),
    ];
    assert_eq!(all(&bench), better);
    bench.value(cancel(8, 7));
    assert_eq!(all(&bench), market);
}

#[test]
fn sixteen_strategies_of_one_series() {
    let mut bench = Bench::market();
    for series in 2..=16 {
        bench.value(open(series));
        let price = 10 * u32::from(series);
        bench.value(leg_order(7, series, SELL, 1, price));
        bench.value(strategy(&[(0, BUY, 1), (series, SELL, 1)]));
    }
    bench.value(leg_order(8, 0, BUY, 1, 302));
    are_kept(&bench.book);
    for number in 1..16 {
        let bid = Some(302 - 10 * i64::from(number + 1));
        assert_eq!(bench.book.nets(number), Ok(Nets { bid, offer: None }));
    }
}

// The lookup.

#[test]
fn a_strategy_that_is_not_defined_gets_4() {
    let bench = Bench::market();
    assert!(bench.book.nets(0).is_ok());
    for number in [1, 15, 16, 17, 255, 256, u32::MAX] {
        assert_eq!(bench.book.nets(number), Err(4), "{number}");
    }
    assert_eq!(Book::first().nets(0), Err(4));
    let mut bench = Bench::new();
    for series in 1..=16 {
        bench.value(strategy(&[(0, BUY, 1), (series, SELL, 1)]));
    }
    assert_eq!(bench.book.nets(15), Ok(Nets::UNKNOWN));
    assert_eq!(bench.book.nets(16), Err(4));
}

#[test]
fn the_lines_of_the_nets_stand_between_shut_legs_and_depths() {
    let events = [
        open(0),
        open(1),
        strategy(&[(0, BUY, 1), (1, SELL, 1)]),
        strategy(&[(0, SELL, 1), (1, BUY, 1)]),
        strategy(&[(0, BUY, 1), (2, BUY, 1)]),
        leg_order(7, 0, BUY, 5, 300),
        leg_order(7, 0, SELL, 5, 305),
        leg_order(7, 1, SELL, 5, 103),
        shut(1),
    ];
    let calls_of = |event: &Event| {
        let frame = bytes(event);
        item(&Input {
            frame,
            space: SPACE,
        })
    };
    let input: Vec<u8> = events.iter().flat_map(calls_of).collect();
    let mut lines = Vec::new();
    calls(&input, &mut lines).expect("a Vec takes every line");
    let text = String::from_utf8(lines).expect("the lines are ASCII");
    let lookups = text.split_once("E 8 0 0 0\n").expect("the last call").1;
    assert_eq!(
        lookups,
        "L 1 5\nL 2 5\nL 3 5\n\
         S 0 1 1\nS 1 1 1\nS 2 1 2\n\
         N 0 197 -\nN 1 - -197\nN 2 - -\n\
         D 0 0 300 5\nD 0 1 305 5\nD 1 1 103 5\n"
    );
}

// The day end, and what touches no leg order.

#[test]
fn after_a_day_end_no_strategy_is_held() {
    let mut bench = Bench::market();
    bench.value(Event::DayEnd { timer: 100 });
    for number in 0..16 {
        assert_eq!(bench.book.nets(number), Err(4), "{number}");
    }
    assert_eq!(bench.book, Book::fresh(100));
    // The same strategy has the nets of the new day's leg orders, none at first.
    let pair = strategy(&[(0, BUY, 1), (1, SELL, 1)]);
    assert_eq!(after(&mut bench, pair), Nets::UNKNOWN);
    bench.value(open(0));
    bench.value(open(1));
    bench.value(leg_order(1, 0, BUY, 10, 40));
    let bid_alone = Nets {
        bid: Some(30),
        offer: None,
    };
    assert_eq!(after(&mut bench, leg_order(1, 1, SELL, 10, 10)), bid_alone);
    // Another strategy in the slot has its own.
    bench.value(Event::DayEnd { timer: 100 });
    bench.value(open(0));
    bench.value(leg_order(1, 0, BUY, 10, 40));
    assert_eq!(
        after(&mut bench, strategy(&[(0, BUY, 1), (1, BUY, 1)])),
        Nets::UNKNOWN
    );
}

#[test]
fn a_refused_day_end_leaves_the_nets() {
    let mut bench = Bench::market();
    assert_eq!(bench.answer(Event::DayEnd { timer: 0 }), 3);
    assert_eq!(nets(&bench), known(197, 205));
}

#[test]
fn what_touches_no_leg_order_leaves_the_nets() {
    let mut bench = Bench::market();
    for event in [
        national(0, 1, 2),
        national(1, 0, 0),
        range(0),
        range(9_999),
        specialist(9, 0, 100),
        // Orders that rest, fill whole, and are cancelled.
        complex(9, 0, BUY, MAKER, DAY, 5, 198),
        complex(8, 0, SELL, MAKER, DAY, 3, 198),
        cancel(9, 5),
        // An auction with a sweep, withdrawn, and its end.
        complex(9, 0, BUY, CUSTOMER, DAY, 5, 199),
        sweep(8, 0, BUY, 3, 204),
        sweep(8, 0, BUY, 0, 204),
        clock(5_000),
        cancel(9, 7),
    ] {
        assert_eq!(after(&mut bench, event), known(197, 205), "{event:?}");
    }
}

// Every list.

thread_local! {
    /// The fills after which the nets were found anew.
    static FILLS: Cell<u64> = const { Cell::new(0) };
}

fn after_a_fill(book: &Book) {
    FILLS.set(FILLS.get() + 1);
    are_kept(book);
}

/// Plays the list; the nets are those of the leg books after every event and fill.
fn are_kept_over(inputs: &[Input]) -> u64 {
    let mut book = Book::first();
    let mut fills = 0;
    for input in inputs {
        let before = FILLS.get();
        let kept = book.strategies;
        let answer = book.step(&input.frame, input.space);
        fills += FILLS.get() - before;
        are_kept(&book);
        if answer.answer != 0 {
            assert_eq!(book.strategies, kept);
        }
    }
    fills
}

#[test]
fn after_every_event_and_fill_of_generated_lists_they_are_those_of_the_leg_books() {
    // The hook is for the book under test, and not for that of the lists' maker.
    let options = |seed: u64| Options {
        loose: true,
        day_ends: seed.is_multiple_of(2),
    };
    let mut lists: Vec<Vec<Input>> = (0..60)
        .map(|seed| list(seed, 1_500, options(seed)))
        .collect();
    lists.extend((0..120).map(|seed| national_list(seed, 1_500, options(seed))));
    coverage::take();
    coverage::call_after_fills(after_a_fill);
    let fills: u64 = lists.iter().map(|inputs| are_kept_over(inputs)).sum();
    println!("fills: {fills}");
    assert!(fills > 20_000, "{fills}");
}

#[test]
fn after_every_event_of_a_list_that_gives_every_number() {
    for seed in [3, 4] {
        are_kept_over(&long_list(seed, 1_500, true));
    }
}
