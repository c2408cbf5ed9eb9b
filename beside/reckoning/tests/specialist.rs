//! Tests of request 2026-04, "The specialist's portion": a list of events for each
//! reading of it.

#![forbid(unsafe_code)]
#![deny(warnings)]

mod common;

use common::*;
use reckoning::book::{Book, Entry, SPACE};
use reckoning::frames::{bytes, judge, Event};
use reckoning::lists::Input;
use reckoning::passes::{allot, Given, Holders};
use reckoning::specialist::Specialist;
use reckoning::totals::check;

/// The market with an auction in strategy 0: number 5, a customer's buy of so many
/// units at 204.
fn auction(units: u16) -> Bench {
    let mut bench = Bench::market();
    let records = bench.records(complex(9, 0, BUY, CUSTOMER, DAY, units, 204));
    assert_eq!(records, [[4, 5, 0, 0, i32::from(units), 204]]);
    bench
}

/// A sale of so many units at 202, by a sweep.
fn sale(member: u16, units: u16) -> Event {
    sweep(member, 0, SELL, units, 202)
}

/// A sale of so many units at 202, by a waiting order of this class.
fn order(member: u16, class: u8, units: u16) -> Event {
    complex(member, 0, SELL, class, RESPONSE, units, 202)
}

/// The auction's end: what the starter of this number met, in the order of its fills.
fn met(bench: &mut Bench, starter: i32) -> Vec<(i32, i32)> {
    let now = bench.book.clock + bench.book.timer;
    let records = bench.records(clock(now));
    let fills: Vec<_> = records.iter().filter(|record| record[0] == 1).collect();
    (fills.chunks(2))
        .filter(|pair| pair[0][1] == starter)
        .map(|pair| (pair[1][1], pair[1][4]))
        .collect()
}

/// What the starter of 10 units meets at the end of an auction with these answers,
/// when the specialist was named before.
fn met_with(named: Event, answers: &[Event]) -> Vec<(i32, i32)> {
    let mut bench = auction(10);
    assert_eq!(bench.accepted(named), (0, Records::new()));
    for answer in answers {
        bench.value(*answer);
    }
    met(&mut bench, 5)
}

// Reading 11: min(size, max(share, percentage)), both rounded down.

#[test]
fn the_greater_of_share_and_percentage() {
    // 10 over 7, 7, 7: shares of 3, and one unit left over.
    let answers = [sale(1, 7), sale(2, 7), sale(3, 7)];
    for (percentage, expected) in [
        (0, [(6, 4), (7, 3), (8, 3)]),
        (10, [(6, 4), (7, 3), (8, 3)]),
        (30, [(6, 4), (7, 3), (8, 3)]),
        (39, [(6, 4), (7, 3), (8, 3)]),
        (40, [(6, 3), (7, 4), (8, 3)]),
        (59, [(6, 3), (7, 5), (8, 2)]),
        (60, [(6, 2), (7, 6), (8, 2)]),
        (70, [(6, 2), (7, 7), (8, 1)]),
        (100, [(6, 2), (7, 7), (8, 1)]),
    ] {
        let named = specialist(2, 0, percentage);
        assert_eq!(met_with(named, &answers), expected, "{percentage}");
    }
}

#[test]
fn the_percentage_is_rounded_down() {
    // 19 of 100 of 10 are 1.9; the share is 10 x 3 / 31, nothing.
    let answers = [sale(1, 10), sale(2, 3), sale(3, 18)];
    for (percentage, units) in [(0, 0), (9, 0), (10, 1), (19, 1), (20, 2), (29, 2), (30, 3)] {
        let found = met_with(specialist(2, 0, percentage), &answers);
        let own = found.iter().find(|fill| fill.0 == 7);
        assert_eq!(own.map_or(0, |fill| fill.1), units, "{percentage}");
        assert_eq!(found.iter().map(|fill| fill.1).sum::<i32>(), 10);
        // "No fill record has quantity 0."
        assert_eq!(own.is_some(), units > 0);
    }
}

#[test]
fn the_share_is_rounded_down_and_has_no_part_in_the_leftovers() {
    // The first by number would have the unit left over: being named costs it.
    let answers = [sale(1, 7), sale(2, 7), sale(3, 7)];
    let unnamed = [(6, 4), (7, 3), (8, 3)];
    assert_eq!(met_with(specialist(4, 0, 100), &answers), unnamed);
    for percentage in [0, 1, 30, 39] {
        let found = met_with(specialist(1, 0, percentage), &answers);
        assert_eq!(found, [(6, 3), (7, 4), (8, 3)], "{percentage}");
    }
    // 5 over 1, 9: the smaller has a share of nothing, and gets nothing.
    let mut bench = auction(5);
    bench.value(specialist(1, 0, 0));
    bench.value(sale(1, 1));
    bench.value(sale(2, 9));
    assert_eq!(met(&mut bench, 5), [(7, 5)]);
}

#[test]
fn never_above_its_size() {
    let answers = [sale(1, 9), sale(2, 3), sale(3, 9)];
    for percentage in [30, 31, 50, 100] {
        let found = met_with(specialist(2, 0, percentage), &answers);
        assert_eq!(found, [(6, 4), (7, 3), (8, 3)], "{percentage}");
    }
    // A sweep that holds enough takes all that remains.
    let answers = [sale(1, 9), sale(2, 30), sale(3, 9)];
    assert_eq!(met_with(specialist(2, 0, 100), &answers), [(7, 10)]);
}

#[test]
fn a_sweep_that_is_the_whole_group() {
    for percentage in [0, 50, 100] {
        let found = met_with(specialist(2, 0, percentage), &[sale(2, 30)]);
        assert_eq!(found, [(6, 10)], "{percentage}");
    }
}

// "The rest of the group shares what is left by the old sharing rule."

#[test]
fn the_rest_shares_by_its_own_total() {
    // 50 of 100 of 10 are 5; 5 over 2, 6 gives 1.25 and 3.75: 1 and 3, and the unit
    // left over goes to the first.
    let answers = [sale(2, 9), sale(1, 2), sale(3, 6)];
    let found = met_with(specialist(2, 0, 50), &answers);
    assert_eq!(found, [(6, 5), (7, 2), (8, 3)]);
    // The leftovers of the rest never go to the specialist.
    let answers = [sale(2, 9), sale(1, 5), sale(3, 5), sale(4, 5)];
    let found = met_with(specialist(2, 0, 50), &answers);
    assert_eq!(found, [(6, 5), (7, 2), (8, 2), (9, 1)]);
}

// Reading 12: what remains, and whether the group must be shared.

#[test]
fn the_percentage_of_what_remains_after_customers() {
    // 6 remain: 50 of 100 are 3, where of 10 they were 5. The share is 6 x 5 / 23.
    let answers = [order(8, CUSTOMER, 4), sale(1, 18), sale(2, 5)];
    let found = met_with(specialist(2, 0, 50), &answers);
    assert_eq!(found, [(6, 4), (7, 3), (8, 3)]);
    // A customer that comes last stands first, and one at a worse limit not at all.
    let answers = [sale(1, 18), sale(2, 5), order(8, CUSTOMER, 4)];
    let found = met_with(specialist(2, 0, 50), &answers);
    assert_eq!(found, [(8, 4), (6, 3), (7, 3)]);
    let worse = complex(8, 0, SELL, CUSTOMER, RESPONSE, 4, 203);
    let found = met_with(specialist(2, 0, 50), &[worse, sale(1, 18), sale(2, 5)]);
    assert_eq!(found, [(7, 5), (8, 5)]);
}

#[test]
fn customers_that_take_all_leave_no_portion() {
    let answers = [sale(2, 5), order(8, CUSTOMER, 10), sale(1, 5)];
    assert_eq!(met_with(specialist(2, 0, 100), &answers), [(7, 10)]);
}

#[test]
fn the_percentage_of_what_remains_at_this_limit() {
    // At 201 the group is not shared: all of it. At 202 4 remain, and 50 of 100 are 2;
    // of 10 they were 5.
    let better = |member, units| sweep(member, 0, SELL, units, 201);
    let answers = [better(1, 4), better(2, 2), sale(2, 9), sale(1, 90)];
    let found = met_with(specialist(2, 0, 50), &answers);
    assert_eq!(found, [(6, 4), (7, 2), (8, 2), (9, 2)]);
    // The same without a sweep of its own at the better limit.
    let answers = [better(1, 6), sale(2, 9), sale(1, 90)];
    let found = met_with(specialist(2, 0, 50), &answers);
    assert_eq!(found, [(6, 6), (7, 2), (8, 2)]);
    // Shared at the better limit: nothing remains for the other.
    let answers = [better(1, 9), better(2, 9), sale(2, 9)];
    let found = met_with(specialist(2, 0, 70), &answers);
    assert_eq!(found, [(6, 3), (7, 7)]);
}

#[test]
fn the_sweep_is_in_the_total_that_asks_for_sharing() {
    // The rest alone is not larger than 10: 9 x 10 / 12 are 7.
    let found = met_with(specialist(2, 0, 0), &[sale(2, 9), sale(1, 3)]);
    assert_eq!(found, [(6, 7), (7, 3)]);
    let found = met_with(specialist(2, 0, 80), &[sale(2, 9), sale(1, 3)]);
    assert_eq!(found, [(6, 8), (7, 2)]);
    let found = met_with(specialist(2, 0, 100), &[sale(1, 3), sale(2, 9)]);
    assert_eq!(found, [(6, 1), (7, 9)]);
    // One more than what remains; and as much.
    let found = met_with(specialist(2, 0, 10), &[sale(1, 5), sale(2, 6)]);
    assert_eq!(found, [(6, 5), (7, 5)]);
    let found = met_with(specialist(2, 0, 90), &[sale(1, 5), sale(2, 5)]);
    assert_eq!(found, [(6, 5), (7, 5)]);
}

#[test]
fn a_group_that_is_not_shared_fills_in_full() {
    for percentage in [0, 10, 100] {
        let answers = [sale(1, 3), sale(2, 2), sale(3, 4)];
        let found = met_with(specialist(2, 0, percentage), &answers);
        assert_eq!(found, [(6, 3), (7, 2), (8, 4)], "{percentage}");
    }
    // Broker-dealers come behind it, and share by the old rule.
    let answers = [
        sale(2, 2),
        order(2, BROKER, 7),
        order(1, BROKER, 7),
        order(3, BROKER, 7),
    ];
    let found = met_with(specialist(2, 0, 90), &answers);
    assert_eq!(found, [(6, 2), (7, 3), (8, 3), (9, 2)]);
}

// Reading 13: its place, and what counts as its sweep.

#[test]
fn fills_stay_by_number() {
    let own = sale(2, 9);
    let (first, second) = (sale(1, 4), sale(3, 4));
    for (answers, expected) in [
        ([own, first, second], [(6, 6), (7, 2), (8, 2)]),
        ([first, own, second], [(6, 2), (7, 6), (8, 2)]),
        ([first, second, own], [(6, 2), (7, 2), (8, 6)]),
    ] {
        assert_eq!(met_with(specialist(2, 0, 60), &answers), expected);
    }
    // A sweep that replaces another stands under its new number.
    let answers = [own, first, sale(2, 8), second];
    let found = met_with(specialist(2, 0, 60), &answers);
    assert_eq!(found, [(7, 2), (8, 6), (9, 2)]);
}

#[test]
fn the_records_of_a_portion() {
    let mut bench = auction(10);
    bench.value(specialist(2, 0, 60));
    bench.value(sale(1, 7));
    bench.value(sale(2, 7));
    let mut expected = whole((5, BUY), 6, 4, 202);
    expected.extend(whole((5, BUY), 7, 6, 202));
    expected.push([3, 6, 0, 1, 3, 0]);
    expected.push([3, 7, 0, 1, 1, 0]);
    expected.push([5, 5, 0, 0, 0, 0]);
    assert_eq!(bench.records(clock(5_000)), expected);
}

#[test]
fn a_market_maker_s_order_of_its_member_is_of_the_rest() {
    // Alone: the old rule, 4, 3, 3.
    let answers = [sale(1, 7), order(2, MAKER, 7), sale(3, 7)];
    let found = met_with(specialist(2, 0, 100), &answers);
    assert_eq!(found, [(6, 4), (7, 3), (8, 3)]);
    // Before the sweep and behind it: 3 for the sweep, 7 over 7 and 7.
    let answers = [sale(1, 7), order(2, MAKER, 7), sale(2, 3)];
    let found = met_with(specialist(2, 0, 100), &answers);
    assert_eq!(found, [(6, 4), (7, 3), (8, 3)]);
    let answers = [sale(2, 3), order(2, MAKER, 7), sale(1, 7)];
    let found = met_with(specialist(2, 0, 100), &answers);
    assert_eq!(found, [(6, 3), (7, 4), (8, 3)]);
    // A day order from before the auction too.
    let mut bench = Bench::market();
    bench.value(complex(2, 0, SELL, MAKER, DAY, 8, 202));
    bench.value(specialist(2, 0, 50));
    bench.value(complex(9, 0, BUY, CUSTOMER, DAY, 10, 204));
    bench.value(sale(2, 6));
    bench.value(sale(1, 8));
    assert_eq!(met(&mut bench, 6), [(5, 3), (7, 5), (8, 2)]);
}

#[test]
fn a_customer_or_broker_dealer_of_its_member_goes_with_its_group() {
    let answers = [
        sale(1, 9),
        order(2, CUSTOMER, 2),
        sale(2, 9),
        order(2, BROKER, 5),
    ];
    let found = met_with(specialist(2, 0, 75), &answers);
    assert_eq!(found, [(7, 2), (6, 2), (8, 6)]);
}

#[test]
fn a_sweep_at_another_limit_is_of_that_limit() {
    // The specialist has none at 202, where the others share.
    let worse = sweep(2, 0, SELL, 9, 203);
    let answers = [worse, sale(1, 7), sale(3, 7), sale(4, 7)];
    let found = met_with(specialist(2, 0, 100), &answers);
    assert_eq!(found, [(7, 4), (8, 3), (9, 3)]);
}

/// What a group gives by the old rule, one unit after the other.
fn by_the_old_rule(remaining: u32, sizes: &[u32]) -> Vec<u32> {
    let total: u32 = sizes.iter().sum();
    if total <= remaining {
        return sizes.to_vec();
    }
    let share = |size: &u32| (0..=*size).rev().find(|u| u * total <= remaining * size);
    let mut shares: Vec<u32> = sizes.iter().map(|size| share(size).unwrap_or(0)).collect();
    let mut at = 0;
    while shares.iter().sum::<u32>() < remaining {
        shares[at] += 1;
        at += 1;
    }
    shares
}

#[test]
fn every_small_group() {
    // Up to four sweeps of one to five units each: the portion is the largest number
    // that is within the size, and within the share or the percentage. Each gets its
    // size at most, and together they give all that remains.
    let mut tried = 0;
    let mut cost = 0;
    for count in 1..=4_u32 {
        for number in 0..5_u32.pow(count) {
            let sizes: Vec<u32> = (0..count)
                .map(|at| 1 + number / 5_u32.pow(at) % 5)
                .collect();
            let total: u32 = sizes.iter().sum();
            let holders: Vec<Entry> = (sizes.iter().enumerate())
                .map(|(at, units)| Entry {
                    number: 1 + at as u32,
                    member: 1 + at as u16,
                    units: *units,
                    group: 1,
                    ..Entry::default()
                })
                .collect();
            let place = number as usize % sizes.len();
            for remaining in 1..=total + 1 {
                for percentage in [0, 1, 10, 25, 33, 34, 50, 66, 67, 75, 99, 100] {
                    let mut expected = by_the_old_rule(remaining, &sizes);
                    if total > remaining {
                        let old = expected[place];
                        let own = sizes[place];
                        let within = |units: &u32| {
                            units * total <= remaining * own
                                || units * 100 <= percentage * remaining
                        };
                        let portion = (0..=own).rev().find(within).unwrap_or(0);
                        let mut rest = sizes.clone();
                        rest.remove(place);
                        assert!(rest.iter().sum::<u32>() >= remaining - portion);
                        expected = by_the_old_rule(remaining - portion, &rest);
                        expected.insert(place, portion);
                        cost += u32::from(portion < old);
                        assert!(portion + 1 >= old);
                    }
                    let named = Specialist {
                        member: 1 + place as u16,
                        percentage: percentage as u8,
                    };
                    let found = allot(&holders, Holders::Shared(Some(named)), remaining);
                    let expected: Vec<Given> = (1..)
                        .zip(&expected)
                        .map(|(number, units)| Given {
                            number,
                            units: *units,
                        })
                        .filter(|given| given.units > 0)
                        .collect();
                    assert_eq!(found[..], expected, "{sizes:?}, {remaining}, {named:?}");
                    assert!((holders.iter().zip(&sizes)).all(|(holder, size)| {
                        let own = found.iter().find(|given| given.number == holder.number);
                        own.is_none_or(|given| given.units <= *size)
                    }));
                    let given: u32 = found.iter().map(|given| given.units).sum();
                    assert_eq!(given, remaining.min(total));
                    tried += 1;
                }
            }
        }
    }
    assert!(tried > 50_000 && cost > 100, "{tried}, {cost}");
}

#[test]
fn the_largest_numbers() {
    // 16 sweeps of 9,999 for a starter of 9,999: 624 each, and 15 left over.
    let mut bench = auction(9_999);
    bench.value(specialist(16, 0, 99));
    for member in 1..=16 {
        bench.value(sale(member, 9_999));
    }
    // 99 of 100 of 9,999 are 9,899.01; the other 100 over 15 are 6, and 10 left over.
    let found = met(&mut bench, 5);
    let mut expected: Vec<(i32, i32)> = (6..21).map(|at| (at, 6)).collect();
    expected[..10].iter_mut().for_each(|fill| fill.1 += 1);
    expected.push((21, 9_899));
    assert_eq!(found, expected);
}

// Reading 14: who is the specialist, and when.

#[test]
fn the_last_one_named_holds() {
    // Members 1 and 2 in turn, before the auction and in it.
    let answers = [sale(1, 9), sale(2, 9)];
    let expected = |last: u16| match last {
        1 => [(6, 8), (7, 2)],
        _ => [(6, 2), (7, 8)],
    };
    for (first, last) in [(1, 2), (2, 1)] {
        for in_the_auction in [false, true] {
            let mut bench = Bench::market();
            bench.value(specialist(first, 0, 100));
            if !in_the_auction {
                bench.value(specialist(last, 0, 80));
            }
            bench.value(complex(9, 0, BUY, CUSTOMER, DAY, 10, 204));
            bench.value(answers[0]);
            if in_the_auction {
                bench.value(specialist(last, 0, 80));
            }
            bench.value(answers[1]);
            assert_eq!(met(&mut bench, 5), expected(last), "{first}, {last}");
        }
    }
}

#[test]
fn the_last_percentage_holds() {
    for (percentages, units) in [([80, 60], 6), ([60, 80], 8), ([100, 0], 5)] {
        let mut bench = auction(10);
        for percentage in percentages {
            bench.value(specialist(2, 0, percentage));
        }
        bench.value(sale(1, 9));
        bench.value(sale(2, 9));
        assert_eq!(met(&mut bench, 5), [(6, 10 - units), (7, units)]);
    }
}

#[test]
fn one_named_when_its_sweep_is_in_has_its_portion() {
    // After all answers, a millisecond before the end.
    let mut bench = auction(10);
    bench.value(sale(1, 9));
    bench.value(sale(2, 9));
    bench.value(clock(4_999));
    bench.value(specialist(2, 0, 80));
    assert_eq!(met(&mut bench, 5), [(6, 2), (7, 8)]);
}

#[test]
fn a_specialist_stays_until_the_day_ends() {
    let answers = [sale(1, 9), sale(2, 9)];
    let mut bench = Bench::market();
    bench.value(specialist(2, 0, 80));
    // Over auctions, a halt and an equal definition.
    for starter in [5, 8, 11] {
        bench.value(complex(9, 0, BUY, CUSTOMER, IMMEDIATE, 10, 204));
        bench.value(answers[0]);
        bench.value(answers[1]);
        assert_eq!(
            met(&mut bench, starter),
            [(starter + 1, 2), (starter + 2, 8)]
        );
        bench.value(shut(0));
        bench.value(open(0));
        assert_eq!(bench.value(strategy(&[(1, SELL, 2), (0, BUY, 2)])), 0);
    }
    // The next day has none.
    bench.value(Event::DayEnd { timer: 5_000 });
    assert_eq!(bench.book, Book::first());
    for event in [
        open(0),
        open(1),
        strategy(&[(0, BUY, 1), (1, SELL, 1)]),
        leg_order(1, 0, BUY, 10, 300),
        leg_order(2, 0, SELL, 10, 305),
        leg_order(3, 1, BUY, 10, 100),
        leg_order(4, 1, SELL, 10, 103),
        complex(9, 0, BUY, CUSTOMER, DAY, 10, 204),
        answers[0],
        answers[1],
    ] {
        bench.value(event);
    }
    assert_eq!(met(&mut bench, 5), [(6, 5), (7, 5)]);
}

#[test]
fn each_strategy_has_its_own() {
    let answers = |bench: &mut Bench, of: u8, limit: i32| {
        bench.value(complex(
            9,
            of,
            BUY,
            CUSTOMER,
            IMMEDIATE,
            10,
            [204, 254][usize::from(of)],
        ));
        bench.value(sweep(1, of, SELL, 9, limit));
        bench.value(sweep(2, of, SELL, 9, limit));
    };
    for (named, first, second) in [
        (&[(1, 0), (2, 1)][..], [8, 2], [2, 8]),
        (&[(2, 1)], [5, 5], [2, 8]),
        (&[(1, 0)], [8, 2], [5, 5]),
        (&[(2, 0), (2, 1)], [2, 8], [2, 8]),
    ] {
        let mut bench = Bench::two_strategies();
        for (member, of) in named {
            bench.value(specialist(*member, *of, 80));
        }
        answers(&mut bench, 0, 202);
        let found = met(&mut bench, 7);
        assert_eq!(found, [(8, first[0]), (9, first[1])], "{named:?}");
        answers(&mut bench, 1, 252);
        let found = met(&mut bench, 10);
        assert_eq!(found, [(11, second[0]), (12, second[1])], "{named:?}");
    }
}

#[test]
fn a_selling_starter_knows_it_too() {
    let mut bench = Bench::market();
    bench.value(specialist(2, 0, 80));
    bench.value(complex(9, 0, SELL, BROKER, DAY, 10, 198));
    bench.value(sweep(1, 0, BUY, 9, 200));
    bench.value(sweep(2, 0, BUY, 9, 200));
    // One on the starter's own side plays no part.
    bench.value(sweep(2, 0, SELL, 9, 200));
    assert_eq!(met(&mut bench, 5), [(6, 2), (7, 8)]);
}

#[test]
fn a_starter_of_its_own_member_meets_it_like_any_other() {
    let mut bench = Bench::market();
    bench.value(specialist(2, 0, 80));
    bench.value(complex(2, 0, BUY, CUSTOMER, DAY, 10, 204));
    bench.value(sale(1, 9));
    bench.value(sale(2, 9));
    assert_eq!(met(&mut bench, 5), [(6, 2), (7, 8)]);
}

#[test]
fn an_arriving_order_knows_none() {
    // Sweeps live only in auctions, where orders wait, so the member's orders alone
    // could be taken for it: 10 over 7, 7, 7 is 4, 3, 3.
    let mut bench = Bench::market();
    bench.value(specialist(2, 0, 100));
    for member in 1..=3 {
        bench.value(complex(member, 0, SELL, MAKER, DAY, 7, 202));
    }
    let records = bench.records(complex(9, 0, BUY, MAKER, IMMEDIATE, 10, 202));
    let mut expected = whole((8, BUY), 5, 4, 202);
    expected.extend(whole((8, BUY), 6, 3, 202));
    expected.extend(whole((8, BUY), 7, 3, 202));
    assert_eq!(records, expected);
}

#[test]
fn numbered_passes_go_by_number_alone() {
    // What the starter leaves of the sweeps, 7 and 6, goes by number.
    let mut bench = auction(10);
    bench.value(specialist(2, 0, 80));
    bench.value(sale(1, 9));
    bench.value(sale(2, 14));
    bench.value(complex(8, 0, BUY, MAKER, RESPONSE, 8, 203));
    let records = bench.records(clock(5_000));
    let mut expected = whole((5, BUY), 6, 2, 202);
    expected.extend(whole((5, BUY), 7, 8, 202));
    // The sweeps have their own passes first, and meet the buy at 203.
    expected.extend(whole((6, SELL), 8, 7, 203));
    expected.extend(whole((7, SELL), 8, 1, 203));
    expected.push([3, 7, 0, 1, 5, 0]);
    expected.push([5, 5, 0, 0, 0, 0]);
    assert_eq!(records, expected);
    // A waiting buy that came before the sweeps meets them by number.
    let mut bench = auction(10);
    bench.value(specialist(2, 0, 80));
    bench.value(complex(8, 0, BUY, MAKER, RESPONSE, 8, 203));
    bench.value(sale(1, 9));
    bench.value(sale(2, 14));
    let records = bench.records(clock(5_000));
    let mut expected = whole((5, BUY), 7, 2, 202);
    expected.extend(whole((5, BUY), 8, 8, 202));
    expected.extend(whole((6, BUY), 7, 7, 202));
    expected.extend(whole((6, BUY), 8, 1, 202));
    expected.push([3, 8, 0, 1, 5, 0]);
    expected.push([5, 5, 0, 0, 0, 0]);
    assert_eq!(records, expected);
}

#[test]
fn a_pass_that_the_range_stops_gives_no_portion() {
    let mut bench = auction(10);
    bench.value(specialist(2, 0, 80));
    bench.value(sale(1, 9));
    bench.value(sale(2, 9));
    bench.value(national(0, 290, 295));
    bench.value(national(1, 100, 103));
    bench.value(range(0));
    assert_eq!(
        bench.records(clock(5_000)),
        [[3, 6, 0, 1, 9, 0], [3, 7, 0, 1, 9, 0], [5, 5, 0, 0, 0, 0]]
    );
}

#[test]
fn kind_11_answers_0_and_writes_nothing() {
    // Orders rest crossed, since the range kept them apart, and legs are ready: it
    // starts no pass and changes nothing but the specialist.
    let mut bench = Bench::market();
    bench.value(national(0, 290, 295));
    bench.value(national(1, 100, 103));
    bench.value(range(0));
    bench.value(complex(2, 0, SELL, MAKER, DAY, 5, 202));
    bench.value(complex(3, 0, BUY, MAKER, DAY, 5, 206));
    bench.value(range(9_999));
    let before = bench.book.clone();
    assert_eq!(bench.accepted(specialist(2, 0, 50)), (0, Records::new()));
    let mut expected = before.clone();
    expected.specialists[0] = Some(Specialist {
        member: 2,
        percentage: 50,
    });
    assert_eq!(bench.book, expected);
    // In an auction as well.
    let mut bench = auction(10);
    bench.value(sale(2, 20));
    assert_eq!(bench.accepted(specialist(2, 0, 50)), (0, Records::new()));
    assert_eq!(bench.book.live(5), 10);
}

#[test]
fn a_member_without_orders_and_a_shut_strategy() {
    let mut bench = Bench::new();
    assert_eq!(bench.value(strategy(&[(0, BUY, 1), (1, SELL, 1)])), 0);
    for percentage in [0, 100] {
        for member in [1, 65_535] {
            let named = bench.accepted(specialist(member, 0, percentage));
            assert_eq!(named, (0, Records::new()));
        }
    }
}

// "an undefined strategy gets 4": causes 1, 2, 3, 4.

#[test]
fn an_undefined_strategy_gets_4() {
    let mut bench = Bench::market();
    for of in 1..=15 {
        let before = bench.book.clone();
        assert_eq!(bench.answer(specialist(2, of, 50)), 4);
        assert_eq!(bench.book, before);
    }
    assert_eq!(bench.answer(specialist(2, 16, 50)), 3);
    // What was refused is not kept: the strategy that is defined then has none.
    bench.value(open(2));
    bench.value(leg_order(5, 2, BUY, 10, 50));
    bench.value(leg_order(6, 2, SELL, 10, 53));
    assert_eq!(bench.value(strategy(&[(0, BUY, 1), (2, SELL, 1)])), 1);
    bench.value(complex(9, 1, BUY, CUSTOMER, DAY, 10, 254));
    bench.value(sweep(1, 1, SELL, 9, 252));
    bench.value(sweep(2, 1, SELL, 9, 252));
    assert_eq!(met(&mut bench, 7), [(8, 5), (9, 5)]);
    assert_eq!(bench.answer(specialist(2, 1, 50)), 0);
    assert_eq!(bench.answer(specialist(2, 2, 50)), 4);
}

#[test]
fn the_sixteenth_strategy_has_one() {
    let mut bench = Bench::market();
    for other in 2..=16 {
        assert_eq!(bench.answer(specialist(2, other - 1, 50)), 4);
        let number = bench.value(strategy(&[(0, BUY, 1), (other, SELL, 1)]));
        assert_eq!(number, u32::from(other) - 1);
        assert_eq!(bench.answer(specialist(2, other - 1, 50)), 0);
    }
    assert_eq!(bench.book.specialists.iter().flatten().count(), 15);
    assert_eq!(bench.answer(specialist(2, 16, 50)), 3);
    assert_eq!(bench.answer(specialist(2, 0, 50)), 0);
}

#[test]
fn causes_in_their_order() {
    let mut bench = Bench::market();
    let frame = bytes(&specialist(2, 1, 50));
    assert_eq!(judge(&frame), 0, "judged for 2 and 3 alone");
    let bad = bytes(&specialist(0, 1, 101));
    for (answer, frame, space) in [
        (1, &frame[..], SPACE - 1),
        (1, &frame[..], 0),
        (1, &frame[..7], 0),
        (1, &bad[..], SPACE - 1),
        (2, &frame[..7], SPACE),
        (2, &bad[..7], SPACE),
        (3, &bad[..], SPACE),
        (4, &frame[..], SPACE),
        (4, &frame[..], SPACE + 1),
    ] {
        let before = bench.book.clone();
        let found = bench.book.step(frame, space);
        assert_eq!((found.answer, found.value), (answer, 0));
        assert!(found.records.is_empty());
        assert_eq!(bench.book, before);
    }
    for event in [
        specialist(0, 1, 50),
        specialist(2, 1, 101),
        specialist(2, 16, 100),
    ] {
        assert_eq!(bench.answer(event), 3, "before 4");
    }
    // It needs no number and no slot.
    let good = bytes(&specialist(2, 0, 50));
    assert_eq!(bench.book.step(&good, SPACE - 1).answer, 1);
    assert_eq!(bench.book.specialists[0], None);
    bench.book.given = 100_000;
    assert_eq!(bench.answer(specialist(2, 0, 50)), 0);
}

// "What members enter still ends as filled, cancelled or live."

#[test]
fn what_members_enter_ends_as_filled_cancelled_or_live() {
    let mut events = vec![
        open(0),
        open(1),
        strategy(&[(0, BUY, 1), (1, SELL, 1)]),
        leg_order(1, 0, BUY, 10, 300),
        leg_order(2, 0, SELL, 10, 305),
        leg_order(3, 1, BUY, 10, 100),
        leg_order(4, 1, SELL, 10, 103),
    ];
    for (at, percentage) in [0, 33, 60, 100].into_iter().enumerate() {
        events.extend([
            specialist(2, 0, percentage),
            complex(9, 0, BUY, CUSTOMER, DAY, 10, 204),
            sale(1, 7),
            order(2, MAKER, 6),
            sale(2, 7),
            order(8, CUSTOMER, 2),
            specialist(3, 1, 50),
            clock(5_000 * (1 + at as u32)),
        ]);
    }
    let mut book = Book::first();
    let inputs: Vec<Input> = (events.iter())
        .map(|event| Input {
            frame: bytes(event),
            space: SPACE,
        })
        .collect();
    let answers: Vec<_> = (inputs.iter())
        .map(|input| book.step(&input.frame, input.space))
        .collect();
    assert_eq!(
        check(&inputs, &answers, &|number| book.live(number)),
        Ok(())
    );
    // One unit more or less of a portion is found.
    let last = answers.len() - 1;
    for change in [-1, 1] {
        let mut answers = answers.clone();
        let fill = answers[last]
            .records
            .iter_mut()
            .rfind(|record| record.kind == 1);
        fill.expect("a fill").quantity += change;
        assert!(check(&inputs, &answers, &|number| book.live(number)).is_err());
    }
    // An answer of kind 11 with a value enters nothing.
    let mut answers = answers.clone();
    answers[7].value = 99_999;
    assert_eq!(
        check(&inputs, &answers, &|number| book.live(number)),
        Ok(())
    );
}
