//! Lists made by hand: spaces of every sort, ends of the input, long frames, depths
//! of leg orders in every order, and the days of `tapes` with full tables, numbers at
//! the ends of their ranges, national prices, best prices, sweeps near the nets,
//! specialists and the nets that strategies keep.

use crate::lists::List;
use reckoning::book::{Book, BUY, LEG_ORDERS, SELL, SPACE};
use reckoning::calls::item;
use reckoning::frames::{bytes, Event, Leg};
use reckoning::generate::LAST_KIND;
use reckoning::lists::Input;
use tapes::days::Day;
use tapes::hand::{
    best_prices, example, extremes, full_tables, kept_nets, national, near_nets, specialists,
};
use tapes::tally::frames;

fn made(name: impl Into<String>, bytes: Vec<u8>) -> List {
    List::Made {
        name: name.into(),
        bytes,
    }
}

fn call(frame: &[u8], space: usize) -> Vec<u8> {
    let frame = frame.to_vec();
    item(&Input { frame, space })
}

/// The frames of a day as calls, each with a whole space.
fn whole(frames: &[&[u8]]) -> Vec<u8> {
    frames.iter().flat_map(|frame| call(frame, SPACE)).collect()
}

/// Each call of the worked example with a space of this length, then again with
/// a whole one.
fn space(length: usize) -> List {
    let example = example();
    let mut bytes = Vec::new();
    for frame in frames(&example) {
        bytes.extend(call(frame, length));
        bytes.extend(call(frame, SPACE));
        bytes.extend(call(&frame[1..], length));
    }
    made(format!("the worked example, spaces of {length}"), bytes)
}

/// Spaces of few numbers, around 15,360, at powers of two, and the longest.
pub fn spaces() -> Vec<List> {
    let mut lengths: Vec<usize> = (0..=12).collect();
    lengths.extend(SPACE - 12..=SPACE + 12);
    for power in 4..16 {
        lengths.extend([(1 << power) - 1, 1 << power, (1 << power) + 1]);
    }
    // The low or high byte alone would be long enough, or too short.
    lengths.extend([0x3b00, 0x3bff, 0x3c00, 0x3cff, 0x3d00, 0x003c, 0x013c]);
    lengths.extend([2_560, 65_534, 65_535]);
    lengths.into_iter().map(space).collect()
}

/// A short list that leaves orders, sweeps and leg orders live, a shut leg, an
/// auction and depth at two prices, with empty frames, short spaces and a frame
/// of 300 bytes in it.
fn short_list() -> Vec<u8> {
    let frames: &[&[u8]] = &[
        &[6, 0, 6, 0, 0, 1],
        &[6, 0, 6, 0, 1, 1],
        &[11, 0, 1, 0, 2, 0, 0, 1, 1, 1, 1],
        &[14, 0, 1, 0, 3, 9, 0, 1, 3, 1, 1, 0, 1, 1],
        &[14, 0, 4, 0, 7, 0, 0, 0, 5, 0, 44, 1, 0, 0],
        &[14, 0, 4, 0, 7, 0, 0, 0, 5, 0, 43, 1, 0, 0],
        &[14, 0, 4, 0, 7, 0, 1, 1, 5, 0, 100, 0, 0, 0],
        &[16, 0, 2, 0, 9, 0, 0, 0, 1, 0, 2, 0, 250, 0, 0, 0],
        &[14, 0, 3, 0, 3, 0, 0, 1, 1, 0, 240, 0, 0, 0],
    ];
    let mut bytes = call(&[], SPACE);
    for (index, frame) in frames.iter().enumerate() {
        bytes.extend(call(frame, SPACE + index % 2));
        if index % 4 == 0 {
            bytes.extend(call(&[], 0));
            bytes.extend(call(frame, SPACE - 1));
        }
    }
    bytes.extend(call(&[6; 300], SPACE));
    bytes
}

/// The short list cut after each of its bytes, and with one to three bytes after
/// it; and inputs of few bytes.
pub fn ends() -> Vec<List> {
    let list = short_list();
    let mut lists: Vec<List> = (0..=list.len())
        .map(|length| {
            let name = format!("the short list cut to {length} bytes");
            made(name, list[..length].to_vec())
        })
        .collect();
    for byte in [0, 1, 6, 60, 255] {
        for length in 1..=5 {
            let end = vec![byte; length];
            let name = format!("the bytes {end:?}");
            let after = [&list[..], &end].concat();
            lists.push(made(format!("the short list and {name}"), after));
            lists.push(made(name, end));
        }
    }
    lists
}

/// Frames of up to 65,535 bytes, their length field right or wrong, each with a
/// valid call after it; then one that is cut.
pub fn long_frames() -> Vec<List> {
    let open = [6, 0, 6, 0, 3, 1];
    let mut lists = Vec::new();
    for length in [
        255u16, 256, 257, 1_000, 4_096, 32_767, 32_768, 65_534, 65_535,
    ] {
        for field in [length, length.wrapping_add(1), 6] {
            for kind in 0..=LAST_KIND as u8 + 1 {
                let mut frame = vec![1; usize::from(length)];
                frame[..2].copy_from_slice(&field.to_le_bytes());
                frame[2..4].copy_from_slice(&[kind, 0]);
                let mut bytes = Vec::new();
                for space in [SPACE, 0, 65_535] {
                    bytes.extend(call(&frame, space));
                    bytes.extend(call(&open, SPACE));
                }
                let last = call(&frame, SPACE);
                bytes.extend(&last[..last.len() - usize::from(kind)]);
                let name = format!("frames of {length} bytes, kind {kind}, length field {field}");
                lists.push(made(name, bytes));
            }
        }
    }
    lists
}

/// Lists after which number 100,000 is live: a complex order, a sweep, a leg
/// order. The numbers before it go to immediate orders in a strategy whose series
/// are shut, which are cancelled at once. Of two more sweeps that buy, the first is
/// at the bid net, 199, and the second a cent above it (2026-03).
pub fn last_numbers() -> Vec<List> {
    let order: &[u8] = &[16, 0, 2, 0, 9, 0, 1, 0, 3, 0, 2, 0, 250, 0, 0, 0];
    let sweep: &[u8] = &[14, 0, 3, 0, 3, 0, 0, 1, 1, 0, 240, 0, 0, 0];
    let leg_order: &[u8] = &[14, 0, 4, 0, 7, 0, 0, 0, 5, 0, 43, 1, 0, 0];
    let at_net: &[u8] = &[14, 0, 3, 0, 3, 0, 0, 0, 1, 0, 199, 0, 0, 0];
    let above: &[u8] = &[14, 0, 3, 0, 3, 0, 0, 0, 1, 0, 200, 0, 0, 0];
    let mut immediate = order.to_vec();
    immediate[9] = 1;
    let mut before = whole(&[
        &[6, 0, 6, 0, 0, 1],
        &[6, 0, 6, 0, 1, 1],
        &[11, 0, 1, 0, 2, 0, 0, 1, 1, 1, 1],
        &[11, 0, 1, 0, 2, 2, 0, 1, 3, 1, 1],
        leg_order,
        &[14, 0, 4, 0, 7, 0, 1, 1, 5, 0, 100, 0, 0, 0],
        // The starter of an auction in strategy 0.
        &[16, 0, 2, 0, 9, 0, 0, 0, 1, 0, 2, 0, 250, 0, 0, 0],
    ]);
    for _ in 4..100_000 {
        before.extend(call(&immediate, SPACE));
    }
    [
        ("a complex order", order),
        ("a sweep", sweep),
        ("a leg order", leg_order),
    ]
    .into_iter()
    .map(|(what, last)| {
        let after = whole(&[last, order, sweep, at_net, above, leg_order, &immediate]);
        let name = format!("number 100,000 is {what}");
        made(name, [&before[..], &after].concat())
    })
    .collect()
}

/// A leg order: series, side, contracts and price.
type Order = (u8, u8, u16, u32);

/// All series open, and these leg orders.
fn orders(name: String, orders: &[Order]) -> List {
    let open = (0..32).map(|series| Event::Series { series, state: 1 });
    let orders = (orders.iter()).map(|(series, side, contracts, price)| Event::LegOrder {
        member: 7,
        series: *series,
        side: *side,
        contracts: *contracts,
        price: *price,
    });
    let calls = open.chain(orders).map(|event| call(&bytes(&event), SPACE));
    made(name, calls.flatten().collect())
}

/// Lists after which the depths show the contracts of best prices (2026-02): four
/// leg orders at three prices in every order, bids and offers of four series in
/// turn; a full table with the best price in each slot; and one with all orders at
/// one price.
pub fn depths() -> Vec<List> {
    let mut lists = Vec::new();
    let numbers: Vec<u32> = (0..3_u32.pow(4)).collect();
    for part in numbers.chunks(4) {
        let mut list: Vec<Order> = Vec::new();
        for at in 0..4 {
            for (series, number) in part.iter().enumerate() {
                for (side, lowest) in [(BUY, 300), (SELL, 400)] {
                    let price = lowest + number / 3_u32.pow(at) % 3;
                    // Each sum of contracts tells which orders are in it.
                    list.push((series as u8, side, 1 << at, price));
                }
            }
        }
        let name = format!("four orders of a side, from {}", part[0]);
        lists.push(orders(name, &list));
    }
    for side in [BUY, SELL] {
        for best in 0..LEG_ORDERS {
            let price = |slot| match (slot == best, side) {
                (false, _) => 300,
                (true, BUY) => 301,
                (true, _) => 299,
            };
            let list: Vec<Order> = (0..LEG_ORDERS)
                .map(|slot| (31, side, 1 + slot as u16, price(slot)))
                .collect();
            let name = format!("the best price of side {side} in slot {best}");
            lists.push(orders(name, &list));
        }
        let name = format!("{LEG_ORDERS} orders of side {side} at one price");
        lists.push(orders(name, &[(31, side, 9_999, 300); LEG_ORDERS]));
    }
    lists
}

/// The days with sweeps near the nets, each as several lists that end in the middle
/// of an auction: after a sweep that is refused 15.
pub fn refused_sweeps() -> Vec<List> {
    let mut lists = Vec::new();
    for day in near_nets() {
        let bytes = day.bytes();
        let frames = frames(&bytes);
        let mut book = Book::first();
        let mut seen = 0;
        for (index, frame) in frames.iter().enumerate() {
            if book.step(frame, SPACE).answer != 15 {
                continue;
            }
            seen += 1;
            if seen % 25 == 0 {
                let name = format!("{day}, up to its refusal 15 number {seen}");
                // The sweep with too short a space, and then as it was.
                let mut calls = whole(&frames[..index]);
                calls.extend(call(frame, SPACE - 1));
                calls.extend(call(frame, SPACE));
                lists.push(made(name, calls));
            }
        }
    }
    lists
}

/// Lists that end with an auction of a specialist (2026-04): market makers' day orders
/// and sweeps at one limit, of which the orders keep what the starter leaves; or before
/// its end, with the sweeps live. Each kind 11 comes with too short a space first, for
/// another member, and one that is refused 4 stands before the strategy.
pub fn portions() -> Vec<List> {
    let order = |member, side, class, life, units, limit| Event::Complex {
        member,
        strategy: 0,
        side,
        class,
        life,
        units,
        limit,
    };
    let mut lists = Vec::new();
    for percentage in [0, 10, 40, 55, 100] {
        for place in 0..3 {
            for ended in [true, false] {
                let named = |member| Event::Specialist {
                    member,
                    strategy: 0,
                    percentage,
                };
                let mut calls = whole(&[
                    &[8, 0, 11, 0, 3, 0, 0, 100],
                    &[6, 0, 6, 0, 0, 1],
                    &[6, 0, 6, 0, 1, 1],
                    &[11, 0, 1, 0, 2, 0, 0, 1, 1, 1, 1],
                ]);
                let mut push = |event: &Event, space| calls.extend(call(&bytes(event), space));
                for (series, side, price) in
                    [(0, BUY, 300), (0, SELL, 305), (1, BUY, 100), (1, SELL, 103)]
                {
                    let leg_order = Event::LegOrder {
                        member: 7,
                        series,
                        side,
                        contracts: 9,
                        price,
                    };
                    push(&leg_order, SPACE);
                }
                // Number 5, and then the starter.
                push(&order(1, SELL, 3, 0, 7, 202), SPACE);
                push(&order(9, BUY, 1, 0, 20, 204), SPACE);
                for at in 0..3 {
                    if at == place {
                        push(&named(2), SPACE);
                        push(&named(3), SPACE - 1);
                        let sweep = Event::Sweep {
                            member: 2,
                            strategy: 0,
                            side: SELL,
                            units: 9,
                            limit: 202,
                        };
                        push(&sweep, SPACE);
                    }
                    push(&order(2 + at, SELL, 3, 0, 7, 202), SPACE);
                    let sweep = Event::Sweep {
                        member: 3,
                        strategy: 0,
                        side: SELL,
                        units: 6,
                        limit: 202,
                    };
                    push(&sweep, SPACE);
                }
                if ended {
                    let milliseconds = 5_000;
                    push(&Event::Clock { milliseconds }, SPACE);
                }
                let name =
                    format!("a portion, {percentage} per cent, place {place}, ended {ended}");
                lists.push(made(name, calls));
            }
        }
    }
    lists
}

fn strategy(list: &[(u8, u8, u8)]) -> Event {
    let mut legs = [Leg::default(); 6];
    for (leg, (series, side, ratio)) in legs.iter_mut().zip(list) {
        *leg = Leg {
            series: *series,
            side: *side,
            ratio: *ratio,
        };
    }
    Event::Strategy {
        count: list.len() as u8,
        legs,
    }
}

/// Every sort of event that touches leg orders of strategies that share series, on the
/// side of bids or with all sides turned.
fn touches(turned: bool) -> Vec<Event> {
    let side = |side: u8| if turned { 1 - side } else { side };
    let price = |price: u32| if turned { 400 - price } else { price };
    let leg_order = |member, series, of, contracts, cents| Event::LegOrder {
        member,
        series,
        side: side(of),
        contracts,
        price: price(cents),
    };
    // A market maker's order for the legs, at any price.
    let taker = |strategy, of, life, units| Event::Complex {
        member: 9,
        strategy,
        side: side(of),
        class: 3,
        life,
        units,
        limit: if side(of) == BUY {
            9_999_999
        } else {
            -9_999_999
        },
    };
    let state = |series, state| Event::Series { series, state };
    let cancel = |member, number| Event::Cancel { member, number };
    let pair = strategy(&[(0, BUY, 1), (1, SELL, 1)]);
    let mut events: Vec<Event> = (0..4).map(|series| state(series, 1)).collect();
    events.extend([
        pair,
        strategy(&[(0, SELL, 1), (1, BUY, 1)]),
        // Known one by one, then better, behind and at the best: numbers 1 to 7.
        leg_order(1, 0, BUY, 5, 190),
        leg_order(2, 1, SELL, 5, 210),
        leg_order(3, 0, SELL, 5, 211),
        leg_order(4, 1, BUY, 5, 192),
        leg_order(5, 0, BUY, 2, 195),
        leg_order(6, 0, BUY, 3, 193),
        leg_order(7, 0, BUY, 3, 195),
        // Over leg orders that stand; the same once more.
        strategy(&[(0, BUY, 3), (2, BUY, 2)]),
        strategy(&[(0, SELL, 2), (1, SELL, 3)]),
        strategy(&[(1, SELL, 7), (0, BUY, 7)]),
        // Trades with a part of the best, with the rest, and with all, of which some rests:
        // numbers 8 to 10.
        leg_order(8, 0, SELL, 1, 195),
        leg_order(8, 0, SELL, 4, 195),
        leg_order(8, 0, SELL, 4, 193),
        cancel(8, 10),
        // Cancels behind the best, of the best, and of the last: 11 and 12.
        leg_order(5, 0, BUY, 2, 199),
        leg_order(6, 0, BUY, 2, 188),
        cancel(1, 1),
        cancel(5, 11),
        cancel(6, 12),
        // Fills by legs at two prices of each leg: 13 to 18.
        leg_order(1, 0, BUY, 2, 196),
        leg_order(2, 0, BUY, 9, 194),
        leg_order(3, 1, SELL, 3, 205),
        leg_order(4, 1, SELL, 9, 207),
        taker(0, SELL, 1, 2),
        taker(0, SELL, 1, 2),
        // A day order that waits for legs: 19, and what fills it.
        leg_order(5, 2, BUY, 4, 50),
        state(3, 0),
        strategy(&[(2, BUY, 1), (3, BUY, 1)]),
        state(3, 1),
        leg_order(5, 3, BUY, 1, 60),
        taker(4, SELL, 0, 3),
        leg_order(5, 3, BUY, 4, 70),
        // A series that shuts, a cancel in it, and leg orders beside it.
        state(0, 0),
        cancel(2, 14),
        leg_order(6, 1, BUY, 2, 200),
        strategy(&[(0, BUY, 1), (2, SELL, 1)]),
        state(0, 1),
        // What touches no leg order.
        Event::NationalPrices {
            series: 0,
            bid: 1,
            offer: 2,
        },
        Event::ExecutionRange { cents: 0 },
        Event::Clock { milliseconds: 1 },
        // Another day.
        Event::DayEnd { timer: 5_000 },
        strategy(&[(0, BUY, 1), (2, SELL, 1)]),
        state(0, 1),
        state(1, 1),
        leg_order(1, 0, BUY, 5, 150),
        pair,
        leg_order(1, 1, SELL, 5, 150),
    ]);
    events
}

/// Lists that end after each of those events, so that the nets are printed after each;
/// the last leg order or cancel comes with too short a space as well (2026-05).
pub fn nets() -> Vec<List> {
    let mut lists = Vec::new();
    for turned in [false, true] {
        let events: Vec<Vec<u8>> = touches(turned).iter().map(bytes).collect();
        let frames: Vec<&[u8]> = events.iter().map(Vec::as_slice).collect();
        for length in 1..=frames.len() {
            let mut calls = whole(&frames[..length - 1]);
            calls.extend(call(frames[length - 1], SPACE - 1));
            let short = format!("nets, turned {turned}, call {length} refused 1");
            lists.push(made(short, calls));
            let name = format!("nets, turned {turned}, after {length} calls");
            lists.push(made(name, whole(&frames[..length])));
        }
    }
    lists
}

/// A day as calls, whole and up to the call after which the most is live.
fn of_day(day: &Day) -> Vec<List> {
    let bytes = day.bytes();
    let frames = frames(&bytes);
    let mut book = Book::first();
    let mut fullest = (0, 0);
    for (index, frame) in frames.iter().enumerate() {
        book.step(frame, SPACE);
        fullest = fullest.max((book.live_numbers().len(), index + 1));
    }
    let cut = &frames[..fullest.1];
    vec![
        made(format!("{day}"), whole(&frames)),
        made(format!("{day}, up to its fullest state"), whole(cut)),
    ]
}

pub fn days() -> Vec<List> {
    let mut days = full_tables();
    days.extend(extremes());
    days.extend(national());
    days.extend(best_prices());
    days.extend(near_nets());
    days.extend(specialists());
    days.extend(kept_nets());
    days.iter().flat_map(of_day).collect()
}
