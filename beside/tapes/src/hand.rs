//! Days made by hand: ends of the input, long frames, full tables, numbers at the
//! ends of their ranges, fills at the bounds of the execution range, fills by the
//! contracts of a best price, sweeps near the net of their side, specialists'
//! portions, and the nets that strategies keep.

use crate::days::Day;
use reckoning::book::{Book, COMPLEX_ORDERS, LEG_ORDERS, SPACE, STRATEGIES, SWEEPS};
use reckoning::frames::{bytes, Event, Leg};
use reckoning::generate::LAST_KIND;

const BUY: u8 = 0;
const SELL: u8 = 1;
const CUSTOMER: u8 = 1;
const BROKER_DEALER: u8 = 2;
const MARKET_MAKER: u8 = 3;
const DAY: u8 = 0;
const IMMEDIATE: u8 = 1;
const RESPONSE: u8 = 2;

fn made(name: impl Into<String>, bytes: Vec<u8>) -> Day {
    Day::Made {
        name: name.into(),
        bytes,
    }
}

fn day(name: &str, events: &[Event]) -> Day {
    made(name, events.iter().flat_map(bytes).collect())
}

fn series(series: u8, state: u8) -> Event {
    Event::Series { series, state }
}

fn strategy(list: &[(u8, u8, u8)]) -> Event {
    let mut legs = [Leg::default(); 6];
    for (leg, (series, side, ratio)) in legs.iter_mut().zip(list) {
        *leg = Leg {
            series: *series,
            side: *side,
            ratio: *ratio,
        };
    }
    Event::Strategy {
        count: list.len() as u8,
        legs,
    }
}

fn leg_order(member: u16, series: u8, side: u8, contracts: u16, price: u32) -> Event {
    Event::LegOrder {
        member,
        series,
        side,
        contracts,
        price,
    }
}

fn order(member: u16, side: u8, class: u8, life: u8, units: u16, limit: i32) -> Event {
    Event::Complex {
        member,
        strategy: 0,
        side,
        class,
        life,
        units,
        limit,
    }
}

fn sweep(member: u16, side: u8, units: u16, limit: i32) -> Event {
    Event::Sweep {
        member,
        strategy: 0,
        side,
        units,
        limit,
    }
}

fn cancel(member: u16, number: u32) -> Event {
    Event::Cancel { member, number }
}

fn clock(milliseconds: u32) -> Event {
    Event::Clock { milliseconds }
}

fn day_end(timer: u16) -> Event {
    Event::DayEnd { timer }
}

fn national_prices(series: u8, bid: u32, offer: u32) -> Event {
    Event::NationalPrices { series, bid, offer }
}

fn range(cents: u16) -> Event {
    Event::ExecutionRange { cents }
}

fn specialist(member: u16, strategy: u8, percentage: u8) -> Event {
    Event::Specialist {
        member,
        strategy,
        percentage,
    }
}

/// Document 01's worked example.
pub fn example() -> Vec<u8> {
    let events = [
        series(0, 1),
        series(1, 1),
        strategy(&[(0, BUY, 1), (1, SELL, 1)]),
        leg_order(7, 0, SELL, 5, 300),
        leg_order(7, 1, BUY, 5, 100),
        order(9, BUY, MARKET_MAKER, 1, 2, 200),
    ];
    events.iter().flat_map(bytes).collect()
}

/// Inputs of no byte, one, two, three and four; and the worked example cut after
/// each of its bytes, and with such an end after it.
pub fn ends() -> Vec<Day> {
    let mut ends: Vec<Vec<u8>> = vec![vec![]];
    ends.extend((0..=255).map(|byte| vec![byte]));
    for length in (0..=20).chain([255, 256, 257, 512, 65_534, 65_535]) {
        let head = u16::to_le_bytes(length);
        ends.push(head.to_vec());
        ends.push([&head[..], &[6]].concat());
        ends.push([&head[..], &[6, 0]].concat());
        ends.push([&head[..], &[6, 0, 0, 1]].concat());
    }
    let example = example();
    let mut days = Vec::new();
    for end in ends {
        let name = format!("the bytes {end:?}");
        if end.len() != 1 || end[0] < 8 {
            let whole = [&example[..], &end].concat();
            days.push(made(format!("the worked example and {name}"), whole));
        }
        days.push(made(name, end));
    }
    for length in 0..=example.len() {
        let name = format!("the worked example cut to {length} bytes");
        days.push(made(name, example[..length].to_vec()));
    }
    days
}

/// A frame of the kind with this many bytes in all, each of them `fill`.
fn long_frame(kind: u16, length: u16, fill: u8) -> Vec<u8> {
    let mut frame = vec![fill; usize::from(length)];
    frame[..2].copy_from_slice(&length.to_le_bytes());
    frame[2..4].copy_from_slice(&kind.to_le_bytes());
    frame
}

/// Frames of up to 65,535 bytes, each with a valid one after it; then one that
/// is cut.
pub fn long_frames() -> Vec<Day> {
    let mut days = Vec::new();
    let open = bytes(&series(0, 1));
    let last = LAST_KIND as u16 + 1;
    for kind in (0..=last).chain([255, 256, 257, 258, 262, 265, 266, 267, 65_535]) {
        let mut input = example();
        for length in [4, 5, 6, 770, 771, 4_096, 32_768, 65_534, 65_535] {
            for fill in [0, 1, 255] {
                input.extend(long_frame(kind, length, fill));
                input.extend(&open);
            }
        }
        days.push(made(format!("long frames of kind {kind}"), input.clone()));
        for missing in [1, 2, 65_530, 65_531, 65_532, 65_533] {
            let frame = long_frame(kind, 65_535, 1);
            let cut = [&input[..], &frame[..frame.len() - missing]].concat();
            let name = format!("long frames of kind {kind}, the last without {missing} bytes");
            days.push(made(name, cut));
        }
    }
    days
}

/// Days that fill each table and go beyond.
pub fn full_tables() -> Vec<Day> {
    vec![
        full_strategies(),
        full_complex_orders(),
        full_sweeps(),
        full_leg_orders(),
    ]
}

fn full_strategies() -> Day {
    let mut events = Vec::new();
    let pair = |other: u8| strategy(&[(0, BUY, 1), (other, SELL, 1)]);
    for other in 1..=STRATEGIES as u8 + 3 {
        events.push(pair(other));
    }
    // Equal ones need no slot; what is refused 5 stays so.
    for other in 1..=STRATEGIES as u8 {
        events.push(pair(other));
        events.push(strategy(&[(other, SELL, 4), (0, BUY, 4)]));
        events.push(strategy(&[(other, BUY, 1), (0, SELL, 1)]));
    }
    events.push(strategy(&[(0, BUY, 1), (0, SELL, 1)]));
    events.push(strategy(&[(0, BUY, 1), (1, SELL, 4)]));
    events.push(day_end(1));
    events.push(pair(31));
    day("a full table of strategies", &events)
}

fn full_complex_orders() -> Day {
    let mut events = vec![
        series(0, 1),
        series(1, 1),
        strategy(&[(0, BUY, 1), (1, SELL, 1)]),
    ];
    for member in 1..=COMPLEX_ORDERS as u16 + 1 {
        events.push(order(member, BUY, MARKET_MAKER, DAY, 5, -100));
    }
    for life in 0..=3 {
        for class in 1..=3 {
            events.push(order(30, SELL, class, life, 5, -100));
            events.push(order(30, BUY, class, life, 5, -90));
        }
    }
    // A free slot, used by orders that end at once.
    events.push(cancel(5, 5));
    for life in [3, 1, 1, 3] {
        events.push(order(31, SELL, MARKET_MAKER, life, 5, -100));
        events.push(order(31, BUY, MARKET_MAKER, life, 5, -100));
    }
    events.push(order(32, BUY, MARKET_MAKER, DAY, 5, -100));
    events.push(order(33, BUY, MARKET_MAKER, DAY, 5, -100));
    events.push(day_end(1));
    day("a full table of complex orders", &events)
}

fn full_sweeps() -> Day {
    let mut events = vec![
        series(0, 1),
        series(1, 1),
        strategy(&[(0, BUY, 1), (1, SELL, 1)]),
        leg_order(1, 0, BUY, 5, 300),
        leg_order(1, 1, SELL, 5, 100),
        order(2, BUY, CUSTOMER, DAY, 100, 250),
    ];
    for member in 1..=SWEEPS as u16 + 2 {
        events.push(sweep(member, SELL, 7, 240));
    }
    // Replaced, withdrawn, none to remove, and one more.
    for member in 1..=SWEEPS as u16 + 2 {
        events.push(sweep(member, SELL, 8, 240));
    }
    events.push(sweep(3, SELL, 0, 240));
    events.push(sweep(3, SELL, 0, 240));
    events.push(sweep(40, SELL, 9, 240));
    events.push(sweep(41, SELL, 9, 240));
    events.push(sweep(42, SELL, 0, 240));
    events.push(clock(4_999));
    events.push(clock(5_000));
    events.push(sweep(43, SELL, 9, 240));
    events.push(day_end(1));
    day("a full table of sweeps", &events)
}

fn full_leg_orders() -> Day {
    let mut events = vec![series(0, 1)];
    for member in 1..=LEG_ORDERS as u16 + 1 {
        events.push(leg_order(member, 0, BUY, 5, 300 - u32::from(member)));
    }
    events.push(leg_order(50, 0, SELL, 5, 100));
    events.push(leg_order(50, 1, SELL, 5, 100));
    events.push(cancel(9, 9));
    events.push(leg_order(51, 0, SELL, 12, 100));
    events.push(leg_order(52, 0, SELL, 9_999, 1));
    events.push(day_end(1));
    day("a full table of leg orders", &events)
}

/// Six legs with the largest ratios, so many of them bought.
fn six_legs(buy_legs: u8) -> Vec<(u8, u8, u8)> {
    (0..6)
        .map(|leg| {
            let side = if leg < buy_legs { BUY } else { SELL };
            (31 - leg, side, 12 - leg)
        })
        .collect()
}

/// Numbers at the ends of their ranges.
pub fn extremes() -> Vec<Day> {
    let mut days = Vec::new();
    for buy_legs in [6, 5, 3, 0] {
        let legs = six_legs(buy_legs);
        for (bid, offer) in [(1, 2), (1, 99_999), (99_998, 99_999)] {
            days.push(extreme(&legs, bid, offer));
        }
    }
    for timer in [1, 4_999, 5_000] {
        let last = 86_400_000 - u32::from(timer);
        days.push(late(timer, last));
        days.push(late(timer, last + 1));
    }
    days
}

/// A strategy of these legs whose leg orders stand at one price each, and orders
/// of any life and class at the ends of the limits.
fn extreme(legs: &[(u8, u8, u8)], bid: u32, offer: u32) -> Day {
    let mut events: Vec<Event> = (0..32).map(|number| series(number, 1)).collect();
    events.push(strategy(legs));
    for (number, _, _) in legs {
        for contracts in [9_999, 9_999] {
            events.push(leg_order(65_535, *number, BUY, contracts, bid));
            events.push(leg_order(65_535, *number, SELL, contracts, offer));
        }
    }
    let ends = [-9_999_999, 9_999_999, -5_699_943, 5_699_943, 0];
    let mut now = 0;
    for limit in ends {
        for life in 0..=3 {
            for class in 1..=3 {
                for side in [BUY, SELL] {
                    events.push(order(65_535, side, class, life, 9_999, limit));
                    events.push(sweep(1, 1 - side, 9_999, limit));
                    events.push(sweep(2, 1 - side, 9_998, -limit));
                    now += 5_000;
                    events.push(clock(now));
                }
            }
        }
    }
    events.push(day_end(5_000));
    let sides: Vec<u8> = legs.iter().map(|(_, side, _)| *side).collect();
    day(
        &format!("legs at {bid} and {offer}, sides {sides:?}"),
        &events,
    )
}

/// An auction begun when the clock is near its end: the last one that can end by
/// the clock, or one that cannot.
fn late(timer: u16, begin: u32) -> Day {
    let events = [
        day_end(timer),
        series(0, 1),
        series(1, 1),
        strategy(&[(0, BUY, 1), (1, SELL, 1)]),
        leg_order(1, 0, BUY, 50, 300),
        leg_order(1, 1, SELL, 50, 100),
        clock(begin),
        order(2, BUY, CUSTOMER, 1, 10, 250),
        sweep(3, SELL, 7, 240),
        clock(begin + u32::from(timer) - 1),
        clock(86_400_000),
        clock(86_399_999),
        day_end(5_000),
        clock(0),
    ];
    day(
        &format!("an auction begun at {begin}, timer {timer}"),
        &events,
    )
}

/// Days of kinds 9 and 10: fields at the ends of their ranges, and fills at a bound
/// and a cent past it.
pub fn national() -> Vec<Day> {
    let mut days = vec![national_fields(), national_day_ends()];
    let prices = [
        (1, 1),
        (1, 99_999),
        (99_999, 99_999),
        (99_998, 99_999),
        (1, 0),
        (0, 99_999),
        (0, 0),
    ];
    for buy_legs in [6, 5, 3, 0] {
        for (bid, offer) in prices {
            for cents in [None, Some(0), Some(9_999)] {
                days.push(bounds(&six_legs(buy_legs), bid, offer, cents));
            }
        }
    }
    days
}

/// National prices and ranges with each field at its ends and past them: accepted,
/// refused 3, refused 14.
fn national_fields() -> Day {
    let ends = [0, 1, 2, 99_998, 99_999, 100_000, u32::MAX];
    let mut events = Vec::new();
    for series in [0, 31, 32, 255] {
        for bid in ends {
            events.extend(ends.map(|offer| national_prices(series, bid, offer)));
        }
    }
    events.extend([0, 1, 255, 256, 9_998, 9_999, 10_000, u16::MAX].map(range));
    day("fields of kinds 9 and 10", &events)
}

/// A day end after national prices and a range; then the one without the other.
fn national_day_ends() -> Day {
    let market = [
        series(0, 1),
        series(1, 1),
        strategy(&[(0, BUY, 1), (1, SELL, 1)]),
    ];
    let prices = [national_prices(0, 300, 305), national_prices(1, 100, 103)];
    // Out of a range of 0, by a cent and by 9,999 and 10,000.
    let mut orders = Vec::new();
    for limit in [196, 197, 205, 206, 205 + 9_999, 206 + 9_999] {
        orders.push(order(1, SELL, MARKET_MAKER, DAY, 2, limit));
        orders.push(order(2, BUY, MARKET_MAKER, IMMEDIATE, 2, limit));
        orders.push(order(3, BUY, MARKET_MAKER, IMMEDIATE, 9, 9_999_999));
    }
    let mut events = Vec::new();
    for known in [true, false] {
        events.extend(market);
        events.extend(prices);
        events.push(range(0));
        events.extend(&orders);
        events.push(day_end(5_000));
        events.extend(market);
        match known {
            true => events.extend(prices),
            false => events.push(range(0)),
        }
        events.extend(&orders);
        events.push(day_end(5_000));
    }
    day("day ends after national prices and a range", &events)
}

/// A strategy of these legs, all with these national prices, and the range, if one is
/// set: orders of both sides meet at each bound, and a cent to each side of it, one
/// by one and in an opening.
fn bounds(legs: &[(u8, u8, u8)], bid: u32, offer: u32, cents: Option<u16>) -> Day {
    let mut events: Vec<Event> = (0..32).map(|number| series(number, 1)).collect();
    events.push(strategy(legs));
    for (number, _, _) in legs {
        events.push(national_prices(*number, bid, offer));
    }
    events.extend(cents.map(range));
    let mut book = Book::first();
    for event in &events {
        book.step(&bytes(event), SPACE);
    }
    let bounds = book.bounds(0);
    let mut limits: Vec<i32> = Vec::new();
    for bound in [bounds.lowest, bounds.highest] {
        let known = (-9_999_998..=9_999_998).contains(&bound);
        let bound = if known { bound as i32 } else { 0 };
        limits.extend([bound - 1, bound, bound + 1]);
    }
    let mut given = 0;
    for limit in limits {
        for side in [BUY, SELL] {
            for other in [DAY, IMMEDIATE] {
                // The first rests, and is met; or both rest, until the series opens.
                let shut = other == DAY;
                if shut {
                    events.push(series(legs[0].0, 0));
                }
                events.push(order(1, side, MARKET_MAKER, DAY, 5, limit));
                events.push(order(2, 1 - side, MARKET_MAKER, other, 5, limit));
                if shut {
                    events.push(series(legs[0].0, 1));
                }
                events.push(cancel(1, given + 1));
                events.push(cancel(2, given + 2));
                given += 2;
            }
        }
    }
    let sides: Vec<u8> = legs.iter().map(|(_, side, _)| *side).collect();
    day(
        &format!("national prices {bid} and {offer}, range {cents:?}, sides {sides:?}"),
        &events,
    )
}

/// A day with the book that it makes.
struct Made {
    events: Vec<Event>,
    book: Book,
}

impl Made {
    /// All series open, and this strategy.
    fn new(legs: &[(u8, u8, u8)]) -> Made {
        let mut made = Made {
            events: Vec::new(),
            book: Book::first(),
        };
        (0..32).for_each(|number| made.push(series(number, 1)));
        made.push(strategy(legs));
        made
    }

    fn push(&mut self, event: Event) {
        self.book.step(&bytes(&event), SPACE);
        self.events.push(event);
    }

    /// Cancels the leg orders of the series.
    fn clear(&mut self, series: u8) {
        let held = self.book.leg_orders.to_vec();
        for order in held.iter().filter(|order| order.series == series) {
            self.push(cancel(order.member, order.number));
        }
    }

    /// An immediate order of this side that may fill by the legs at any price.
    fn take(&mut self, side: u8, units: u16) {
        let limit = if side == BUY { 9_999_999 } else { -9_999_999 };
        self.push(order(9, side, MARKET_MAKER, IMMEDIATE, units, limit));
    }
}

/// A price of this side, and so many cents worse than 300.
fn worse(side: u8, cents: u32) -> u32 {
    match side {
        BUY => 300 - cents,
        _ => 300 + cents,
    }
}

/// Days whose fills by legs depend on the best price and its contracts (2026-02).
pub fn best_prices() -> Vec<Day> {
    let mut days = Vec::new();
    for side in [BUY, SELL] {
        for ratio in 1..=3 {
            days.push(four_orders(side, ratio));
        }
        days.push(many_contracts(side));
        days.push(each_slot(side));
    }
    days.push(empty_sides());
    days
}

/// Every list of four leg orders of a side at three prices, with one contract or two:
/// an order takes one unit, another what the legs give. In every third list the
/// first leg order is cancelled and comes again as the last. Orders of the other
/// side and of another series stand beside them.
fn four_orders(side: u8, ratio: u8) -> Day {
    let mut made = Made::new(&[(0, BUY, ratio), (1, SELL, 1)]);
    made.push(leg_order(
        3,
        2,
        side,
        9,
        if side == BUY { 400 } else { 200 },
    ));
    let kinds = [(1, 0), (2, 0), (1, 1), (2, 1), (1, 2), (2, 2)];
    for number in 0..6_usize.pow(4) {
        if number % 500 == 0 {
            made.clear(1);
            made.push(leg_order(1, 1, 1 - side, 9_999, 100));
        }
        let own = |at: u32| {
            let (contracts, cents) = kinds[number / 6_usize.pow(at) % 6];
            leg_order(2, 0, side, contracts, worse(side, cents))
        };
        made.push(leg_order(3, 0, 1 - side, 9, worse(1 - side, 50)));
        for at in 0..4 {
            made.push(own(at));
            if at == 2 && number % 3 == 0 {
                let first = made.book.leg_orders_of(0, side).next();
                let first = first.map_or(1, |order| order.number);
                made.push(cancel(2, first));
                made.push(own(0));
            }
        }
        made.take(1 - side, 1);
        made.take(1 - side, 9);
        made.clear(0);
    }
    day(
        &format!("four leg orders of side {side} in every order, ratio {ratio}"),
        &made.events,
    )
}

/// More than 65,535 contracts at a best price, before and behind a worse one.
fn many_contracts(side: u8) -> Day {
    let mut made = Made::new(&[(0, BUY, 12), (1, SELL, 11)]);
    for amount in [6, 7, 13] {
        made.push(leg_order(1, 0, side, 9_999, worse(side, 2)));
        for _ in 0..amount {
            made.push(leg_order(2, 0, side, 9_999, worse(side, 1)));
            made.push(leg_order(3, 1, 1 - side, 9_999, 100));
        }
        made.push(leg_order(4, 0, side, 9_999, worse(side, 2)));
        for units in [1, 9_998, 9_999] {
            made.take(1 - side, units);
        }
        made.clear(0);
        made.clear(1);
    }
    day(
        &format!("many contracts of side {side} at one price"),
        &made.events,
    )
}

/// A full table of leg orders with the best price in each of its slots, the other
/// leg in the first or the last.
fn each_slot(side: u8) -> Day {
    let mut made = Made::new(&[(0, BUY, 2), (1, SELL, 1)]);
    for last in [false, true] {
        for best in 0..LEG_ORDERS - 1 {
            let other = leg_order(1, 1, 1 - side, 9, 100);
            if !last {
                made.push(other);
            }
            for slot in 0..LEG_ORDERS - 1 {
                let cents = if slot == best { 1 } else { 2 };
                made.push(leg_order(2, 0, side, 3, worse(side, cents)));
            }
            if last {
                made.push(other);
            }
            made.take(1 - side, 2);
            made.clear(0);
            made.clear(1);
        }
    }
    day(
        &format!("the best price of side {side} in each slot"),
        &made.events,
    )
}

/// Each choice of the sides of two legs that have an order: what starts an auction,
/// and what fills.
fn empty_sides() -> Day {
    let mut made = Made::new(&[(0, BUY, 1), (1, SELL, 1)]);
    let sides = [(0, BUY, 290), (0, SELL, 310), (1, BUY, 90), (1, SELL, 110)];
    for choice in 0..1 << sides.len() {
        for (at, (number, side, price)) in sides.into_iter().enumerate() {
            if choice >> at & 1 == 1 {
                made.push(leg_order(2, number, side, 9, price));
            }
        }
        for side in [BUY, SELL] {
            made.push(order(9, side, CUSTOMER, IMMEDIATE, 1, 200));
            made.push(clock(made.book.clock + 5_000));
            made.take(side, 1);
        }
        made.clear(0);
        made.clear(1);
    }
    day("each choice of sides with a leg order", &made.events)
}

impl Made {
    /// A leg order in each leg of this side, a bid of 300 or an offer of 310.
    fn market(&mut self, side: u8) {
        for leg in self.book.legs(0).to_vec() {
            let price = if side == BUY { 300 } else { 310 };
            self.push(leg_order(1, leg.series, side, 9, price));
        }
    }

    /// The net of this side.
    fn net(&self, side: u8) -> Option<i32> {
        self.book.leg_net(0, 1 - side).map(|net| net as i32)
    }

    /// An order of this side that starts an auction, at the net of the other side.
    fn start(&mut self, side: u8) {
        let limit = self.net(1 - side).unwrap_or(0);
        self.push(order(2, side, CUSTOMER, IMMEDIATE, 99, limit));
    }

    /// Sweeps of a member on both sides, from two cents worse than the net to two
    /// better, or at any limits where it is unknown.
    fn sweeps(&mut self, member: u16, units: u16) {
        for side in [BUY, SELL] {
            let limits = match self.net(side) {
                Some(net) => [-2, -1, 0, 1, 2].map(|cents| net + cents),
                None => [-9_999_999, -1, 0, 1, 9_999_999],
            };
            for limit in limits {
                self.push(sweep(member, side, units, limit));
            }
        }
    }

    /// Every live sweep once more with these units; 0 withdraws it.
    fn again(&mut self, units: u16) {
        let live: Vec<_> = self.book.sweeps().copied().collect();
        for old in live {
            self.push(sweep(old.member, old.side, units, old.limit));
        }
    }

    /// The auction ends.
    fn end(&mut self) {
        self.push(clock(self.book.clock + self.book.timer));
    }
}

/// Days of sweeps near the net of their side (2026-03).
pub fn near_nets() -> Vec<Day> {
    let mut days = Vec::new();
    let pairs: [&[(u8, u8, u8)]; 5] = [
        &[(0, BUY, 1), (1, SELL, 1)],
        &[(0, SELL, 1), (1, BUY, 1)],
        &[(0, BUY, 3), (1, BUY, 2)],
        &[(0, SELL, 3), (1, SELL, 1)],
        &[(0, BUY, 2), (1, SELL, 3), (31, SELL, 1)],
    ];
    for legs in pairs {
        days.push(moved_nets(legs, None));
        // National nets that are above, and below.
        days.push(moved_nets(legs, Some((400, 410))));
        days.push(moved_nets(legs, Some((200, 210))));
    }
    days.push(moved_nets(&six_legs(3), None));
    days.push(known_sides());
    days.push(full_of_sweeps());
    days
}

/// Auctions of both sides, in which leg orders make each net better cent by cent, are
/// filled and cancelled; before and after each the same sweeps come.
fn moved_nets(legs: &[(u8, u8, u8)], national: Option<(u32, u32)>) -> Day {
    let mut made = Made::new(legs);
    for (number, _, _) in legs {
        if let Some((bid, offer)) = national {
            made.push(national_prices(*number, bid, offer));
        }
    }
    for starter in [BUY, SELL] {
        for (number, _, _) in legs {
            for side in [BUY, SELL] {
                made.market(BUY);
                made.market(SELL);
                made.start(starter);
                made.sweeps(3, 1);
                // One contract does not make the legs ready where the ratio is more.
                for cents in 1..=2 {
                    let price = if side == BUY {
                        300 + cents
                    } else {
                        310 - cents
                    };
                    made.push(leg_order(4, *number, side, 1, price));
                    made.again(2);
                    made.sweeps(3, 3);
                }
                // The better of the two is filled, the other cancelled.
                let price = if side == BUY { 302 } else { 308 };
                made.push(leg_order(5, *number, 1 - side, 1, price));
                made.again(4);
                let other = made.book.best_leg_order(*number, side);
                made.push(cancel(4, other.map_or(1, |order| order.number)));
                made.sweeps(3, 5);
                // Past some of the sweeps; they are refused, withdrawn, and filled.
                made.push(leg_order(4, *number, side, 1, price));
                made.again(6);
                made.sweeps(6, 7);
                made.push(sweep(3, side, 0, made.net(side).unwrap_or(0)));
                made.push(sweep(7, side, 0, made.net(side).unwrap_or(0)));
                made.end();
                // Without an auction each is refused 9.
                made.sweeps(3, 1);
                for (series, _, _) in legs {
                    made.clear(*series);
                }
            }
        }
    }
    let list: Vec<u8> = legs.iter().map(|(_, side, _)| *side).collect();
    let ratios: Vec<u8> = legs.iter().map(|(_, _, ratio)| *ratio).collect();
    day(
        &format!(
            "sweeps near moved nets, sides {list:?}, ratios {ratios:?}, national prices {national:?}"
        ),
        &made.events,
    )
}

/// Each choice of the sides of two legs that have an order, while an auction runs:
/// sweeps of both sides; then the other orders come, and the same sweeps again.
fn known_sides() -> Day {
    let mut made = Made::new(&[(0, BUY, 1), (1, SELL, 1)]);
    let sides = [(0, BUY, 290), (0, SELL, 310), (1, BUY, 90), (1, SELL, 110)];
    for choice in 0..1 << sides.len() {
        made.market(BUY);
        made.market(SELL);
        made.start(if choice % 2 == 0 { BUY } else { SELL });
        // All bids or all offers of a leg are filled; then the others go too.
        let (side, price) = if choice < 8 { (SELL, 300) } else { (BUY, 310) };
        made.push(leg_order(6, 0, side, 9, price));
        made.sweeps(3, 1);
        made.clear(0);
        made.clear(1);
        for chosen in [1, 0] {
            for (at, (number, side, price)) in sides.into_iter().enumerate() {
                if choice >> at & 1 == chosen {
                    made.push(leg_order(2, number, side, 9, price));
                }
            }
            made.sweeps(3, 2);
            made.again(3);
        }
        made.again(0);
        made.end();
        made.clear(0);
        made.clear(1);
    }
    day("sweeps where one net is known, or none", &made.events)
}

/// A full table of sweeps, and more of them near the nets; the nets pass those that
/// are in, and they come again.
fn full_of_sweeps() -> Day {
    let mut made = Made::new(&[(0, BUY, 1), (1, SELL, 1)]);
    for starter in [BUY, SELL] {
        made.market(BUY);
        made.market(SELL);
        made.start(starter);
        for member in 1..=SWEEPS as u16 {
            let (side, cents) = ((member % 2) as u8, i32::from(member) / 2 % 3 + 1);
            let net = made.net(side).unwrap_or(0);
            let limit = if side == BUY {
                net + cents
            } else {
                net - cents
            };
            made.push(sweep(member, side, 2, limit));
        }
        made.sweeps(20, 1);
        for cents in 1..=3 {
            for (side, price) in [(BUY, 300 + cents), (SELL, 310 - cents)] {
                made.push(leg_order(4, 0, side, 1, price));
                made.again(3);
                made.sweeps(20, 1);
            }
        }
        // One goes; one that betters nothing does not take its slot.
        let gone = made.book.sweeps().next().copied();
        if let Some(gone) = gone {
            made.push(sweep(gone.member, gone.side, 0, gone.limit));
        }
        made.sweeps(21, 1);
        made.sweeps(22, 1);
        made.end();
        made.clear(0);
        made.clear(1);
    }
    day("a full table of sweeps near the nets", &made.events)
}

/// An answer to an auction: its member, its class, or none for a sweep, and its units.
type Answer = (u16, Option<u8>, u16);

/// The member that is the specialist in most of the days.
const NAMED: u16 = 2;

impl Made {
    /// All series open, these strategies, and bids and offers in series 0 to 3.
    fn strategies(list: &[&[(u8, u8, u8)]]) -> Made {
        let mut made = Made::new(list[0]);
        for legs in &list[1..] {
            made.push(strategy(legs));
        }
        for series in 0..4 {
            made.push(leg_order(1, series, BUY, 9, 300));
            made.push(leg_order(1, series, SELL, 9, 310));
        }
        made
    }

    /// An order of this side starts an auction for so many units, at the net of the
    /// other side. Immediate, so that its rest goes with the auction.
    fn starter(&mut self, of: u8, side: u8, units: u16) {
        let limit = self.book.leg_net(of, side).map_or(0, |net| net as i32);
        self.push(Event::Complex {
            member: 9,
            strategy: of,
            side,
            class: CUSTOMER,
            life: IMMEDIATE,
            units,
            limit,
        });
    }

    /// An answer to that starter, so many cents better for it than its limit.
    fn answer(&mut self, of: u8, starter: u8, cents: i32, (member, class, units): Answer) {
        let net = self.book.leg_net(of, starter).map_or(0, |net| net as i32);
        let (side, limit) = match starter {
            BUY => (SELL, net - cents),
            _ => (BUY, net + cents),
        };
        self.push(match class {
            None => Event::Sweep {
                member,
                strategy: of,
                side,
                units,
                limit,
            },
            Some(class) => Event::Complex {
                member,
                strategy: of,
                side,
                class,
                life: RESPONSE,
                units,
                limit,
            },
        });
    }

    /// An auction of strategy 0 with these answers, all a cent better, and its end.
    fn shared(&mut self, side: u8, units: u16, answers: &[Answer]) {
        self.starter(0, side, units);
        for answer in answers {
            self.answer(0, side, 1, *answer);
        }
        self.end();
    }
}

/// A strategy of two legs, one bought and one sold.
const PAIR: &[(u8, u8, u8)] = &[(0, BUY, 1), (1, SELL, 1)];

/// Days of specialists and their portions (2026-04).
pub fn specialists() -> Vec<Day> {
    let mut days = vec![
        specialist_fields(),
        specialist_strategies(),
        specialist_names(),
        specialist_day_ends(),
        specialist_arrivals(),
        specialist_tables(),
    ];
    for side in [BUY, SELL] {
        for units in [5, 10, 17] {
            days.push(portions(side, units));
        }
        days.push(portions_beside_others(side));
        days.push(portions_at_two_limits(side));
        days.push(percentages(side));
    }
    days
}

/// Kind 11 with each field at its ends and past them: accepted, refused 3, refused 4.
fn specialist_fields() -> Day {
    let mut events = Vec::new();
    let mut named = |defined: &[u8]| {
        events.extend(
            defined
                .iter()
                .map(|of| strategy(&[(0, BUY, 1), (*of, SELL, 1)])),
        );
        for member in [0, 1, 2, 255, 256, 65_534, 65_535] {
            for of in [0, 1, 2, 14, 15, 16, 17, 255] {
                for percentage in [0, 1, 99, 100, 101, 102, 128, 200, 255] {
                    events.push(specialist(member, of, percentage));
                }
            }
        }
    };
    named(&[]);
    named(&[1]);
    let others: Vec<u8> = (2..=16).collect();
    named(&others);
    day("fields of kind 11", &events)
}

/// Every group of three sweeps of 1, 4 or 9 units, for a starter of so many; each of the
/// three is the specialist, at several percentages.
fn portions(side: u8, units: u16) -> Day {
    let mut made = Made::strategies(&[PAIR]);
    for number in 0..3_usize.pow(3) {
        let size = |at: u32| [1, 4, 9][number / 3_usize.pow(at) % 3];
        let answers: Vec<Answer> = (0..3).map(|at| (1 + at as u16, None, size(at))).collect();
        for member in 1..=3 {
            for percentage in [0, 10, 39, 50, 75, 100] {
                made.push(specialist(member, 0, percentage));
                made.shared(side, units, &answers);
            }
        }
    }
    day(
        &format!("portions to a starter of side {side}, {units} units"),
        &made.events,
    )
}

/// Every percentage, for a starter of 100 units and of 37.
fn percentages(side: u8) -> Day {
    let mut made = Made::strategies(&[PAIR]);
    for percentage in 0..=100 {
        made.push(specialist(NAMED, 0, percentage));
        for (units, own) in [(100, 90), (37, 90), (37, 20)] {
            made.shared(
                side,
                units,
                &[(1, None, 40), (NAMED, None, own), (3, None, 70)],
            );
        }
    }
    day(
        &format!("every percentage, a starter of side {side}"),
        &made.events,
    )
}

/// A specialist's sweep beside each choice of a customer's, a broker-dealer's and a
/// market maker's order, some of them its own member's, before it and behind it.
fn portions_beside_others(side: u8) -> Day {
    let mut made = Made::strategies(&[PAIR]);
    let others: [Answer; 6] = [
        (8, Some(CUSTOMER), 4),
        (NAMED, Some(CUSTOMER), 1),
        (NAMED, Some(MARKET_MAKER), 7),
        (7, Some(MARKET_MAKER), 5),
        (NAMED, Some(BROKER_DEALER), 6),
        (NAMED + 256, None, 7),
    ];
    for choice in 0..1 << others.len() {
        for (percentage, own, units) in [
            (0, 7, 10),
            (50, 7, 10),
            (50, 1, 10),
            (100, 20, 10),
            (35, 0, 10),
            (60, 7, 5),
        ] {
            made.push(specialist(NAMED, 0, percentage));
            let mut answers: Vec<Answer> = (others.into_iter().enumerate())
                .filter(|(at, _)| choice >> at & 1 == 1)
                .map(|(_, answer)| answer)
                .collect();
            // Without a sweep of its own the old rule holds.
            if own > 0 {
                answers.insert(answers.len() / 2, (NAMED, None, own));
            }
            made.shared(side, units, &answers);
        }
    }
    day(
        &format!("portions beside other orders, a starter of side {side}"),
        &made.events,
    )
}

/// Sweeps of the specialist and of others at two limits: shared at the better one or
/// at the other; and an order of the starter's side for what they have left, which comes
/// before them or after.
fn portions_at_two_limits(side: u8) -> Day {
    let mut made = Made::strategies(&[PAIR]);
    for percentage in [0, 30, 50, 80, 100] {
        made.push(specialist(NAMED, 0, percentage));
        for better in 0..=6_u16 {
            for own in 0..=better {
                made.starter(0, side, 10);
                let limit = made.book.leg_net(0, side).map_or(0, |net| net as i32);
                let waiting = order(5, side, MARKET_MAKER, RESPONSE, 7, limit);
                if own % 2 == 0 {
                    made.push(waiting);
                }
                for (member, units) in [(1, better - own), (NAMED, own)] {
                    if units > 0 {
                        made.answer(0, side, 2, (member, None, 2 * units));
                    }
                }
                for (member, units) in [(NAMED, 6), (3, 5), (4, 8)] {
                    made.answer(0, side, 1, (member, None, units));
                }
                if own % 2 == 1 {
                    made.push(waiting);
                }
                made.end();
            }
        }
    }
    day(
        &format!("portions at two limits, a starter of side {side}"),
        &made.events,
    )
}

/// Auctions of four strategies, each with a specialist of its own or with none; some
/// end together.
fn specialist_strategies() -> Day {
    let list: [&[(u8, u8, u8)]; 4] = [
        PAIR,
        &[(0, BUY, 1), (2, SELL, 1)],
        &[(1, BUY, 2), (3, SELL, 1)],
        &[(2, SELL, 1), (3, BUY, 3)],
    ];
    let mut made = Made::strategies(&list);
    for turn in 0..16_u16 {
        let of = (turn % 4) as u8;
        made.push(specialist(
            1 + turn / 2 % 4,
            of,
            [80, 0, 100, 45][usize::from(turn / 4)],
        ));
        let side = (turn % 2) as u8;
        for of in 0..4 {
            made.starter(of, side, 10);
            for member in 1..=4 {
                made.answer(of, side, 1, (member, None, 5 + member));
            }
        }
        made.end();
    }
    day("specialists of four strategies", &made.events)
}

/// Specialists that are named before an auction and in it, before their sweep and
/// behind it; and one that takes another's place.
fn specialist_names() -> Day {
    let mut made = Made::strategies(&[PAIR, &[(0, BUY, 1), (2, SELL, 1)]]);
    let answers: [Answer; 3] = [(1, None, 7), (NAMED, None, 7), (3, None, 7)];
    for side in [BUY, SELL] {
        for first in 0..=3 {
            for last in 0..=3 {
                for place in 0..=answers.len() {
                    if first > 0 {
                        made.push(specialist(first, 0, 70));
                    }
                    made.starter(0, side, 10);
                    for (at, answer) in answers.into_iter().enumerate() {
                        if at == place && last > 0 {
                            made.push(specialist(last, 0, 50));
                        }
                        made.answer(0, side, 1, answer);
                    }
                    // Of another strategy, and refused.
                    made.push(specialist(1, 1, 100));
                    made.push(specialist(1, 2, 100));
                    if place == answers.len() && last > 0 {
                        made.push(specialist(last, 0, 60));
                    }
                    made.end();
                    // What is refused leaves the one that is named.
                    made.push(specialist(3, 0, 101));
                    made.push(specialist(0, 0, 100));
                    made.shared(side, 10, &answers);
                }
            }
        }
    }
    // A halt in an auction, and a series that opens.
    for state in [0, 1] {
        made.starter(0, BUY, 10);
        made.answer(0, BUY, 1, answers[1]);
        made.push(series(0, state));
        made.push(specialist(3, 0, 90));
        made.push(series(0, 1));
        made.shared(BUY, 10, &answers);
    }
    // A strategy that is defined again.
    made.push(strategy(&[(1, SELL, 3), (0, BUY, 3)]));
    made.shared(SELL, 10, &answers);
    day("specialists named in turn", &made.events)
}

/// A specialist, a day end, and the same strategy without one; and one that was refused
/// for a strategy that is defined then.
fn specialist_day_ends() -> Day {
    let answers: [Answer; 2] = [(1, None, 9), (NAMED, None, 9)];
    let mut events = Vec::new();
    for named in [1, NAMED, 3, 1] {
        for refused in [true, false] {
            let mut market: Vec<Event> = vec![series(0, 1), series(1, 1)];
            if refused {
                market.extend([specialist(named, 0, 100), specialist(named, 1, 100)]);
            }
            market.push(strategy(PAIR));
            for leg in [0, 1] {
                market.push(leg_order(1, leg, BUY, 9, 300));
                market.push(leg_order(1, leg, SELL, 9, 310));
            }
            events.extend(market);
            for turn in 0..2 {
                if turn == 1 {
                    events.push(specialist(named, 0, 80));
                }
                events.push(order(9, BUY, CUSTOMER, IMMEDIATE, 10, 10));
                for (member, _, units) in answers {
                    events.push(sweep(member, SELL, units, 9));
                }
                events.push(clock(5_000 * (1 + turn)));
            }
            events.push(order(9, BUY, CUSTOMER, IMMEDIATE, 10, 10));
            events.push(sweep(NAMED, SELL, 9, 9));
            events.push(day_end(5_000));
        }
    }
    day("day ends after a specialist was named", &events)
}

/// Market makers' day orders at one limit, which an arriving order shares by the old
/// rule: some of them are the specialist's. Then the same in an auction.
fn specialist_arrivals() -> Day {
    let mut made = Made::strategies(&[PAIR]);
    for side in [BUY, SELL] {
        for named in 1..=3 {
            for percentage in [0, 60, 100] {
                made.push(specialist(named, 0, percentage));
                let net = made.net(1 - side).unwrap_or(0);
                let limit = if side == BUY { net - 1 } else { net + 1 };
                for member in 1..=3 {
                    made.push(order(member, 1 - side, MARKET_MAKER, DAY, 7, limit));
                }
                made.push(order(8, side, MARKET_MAKER, IMMEDIATE, 10, limit));
                made.shared(side, 5, &[(named, None, 4)]);
                made.push(order(8, side, MARKET_MAKER, IMMEDIATE, 99, limit));
            }
        }
    }
    day("orders of a specialist's member on arrival", &made.events)
}

/// Full tables: 16 sweeps, with and without 15 orders of market makers, of up to 9,999
/// units each, and the specialist at each place of the sweeps.
fn specialist_tables() -> Day {
    let mut made = Made::strategies(&[PAIR]);
    for size in [3, 1_000, 9_999] {
        for place in 1..=SWEEPS as u16 {
            made.push(specialist(
                place,
                0,
                [0, 1, 7, 50, 99][usize::from(place) % 5],
            ));
            let mut answers: Vec<Answer> = Vec::new();
            for member in 1..=SWEEPS as u16 {
                if place % 4 == 0 && member < COMPLEX_ORDERS as u16 {
                    answers.push((place, Some(MARKET_MAKER), size - member % 3));
                }
                answers.push((member, None, size - member % 2));
            }
            for units in [9, 9_999] {
                made.shared((place % 2) as u8, units, &answers);
            }
        }
    }
    day("full tables with a specialist", &made.events)
}

impl Made {
    /// A day with a timer of 1 ms, all series open, and these strategies.
    fn asked(list: &[&[(u8, u8, u8)]]) -> Made {
        let mut made = Made {
            events: Vec::new(),
            book: Book::first(),
        };
        made.next_day();
        for legs in list {
            made.push(strategy(legs));
        }
        made
    }

    /// A day end, and all series open.
    fn next_day(&mut self) {
        self.push(day_end(1));
        (0..32).for_each(|number| self.push(series(number, 1)));
    }

    /// The net that an order of this side takes in a strategy.
    fn net_taken(&self, of: u8, side: u8) -> Option<i32> {
        self.book.leg_net(of, side).map(|net| net as i32)
    }

    /// Customers in each strategy and on each side, at the net of their side and a cent
    /// better: what starts an auction tells the net. Where it is unknown none does, a cent
    /// worse than the other net, or anywhere.
    fn ask(&mut self) {
        for of in 0..self.book.strategies.len() as u8 {
            for side in [BUY, SELL] {
                let better = if side == BUY { 1 } else { -1 };
                let own = self.net_taken(of, 1 - side);
                let other = self.net_taken(of, side);
                let limits = match (own, other) {
                    (Some(net), _) => [net, net + better],
                    (None, Some(net)) => [net - better, net - 2 * better],
                    (None, None) => [better, 9_999_999 * better],
                };
                for limit in limits {
                    self.order_in(of, side, CUSTOMER, IMMEDIATE, 1, limit);
                    if self.book.auction_runs(of) {
                        self.end();
                    }
                }
            }
        }
    }

    fn order_in(&mut self, of: u8, side: u8, class: u8, life: u8, units: u16, limit: i32) {
        self.push(Event::Complex {
            member: 9,
            strategy: of,
            side,
            class,
            life,
            units,
            limit,
        });
    }

    /// The event, and then the nets are asked for. Answers the last number that was given
    /// before.
    fn then_ask(&mut self, event: Event) -> u32 {
        self.push(event);
        let number = self.book.given;
        self.ask();
        number
    }

    /// The leg orders of one side of a series go.
    fn clear_side(&mut self, series: u8, side: u8) {
        let held: Vec<_> = self.book.leg_orders_of(series, side).copied().collect();
        for order in held {
            self.push(cancel(order.member, order.number));
        }
    }

    /// All leg orders go.
    fn clear_all(&mut self) {
        (0..32).for_each(|series| self.clear(series));
    }

    /// The series of the held strategies, rising.
    fn held_series(&self) -> Vec<u8> {
        let set = (self.book.strategies.iter()).fold(0, |set, held| set | held.series);
        (0..32).filter(|series| set >> series & 1 == 1).collect()
    }

    /// In each series a bid of 290 and an offer of 310.
    fn wide_market(&mut self) {
        for series in self.held_series() {
            self.push(leg_order(1, series, BUY, 90, 290));
            self.push(leg_order(1, series, SELL, 90, 310));
        }
    }
}

/// Lists of strategies that share series.
fn sharing() -> Vec<Vec<Vec<(u8, u8, u8)>>> {
    let many = (0..16_u8).map(|number| {
        vec![
            (number % 4, number / 4 % 2, 1 + number % 3),
            (4 + number / 8, number % 2, 1 + number / 6),
        ]
    });
    vec![
        vec![PAIR.to_vec()],
        vec![
            PAIR.to_vec(),
            vec![(0, SELL, 1), (1, BUY, 1)],
            vec![(0, BUY, 3), (2, BUY, 2)],
            vec![(1, SELL, 1), (2, SELL, 3)],
        ],
        vec![vec![(0, SELL, 2), (1, SELL, 3), (31, BUY, 1)]],
        vec![six_legs(3), six_legs(6)],
        many.collect(),
    ]
}

fn lists_of(strategies: &[Vec<(u8, u8, u8)>]) -> Vec<&[(u8, u8, u8)]> {
    strategies.iter().map(Vec::as_slice).collect()
}

/// Days that ask for the nets after each event that touches a leg order (2026-05).
pub fn kept_nets() -> Vec<Day> {
    let mut days = Vec::new();
    for strategies in sharing() {
        days.push(touched_nets(&strategies));
    }
    for side in [BUY, SELL] {
        days.push(nets_in_passes(side));
        days.push(nets_of_waiting_orders(side));
        days.push(nets_at_auction_ends(side));
    }
    days.push(nets_of_definitions());
    days.push(nets_beside_shut_series());
    days.push(nets_around_0());
    days.push(largest_nets());
    days
}

/// The ways in which leg orders of a series and side come and go: the first, one behind
/// it, one at its price, a better one, trades with a part of it and with the rest,
/// cancels of one of several, behind the best, of the best, a trade with all at the best
/// of which something rests, and one with the last.
fn touched_nets(strategies: &[Vec<(u8, u8, u8)>]) -> Day {
    let mut made = Made::asked(&lists_of(strategies));
    made.wide_market();
    made.ask();
    for touched in made.held_series() {
        for side in [BUY, SELL] {
            made.clear_side(touched, side);
            made.ask();
            let own = |member, contracts, cents| {
                leg_order(member, touched, side, contracts, worse(side, cents))
            };
            let against =
                |contracts, cents| leg_order(6, touched, 1 - side, contracts, worse(side, cents));
            let first = made.then_ask(own(2, 3, 5));
            let behind = made.then_ask(own(3, 3, 6));
            made.then_ask(own(4, 3, 5));
            made.then_ask(own(5, 2, 3));
            made.then_ask(against(1, 3));
            made.then_ask(against(1, 3));
            made.then_ask(cancel(2, first));
            made.then_ask(cancel(3, behind));
            let best = made.then_ask(own(5, 2, 4));
            made.then_ask(cancel(5, best));
            made.then_ask(own(3, 3, 9));
            made.then_ask(against(4, 5));
            made.then_ask(against(3, 9));
            made.clear_side(touched, 1 - side);
            made.ask();
            for side in [BUY, SELL] {
                made.push(leg_order(
                    1,
                    touched,
                    side,
                    90,
                    if side == BUY { 290 } else { 310 },
                ));
            }
            made.ask();
        }
    }
    let amount = strategies.len();
    let series = made.held_series();
    day(
        &format!("nets of {amount} strategies in series {series:?}"),
        &made.events,
    )
}

/// Orders of this side that fill by legs at three nets in one pass, or at fewer by their
/// limit, by their units, or since the leg orders end; another strategy takes one of the
/// legs too.
fn nets_in_passes(side: u8) -> Day {
    let mut made = Made::asked(&[
        PAIR,
        &[(0, BUY, 2), (2, SELL, 1)],
        &[(0, SELL, 1), (1, BUY, 1)],
    ]);
    made.wide_market();
    for units in 1..=9 {
        for cents in 0..=4 {
            for of in 0..2 {
                // On each leg two prices better than the wide market's.
                for leg in made.book.legs(0).to_vec() {
                    let taken = if side == BUY { 1 - leg.side } else { leg.side };
                    if units % 3 == 0 {
                        made.clear_side(leg.series, taken);
                    }
                    for (contracts, away) in [(2, 3), (3, 4 + u32::from(leg.series))] {
                        made.push(leg_order(
                            3,
                            leg.series,
                            taken,
                            contracts,
                            worse(taken, away),
                        ));
                    }
                }
                made.ask();
                let net = made.net_taken(of, side).unwrap_or(0);
                let limit = if side == BUY {
                    net + cents
                } else {
                    net - cents
                };
                // A limit of the other side between the nets.
                let other = if side == BUY { net + 2 } else { net - 2 };
                if units % 2 == 0 {
                    made.order_in(of, 1 - side, MARKET_MAKER, DAY, 1, other);
                }
                made.order_in(of, side, MARKET_MAKER, IMMEDIATE, units, limit);
                made.ask();
                made.order_in(of, side, MARKET_MAKER, IMMEDIATE, 9, other);
                made.ask();
                made.clear_all();
                made.wide_market();
            }
        }
    }
    day(&format!("nets in passes of side {side}"), &made.events)
}

/// Day orders of this side in strategies that share series 0, and leg orders that fill
/// them in turn, at the net that the one before has left.
fn nets_of_waiting_orders(side: u8) -> Day {
    let mut made = Made::asked(&[
        PAIR,
        &[(0, BUY, 1), (2, SELL, 1)],
        &[(0, BUY, 1), (1, SELL, 1), (2, SELL, 1)],
    ]);
    for contracts in 1..=8 {
        for shut in [false, true] {
            made.wide_market();
            for of in [0, 0, 1, 2] {
                let net = made.net_taken(of, side).unwrap_or(0);
                let limit = if side == BUY { net - 5 } else { net + 5 };
                made.order_in(of, side, MARKET_MAKER, DAY, 2, limit);
            }
            if shut {
                made.push(series(2, 0));
            }
            // On the first leg the price that they take, then one a cent worse.
            let better = if side == BUY { 305 } else { 295 };
            let behind = if side == BUY { 306 } else { 294 };
            made.then_ask(leg_order(3, 0, 1 - side, 1, behind));
            made.then_ask(leg_order(3, 0, 1 - side, contracts, better));
            made.then_ask(leg_order(3, 1, side, contracts, 300));
            if shut {
                made.then_ask(series(2, 1));
            }
            made.clear_complex();
            made.clear_all();
        }
    }
    day(
        &format!("nets of waiting orders of side {side}"),
        &made.events,
    )
}

impl Made {
    /// Cancels the complex orders.
    fn clear_complex(&mut self) {
        let held: Vec<_> = self.book.complex_orders().copied().collect();
        for order in held {
            self.push(cancel(order.member, order.number));
        }
    }
}

/// Auctions of strategies that share series 0 and end together: starters of this side and
/// waiting orders take the legs in turn, while leg orders come, trade and go.
fn nets_at_auction_ends(side: u8) -> Day {
    let list: [&[(u8, u8, u8)]; 3] = [
        PAIR,
        &[(0, BUY, 1), (2, SELL, 1)],
        &[(0, BUY, 2), (1, SELL, 1), (2, BUY, 1)],
    ];
    let mut made = Made::asked(&list);
    for units in 1..=4 {
        for moved in 0..4 {
            made.wide_market();
            let (best, next) = if side == BUY { (303, 306) } else { (297, 294) };
            made.push(leg_order(3, 0, 1 - side, 3, best));
            made.push(leg_order(3, 0, 1 - side, 3, next));
            for of in 0..3 {
                let net = made.net_taken(of, side).unwrap_or(0);
                let limit = if side == BUY { net + 4 } else { net - 4 };
                made.order_in(of, side, CUSTOMER, IMMEDIATE, units, limit);
                made.order_in(of, side, MARKET_MAKER, RESPONSE, units, limit);
            }
            match moved {
                0 => {}
                1 => made.push(leg_order(
                    4,
                    0,
                    1 - side,
                    1,
                    if side == BUY { 302 } else { 298 },
                )),
                2 => made.push(leg_order(4, 0, side, 3, best)),
                _ => made.clear_side(0, 1 - side),
            }
            made.end();
            made.ask();
            made.clear_all();
        }
    }
    day(&format!("nets at auction ends, side {side}"), &made.events)
}

/// Strategies defined over each choice of the sides of two legs that have an order; the
/// same once more after the nets have changed; and the next day, with others in the slots.
fn nets_of_definitions() -> Day {
    let mut made = Made::asked(&[]);
    let sides = [(0, BUY, 290), (0, SELL, 310), (1, BUY, 90), (1, SELL, 110)];
    for choice in 0..1 << sides.len() {
        for (at, (number, side, price)) in sides.into_iter().enumerate() {
            if choice >> at & 1 == 1 {
                made.push(leg_order(2, number, side, 9, price));
            }
        }
        let mirror = strategy(&[(0, SELL, 1), (1, BUY, 1)]);
        let (first, second) = match choice % 2 {
            0 => (strategy(PAIR), mirror),
            _ => (mirror, strategy(PAIR)),
        };
        made.then_ask(first);
        made.then_ask(second);
        made.then_ask(leg_order(3, 0, BUY, 1, 295));
        made.then_ask(leg_order(3, 1, SELL, 1, 105));
        made.then_ask(strategy(&[(1, SELL, 12), (0, BUY, 12)]));
        made.then_ask(strategy(&[(0, BUY, 2), (1, BUY, 3)]));
        made.next_day();
        // Without a leg order all are unknown.
        made.then_ask(strategy(PAIR));
        made.next_day();
    }
    day("nets of definitions", &made.events)
}

/// Leg orders that come, trade and go while another series of their strategies is shut,
/// and cancels in the shut one; the nets are asked for when it opens.
fn nets_beside_shut_series() -> Day {
    let mut made = Made::asked(&[PAIR, &[(0, SELL, 2), (2, BUY, 1)]]);
    for side in [BUY, SELL] {
        for turn in 0..4 {
            made.wide_market();
            made.push(leg_order(3, 0, side, 2, worse(side, 4)));
            let better = made.book.given;
            made.push(series(0, 0));
            if turn % 2 == 0 {
                made.push(cancel(3, better));
            }
            if turn / 2 == 0 {
                made.push(leg_order(4, 1, side, 2, worse(side, 3)));
                made.push(leg_order(4, 2, side, 2, worse(side, 3)));
                made.push(leg_order(5, 2, 1 - side, 2, worse(side, 3)));
            }
            made.push(strategy(&[(0, side, 1), (1 + turn / 3, BUY, 1 + turn % 3)]));
            made.ask();
            made.then_ask(series(0, 1));
            made.clear_all();
        }
    }
    day("nets beside shut series", &made.events)
}

/// Nets that pass 0 cent by cent, by better leg orders and by cancels of them.
fn nets_around_0() -> Day {
    let mut made = Made::asked(&[PAIR, &[(0, SELL, 1), (1, BUY, 1)]]);
    made.ask();
    for (bought, sold) in [(0, 1), (1, 0)] {
        made.push(leg_order(1, bought, BUY, 9, 290));
        made.push(leg_order(1, sold, SELL, 9, 310));
        let mut better = Vec::new();
        for cents in 0..3 {
            better.push(made.then_ask(leg_order(2, bought, BUY, 1, 300 + cents)));
            better.push(made.then_ask(leg_order(2, sold, SELL, 1, 302 - cents)));
        }
        for number in better.into_iter().rev() {
            made.then_ask(cancel(2, number));
        }
        made.clear_all();
        made.ask();
    }
    day("nets around 0", &made.events)
}

/// Nets of six legs with the largest ratios and prices.
fn largest_nets() -> Day {
    let mut made = Made::asked(&[&six_legs(6), &six_legs(5), &six_legs(3), &six_legs(0)]);
    for series in made.held_series() {
        made.push(leg_order(1, series, BUY, 9, 1));
        made.then_ask(leg_order(1, series, SELL, 9, 99_999));
    }
    for series in made.held_series() {
        made.then_ask(leg_order(2, series, BUY, 9, 99_990));
    }
    day("the largest nets", &made.events)
}
