//! Days made so that one event takes long: full tables, and as many fills in one
//! event as they allow.

use crate::days::{Frame, Maker};
use reckoning::book::{
    BROKER_DEALER, BUY, COMPLEX_ORDERS, CUSTOMER, DAY, IMMEDIATE, LEG_ORDERS, MARKET_MAKER, SELL,
    STRATEGIES, SWEEPS,
};
use reckoning::frames::{Event, Leg};
use std::ops::Range;

/// A day whose last event takes long; of full-book the last 13 do little, beside full
/// tables.
#[derive(Clone, Debug)]
pub struct LongDay {
    pub name: &'static str,
    pub about: &'static str,
    pub frames: Vec<Frame>,
}

type Row = (&'static str, &'static str, fn(&mut Maker));
const ROWS: &[Row] = &[
    (
        "full-book",
        "every table full, auctions in all strategies; then events that do little",
        full_book,
    ),
    (
        "complex-order",
        "an order meets 15 limits and 27 leg nets, in turn",
        complex_order,
    ),
    (
        "leg-order",
        "a leg order lets 16 day orders take 31 others with it, in 42 turns",
        leg_order,
    ),
    (
        "opening",
        "a series opens, and 16 day orders take 32 leg orders, in 42 turns",
        opening,
    ),
    (
        "opening-bound",
        "the same opening with national prices of all series",
        opening_bound,
    ),
    (
        "crossing",
        "a series opens, 16 day orders match, and the last takes 32 leg orders",
        crossing,
    ),
    (
        "halt",
        "a series shuts that all 16 strategies hold, in auctions with 16 sweeps",
        halt,
    ),
    (
        "auction",
        "an auction ends: 16 sweeps are shared, 15 orders take the rest and 32 leg orders",
        auction,
    ),
    (
        "auction-bound",
        "the same end with national prices of all series",
        auction_bound,
    ),
    (
        "portion",
        "the same end with a specialist's portion",
        auction_portion,
    ),
    (
        "answers",
        "an auction ends: 30 answers are shared, an order takes the rest and 32 leg orders",
        answers,
    ),
    (
        "auctions",
        "16 auctions end at once, and their starters take leg orders",
        auctions,
    ),
    (
        "day-end",
        "a day ends with every table full and auctions in all strategies",
        day_end,
    ),
];

/// The days whose events take long.
pub fn long_days() -> Vec<LongDay> {
    let day = |(name, about, make): &Row| {
        let mut maker = Maker::empty();
        make(&mut maker);
        LongDay {
            name,
            about,
            frames: maker.frames,
        }
    };
    ROWS.iter().map(day).collect()
}

/// Every strategy has its legs in these series.
const LEGS: Range<u8> = 0..6;
/// The strategy whose legs all have ratio 1; the others stand before it.
const LAST: u8 = STRATEGIES as u8 - 1;
/// Prices of five digits, and steps of three, for long lines.
const PRICE: u32 = 90_000;
const STEP: u16 = 100;
/// A limit that no net reaches, and the net of the legs at the best offers.
const HIGH: i32 = 9_999_999;
const NET: i32 = 6 * PRICE as i32;
/// The highest limit of a sweep that sells below that net.
const BELOW: i32 = NET - 1;

/// A strategy that buys each leg, with other ratios than the others.
fn strategy(index: u8) -> Event {
    let mut legs = [Leg::default(); 6];
    for (at, leg) in legs.iter_mut().enumerate() {
        let twice = index < LAST && (index + 1) >> at & 1 == 1;
        *leg = Leg {
            series: LEGS.start + at as u8,
            side: BUY,
            ratio: 1 + u8::from(twice),
        };
    }
    Event::Strategy { count: 6, legs }
}

impl Maker {
    /// Open series and every strategy.
    fn strategies(&mut self) {
        self.push(Event::DayEnd { timer: 5_000 });
        for series in 0..32 {
            self.series(series, 1);
        }
        for index in 0..=LAST {
            self.push(strategy(index));
        }
    }

    /// A leg order of this side, so much away from the usual price.
    fn leg(&mut self, series: u8, side: u8, contracts: u16, away: u32) {
        self.push(Event::LegOrder {
            member: 1,
            series,
            side,
            contracts,
            price: match side {
                BUY => PRICE - 1_000 - away,
                _ => PRICE + away,
            },
        });
    }

    /// So many offers in these series, at rising prices. A buyer of one of each takes
    /// them in as many turns as there are offers past the first of each series, and
    /// one more: a turn ends one price of one series, and the last turn ends all.
    fn offers(&mut self, series: Range<u8>, count: usize) {
        let turns = count - series.len() + 1;
        for at in 0..series.len() {
            let ends = (1..=turns).filter(|turn| *turn == turns || turn % series.len() == at);
            let mut from = 0;
            for (away, end) in ends.enumerate() {
                let contracts = (end - from) as u16 * STEP;
                self.leg(series.start + at as u8, SELL, contracts, away as u32);
                from = end;
            }
        }
    }

    /// A bid in each leg, so that a buyer can start an auction; their numbers.
    fn bids(&mut self) -> Vec<u32> {
        for series in LEGS {
            self.leg(series, BUY, 1, 0);
        }
        self.book.leg_orders.iter().map(|bid| bid.number).collect()
    }

    /// Offers in the place of the bids.
    fn offers_for(&mut self, bids: Vec<u32>) {
        for number in bids {
            self.cancel(1, number);
        }
        self.offers(LEGS, LEG_ORDERS);
    }

    fn series(&mut self, series: u8, state: u8) {
        self.push(Event::Series { series, state });
    }

    fn clock(&mut self, milliseconds: u32) {
        self.push(Event::Clock { milliseconds });
    }

    fn order(&mut self, strategy: u8, side: u8, class: u8, life: u8, units: u16, limit: i32) {
        self.push(Event::Complex {
            member: 100,
            strategy,
            side,
            class,
            life,
            units,
            limit,
        });
    }

    /// Day orders that take all offers by legs. None but the last ends where an offer
    /// does, so that each takes a turn more.
    fn buyers(&mut self, count: usize) {
        for index in 1..=count {
            let units = if index < count { 167 } else { 999 };
            self.order(LAST, BUY, MARKET_MAKER, DAY, units, HIGH);
        }
    }

    /// An auction of each strategy, started by an order of this life; beside the bids
    /// as many offers as there is room for.
    fn auctions(&mut self, life: u8) {
        self.bids();
        self.offers(LEGS, LEG_ORDERS - LEGS.len());
        for strategy in 0..=LAST {
            let limit = self.net(strategy, BUY);
            self.order(strategy, BUY, CUSTOMER, life, 5_000, limit);
        }
    }

    /// A sweep in each auction.
    fn sweep_in_each(&mut self) {
        for strategy in 0..SWEEPS as u8 {
            let limit = self.net(strategy, BUY) - 1;
            self.sweep(200, strategy, SELL, 4_000, limit);
        }
    }
}

fn full_book(maker: &mut Maker) {
    maker.strategies();
    maker.auctions(DAY);
    for member in 0..SWEEPS as u16 {
        maker.sweep(200 + member, LAST, SELL, 4_000, BELOW);
    }
    // What is full refuses.
    maker.order(LAST, BUY, CUSTOMER, DAY, 1, NET);
    maker.sweep(300, LAST, SELL, 1, BELOW);
    maker.leg(31, BUY, 1, 0);
    maker.push(Event::Strategy {
        count: 6,
        legs: [12, 11, 10, 9, 8, 7].map(|ratio| Leg {
            series: 20 - ratio,
            side: SELL,
            ratio,
        }),
    });
    // The last of each table, and the first.
    let mut held = strategy(LAST - 1);
    if let Event::Strategy { legs, .. } = &mut held {
        legs.reverse();
        legs.iter_mut().for_each(|leg| leg.ratio *= 6);
    }
    maker.push(held);
    let last = 200 + SWEEPS as u16 - 1;
    maker.sweep(last, LAST, SELL, 3_000, BELOW);
    maker.sweep(200, LAST, SELL, 0, BELOW);
    maker.sweep(200, LAST, SELL, 3_000, BELOW);
    let numbers: Vec<u32> = maker.book.leg_orders.iter().map(|o| o.number).collect();
    maker.cancel(1, numbers[numbers.len() - 1]);
    maker.cancel(1, numbers[0]);
    maker.leg(31, BUY, 1, 0);
    maker.clock(1);
    maker.series(0, 1);
}

fn complex_order(maker: &mut Maker) {
    maker.strategies();
    maker.offers(LEGS, LEG_ORDERS);
    for turn in 0..COMPLEX_ORDERS as i32 - 1 {
        let limit = NET + 1 + 2 * turn;
        maker.order(LAST, SELL, MARKET_MAKER, DAY, 400, limit);
    }
    maker.order(LAST, BUY, MARKET_MAKER, IMMEDIATE, 9_999, HIGH);
}

fn leg_order(maker: &mut Maker) {
    maker.strategies();
    maker.offers(LEGS.start + 1..LEGS.end, LEG_ORDERS - 1);
    // None but the last ends where an offer does.
    for index in 0..COMPLEX_ORDERS {
        let units = if index + 1 < COMPLEX_ORDERS { 167 } else { 999 };
        maker.order(LAST, BUY, MARKET_MAKER, DAY, units, HIGH);
    }
    maker.leg(LEGS.start, SELL, 9_999, 0);
}

fn opening(maker: &mut Maker) {
    maker.strategies();
    open_for_buyers(maker);
}

/// Each match of an opening and each pass has bounds, and all fills are within them.
fn opening_bound(maker: &mut Maker) {
    maker.strategies();
    maker.national(1, 99_999, 0);
    open_for_buyers(maker);
}

fn open_for_buyers(maker: &mut Maker) {
    maker.offers(LEGS, LEG_ORDERS);
    maker.series(LEGS.start, 0);
    maker.buyers(COMPLEX_ORDERS);
    maker.series(LEGS.start, 1);
}

fn crossing(maker: &mut Maker) {
    maker.strategies();
    maker.offers(LEGS, LEG_ORDERS);
    maker.series(LEGS.start, 0);
    // Each fill ends one order; the last buyer has enough for the legs.
    let pairs = COMPLEX_ORDERS as i32 / 2;
    for index in 0..pairs {
        let units = if index + 1 < pairs { 1_050 } else { 9_999 };
        maker.order(LAST, SELL, MARKET_MAKER, DAY, 1_000, NET + index);
        maker.order(LAST, BUY, MARKET_MAKER, DAY, units, HIGH - index);
    }
    maker.series(LEGS.start, 1);
}

fn halt(maker: &mut Maker) {
    maker.strategies();
    maker.auctions(IMMEDIATE);
    maker.sweep_in_each();
    maker.series(LEGS.start, 0);
}

fn auction(maker: &mut Maker) {
    maker.strategies();
    end_auction(maker);
}

/// Each of the 32 passes has bounds, and all fills are within them.
fn auction_bound(maker: &mut Maker) {
    maker.strategies();
    maker.national(1, 99_999, 0);
    end_auction(maker);
}

/// The last of the 16 sweeps is the specialist's, and the other 15 share with many
/// units left over. It leaves something of each, too.
fn auction_portion(maker: &mut Maker) {
    maker.strategies();
    maker.specialist(200 + SWEEPS as u16 - 1, LAST, 7);
    end_auction(maker);
}

fn end_auction(maker: &mut Maker) {
    let bids = maker.bids();
    maker.order(LAST, BUY, CUSTOMER, DAY, 801, NET);
    maker.offers_for(bids);
    // The sweeps have half of 16 times 100 left, and pass before the orders do.
    for member in 0..SWEEPS as u16 {
        maker.sweep(200 + member, LAST, SELL, 100, BELOW);
    }
    maker.order(LAST, BUY, MARKET_MAKER, DAY, 799 + 167, HIGH);
    maker.buyers(COMPLEX_ORDERS - 2);
    maker.clock(5_000);
}

fn answers(maker: &mut Maker) {
    maker.strategies();
    let bids = maker.bids();
    maker.order(LAST, BUY, CUSTOMER, DAY, 1_501, NET);
    maker.offers_for(bids);
    for _ in 0..COMPLEX_ORDERS - 2 {
        maker.order(LAST, SELL, MARKET_MAKER, DAY, 100, BELOW);
    }
    for member in 0..SWEEPS as u16 {
        maker.sweep(200 + member, LAST, SELL, 100, BELOW);
    }
    maker.order(LAST, BUY, BROKER_DEALER, IMMEDIATE, 9_999, HIGH);
    maker.clock(5_000);
}

fn auctions(maker: &mut Maker) {
    maker.strategies();
    let bids = maker.bids();
    for strategy in 0..=LAST {
        let units = if strategy < LAST { 84 } else { 9_999 };
        maker.order(strategy, BUY, CUSTOMER, IMMEDIATE, units, HIGH);
    }
    maker.offers_for(bids);
    // On the starters' side, so that the legs are not barred.
    for strategy in 0..SWEEPS as u8 {
        maker.sweep(200, strategy, BUY, 4_000, NET);
    }
    maker.clock(5_000);
}

fn day_end(maker: &mut Maker) {
    maker.strategies();
    maker.auctions(DAY);
    maker.sweep_in_each();
    maker.push(Event::DayEnd { timer: 5_000 });
}
