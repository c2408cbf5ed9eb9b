//! Events by their fields, a book under test, and the records of its fills.

// Each file of tests uses its part.
#![allow(dead_code)]

use reckoning::book::{Book, RowEntry, SPACE};
use reckoning::frames::{bytes, Event, Leg};

pub const BUY: u8 = 0;
pub const SELL: u8 = 1;
pub const CUSTOMER: u8 = 1;
pub const BROKER: u8 = 2;
pub const MAKER: u8 = 3;
pub const DAY: u8 = 0;
pub const IMMEDIATE: u8 = 1;
pub const RESPONSE: u8 = 2;
pub const DO_NOT_AUCTION: u8 = 3;

pub type Records = Vec<[i32; 6]>;

pub fn strategy(legs: &[(u8, u8, u8)]) -> Event {
    let mut row = [Leg::default(); 6];
    for (place, (series, side, ratio)) in row.iter_mut().zip(legs) {
        *place = Leg {
            series: *series,
            side: *side,
            ratio: *ratio,
        };
    }
    Event::Strategy {
        count: legs.len() as u8,
        legs: row,
    }
}

pub fn complex(
    member: u16,
    of: u8,
    side: u8,
    class: u8,
    life: u8,
    units: u16,
    limit: i32,
) -> Event {
    Event::Complex {
        member,
        strategy: of,
        side,
        class,
        life,
        units,
        limit,
    }
}

pub fn sweep(member: u16, of: u8, side: u8, units: u16, limit: i32) -> Event {
    Event::Sweep {
        member,
        strategy: of,
        side,
        units,
        limit,
    }
}

pub fn leg_order(member: u16, series: u8, side: u8, contracts: u16, price: u32) -> Event {
    Event::LegOrder {
        member,
        series,
        side,
        contracts,
        price,
    }
}

pub fn cancel(member: u16, number: u32) -> Event {
    Event::Cancel { member, number }
}

pub fn open(series: u8) -> Event {
    Event::Series { series, state: 1 }
}

pub fn shut(series: u8) -> Event {
    Event::Series { series, state: 0 }
}

pub fn clock(milliseconds: u32) -> Event {
    Event::Clock { milliseconds }
}

/// Kind 9: the national bid and offer of a series.
pub fn national(series: u8, bid: u32, offer: u32) -> Event {
    Event::NationalPrices { series, bid, offer }
}

/// Kind 10: the execution range.
pub fn range(cents: u16) -> Event {
    Event::ExecutionRange { cents }
}

/// Kind 11: the specialist of a strategy.
pub fn specialist(member: u16, of: u8, percentage: u8) -> Event {
    Event::Specialist {
        member,
        strategy: of,
        percentage,
    }
}

/// A book under test.
pub struct Bench {
    pub book: Book,
}

impl Bench {
    pub fn new() -> Bench {
        Bench {
            book: Book::first(),
        }
    }

    /// Series 0 at 300/305, series 1 at 100/103, 10 contracts each, as numbers 1
    /// to 4 of members 1 to 4; strategy 0 buys 0 and sells 1: nets 197 bid, 205
    /// offer.
    pub fn market() -> Bench {
        let mut bench = Bench::new();
        bench.value(open(0));
        bench.value(open(1));
        bench.value(strategy(&[(0, BUY, 1), (1, SELL, 1)]));
        bench.value(leg_order(1, 0, BUY, 10, 300));
        bench.value(leg_order(2, 0, SELL, 10, 305));
        bench.value(leg_order(3, 1, BUY, 10, 100));
        bench.value(leg_order(4, 1, SELL, 10, 103));
        bench
    }

    /// The market, with series 2 at 50/53 as numbers 5 and 6 of members 5 and
    /// 6, and strategy 1 that buys 0 and sells 2: nets 247 bid, 255 offer.
    pub fn two_strategies() -> Bench {
        let mut bench = Bench::market();
        bench.value(open(2));
        bench.value(leg_order(5, 2, BUY, 10, 50));
        bench.value(leg_order(6, 2, SELL, 10, 53));
        assert_eq!(bench.value(strategy(&[(0, BUY, 1), (2, SELL, 1)])), 1);
        bench
    }

    /// An accepted event: its value and its records.
    pub fn accepted(&mut self, event: Event) -> (u32, Records) {
        let answer = self.book.step(&bytes(&event), SPACE);
        assert_eq!(answer.answer, 0, "{event:?}");
        let records = answer.records.iter().map(|record| record.numbers());
        (answer.value, records.collect())
    }

    pub fn value(&mut self, event: Event) -> u32 {
        self.accepted(event).0
    }

    pub fn records(&mut self, event: Event) -> Records {
        self.accepted(event).1
    }

    /// The answer to any event.
    pub fn answer(&mut self, event: Event) -> u32 {
        self.book.step(&bytes(&event), SPACE).answer
    }
}

/// The records of one whole fill in a strategy that buys `first` and sells
/// `second`, one each.
pub fn whole_on(
    place: i32,
    series: (i32, i32),
    active: (i32, u8),
    other: i32,
    units: i32,
    price: i32,
) -> Records {
    let side = i32::from(active.1);
    let mut records = Vec::new();
    for (number, side) in [(active.0, side), (other, 1 - side)] {
        records.push([1, number, place, side, units, price]);
        records.push([2, number, series.0, side, units, 0]);
        records.push([2, number, series.1, 1 - side, units, 0]);
    }
    records
}

/// The records of one whole fill in strategy 0 of the market.
pub fn whole(active: (i32, u8), other: i32, units: i32, price: i32) -> Records {
    whole_on(0, (0, 1), active, other, units, price)
}

/// The records of a buy by legs in strategy 0 of the market at 305 and 100.
pub fn bought_by_legs(number: i32, units: i32) -> Records {
    vec![
        [1, number, 0, 0, units, 205],
        [2, number, 0, 0, units, 305],
        [2, number, 1, 1, units, 100],
        [2, 2, 0, 1, units, 305],
        [2, 3, 1, 0, units, 100],
    ]
}

/// The best price of a series and side, and then the contracts at it, in two walks
/// over the row.
pub fn two_walks(row: &[RowEntry], series: u8, side: u8) -> Option<(u32, u32)> {
    let own = || {
        (row.iter()).filter(move |entry| {
            entry.contracts > 0 && entry.series == series && entry.side == side
        })
    };
    let prices = own().map(|entry| entry.price);
    let best = match side {
        BUY => prices.max(),
        _ => prices.min(),
    };
    best.map(|price| {
        let at_best = own().filter(|entry| entry.price == price);
        let contracts = at_best.map(|entry| u32::from(entry.contracts)).sum();
        (price, contracts)
    })
}
