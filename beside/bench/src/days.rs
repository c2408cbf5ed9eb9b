//! The days that are played, as frames. A book of the reckoning stands beside
//! the maker of the days of one kind: it gives the nets and the numbers.

use reckoning::book::{
    Book, BUY, CUSTOMER, DAY, IMMEDIATE, MARKET_MAKER, SELL, SERIES, SPACE, STRATEGIES,
};
use reckoning::frames::{bytes, Event, Leg};
use reckoning::generate::{better_sweep, list, Options};

pub type Frame = Vec<u8>;

/// The events of one list of the busy day.
const PART: usize = 2_500;

/// Lists of the reckoning's generator, each from another seed, a day end after
/// each: auctions, halts, openings, full tables and refusals. This many events; a
/// shorter day is the beginning of a longer one. The lists are of kinds 1 to 8 and
/// stay as they are, so that figures compare; a few of the damaged frames in them are
/// of kind 10. No sweep is refused 15: programs with and without request 2026-03
/// print the same.
pub fn busy_day(events: usize) -> Vec<Frame> {
    let options = Options {
        loose: false,
        day_ends: true,
    };
    let mut maker = Maker::empty();
    for seed in 1.. {
        if maker.frames.len() >= events {
            break;
        }
        let inputs = list(seed, PART, options);
        for input in inputs.into_iter().take(PART - 1) {
            // The timer is another than the list was made with, and so are some nets.
            let sweep = better_sweep(&maker.book, &input.frame);
            maker.push_frame(sweep.map_or(input.frame, |sweep| bytes(&sweep)));
        }
        maker.push(Event::DayEnd { timer: 1_000 });
    }
    maker.frames.truncate(events);
    maker.frames
}

/// A day of one kind: what builds the book, and then the events of that kind.
#[derive(Clone, Debug)]
pub struct Day {
    pub name: &'static str,
    /// The kind that the tail is for; 0 for events that are refused.
    pub kind: u8,
    /// What one event of the tail is.
    pub about: &'static str,
    pub head: Vec<Frame>,
    pub tail: Vec<Frame>,
}

/// A turn of a tail, with its index.
type Turn = fn(&mut Maker, usize);
/// A day of one kind: its name, the kind, what its tail is, what comes before the
/// tail, and a turn of it.
type Row = (&'static str, u8, &'static str, Turn, Turn);
const ROWS: &[Row] = &[
    (
        "strategy",
        1,
        "a strategy that is held already",
        nothing,
        strategies,
    ),
    (
        "complex",
        2,
        "pairs: an order rests, an order fills it",
        nothing,
        whole_fills,
    ),
    (
        "complex-bound",
        2,
        "the same pairs, national prices known",
        known_prices,
        whole_fills,
    ),
    (
        "complex-legs",
        2,
        "threes: 2 leg orders, an order takes both",
        nothing,
        leg_fills,
    ),
    (
        "legs-bound",
        2,
        "the same threes, national prices known",
        known_prices,
        leg_fills,
    ),
    (
        "sweep",
        3,
        "a sweep that replaces one, in an auction",
        auction,
        sweeps,
    ),
    (
        "leg-order",
        4,
        "pairs: an order rests, an order fills it",
        nothing,
        leg_orders,
    ),
    (
        "leg-order-bound",
        4,
        "the same pairs, national prices known",
        known_prices,
        leg_orders,
    ),
    (
        "first-price",
        4,
        "pairs: a side's first order, its cancel",
        no_prices,
        first_prices,
    ),
    (
        "cancel",
        5,
        "pairs: an order rests, its cancel",
        nothing,
        cancels,
    ),
    (
        "leg-cancel",
        5,
        "pairs: a leg order rests, its cancel",
        nothing,
        leg_cancels,
    ),
    (
        "series",
        6,
        "pairs: a series shuts, and opens",
        nothing,
        halts,
    ),
    (
        "series-bound",
        6,
        "the same pairs, national prices known",
        known_prices,
        halts,
    ),
    ("clock", 7, "no auction runs", nothing, clocks),
    (
        "clock-auction",
        7,
        "threes: a starter, a sweep, the auction's end",
        nothing,
        auctions,
    ),
    (
        "auction-bound",
        7,
        "the same threes, national prices known",
        known_prices,
        auctions,
    ),
    (
        "portion",
        7,
        "threes: a starter, a specialist's sweep, end",
        named,
        portions,
    ),
    ("day-end", 8, "of a fresh book", nothing, day_ends),
    (
        "busy-day",
        8,
        "groups: a day end, a busy book made anew",
        nothing,
        busy_book,
    ),
    ("national", 9, "both prices of a series", nothing, prices),
    ("range", 10, "another range", nothing, ranges),
    (
        "specialist",
        11,
        "another specialist of a strategy",
        nothing,
        specialists,
    ),
    ("refused", 0, "of an unknown kind", nothing, refused),
];

/// The names of the days of one kind.
pub fn names() -> Vec<&'static str> {
    ROWS.iter().map(|(name, ..)| *name).collect()
}

/// The days of one kind, each with a tail of this many events or a few more, so that
/// its last turn is whole; a tenth of it where one event takes long.
pub fn days(tail: usize) -> Vec<Day> {
    let day = |(name, kind, about, before, turn): &Row| {
        let tail = match kind {
            6 => tail.div_ceil(10),
            _ => tail,
        };
        let mut maker = Maker::empty();
        busy_book(&mut maker, 0);
        before(&mut maker, 0);
        let head = std::mem::take(&mut maker.frames);
        let mut index = 0;
        while maker.frames.len() < tail {
            turn(&mut maker, index);
            index += 1;
        }
        Day {
            name,
            kind: *kind,
            about,
            head,
            tail: maker.frames,
        }
    };
    ROWS.iter().map(day).collect()
}

/// Series 0 to 7 have leg orders, around this price.
const TRADED: usize = 8;
const CENTRE: u32 = 1_000;
/// The best bid is so much below, the best offer above.
const AWAY: u32 = 5;

pub(crate) struct Maker {
    pub(crate) book: Book,
    pub(crate) frames: Vec<Frame>,
}

/// The strategies: 2 to 6 legs in traded series, ratios 1 to 3.
fn strategy(index: usize) -> Event {
    let count = 2 + index % 5;
    let mut legs = [Leg::default(); 6];
    for (at, leg) in legs.iter_mut().take(count).enumerate() {
        leg.series = ((index + at * (1 + 2 * (index / 8))) % TRADED) as u8;
        leg.side = ((at + index / 5) % 2) as u8;
        leg.ratio = [1, 2, 1, 3, 2, 1][at];
    }
    Event::Strategy {
        count: count as u8,
        legs,
    }
}

impl Maker {
    pub(crate) fn empty() -> Maker {
        Maker {
            book: Book::first(),
            frames: Vec::new(),
        }
    }

    pub(crate) fn push(&mut self, event: Event) {
        self.push_frame(bytes(&event));
    }

    fn push_frame(&mut self, frame: Frame) {
        self.book.step(&frame, SPACE);
        self.frames.push(frame);
    }

    /// A leg order at the usual best price of its side, or so much better.
    fn leg_order(&mut self, series: usize, side: u8, contracts: u16, better: u32) {
        self.push(Event::LegOrder {
            member: 1 + series as u16,
            series: series as u8,
            side,
            contracts,
            price: match side {
                BUY => CENTRE - AWAY + better,
                _ => CENTRE + AWAY - better,
            },
        });
    }

    fn complex(&mut self, strategy: u8, side: u8, class: u8, life: u8, limit: i32) {
        self.push(Event::Complex {
            member: 100 + u16::from(strategy),
            strategy,
            side,
            class,
            life,
            units: 3,
            limit,
        });
    }

    pub(crate) fn cancel(&mut self, member: u16, number: u32) {
        self.push(Event::Cancel { member, number });
    }

    pub(crate) fn sweep(&mut self, member: u16, strategy: u8, side: u8, units: u16, limit: i32) {
        self.push(Event::Sweep {
            member,
            strategy,
            side,
            units,
            limit,
        });
    }

    /// These national prices of all series, and a range.
    pub(crate) fn national(&mut self, bid: u32, offer: u32, cents: u16) {
        for series in 0..SERIES {
            self.push(Event::NationalPrices { series, bid, offer });
        }
        self.push(Event::ExecutionRange { cents });
    }

    pub(crate) fn specialist(&mut self, member: u16, strategy: u8, percentage: u8) {
        self.push(Event::Specialist {
            member,
            strategy,
            percentage,
        });
    }

    /// The net that an order of this side takes from the legs.
    pub(crate) fn net(&self, strategy: u8, side: u8) -> i32 {
        self.book.leg_net(strategy, side).unwrap_or(0) as i32
    }
}

/// A day end, and a book with every strategy, 30 leg orders of 32 and 12 complex
/// orders of 16, whose auctions last 1 ms.
fn busy_book(maker: &mut Maker, _: usize) {
    maker.push(Event::DayEnd { timer: 1 });
    for series in 0..32 {
        maker.push(Event::Series { series, state: 1 });
    }
    for index in 0..STRATEGIES {
        maker.push(strategy(index));
    }
    for index in 0..30 {
        maker.leg_order(index / 4, index as u8 % 2, 50, 0);
    }
    for index in 0..12_u8 {
        let side = index % 2;
        let own = maker.net(index, 1 - side);
        let limit = if side == BUY { own - 10 } else { own + 10 };
        maker.complex(index, side, MARKET_MAKER, DAY, limit);
    }
}

fn nothing(_: &mut Maker, _: usize) {}

/// National prices as the usual best ones are, and a range that lets all fill.
fn known_prices(maker: &mut Maker, _: usize) {
    maker.national(CENTRE - AWAY, CENTRE + AWAY, 100);
}

/// The last traded series loses its leg orders, one of each side.
fn no_prices(maker: &mut Maker, _: usize) {
    for side in [BUY, SELL] {
        if let Some(order) = maker.book.best_leg_order(TRADED as u8 - 1, side) {
            maker.cancel(order.member, order.number);
        }
    }
}

/// A specialist of each strategy.
fn named(maker: &mut Maker, _: usize) {
    for strategy in 0..STRATEGIES as u8 {
        maker.specialist(201, strategy, 40);
    }
}

fn strategies(maker: &mut Maker, index: usize) {
    maker.push(strategy(index % STRATEGIES));
}

fn whole_fills(maker: &mut Maker, index: usize) {
    let strategy = (index % STRATEGIES) as u8;
    let limit = maker.net(strategy, SELL) + 5;
    maker.complex(strategy, BUY, MARKET_MAKER, DAY, limit);
    maker.complex(strategy, SELL, MARKET_MAKER, IMMEDIATE, limit);
}

/// Better leg orders in both legs of a strategy, for 3 units, and a buyer that
/// takes them.
fn leg_fills(maker: &mut Maker, index: usize) {
    let strategy = [0, 5, 10, 15][index % 4];
    for leg in maker.book.legs(strategy).to_vec() {
        let contracts = 3 * u16::from(leg.ratio);
        maker.leg_order(usize::from(leg.series), 1 - leg.side, contracts, 1);
    }
    let limit = maker.net(strategy, BUY);
    maker.complex(strategy, BUY, MARKET_MAKER, IMMEDIATE, limit);
}

/// A running auction in strategy 0.
fn auction(maker: &mut Maker, _: usize) {
    let limit = maker.net(0, SELL) + 1;
    maker.complex(0, BUY, CUSTOMER, DAY, limit);
    for index in 0..8 {
        sweeps(maker, index);
    }
}

fn sweeps(maker: &mut Maker, index: usize) {
    let limit = maker.net(0, SELL) + 1;
    let member = 201 + index as u16 % 8;
    maker.sweep(member, 0, SELL, 1 + (index / 8 % 9) as u16, limit);
}

fn leg_orders(maker: &mut Maker, index: usize) {
    let series = index % TRADED;
    let side = (index / TRADED % 2) as u8;
    maker.leg_order(series, side, 3, 1);
    maker.leg_order(series, 1 - side, 3, 2 * AWAY - 1);
}

fn cancels(maker: &mut Maker, index: usize) {
    let strategy = (index % STRATEGIES) as u8;
    let limit = maker.net(strategy, SELL) - 10;
    maker.complex(strategy, BUY, MARKET_MAKER, DAY, limit);
    maker.cancel(100 + u16::from(strategy), maker.book.given);
}

/// A leg order at the usual best price, and its cancel.
fn leg_cancel(maker: &mut Maker, series: usize, side: usize) {
    maker.leg_order(series, side as u8, 3, 0);
    maker.cancel(1 + series as u16, maker.book.given);
}

fn leg_cancels(maker: &mut Maker, index: usize) {
    leg_cancel(maker, index % TRADED, index / TRADED % 2);
}

/// In the series that has no leg orders.
fn first_prices(maker: &mut Maker, index: usize) {
    leg_cancel(maker, TRADED - 1, index % 2);
}

fn halts(maker: &mut Maker, index: usize) {
    let series = (index % TRADED) as u8;
    for state in [0, 1] {
        maker.push(Event::Series { series, state });
    }
}

fn clocks(maker: &mut Maker, _: usize) {
    let milliseconds = maker.book.clock + 1;
    maker.push(Event::Clock { milliseconds });
}

fn auctions(maker: &mut Maker, index: usize) {
    let strategy = (index % STRATEGIES) as u8;
    let limit = maker.net(strategy, SELL) + 1;
    maker.complex(strategy, BUY, CUSTOMER, IMMEDIATE, limit);
    maker.sweep(201, strategy, SELL, 2, limit);
    clocks(maker, index);
}

/// The same with a sweep that is larger than the starter, so that it is shared.
fn portions(maker: &mut Maker, index: usize) {
    let strategy = (index % STRATEGIES) as u8;
    let limit = maker.net(strategy, SELL) + 1;
    maker.complex(strategy, BUY, CUSTOMER, IMMEDIATE, limit);
    maker.sweep(201, strategy, SELL, 5, limit);
    clocks(maker, index);
}

fn day_ends(maker: &mut Maker, index: usize) {
    let timer = 1 + (index % 5_000) as u16;
    maker.push(Event::DayEnd { timer });
}

fn prices(maker: &mut Maker, index: usize) {
    let better = (index / TRADED % 5) as u32;
    maker.push(Event::NationalPrices {
        series: (index % TRADED) as u8,
        bid: CENTRE - AWAY + better,
        offer: CENTRE + AWAY - better,
    });
}

fn ranges(maker: &mut Maker, index: usize) {
    let cents = (index % 10_000) as u16;
    maker.push(Event::ExecutionRange { cents });
}

fn specialists(maker: &mut Maker, index: usize) {
    let strategy = (index % STRATEGIES) as u8;
    maker.specialist(
        201 + (index / STRATEGIES % 8) as u16,
        strategy,
        (index % 101) as u8,
    );
}

fn refused(maker: &mut Maker, _: usize) {
    maker.frames.push(vec![4, 0, 255, 0]);
}
