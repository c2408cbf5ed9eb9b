//! Lists of events made from a seed. The maker keeps a book of its own, so that
//! it can choose limits near the nets, members and numbers that exist, national
//! prices near the own ones, specialists among the sweeps, and so reach auctions,
//! sharing, halts, openings, full tables, passes that stop at the range, sweeps that
//! better nothing, and specialists' portions.

use crate::book::{
    Book, Entry, BROKER_DEALER, BUY, COMPLEX_ORDERS, CUSTOMER, DAY, DO_NOT_AUCTION, IMMEDIATE,
    LAST_NUMBER, LEG_ORDERS, MARKET_MAKER, RESPONSE, SELL, SPACE, STRATEGIES, SWEEPS,
};
use crate::frames::{bytes, judge, read, Event, Leg};
use crate::generate::{damaged_frame_up_to, edge_event, valid_event, Random, LAST_KIND};
use crate::national::{Bounds, FRESH_RANGE};
use crate::nets::side_taken;

/// One event of a list: "a frame of any bytes, with a record space of any
/// length", the length in numbers.
#[derive(Clone, Debug, PartialEq, Eq)]
pub struct Input {
    pub frame: Vec<u8>,
    pub space: usize,
}

/// What a list may hold.
#[derive(Clone, Copy, Debug, PartialEq, Eq)]
pub struct Options {
    /// Frames whose length field is wrong, and short record spaces.
    pub loose: bool,
    /// Day ends before the last event.
    pub day_ends: bool,
}

/// A list of about `events` events of kinds 1 to 8, ended by a day end in a third
/// of the lists. No sweep in it is refused 15 (request 2026-03), so that books with
/// and without that refusal do the same. It stays as it is from request to request:
/// the benchmark times it.
pub fn list(seed: u64, events: usize, options: Options) -> Vec<Input> {
    made(Maker::new(seed, options), events)
}

/// The same with kinds 9 and 10 of request 2026-01, with sweeps made to be refused
/// 15, and with kind 11 of request 2026-04.
pub fn national_list(seed: u64, events: usize, options: Options) -> Vec<Input> {
    made(Maker::new(seed, options).with_national(seed), events)
}

fn made(mut maker: Maker, events: usize) -> Vec<Input> {
    if maker.random.chance(1, 3) {
        // A day end first, for another timer.
        let timer = maker.random.pick(&[1, 2, 100, 1_000, 4_999, 5_000]);
        maker.push(Event::DayEnd { timer });
    }
    maker.run(events);
    maker.finish()
}

/// For a sweep that is refused 15 the same with a limit that betters its net, by one
/// to four cents.
pub fn better_sweep(book: &Book, frame: &[u8]) -> Option<Event> {
    let mut event = read(frame).ok()?;
    if let Event::Sweep {
        strategy,
        side,
        units: 1..,
        limit,
        ..
    } = &mut event
    {
        if book.auction_runs(*strategy) {
            let above = i64::from(*limit) - book.leg_net(*strategy, 1 - *side)?;
            let better = if *side == BUY { above } else { -above };
            if better <= 0 {
                let cents = (1 - better % 4 - better) as i32;
                *limit += if *side == BUY { cents } else { -cents };
                return Some(event);
            }
        }
    }
    None
}

/// Whether the streams and long lists of the seed have kinds 9 to 11, and sweeps
/// made to be refused 15.
fn has_national(seed: u64) -> bool {
    !seed.is_multiple_of(4)
}

/// The bytes after a stream's last frame: in one stream of four something that
/// is no frame, so that `tape` stops there.
pub fn tail(seed: u64) -> &'static [u8] {
    match seed % 16 {
        1 => &[6],
        5 => &[3, 0, 6, 0],
        9 => &[6, 0, 6, 0, 0],
        13 => &[0, 0],
        _ => &[],
    }
}

/// A list whose frames can stand one after the other as the input of `tape`.
pub fn stream(seed: u64, events: usize) -> Vec<u8> {
    let options = Options {
        loose: false,
        day_ends: true,
    };
    let inputs = match has_national(seed) {
        true => national_list(seed, events, options),
        false => list(seed, events, options),
    };
    let frames = inputs.into_iter().flat_map(|input| input.frame);
    frames.chain(tail(seed).iter().copied()).collect()
}

/// A list that gives all 100,000 numbers and goes on for `events` events.
pub fn long_list(seed: u64, events: usize, loose: bool) -> Vec<Input> {
    let options = Options {
        loose,
        day_ends: false,
    };
    let mut maker = Maker::new(seed, options);
    if has_national(seed) {
        maker = maker.with_national(seed);
    }
    maker.run(500);
    maker.give_numbers(LAST_NUMBER - 100);
    maker.last_auction();
    let before = maker.list.len();
    maker.run(before + events);
    maker.finish()
}

/// The maker of one list.
struct Maker {
    random: Random,
    options: Options,
    book: Book,
    list: Vec<Input>,
    /// The series in use and the price around which each trades.
    series: Vec<u8>,
    centres: [i64; 32],
    /// The number of strategies aimed at, and of legs in each at most.
    strategies: usize,
    legs: i64,
    /// The usual highest number of units and contracts.
    units: i64,
    contracts: i64,
    /// Members are numbered from 1 to this.
    members: i64,
    /// How often series shut, in parts of 1,000 random events.
    halts: usize,
    /// Where kinds 9 to 11 come: what chooses when, and how often of 8 times
    /// national prices stay when their phase is over.
    national: Option<Random>,
    stays: usize,
}

impl Maker {
    fn new(seed: u64, options: Options) -> Maker {
        let mut random = Random::new(seed ^ 0x5DEE_CE66_D5A1_77E3);
        let wide = random.chance(1, 4);
        let amount = if wide {
            random.range(6, 12)
        } else {
            random.range(2, 5)
        };
        let mut series: Vec<u8> = Vec::new();
        while (series.len() as i64) < amount {
            let next = random.pick(&[0, 1, 2, 3, 31, random.clone().range(0, 31) as u8]);
            let next = if series.contains(&next) {
                random.range(0, 31) as u8
            } else {
                next
            };
            if !series.contains(&next) {
                series.push(next);
            }
        }
        let mut centres = [0; 32];
        for centre in &mut centres {
            *centre = if random.chance(1, 30) {
                random.pick(&[1, 99_999])
            } else {
                random.range(50, 400)
            };
        }
        let strategies = if random.chance(1, 6) {
            STRATEGIES
        } else {
            random.range(1, 4) as usize
        };
        let units = random.pick(&[3, 8, 8, 20, 100, 9_999]);
        let contracts = random.pick(&[units, units, 2 * units, 3 * units, 6 * units]);
        Maker {
            options,
            book: Book::first(),
            list: Vec::new(),
            series,
            centres,
            strategies,
            legs: if wide { 6 } else { 3 },
            units,
            contracts: contracts.clamp(2, 9_999),
            members: random.pick(&[2, 4, 9, 65_535]),
            halts: random.pick(&[0, 5, 20]),
            national: None,
            stays: 0,
            random,
        }
    }

    /// The same maker, for a list with kinds 9 to 11.
    fn with_national(mut self, seed: u64) -> Maker {
        let mut random = Random::new(seed ^ 0x2026_0001_9E15_0A17);
        self.stays = random.pick(&[0, 0, 1, 4]);
        self.national = Some(random);
        self
    }

    /// Whether something of the requests comes now: `part` times in `whole` where it
    /// comes at all.
    fn national_now(&mut self, part: usize, whole: usize) -> bool {
        (self.national.as_mut()).is_some_and(|random| random.chance(part, whole))
    }

    /// The kinds of single events, without a day end.
    fn kinds(&self) -> &'static [u32] {
        match self.national {
            Some(_) => &[1, 2, 3, 4, 5, 6, 7, 9, 10, 11],
            None => &[1, 2, 3, 4, 5, 6, 7],
        }
    }

    /// Events until the list has this many.
    fn run(&mut self, events: usize) {
        while self.list.len() < events {
            if self.random.chance(1, 60) {
                self.heavy_phase();
            }
            if self.national_now(1, 5) {
                self.national_phase();
                self.refused_event();
                self.refused_event();
            }
            if self.national_now(1, 5) {
                self.net_phase();
            }
            if self.national_now(1, 4) {
                self.specialist_phase();
            }
            match self.random.below(20) {
                0..=7 => {
                    let amount = self.random.range(5, 40);
                    for _ in 0..amount {
                        self.any_event();
                    }
                }
                8..=13 => self.auction_phase(),
                14..=15 => self.halt_phase(),
                16..=17 => self.full_phase(),
                18 => self.leg_phase(),
                _ => self.refused_event(),
            }
            if self.options.day_ends && self.random.chance(1, 150) {
                self.day_end_event();
            }
        }
    }

    /// The list, ended by a day end in a third of the cases.
    fn finish(mut self) -> Vec<Input> {
        if self.random.chance(1, 3) {
            self.day_end_event();
        }
        self.list
    }

    /// A day end, half of the time while auctions run and while national prices
    /// are known.
    fn day_end_event(&mut self) {
        if !self.book.strategies.is_empty() && self.random.chance(1, 2) {
            for _ in 0..3 {
                let strategy = self.some_strategy();
                self.make_ready(strategy);
                if !self.book.auction_runs(strategy) {
                    self.start_auction(strategy);
                }
            }
        }
        if self.national_now(1, 2) {
            self.national_market();
        }
        let timer = self.random.range(1, 5_000) as u16;
        self.push(Event::DayEnd { timer });
    }

    fn push(&mut self, event: Event) {
        self.push_frame(bytes(&event), SPACE);
    }

    /// A frame of the list. A sweep that would be refused 15 gets another limit: each
    /// one, or two of three where such sweeps may come.
    fn push_frame(&mut self, frame: Vec<u8>, space: usize) {
        let frame = match better_sweep(&self.book, &frame) {
            Some(sweep) if !self.national_now(1, 3) => bytes(&sweep),
            _ => frame,
        };
        self.push_as_it_is(frame, space);
    }

    fn push_as_it_is(&mut self, frame: Vec<u8>, space: usize) {
        self.book.step(&frame, space);
        self.list.push(Input { frame, space });
    }

    fn member(&mut self) -> u16 {
        self.random.range(1, self.members) as u16
    }

    fn some_series(&mut self) -> u8 {
        let at = self.random.below(self.series.len());
        self.series[at]
    }

    /// A held strategy; strategy 0 if none is held.
    fn some_strategy(&mut self) -> u8 {
        let held = self.book.strategies.len();
        if held == 0 {
            0
        } else {
            self.random.below(held) as u8
        }
    }

    /// A strategy with a running auction.
    fn some_auction(&mut self) -> Option<u8> {
        let running: Vec<u8> = (0..STRATEGIES as u8)
            .filter(|strategy| self.book.auction_runs(*strategy))
            .collect();
        if running.is_empty() {
            None
        } else {
            Some(self.random.pick(&running))
        }
    }

    fn some_units(&mut self) -> u16 {
        match self.random.below(40) {
            0 => 9_999,
            1..=4 => 1,
            _ => self.random.range(1, self.units) as u16,
        }
    }

    fn some_contracts(&mut self) -> u16 {
        match self.random.below(40) {
            0 => 9_999,
            1..=4 => 1,
            _ => self.random.range(1, self.contracts) as u16,
        }
    }

    /// A limit near a net or near the limit of a live order or sweep.
    fn some_limit(&mut self, strategy: u8) -> i32 {
        let mut choices: Vec<i64> = Vec::new();
        if usize::from(strategy) < self.book.strategies.len() {
            choices.extend(self.book.offer_net(strategy));
            choices.extend(self.book.bid_net(strategy));
            let entries = self.book.entries_of(strategy);
            choices.extend(entries.map(|entry| i64::from(entry.limit)));
            if choices.is_empty() {
                let legs = self.book.legs(strategy);
                let middle = legs.iter().map(|leg| {
                    let value = i64::from(leg.ratio) * self.centres[usize::from(leg.series)];
                    if leg.side == BUY {
                        value
                    } else {
                        -value
                    }
                });
                choices.push(middle.sum());
            }
            choices.extend(self.near_bounds(strategy));
        } else {
            choices.push(0);
        }
        let limit = match self.random.below(60) {
            0 => self.random.pick(&[-9_999_999, 9_999_999]),
            1..=2 => self.random.range(-500, 500),
            3..=30 => self.random.pick(&choices),
            _ => self.random.pick(&choices) + self.random.range(-3, 3),
        };
        limit.clamp(-9_999_999, 9_999_999) as i32
    }

    /// A strategy event: a new one, one with its legs in another order, one
    /// with its ratios multiplied, its mirror, or one that is refused 5.
    fn strategy_event(&mut self) {
        let held = self.book.strategies.len();
        let mut legs: Vec<Leg>;
        if held > 0 && self.random.chance(1, 3) {
            let strategy = self.some_strategy();
            legs = self.book.legs(strategy).to_vec();
            let largest = legs.iter().map(|leg| leg.ratio).max().unwrap_or(1);
            let times = self.random.range(1, i64::from(12 / largest)) as u8;
            for leg in &mut legs {
                leg.ratio *= times;
            }
            if self.random.chance(1, 2) {
                legs.reverse();
            }
            if self.random.chance(1, 4) {
                for leg in &mut legs {
                    leg.side = 1 - leg.side;
                }
            }
        } else {
            let most = self.legs.min(self.series.len() as i64);
            let count = self.random.range(2, most) as usize;
            let times = self.random.range(1, 4) as u8;
            let large = self.random.chance(1, 8);
            legs = Vec::new();
            while legs.len() < count {
                let series = self.some_series();
                if legs.iter().all(|leg| leg.series != series) {
                    legs.push(Leg {
                        series,
                        side: self.random.range(0, 1) as u8,
                        ratio: if large {
                            self.random.range(4, 12) as u8
                        } else {
                            times * self.random.pick(&[1, 1, 1, 2, 3])
                        },
                    });
                }
            }
        }
        match self.random.below(12) {
            0 => legs[1].series = legs[0].series,
            1 => {
                legs[0].ratio = self.random.range(1, 12) as u8;
                legs[1].ratio = self.random.range(1, 12) as u8;
            }
            _ => {}
        }
        let mut row = [Leg::default(); 6];
        row[..legs.len()].copy_from_slice(&legs);
        self.push(Event::Strategy {
            count: legs.len() as u8,
            legs: row,
        });
    }

    /// A leg order near its series' centre; sometimes one that betters the best
    /// price, or meets the other side.
    fn leg_order_event(&mut self, series: u8, side: u8) {
        let centre = self.centres[usize::from(series)];
        let own = self.book.depth(series, side);
        let other = self.book.depth(series, 1 - side);
        let away = if side == BUY { -1 } else { 1 };
        let near = centre + away * self.random.range(0, 3);
        let price = match (self.random.below(10), own, other) {
            (0, _, Some(best)) => i64::from(best.price) + away * self.random.range(-2, 0),
            (1..=2, Some(best), _) => i64::from(best.price) - away,
            (3..=5, Some(best), _) => i64::from(best.price),
            _ => near,
        };
        let member = self.member();
        let contracts = self.some_contracts();
        self.push(Event::LegOrder {
            member,
            series,
            side,
            contracts,
            price: price.clamp(1, 99_999) as u32,
        });
    }

    /// A complex order with any fields left open chosen near the book's state.
    fn complex_event(&mut self, strategy: u8, side: u8, class: u8, life: u8, limit: i32) {
        let member = self.member();
        let units = self.some_units();
        self.push(Event::Complex {
            member,
            strategy,
            side,
            class,
            life,
            units,
            limit,
        });
    }

    fn any_complex_event(&mut self) {
        let strategy = self.some_strategy();
        let side = self.random.range(0, 1) as u8;
        let class = self.random.pick(&[1, 1, 2, 2, 3, 3, 3]);
        let life = if self.book.auction_runs(strategy) {
            self.random.pick(&[0, 0, 1, 2, 2, 2, 3])
        } else {
            self.random.pick(&[0, 0, 0, 0, 1, 1, 3, 3, 2])
        };
        let limit = self.some_limit(strategy);
        self.complex_event(strategy, side, class, life, limit);
    }

    /// A sweep: a new one, one that replaces a live one, or one of 0 units.
    fn sweep_event(&mut self, strategy: u8) {
        let live: Vec<_> = self
            .book
            .sweeps()
            .filter(|sweep| sweep.strategy == strategy)
            .copied()
            .collect();
        if !live.is_empty() && self.random.chance(1, 5) {
            let old = &live[self.random.below(live.len())];
            let units = if self.random.chance(1, 2) {
                0
            } else {
                self.some_units()
            };
            self.push(Event::Sweep {
                member: old.member,
                strategy,
                side: old.side,
                units,
                limit: old.limit,
            });
            return;
        }
        let member = self.member();
        let side = self.random.range(0, 1) as u8;
        let units = if self.random.chance(1, 30) {
            0
        } else {
            self.some_units()
        };
        let limit = self.some_limit(strategy);
        self.push(Event::Sweep {
            member,
            strategy,
            side,
            units,
            limit,
        });
    }

    /// A cancel of a live order by its member; a starter or a sweep included.
    fn cancel_event(&mut self) {
        let mut live: Vec<(u16, u32)> = Vec::new();
        live.extend(self.book.complex_orders().map(|o| (o.member, o.number)));
        live.extend(self.book.leg_orders.iter().map(|o| (o.member, o.number)));
        if live.is_empty() || self.random.chance(1, 20) {
            live.extend(self.book.sweeps().map(|s| (s.member, s.number)));
            live.push((self.member(), self.random.range(1, 100_000) as u32));
        }
        let (mut member, number) = self.random.pick(&live);
        if self.random.chance(1, 30) {
            member = self.member();
        }
        self.push(Event::Cancel { member, number });
    }

    /// Cancels complex orders that are not starters until this many slots are
    /// free.
    fn make_complex_room(&mut self, slots: usize) {
        let starters: Vec<u32> = self
            .book
            .auctions
            .iter()
            .flatten()
            .map(|auction| auction.starter)
            .collect();
        let others: Vec<(u16, u32)> = self
            .book
            .complex_orders()
            .map(|order| (order.member, order.number))
            .filter(|(_, number)| !starters.contains(number))
            .collect();
        let held = self.book.complex_orders().count();
        let excess = (held + slots).saturating_sub(COMPLEX_ORDERS);
        for (member, number) in others.into_iter().take(excess) {
            self.push(Event::Cancel { member, number });
        }
    }

    /// Cancels leg orders until this many slots are free.
    fn make_leg_room(&mut self, slots: usize) {
        while self.book.leg_orders.len() + slots > LEG_ORDERS {
            let at = self.random.below(self.book.leg_orders.len());
            let order = &self.book.leg_orders[at];
            let (member, number) = (order.member, order.number);
            self.push(Event::Cancel { member, number });
        }
    }

    /// A clock: the same, a little later, late enough to end auctions, or
    /// earlier.
    fn clock_event(&mut self) {
        let now = i64::from(self.book.clock);
        let timer = i64::from(self.book.timer);
        let later = match self.random.below(10) {
            0 if self.random.chance(1, 100) => self.random.range(now, 86_400_000),
            0 => now,
            1 => now - self.random.range(1, 10),
            2..=4 => now + self.random.range(0, timer / 2),
            5 => now + timer - 1,
            _ => now + timer,
        };
        self.push(Event::Clock {
            milliseconds: later.clamp(0, 86_400_000) as u32,
        });
    }

    fn series_event(&mut self, series: u8, state: u8) {
        self.push(Event::Series { series, state });
    }

    /// Any event, by weights that depend on the book.
    fn any_event(&mut self) {
        if self.book.strategies.len() < self.strategies && self.random.chance(1, 3) {
            return self.strategy_event();
        }
        let shut: Vec<u8> = (self.series.iter().copied())
            .filter(|series| !self.book.is_open(*series))
            .collect();
        if !shut.is_empty() && self.random.chance(1, 4) {
            let series = self.random.pick(&shut);
            return self.series_event(series, 1);
        }
        if self.random.chance(self.halts, 1_000) {
            let series = self.some_series();
            return self.series_event(series, 0);
        }
        if self.national_now(1, 100) {
            let (strategy, member) = (self.some_strategy(), self.member());
            return self.specialist_event(strategy, member);
        }
        if self.national_now(self.stays, 100) {
            return match self.random.below(3) {
                0 => self.range_event(),
                _ => self.national_event(),
            };
        }
        let full = self.book.complex_orders().count() >= COMPLEX_ORDERS - 1
            || self.book.leg_orders.len() >= LEG_ORDERS - 1;
        if full && self.random.chance(1, 2) {
            return self.cancel_event();
        }
        match self.random.below(100) {
            0..=32 => {
                let series = self.some_series();
                let side = self.random.range(0, 1) as u8;
                self.leg_order_event(series, side);
            }
            33..=64 => self.any_complex_event(),
            65..=79 => match self.some_auction() {
                Some(strategy) => self.sweep_event(strategy),
                None => self.any_complex_event(),
            },
            80..=85 => self.cancel_event(),
            86..=93 => self.clock_event(),
            94 => self.strategy_event(),
            95..=96 => self.damage(),
            97..=98 => self.refused_event(),
            _ => {
                let series = self.some_series();
                self.series_event(series, 1);
            }
        }
    }

    /// A frame with damage.
    fn damage(&mut self) {
        let last = if self.national.is_some() {
            LAST_KIND
        } else {
            8
        };
        let mut frame = damaged_frame_up_to(&mut self.random, last);
        if !self.options.loose {
            frame.resize(frame.len().max(4), 0);
            let length = frame.len() as u16;
            frame[..2].copy_from_slice(&length.to_le_bytes());
        }
        // A day end made by damage would end the list's day.
        if frame.len() == 6 && frame[2] == 8 {
            frame[2] = 9;
        }
        self.push_frame(frame, SPACE);
    }

    /// An event made for one of the refusals 1 to 11, or 14, of any kind.
    fn refused_event(&mut self) {
        let strategy = self.some_strategy();
        let side = self.random.range(0, 1) as u8;
        let member = self.member();
        let cases = if self.national.is_some() { 15 } else { 11 };
        match self.random.below(cases) {
            0 => {
                if self.options.loose {
                    let kind = self.random.pick(self.kinds());
                    let event = valid_event(&mut self.random, kind);
                    let space = self.random.pick(&[0, 1, SPACE - 1]);
                    self.push_frame(bytes(&event), space);
                }
            }
            1 => self.damage(),
            2 => {
                let kinds = self.kinds();
                let event = edge_event(&mut self.random, kinds);
                // A clock at its end would leave no time for auctions; one past it
                // is refused.
                let clock = matches!(event, Event::Clock { .. });
                if !clock || self.national.is_some() && judge(&bytes(&event)) != 0 {
                    self.push(event);
                }
            }
            3 => {
                let first = self.book.strategies.len().min(15) as i64;
                let undefined = self.random.range(first, 15) as u8;
                if self.random.chance(1, 2) {
                    self.complex_event(undefined, side, CUSTOMER, RESPONSE, 100);
                } else {
                    self.sweep_event(undefined);
                }
            }
            4 => {
                let series = self.random.range(0, 31) as u8;
                let contracts = self.some_contracts();
                self.push(Event::LegOrder {
                    member,
                    series,
                    side,
                    contracts,
                    price: 5,
                });
            }
            5 => {
                let mut numbers = self.book.live_numbers();
                numbers.push(self.book.given.max(1));
                numbers.push((self.book.given + 1).min(LAST_NUMBER));
                let number = self.random.pick(&numbers);
                self.push(Event::Cancel { member, number });
            }
            6 => {
                if let Some(running) = self.some_auction() {
                    let auction = self.book.auctions[usize::from(running)];
                    let starter = auction.map_or(1, |auction| auction.starter);
                    let held = (self.book.entry(starter)).map_or(member, |order| order.member);
                    self.push(Event::Cancel {
                        member: held,
                        number: starter,
                    });
                }
            }
            7 => {
                let limit = self.some_limit(strategy);
                self.complex_event(strategy, side, MARKET_MAKER, RESPONSE, limit);
            }
            8 => self.sweep_event(strategy),
            9 => {
                let strategy = self.some_auction().unwrap_or(strategy);
                let limit = self.some_limit(strategy);
                self.push(Event::Sweep {
                    member,
                    strategy,
                    side,
                    units: 0,
                    limit,
                });
            }
            11..=12 => self.crossed_event(),
            13..=14 => {
                let first = self.book.strategies.len().min(15) as i64;
                let undefined = self.random.range(first, 15) as u8;
                self.specialist_event(undefined, member);
            }
            _ => {
                let milliseconds = self.book.clock.saturating_sub(1);
                self.push(Event::Clock { milliseconds });
            }
        }
    }

    /// The bounds of the strategy's fills, where the range is not a wide one.
    fn near_bounds(&self, strategy: u8) -> Vec<i64> {
        if self.book.national.range > 100 {
            return Vec::new();
        }
        let Bounds { lowest, highest } = self.book.bounds(strategy);
        let mut list = vec![lowest, highest];
        list.retain(|bound| (i64::MIN + 1..i64::MAX).contains(bound));
        list
    }

    /// National prices of a series near its own market: often so far from it that
    /// fills there are out of range, sometimes equal, one or both missing.
    fn national_prices(&mut self, series: u8) -> (u32, u32) {
        let centre = self.centres[usize::from(series)];
        let own = |side: u8, usual: i64| {
            let best = self.book.depth(series, side);
            best.map_or(usual, |best| i64::from(best.price))
        };
        let (bid, offer) = (own(BUY, centre - 2), own(SELL, centre + 2));
        let shift = self.random.pick(&[-5, -3, -2, -1, 0, 0, 0, 1, 2, 3, 5]);
        let bid = bid + shift + self.random.range(-1, 1);
        let offer = offer + shift + self.random.range(-1, 1);
        let price = |price: i64| price.clamp(1, 99_999) as u32;
        let (bid, offer) = (price(bid.min(offer)), price(offer.max(bid)));
        match self.random.below(40) {
            0 => (0, 0),
            1..=2 => (bid, 0),
            3..=4 => (0, offer),
            5..=7 => (bid, bid),
            _ => (bid, offer),
        }
    }

    fn national_prices_event(&mut self, series: u8) {
        let (bid, offer) = self.national_prices(series);
        self.push(Event::NationalPrices { series, bid, offer });
    }

    /// National prices of a series in use, seldom of any series.
    fn national_event(&mut self) {
        let series = match self.random.chance(1, 20) {
            true => self.random.range(0, 31) as u8,
            false => self.some_series(),
        };
        self.national_prices_event(series);
    }

    /// National prices that are crossed, or nearly so.
    fn crossed_event(&mut self) {
        let series = self.some_series();
        let (bid, offer) = self.national_prices(series);
        let (bid, offer) = match self.random.below(8) {
            0 => (bid.max(1), 0),
            1 => (offer, offer),
            2 => (99_999, 1),
            _ => (offer.max(bid).max(1) + 1, offer.max(1)),
        };
        self.push(Event::NationalPrices { series, bid, offer });
    }

    fn range_event(&mut self) {
        let cents = match self.random.below(12) {
            0..=3 => 0,
            4..=5 => 1,
            6..=8 => self.random.range(2, 8) as u16,
            9 => self.random.range(9, 9_999) as u16,
            10 => 10_000 - self.random.range(1, 2) as u16,
            _ => (self.book.national.range + 1).min(9_999) as u16,
        };
        self.push(Event::ExecutionRange { cents });
    }

    /// National prices of all series in use, and a range.
    fn national_market(&mut self) {
        for series in self.series.clone() {
            self.national_prices_event(series);
        }
        self.range_event();
    }

    /// The range is wide again, or all national prices are taken away.
    fn end_national(&mut self) {
        if self.random.chance(1, 3) {
            let cents = FRESH_RANGE as u16;
            self.push(Event::ExecutionRange { cents });
            return;
        }
        let known = self.book.national.known();
        for series in (0..32).filter(|series| known >> series & 1 == 1) {
            self.push(Event::NationalPrices {
                series,
                bid: 0,
                offer: 0,
            });
        }
    }

    /// National prices, then what they bear upon: passes, auctions, openings.
    fn national_phase(&mut self) {
        if self.book.strategies.is_empty() {
            return self.strategy_event();
        }
        let strategy = self.some_strategy();
        self.make_ready(strategy);
        self.national_market();
        for _ in 0..self.random.range(1, 3) {
            match self.random.below(8) {
                0..=2 => self.crossing_phase(),
                3 => self.stopped_auction(),
                4 => self.auction_phase(),
                5..=6 => self.halt_phase(),
                _ => self.leg_phase(),
            }
            match self.random.below(4) {
                0 => self.range_event(),
                1 => self.national_event(),
                _ => {}
            }
        }
        if !self.random.chance(self.stays, 8) {
            self.end_national();
        }
    }

    /// A limit at which an order of this side may not fill: a buy's above its
    /// bound, a sell's below; none where its net is missing.
    fn forbidden_limit(&mut self, strategy: u8, side: u8) -> Option<i32> {
        let Bounds { lowest, highest } = self.book.bounds(strategy);
        let beyond = self.random.range(1, 3);
        let limit = match side {
            BUY if highest < i64::MAX => highest + beyond,
            SELL if lowest > i64::MIN => lowest - beyond,
            _ => return None,
        };
        Some(limit.clamp(-9_999_999, 9_999_999) as i32)
    }

    /// Day orders of market makers on both sides around the bounds, so that some
    /// rest crossed; then leg orders, a wider range, and orders that meet them.
    fn crossing_phase(&mut self) {
        let strategy = self.some_strategy();
        self.make_ready(strategy);
        let side = self.random.range(0, 1) as u8;
        let entries = self.random.range(2, 6) as usize;
        self.make_complex_room(entries + 2);
        for _ in 0..entries {
            let own = match self.random.chance(3, 4) {
                true => side,
                false => 1 - side,
            };
            let forbidden = self.forbidden_limit(strategy, own);
            let limit = match forbidden {
                Some(limit) if self.random.chance(1, 2) => limit,
                _ => self.some_limit(strategy),
            };
            self.complex_event(strategy, own, MARKET_MAKER, DAY, limit);
        }
        for _ in 0..self.random.below(3) {
            let legs = self.book.legs(strategy);
            let leg = self.random.pick(legs);
            let leg_side = self.random.range(0, 1) as u8;
            self.make_leg_room(1);
            self.leg_order_event(leg.series, leg_side);
        }
        if self.random.chance(1, 2) {
            let wider = self.book.national.range + self.random.range(1, 9) as u32;
            let cents = wider.min(9_999) as u16;
            self.push(Event::ExecutionRange { cents });
        }
        for _ in 0..self.random.range(1, 2) {
            let limit = self.some_limit(strategy);
            let life = self.random.pick(&[DAY, IMMEDIATE]);
            self.complex_event(strategy, 1 - side, MARKET_MAKER, life, limit);
        }
    }

    /// An auction with answers that may not fill at their own limits, so that the
    /// starter's pass stops there and its rest is met in theirs.
    fn stopped_auction(&mut self) {
        let strategy = self.some_strategy();
        self.make_ready(strategy);
        if !self.book.auction_runs(strategy) {
            self.start_auction(strategy);
        }
        let Some(auction) = self.book.auctions[usize::from(strategy)] else {
            return;
        };
        let side = 1 - auction.side;
        for _ in 0..self.random.range(1, 4) {
            let forbidden = self.forbidden_limit(strategy, side);
            let limit = match forbidden {
                Some(limit) if self.random.chance(3, 4) => limit,
                _ => self.some_limit(strategy),
            };
            if self.random.chance(1, 2) {
                let (member, units) = (self.member(), self.some_units());
                self.push(Event::Sweep {
                    member,
                    strategy,
                    side,
                    units,
                    limit,
                });
            } else {
                let life = self.random.pick(&[DAY, IMMEDIATE, RESPONSE]);
                self.complex_event(strategy, side, MARKET_MAKER, life, limit);
            }
        }
        let milliseconds = (self.book.clock + self.book.timer).min(86_400_000);
        self.push(Event::Clock { milliseconds });
    }

    /// Opens every series of the strategy and gives it leg orders on both
    /// sides.
    fn make_ready(&mut self, strategy: u8) {
        for leg in self.book.legs(strategy).to_vec() {
            if !self.book.is_open(leg.series) {
                self.series_event(leg.series, 1);
            }
            for side in 0..2 {
                if self.book.depth(leg.series, side).is_none() && self.random.chance(19, 20) {
                    self.make_leg_room(1);
                    self.leg_order_event(leg.series, side);
                }
            }
        }
    }

    /// An order that starts an auction, if its net is known.
    fn start_auction(&mut self, strategy: u8) {
        self.make_complex_room(4);
        let side = self.random.range(0, 1) as u8;
        let towards = if side == BUY { 1 } else { -1 };
        let limit = match self.book.leg_net(strategy, 1 - side) {
            Some(own) => own + towards * self.random.range(0, 7),
            None => i64::from(self.some_limit(strategy)),
        };
        let class = self.random.pick(&[1, 2]);
        let life = self.random.pick(&[0, 0, 1]);
        let member = self.member();
        let units = if self.random.chance(1, 2) {
            (3 * i64::from(self.some_units())).clamp(1, 9_999) as u16
        } else {
            self.some_units()
        };
        self.push(Event::Complex {
            member,
            strategy,
            side,
            class,
            life,
            units,
            limit: limit.clamp(-9_999_999, 9_999_999) as i32,
        });
    }

    /// One or more auctions with sweeps and waiting orders at few limits, then
    /// mostly their end.
    fn auction_phase(&mut self) {
        if self.book.strategies.is_empty() {
            return self.strategy_event();
        }
        let amount = self.random.pick(&[1, 1, 1, 2, 3]);
        let mut chosen = Vec::new();
        for _ in 0..amount {
            let strategy = self.some_strategy();
            // Market makers and broker-dealers that rest before the auction.
            self.make_ready(strategy);
            for _ in 0..self.random.below(3) {
                self.make_complex_room(1);
                let side = self.random.range(0, 1) as u8;
                let limit = self.some_limit(strategy);
                self.complex_event(strategy, side, MARKET_MAKER, DAY, limit);
            }
            self.make_ready(strategy);
            if !self.book.auction_runs(strategy) {
                self.start_auction(strategy);
            }
            if self.book.auction_runs(strategy) {
                chosen.push(strategy);
            }
        }
        if chosen.is_empty() {
            return;
        }
        let entries = self.random.pick(&[0, 1, 3, 6, 12, 20]);
        // In a crowded auction most entries meet the starter at its limit.
        let crowded = self.random.chance(1, 2);
        for _ in 0..entries {
            let strategy = self.random.pick(&chosen);
            let Some(auction) = self.book.auctions[usize::from(strategy)] else {
                continue;
            };
            let part = if crowded { 9 } else { 6 };
            let side = if self.random.chance(part, 10) {
                1 - auction.side
            } else {
                auction.side
            };
            let part = if crowded { 9 } else { 4 };
            let limit = match self.book.entry(auction.starter) {
                Some(starter) if self.random.chance(part, 10) => starter.limit,
                _ => self.some_limit(strategy),
            };
            match self.random.below(20) {
                0..=9 => {
                    let member = self.member();
                    let units = self.some_units();
                    self.push(Event::Sweep {
                        member,
                        strategy,
                        side,
                        units,
                        limit,
                    });
                }
                10..=15 => {
                    let class = self.random.pick(&[1, 2, 2, 3]);
                    let life = self.random.pick(&[DAY, IMMEDIATE, RESPONSE, RESPONSE]);
                    self.complex_event(strategy, side, class, life, limit);
                }
                16 => self.sweep_event(strategy),
                17 => self.complex_event(strategy, side, CUSTOMER, DO_NOT_AUCTION, limit),
                18 => {
                    let legs = self.book.legs(strategy);
                    let leg = self.random.pick(legs);
                    let side = self.random.range(0, 1) as u8;
                    self.leg_order_event(leg.series, side);
                }
                _ => self.any_event(),
            }
        }
        if self.random.chance(1, 6) {
            let strategy = self.random.pick(&chosen);
            self.withdraw_opposite(strategy);
        }
        match self.random.below(12) {
            0 => {}
            1 => {
                let strategy = self.random.pick(&chosen);
                let leg = self.book.legs(strategy)[0];
                self.series_event(leg.series, 0);
            }
            2 => self.clock_event(),
            _ => {
                let milliseconds = (self.book.clock + self.book.timer).min(86_400_000);
                self.push(Event::Clock { milliseconds });
            }
        }
    }

    /// Withdraws every sweep and waiting order on the other side of the
    /// strategy's auction, after adding one.
    fn withdraw_opposite(&mut self, strategy: u8) {
        let Some(auction) = self.book.auctions[usize::from(strategy)] else {
            return;
        };
        let side = 1 - auction.side;
        let member = self.member();
        let units = self.some_units();
        let limit = self.some_limit(strategy);
        self.push(Event::Sweep {
            member,
            strategy,
            side,
            units,
            limit,
        });
        let sweeps: Vec<Entry> = self.book.sweeps().copied().collect();
        for sweep in sweeps {
            if sweep.strategy == strategy && sweep.side == side {
                self.push(Event::Sweep {
                    member: sweep.member,
                    strategy,
                    side,
                    units: 0,
                    limit: sweep.limit,
                });
            }
        }
        let orders: Vec<Entry> = self.book.complex_orders().copied().collect();
        for order in orders {
            if order.strategy == strategy
                && order.side == side
                && (order.number > auction.starter || self.random.chance(1, 2))
            {
                self.push(Event::Cancel {
                    member: order.member,
                    number: order.number,
                });
            }
        }
    }

    /// A shut series, orders on both sides that wait for it, and its opening.
    fn halt_phase(&mut self) {
        if self.book.strategies.is_empty() {
            return self.strategy_event();
        }
        let strategy = self.some_strategy();
        if self.random.chance(2, 3) {
            self.make_ready(strategy);
        }
        let legs = self.book.legs(strategy).to_vec();
        let series = self.random.pick(&legs).series;
        if self.book.is_open(series) {
            self.series_event(series, 0);
        }
        let holding: Vec<u8> = self.book.strategies_holding(series).collect();
        let slots = self.random.range(2, 14) as usize;
        self.make_complex_room(slots);
        let shift = self.random.range(0, 4) as i32;
        for _ in 0..slots {
            let strategy = self.random.pick(&holding);
            let side = self.random.range(0, 1) as u8;
            let class = self.random.pick(&[1, 2, 3]);
            let life = self.random.pick(&[DAY, DAY, DAY, DAY, DAY, IMMEDIATE]);
            let limit = self.some_limit(strategy);
            let limit = if side == BUY {
                limit.saturating_add(shift)
            } else {
                limit.saturating_sub(shift)
            };
            let limit = limit.clamp(-9_999_999, 9_999_999);
            self.complex_event(strategy, side, class, life, limit);
        }
        if self.random.chance(1, 4) {
            self.any_event();
        }
        for leg in legs {
            if leg.series != series && !self.book.is_open(leg.series) {
                self.series_event(leg.series, 1);
            }
        }
        self.series_event(series, 1);
    }

    /// Fills one of the tables and goes one past it.
    fn full_phase(&mut self) {
        match self.random.below(8) {
            0 => {
                if self.strategies == STRATEGIES || self.random.chance(1, 20) {
                    for _ in 0..4 * STRATEGIES {
                        if self.book.strategies.len() == STRATEGIES && self.random.chance(1, 2) {
                            break;
                        }
                        self.strategy_event();
                    }
                }
            }
            1..=2 => {
                // Complex orders far from each other.
                let strategy = self.some_strategy();
                for _ in 0..=COMPLEX_ORDERS {
                    let side = self.random.range(0, 1) as u8;
                    let limit = self.some_limit(strategy);
                    let limit = if side == BUY {
                        limit.saturating_sub(200)
                    } else {
                        limit.saturating_add(200)
                    };
                    let limit = limit.clamp(-9_999_999, 9_999_999);
                    self.complex_event(strategy, side, MARKET_MAKER, DAY, limit);
                    if self.book.complex_orders().count() == COMPLEX_ORDERS {
                        self.any_complex_event();
                        self.any_complex_event();
                        break;
                    }
                }
                let slots = self.random.range(1, 12) as usize;
                self.make_complex_room(slots);
            }
            3..=5 => {
                if let Some(strategy) = self.some_auction() {
                    for _ in 0..2 * SWEEPS {
                        let member = self.random.range(1, 65_535) as u16;
                        let side = self.random.range(0, 1) as u8;
                        let units = self.some_units();
                        let limit = self.some_limit(strategy);
                        self.push(Event::Sweep {
                            member,
                            strategy,
                            side,
                            units,
                            limit,
                        });
                        if self.book.sweeps().count() == SWEEPS && self.random.chance(1, 3) {
                            break;
                        }
                    }
                    for _ in 0..4 {
                        self.sweep_event(strategy);
                    }
                }
            }
            _ => {
                for _ in 0..2 * LEG_ORDERS {
                    let series = self.some_series();
                    let side = self.random.range(0, 1) as u8;
                    self.leg_order_event(series, side);
                    if self.book.leg_orders.len() == LEG_ORDERS && self.random.chance(1, 2) {
                        break;
                    }
                }
                let slots = self.random.range(1, 20) as usize;
                self.make_leg_room(slots);
            }
        }
    }

    /// Leg orders on every series of a strategy in turn, so that resting orders
    /// are met by legs.
    fn leg_phase(&mut self) {
        if self.book.strategies.is_empty() {
            return self.strategy_event();
        }
        let strategy = self.some_strategy();
        let side = self.random.range(0, 1) as u8;
        self.make_ready(strategy);
        for _ in 0..self.random.range(1, 4) {
            self.make_complex_room(1);
            let limit = self.some_limit(strategy);
            self.complex_event(strategy, side, MARKET_MAKER, DAY, limit);
        }
        for leg in self.book.legs(strategy).to_vec() {
            let leg_side = 1 - side_taken(side, &leg);
            self.make_leg_room(2);
            self.leg_order_event(leg.series, leg_side);
            self.leg_order_event(leg.series, leg_side);
        }
    }

    /// An auction whose end writes many records: the legs at many prices, and
    /// all complex orders and sweeps at one limit.
    fn heavy_phase(&mut self) {
        if self.series.len() >= 6 && self.book.strategies.len() < STRATEGIES {
            let mut legs = [Leg::default(); 6];
            for (leg, series) in legs.iter_mut().zip(&self.series) {
                *leg = Leg {
                    series: *series,
                    side: self.random.range(0, 1) as u8,
                    ratio: 1,
                };
            }
            self.push(Event::Strategy { count: 6, legs });
        }
        let held = 0..self.book.strategies.len() as u8;
        let Some(strategy) = held.max_by_key(|strategy| self.book.legs(*strategy).len()) else {
            return;
        };
        self.make_complex_room(COMPLEX_ORDERS);
        self.make_leg_room(LEG_ORDERS);
        let side = self.random.range(0, 1) as u8;
        let legs = self.book.legs(strategy).to_vec();
        for leg in &legs {
            if !self.book.is_open(leg.series) {
                self.series_event(leg.series, 1);
            }
        }
        // A leg order in each leg for the net of the starter's own side.
        for place in 0..legs.len() {
            self.heavy_leg_order(&legs, place, side);
        }
        let price = |leg: &Leg| self.heavy_price(leg, side, 1) * i64::from(leg.ratio);
        let signed = |leg: &Leg| match leg.side {
            BUY => price(leg),
            _ => -price(leg),
        };
        let net: i64 = legs.iter().map(signed).sum();
        let limit = if side == BUY { net + 60 } else { net - 60 } as i32;
        let life = self.random.pick(&[DAY, IMMEDIATE]);
        let class = self.random.pick(&[1, 2]);
        let starter = self.random.range(200, 700) as u16;
        let entry = |member: u16, side: u8, class: u8, life: u8, units: u16| Event::Complex {
            member,
            strategy,
            side,
            class,
            life,
            units,
            limit,
        };
        self.push(entry(1, side, class, life, starter));
        for member in 2..=16u16 {
            let class = self.random.pick(&[2, 3, 3, 3]);
            let life = self.random.pick(&[DAY, IMMEDIATE, RESPONSE]);
            if member % 2 == 0 {
                let units = self.random.range(600, 900) as u16;
                self.push(entry(member, side, class, life, units));
            } else {
                let units = self.random.range(200, 400) as u16;
                self.push(entry(member, 1 - side, class, life, units));
            }
        }
        for member in 1..=SWEEPS as u16 {
            let units = self.random.range(200, 400) as u16;
            self.push(Event::Sweep {
                member,
                strategy,
                side: 1 - side,
                units,
                limit,
            });
        }
        // The others for the net that the starter takes. The sweeps would not better
        // it; it was unknown when they came.
        for place in legs.len()..LEG_ORDERS {
            self.heavy_leg_order(&legs, place, side);
        }
        let milliseconds = (self.book.clock + self.book.timer).min(86_400_000);
        self.push(Event::Clock { milliseconds });
    }

    /// A price of the leg so many cents from its centre, worse for a starter of this
    /// side.
    fn heavy_price(&self, leg: &Leg, side: u8, distance: i64) -> i64 {
        let away = if side_taken(side, leg) == BUY { 1 } else { -1 };
        (self.centres[usize::from(leg.series)] + away * distance).clamp(1, 99_999)
    }

    /// A leg order of the heavy phase: the first of each leg on the side that the
    /// starter takes itself, the others on the other one, at prices that grow worse.
    fn heavy_leg_order(&mut self, legs: &[Leg], place: usize, side: u8) {
        let leg = &legs[place % legs.len()];
        let level = (place / legs.len()) as i64;
        let taken = side_taken(side, leg);
        let (own, distance) = if level == 0 {
            (taken, -20)
        } else {
            (1 - taken, level)
        };
        let ratio = i64::from(leg.ratio);
        let contracts = ratio * self.random.range(1, 9) + self.random.range(0, ratio - 1);
        let price = self.heavy_price(leg, side, distance);
        self.push(Event::LegOrder {
            member: 1 + place as u16,
            series: leg.series,
            side: own,
            contracts: contracts as u16,
            price: price as u32,
        });
    }

    /// An auction with sweeps at the net of their side and a cent to each side of it.
    /// Leg orders come, trade and are cancelled between them, and the same sweeps come
    /// again.
    fn net_phase(&mut self) {
        if self.book.strategies.is_empty() {
            return self.strategy_event();
        }
        let strategy = self.some_strategy();
        self.make_ready(strategy);
        if !self.book.auction_runs(strategy) {
            self.start_auction(strategy);
        }
        if self.random.chance(1, 3) {
            self.full_sweeps(strategy);
        }
        for _ in 0..self.random.range(2, 9) {
            if !self.book.auction_runs(strategy) {
                break;
            }
            for _ in 0..self.random.range(1, 5) {
                self.near_sweep(strategy);
            }
            self.move_net(strategy);
        }
        self.near_sweep(strategy);
        if self.random.chance(5, 6) {
            let milliseconds = (self.book.clock + self.book.timer).min(86_400_000);
            self.push(Event::Clock { milliseconds });
        }
    }

    fn push_sweep(&mut self, member: u16, strategy: u8, side: u8, units: u16, limit: i32) {
        let sweep = Event::Sweep {
            member,
            strategy,
            side,
            units,
            limit,
        };
        self.push_as_it_is(bytes(&sweep), SPACE);
    }

    /// A sweep near the net of its side; or a live one once more, with other units or
    /// none.
    fn near_sweep(&mut self, strategy: u8) {
        let live: Vec<Entry> = (self.book.sweeps())
            .filter(|sweep| sweep.strategy == strategy)
            .copied()
            .collect();
        if !live.is_empty() && self.random.chance(2, 5) {
            let old = self.random.pick(&live);
            let units = match self.random.below(4) {
                0 => 0,
                _ => self.some_units(),
            };
            return self.push_sweep(old.member, strategy, old.side, units, old.limit);
        }
        let side = self.random.range(0, 1) as u8;
        let towards = if side == BUY { 1 } else { -1 };
        let limit = match self.book.leg_net(strategy, 1 - side) {
            Some(net) => net + towards * self.random.pick(&[-2, -1, 0, 0, 0, 1, 1, 1, 2, 3]),
            None => i64::from(self.some_limit(strategy)),
        };
        let units = match self.random.below(8) {
            0 => 0,
            _ => self.some_units(),
        };
        let member = self.random.range(1, 9) as u16;
        self.push_sweep(member, strategy, side, units, limit as i32);
    }

    /// Kind 11 with this strategy and member.
    fn specialist_event(&mut self, strategy: u8, member: u16) {
        let percentage = match self.random.below(6) {
            0 => 0,
            1 => 100,
            2..=3 => self.random.pick(&[10, 20, 25, 33, 40, 50, 60]),
            _ => self.random.range(1, 99) as u8,
        };
        self.push(Event::Specialist {
            member,
            strategy,
            percentage,
        });
    }

    /// The strategy with its specialist: a member of these few, or one of another
    /// strategy's.
    fn name_specialist(&mut self, strategy: u8) {
        let member = self.random.range(1, 5) as u16;
        self.specialist_event(strategy, member);
        let named = self.book.specialists[usize::from(strategy)];
        if let Some(named) = named.filter(|_| self.random.chance(1, 10)) {
            self.push(Event::Specialist {
                member: named.member,
                strategy,
                percentage: named.percentage,
            });
        }
        if self.random.chance(1, 4) {
            let (other, member) = (self.some_strategy(), self.random.range(1, 5) as u16);
            self.specialist_event(other, member);
        }
    }

    /// An auction with a specialist: entries of a few members at one limit and at a
    /// better one, often more than the starter takes. It is named before the auction or
    /// in it, and sometimes another takes its place.
    fn specialist_phase(&mut self) {
        if self.book.strategies.is_empty() {
            return self.strategy_event();
        }
        let strategy = self.some_strategy();
        if self.random.chance(1, 12) && !self.book.auction_runs(strategy) {
            let leg = self.book.legs(strategy)[0];
            self.series_event(leg.series, 0);
            self.name_specialist(strategy);
        }
        self.make_ready(strategy);
        if self.random.chance(5, 6) {
            self.name_specialist(strategy);
        }
        if self.random.chance(1, 6) {
            self.shared_arrival(strategy);
        }
        for _ in 0..3 {
            if !self.book.auction_runs(strategy) {
                self.start_auction(strategy);
            }
        }
        let Some(auction) = self.book.auctions[usize::from(strategy)] else {
            return;
        };
        let Some(starter) = self.book.entry(auction.starter) else {
            return;
        };
        let side = 1 - auction.side;
        // What meets the starter and betters the net of its own side.
        let limit = i64::from(starter.limit);
        let limit = match (self.book.leg_net(strategy, 1 - side), side) {
            (Some(net), BUY) => limit.max(net + 1),
            (Some(net), _) => limit.min(net - 1),
            (None, _) => limit,
        };
        let better = if side == BUY { limit + 1 } else { limit - 1 };
        let entries = self.random.pick(&[1, 2, 3, 4, 5, 6, 9]);
        self.make_complex_room(entries + 2);
        let one_limit = self.random.chance(2, 3);
        for _ in 0..entries {
            let at = if one_limit || self.random.chance(2, 3) {
                limit
            } else {
                better
            };
            self.group_entry(strategy, side, at as i32, starter.units);
        }
        let named = self.book.specialists[usize::from(strategy)];
        match named.filter(|_| self.random.chance(5, 6)) {
            Some(named) if self.random.chance(1, 5) => {
                let units = self.one_too_many(&starter, limit as i32);
                self.push_sweep(named.member, strategy, side, units, limit as i32);
            }
            Some(named) => {
                let units = self.group_units(starter.units);
                self.push_sweep(named.member, strategy, side, units, limit as i32);
                if !one_limit && self.random.chance(1, 2) {
                    let units = self.random.range(1, 2) as u16;
                    self.push_sweep(named.member, strategy, side, units, better as i32);
                }
                for _ in 0..self.random.below(4) {
                    self.group_entry(strategy, side, limit as i32, starter.units);
                }
                if self.random.chance(1, 6) {
                    let units = self.group_units(starter.units);
                    self.push(Event::Complex {
                        member: named.member,
                        strategy,
                        side,
                        class: MARKET_MAKER,
                        life: RESPONSE,
                        units,
                        limit: limit as i32,
                    });
                }
            }
            None => {}
        }
        if self.random.chance(1, 3) {
            self.name_specialist(strategy);
        }
        // One of the starter's side, for what the others have left.
        if self.random.chance(1, 3) {
            let life = self.random.pick(&[IMMEDIATE, RESPONSE]);
            self.complex_event(strategy, auction.side, MARKET_MAKER, life, limit as i32);
        }
        if self.random.chance(9, 10) {
            let milliseconds = (self.book.clock + self.book.timer).min(86_400_000);
            self.push(Event::Clock { milliseconds });
        }
    }

    /// Units that make the group one larger than what a starter leaves it, if that is
    /// one or more.
    fn one_too_many(&self, starter: &Entry, limit: i32) -> u16 {
        let opposite = (self.book.entries_of(starter.strategy))
            .filter(|entry| entry.side != starter.side && entry.group < 2);
        let at_limit = opposite.filter(|entry| entry.limit == limit);
        let others: u32 = at_limit.map(|entry| entry.units).sum();
        (starter.units + 1).saturating_sub(others).clamp(1, 9_999) as u16
    }

    /// Units of an entry beside a starter of so many.
    fn group_units(&mut self, starter: u32) -> u16 {
        let starter = i64::from(starter);
        let units = match self.random.below(8) {
            0..=1 => self.random.range(1, 3),
            2..=4 => self.random.range(1, starter),
            5 => self.random.range(starter, 2 * starter),
            6 => starter / 2,
            _ => i64::from(self.some_units()),
        };
        units.clamp(1, 9_999) as u16
    }

    /// An answer to an auction at this limit: mostly a sweep, of one of few members.
    fn group_entry(&mut self, strategy: u8, side: u8, limit: i32, starter: u32) {
        let member = self.random.range(1, 5) as u16;
        let units = self.group_units(starter);
        let class = match self.random.below(10) {
            0..=5 => return self.push_sweep(member, strategy, side, units, limit),
            6..=7 => MARKET_MAKER,
            8 => CUSTOMER,
            _ => BROKER_DEALER,
        };
        let units = match class {
            CUSTOMER => units.min(1 + starter as u16 / 2),
            _ => units,
        };
        let life = self.random.pick(&[DAY, IMMEDIATE, RESPONSE]);
        self.push(Event::Complex {
            member,
            strategy,
            side,
            class,
            life,
            units,
            limit,
        });
    }

    /// Market makers' day orders at one limit, and an order of another that shares
    /// them on its arrival.
    fn shared_arrival(&mut self, strategy: u8) {
        if self.book.auction_runs(strategy) {
            return;
        }
        let side = self.random.range(0, 1) as u8;
        let limit = match (self.book.leg_net(strategy, 1 - side), side) {
            (Some(net), BUY) => net + 1,
            (Some(net), _) => net - 1,
            (None, _) => i64::from(self.some_limit(strategy)),
        };
        let limit = limit as i32;
        let entries = self.random.range(2, 4) as usize;
        self.make_complex_room(entries + 1);
        for member in 1..=entries as u16 {
            let units = self.some_units();
            self.push(Event::Complex {
                member,
                strategy,
                side,
                class: MARKET_MAKER,
                life: DAY,
                units,
                limit,
            });
        }
        self.complex_event(strategy, 1 - side, MARKET_MAKER, IMMEDIATE, limit);
    }

    /// Sweeps until their table is full, and some near the nets.
    fn full_sweeps(&mut self, strategy: u8) {
        for member in 1..=2 * SWEEPS as u16 {
            if self.book.sweeps().count() == SWEEPS {
                break;
            }
            let side = self.random.range(0, 1) as u8;
            let (units, limit) = (self.some_units(), self.some_limit(strategy));
            self.push(Event::Sweep {
                member,
                strategy,
                side,
                units,
                limit,
            });
        }
        for _ in 0..4 {
            self.near_sweep(strategy);
        }
    }

    /// Makes a net of the strategy better, worse or unknown, by leg orders that rest
    /// or trade, or by cancels.
    fn move_net(&mut self, strategy: u8) {
        let legs = self.book.legs(strategy).to_vec();
        let leg = self.random.pick(&legs);
        // The side of the leg orders that the net of this side takes.
        let own = side_taken(self.random.range(0, 1) as u8, &leg);
        let away = if own == BUY { -1 } else { 1 };
        let best = self.book.depth(leg.series, own);
        let Some(best) = best else {
            self.make_leg_room(1);
            return self.leg_order_event(leg.series, own);
        };
        let (member, contracts) = (self.member(), self.some_contracts());
        let order = |side: u8, contracts: u32, price: i64| Event::LegOrder {
            member,
            series: leg.series,
            side,
            contracts: contracts.clamp(1, 9_999) as u16,
            price: price.clamp(1, 99_999) as u32,
        };
        let price = i64::from(best.price);
        let better = price - away * self.random.range(1, 3);
        match self.random.below(9) {
            // Some of them hold less than the ratio.
            0..=1 => {
                self.make_leg_room(1);
                self.push(order(own, 1, better));
            }
            2..=3 => {
                self.make_leg_room(1);
                self.push(order(own, u32::from(contracts), better));
            }
            4 => {
                self.make_leg_room(1);
                self.push(order(own, u32::from(contracts), price + away));
            }
            5..=6 => {
                self.make_leg_room(1);
                self.push(order(1 - own, best.contracts, price));
            }
            case => {
                let all = case == 8;
                let orders: Vec<(u16, u32)> = (self.book.leg_orders_of(leg.series, own))
                    .filter(|order| all || order.price == best.price)
                    .map(|order| (order.member, order.number))
                    .collect();
                for (member, number) in orders {
                    self.push(Event::Cancel { member, number });
                }
            }
        }
    }

    /// Moves the net of this side past the live sweeps: the other side of a leg is
    /// cancelled, and a leg order comes 20 cents better than the best price.
    fn pass_sweeps(&mut self, strategy: u8, side: u8) {
        let leg = self.book.legs(strategy)[0];
        let own = side_taken(side, &leg);
        let others: Vec<(u16, u32)> = (self.book.leg_orders_of(leg.series, 1 - own))
            .map(|order| (order.member, order.number))
            .collect();
        for (member, number) in others {
            self.push(Event::Cancel { member, number });
        }
        let Some(best) = self.book.depth(leg.series, own) else {
            return;
        };
        let away = if own == BUY { -20 } else { 20 };
        self.make_leg_room(1);
        self.push(Event::LegOrder {
            member: 1,
            series: leg.series,
            side: own,
            contracts: 9,
            price: (i64::from(best.price) - away).clamp(1, 99_999) as u32,
        });
    }

    /// Gives the last numbers while an auction runs, then replaces and withdraws
    /// its sweeps.
    fn last_auction(&mut self) {
        let strategy = self.some_strategy();
        for _ in 0..10 {
            self.make_ready(strategy);
            if !self.book.auction_runs(strategy) {
                self.start_auction(strategy);
            }
        }
        for member in 1..=8 {
            let side = self.random.range(0, 1) as u8;
            let units = self.some_units();
            let limit = self.some_limit(strategy);
            self.push(Event::Sweep {
                member,
                strategy,
                side,
                units,
                limit,
            });
        }
        let side = self.random.range(0, 1) as u8;
        if self.national.is_some() {
            self.pass_sweeps(strategy, side);
        }
        while self.book.given < LAST_NUMBER {
            self.make_complex_room(1);
            self.complex_event(strategy, BUY, MARKET_MAKER, DO_NOT_AUCTION, -9_000_000);
        }
        if let (Some(net), Some(_)) = (self.book.leg_net(strategy, 1 - side), &self.national) {
            // A full table would come before the numbers.
            let excess = self.book.sweeps().count().saturating_sub(SWEEPS - 1);
            let first: Vec<Entry> = self.book.sweeps().copied().take(excess).collect();
            for old in first {
                self.push_sweep(old.member, old.strategy, old.side, 0, old.limit);
            }
            for member in 1..=6 {
                for limit in net - 1..=net + 1 {
                    self.push_sweep(member, strategy, side, 1, limit as i32);
                }
            }
        }
        let sweeps: Vec<Entry> = self.book.sweeps().copied().collect();
        for sweep in sweeps {
            for units in [1, 0, 0] {
                self.push_sweep(sweep.member, sweep.strategy, sweep.side, units, sweep.limit);
            }
        }
    }

    /// Gives numbers, up to this many, by orders that are cancelled at once or
    /// replace each other.
    fn give_numbers(&mut self, given: u32) {
        if self.book.strategies.is_empty() {
            while self.book.strategies.is_empty() {
                self.strategy_event();
            }
        }
        while self.book.given < given {
            self.make_complex_room(1);
            self.make_leg_room(1);
            let strategy = self.some_auction().unwrap_or(0);
            match self.random.below(50) {
                0 => self.any_event(),
                1..=5 if self.book.auction_runs(strategy) => {
                    let units = self.some_units();
                    self.push(Event::Sweep {
                        member: 1,
                        strategy,
                        side: 0,
                        units,
                        limit: -100_000,
                    });
                }
                6..=8 => {
                    let series = self.some_series();
                    let side = self.random.range(0, 1) as u8;
                    self.leg_order_event(series, side);
                }
                _ => {
                    let side = self.random.range(0, 1) as u8;
                    let limit = if side == BUY { -9_000_000 } else { 9_000_000 };
                    self.complex_event(strategy, side, MARKET_MAKER, DO_NOT_AUCTION, limit);
                }
            }
        }
    }
}
