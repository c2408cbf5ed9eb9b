//! The lists of calls that are compared: inputs of `calls`, made from seeds or
//! by hand.

use reckoning::book::{Book, Entry, BUY, COMPLEX_ORDERS, LEG_ORDERS, SELL, SPACE};
use reckoning::calls::item;
use reckoning::frames::{bytes, judge, Event};
use reckoning::generate::{
    damaged_frame, frames, list, long_list, national_list, valid_event, Input, Options, Random,
    LAST_KIND,
};
use reckoning::passes::meets;
use std::collections::BTreeSet;
use std::fmt;

/// One input of `calls`.
#[derive(Clone, Debug, PartialEq, Eq)]
pub enum List {
    /// A list of the reckoning's generator with further calls in it, ended where
    /// the book is in a certain state. Two of three have kinds 9 to 11.
    Generated { seed: u64, events: usize, end: End },
    /// A list that gives all 100,000 numbers and goes on.
    EveryNumber { seed: u64 },
    /// Several days, a day end after each but the last; two of three have kinds 9
    /// to 11.
    Several { seed: u64, days: u64, end: End },
    /// Frames of any sort one after the other, most of them refused, with spaces
    /// of any length.
    Frames { seed: u64, amount: usize },
    /// A list made by hand.
    Made { name: String, bytes: Vec<u8> },
}

/// The state of the book in which a list ends, if the list reaches it in its
/// second half.
#[derive(Clone, Copy, Debug, PartialEq, Eq)]
pub enum End {
    Anywhere,
    /// Auctions run in two strategies or more.
    Auctions,
    /// Sweeps are live on both sides.
    Sweeps,
    /// A strategy has a shut leg, another none.
    Shut,
    /// A strategy has two shut legs or more, and leg orders are live.
    ShutLegs,
    /// A side of a series has leg orders at three prices or more, and several of
    /// them at the best.
    Depth,
    /// The table of complex orders or of leg orders is full.
    Full,
    /// Orders rest crossed, since the range keeps them apart.
    Crossed,
    /// A specialist's sweep is live.
    Specialist,
}

pub const ENDS: [End; 9] = [
    End::Anywhere,
    End::Auctions,
    End::Sweeps,
    End::Shut,
    End::ShutLegs,
    End::Depth,
    End::Full,
    End::Crossed,
    End::Specialist,
];

impl End {
    fn reached(self, book: &Book) -> bool {
        let shut_legs = |strategy: usize| match book.shut_legs(strategy as u32) {
            Ok((count, _)) => count,
            Err(_) => 0,
        };
        let strategies = 0..book.strategies.len();
        match self {
            End::Anywhere => true,
            End::Auctions => book.auctions.iter().flatten().count() >= 2,
            End::Sweeps => {
                let live = |side| book.sweeps().any(|sweep| sweep.side == side);
                live(BUY) && live(SELL)
            }
            End::Shut => {
                let open = |strategy| shut_legs(strategy) == 0;
                strategies.clone().any(open) && !strategies.clone().all(open)
            }
            End::ShutLegs => {
                !book.leg_orders.is_empty()
                    && strategies.clone().any(|strategy| shut_legs(strategy) >= 2)
            }
            End::Depth => (0..32).any(|series| {
                [BUY, SELL].into_iter().any(|side| {
                    let own = (book.leg_orders.iter())
                        .filter(|order| order.series == series && order.side == side);
                    let prices: BTreeSet<u32> = own.map(|order| order.price).collect();
                    prices.len() >= 3 && best_orders(book, series, side) >= 2
                })
            }),
            End::Full => {
                book.complex_orders().count() == COMPLEX_ORDERS
                    || book.leg_orders.len() == LEG_ORDERS
            }
            End::Crossed => (book.live_numbers().into_iter()).any(|n| rests_crossed(book, n)),
            End::Specialist => book.sweeps().any(|sweep| is_specialist_s(book, sweep)),
        }
    }
}

/// How many leg orders stand at the best price.
pub fn best_orders(book: &Book, series: u8, side: u8) -> usize {
    let own = || {
        (book.leg_orders.iter())
            .filter(move |order| order.series == series && order.side == side)
            .map(|order| order.price)
    };
    let best = if side == BUY {
        own().max()
    } else {
        own().min()
    };
    own().filter(|price| Some(*price) == best).count()
}

/// Whether the sweep would be refused 15 if it came now.
pub fn is_passed(book: &Book, sweep: &Entry) -> bool {
    book.betters_own_net(sweep.strategy, sweep.side, sweep.limit) == Some(false)
}

/// Whether the sweep is that of its strategy's specialist.
pub fn is_specialist_s(book: &Book, sweep: &Entry) -> bool {
    let named = book.specialists[usize::from(sweep.strategy)];
    named.is_some_and(|named| named.holds(sweep))
}

/// Whether the order rests in an open strategy without an auction, beside an
/// opposite one that meets its limit.
pub fn rests_crossed(book: &Book, number: u32) -> bool {
    book.entry(number).is_some_and(|own| {
        let limit = i64::from(own.limit);
        book.all_open(own.strategy)
            && !book.auction_runs(own.strategy)
            && (book.entries_of(own.strategy)).any(|other| {
                other.side != own.side && meets(own.side, limit, i64::from(other.limit))
            })
    })
}

impl fmt::Display for List {
    fn fmt(&self, out: &mut fmt::Formatter) -> fmt::Result {
        match self {
            List::Generated { seed, events, end } => {
                write!(out, "seed {seed}, {events} events, ended at {end:?}")
            }
            List::EveryNumber { seed } => write!(out, "seed {seed}, every number"),
            List::Several { seed, days, end } => {
                write!(out, "seed {seed}, {days} days, ended at {end:?}")
            }
            List::Frames { seed, amount } => write!(out, "seed {seed}, frames, {amount} of a sort"),
            List::Made { name, .. } => write!(out, "{name}"),
        }
    }
}

/// A space that is too short.
fn short_space(random: &mut Random) -> usize {
    match random.below(4) {
        0 => 0,
        1 => SPACE - 1,
        2 => random.pick(&[1, 5, 6, 255, 256, 2_560, 15_354, 15_358]),
        _ => random.below(SPACE),
    }
}

/// A space that is long enough.
fn long_space(random: &mut Random) -> usize {
    match random.below(4) {
        0 => SPACE + 1,
        1 => 65_535,
        2 => random.pick(&[15_366, 15_616, 16_384, 30_720, 32_767, 32_768, 65_534]),
        _ => random.range(SPACE as i64, 65_535) as usize,
    }
}

fn any_space(random: &mut Random) -> usize {
    match random.below(4) {
        0 => short_space(random),
        1 => long_space(random),
        _ => SPACE,
    }
}

/// A frame that is refused 2 or 3: an empty one, any bytes, a wrong length field,
/// or another damage.
fn bad_frame(random: &mut Random) -> Vec<u8> {
    loop {
        let kind = random.range(1, i64::from(LAST_KIND)) as u32;
        let frame = match random.below(6) {
            0 => Vec::new(),
            1 => (0..random.below(24)).map(|_| random.bits() as u8).collect(),
            2 => {
                let mut frame = bytes(&valid_event(random, kind));
                frame[0] = frame[0].wrapping_add(random.pick(&[1, 2, 4, 254, 255]));
                frame
            }
            3 => {
                let mut frame = bytes(&valid_event(random, kind));
                frame[1] = random.range(1, 255) as u8;
                frame
            }
            4 => {
                let mut frame = bytes(&valid_event(random, kind));
                frame.extend((0..=random.below(3)).map(|_| 0));
                frame
            }
            _ => damaged_frame(random),
        };
        if judge(&frame) != 0 {
            return frame;
        }
    }
}

/// The list with further calls in it that change nothing, since each is refused
/// 1, 2 or 3, and with longer spaces for some of its own.
fn woven(seed: u64, inputs: Vec<Input>) -> Vec<Input> {
    let mut random = Random::new(seed ^ 0x0C0F_FEE0_0DD5_EED5);
    let mut list: Vec<Input> = Vec::new();
    for mut input in inputs {
        if random.chance(1, 12) {
            let space = short_space(&mut random);
            let frame = input.frame.clone();
            list.push(Input { frame, space });
        }
        // A frame from before, in another state of the book.
        if !list.is_empty() && random.chance(1, 20) {
            let space = short_space(&mut random);
            let frame = list[random.below(list.len())].frame.clone();
            list.push(Input { frame, space });
        }
        if random.chance(1, 20) {
            let frame = bad_frame(&mut random);
            let space = any_space(&mut random);
            list.push(Input { frame, space });
        }
        if input.space == SPACE && random.chance(1, 4) {
            input.space = long_space(&mut random);
        }
        list.push(input);
    }
    list
}

/// The list up to the last call in its second half after which the book is in
/// the state; or up to a call in that half.
fn ended(seed: u64, mut list: Vec<Input>, end: End) -> Vec<Input> {
    let half = list.len() / 2;
    let mut length = half + Random::new(seed).below(list.len() - half);
    if end != End::Anywhere {
        let mut book = Book::first();
        for (index, call) in list.iter().enumerate() {
            book.step(&call.frame, call.space);
            if index >= half && end.reached(&book) {
                length = index + 1;
            }
        }
    }
    list.truncate(length);
    list
}

/// A list of the generator, with kinds 9 to 11 for two seeds of three.
fn some_list(seed: u64, events: usize, options: Options) -> Vec<Input> {
    match seed % 3 {
        0 => list(seed, events, options),
        _ => national_list(seed, events, options),
    }
}

fn several(seed: u64, days: u64) -> Vec<Input> {
    let options = Options {
        loose: true,
        day_ends: false,
    };
    let mut random = Random::new(seed);
    let mut inputs = Vec::new();
    for day in 0..days {
        inputs.extend(some_list(1_000 * seed + day, 300, options));
        if day + 1 < days {
            let timer = random.pick(&[1, 2, 50, 1_000, 4_999, 5_000]);
            inputs.push(Input {
                frame: bytes(&Event::DayEnd { timer }),
                space: SPACE,
            });
        }
    }
    inputs
}

impl List {
    /// The calls of the list; none of one that was made as bytes.
    fn calls(&self) -> Vec<Input> {
        match *self {
            List::Generated { seed, events, end } => {
                let options = Options {
                    loose: true,
                    day_ends: true,
                };
                let inputs = woven(seed, some_list(seed, events, options));
                ended(seed, inputs, end)
            }
            List::EveryNumber { seed } => {
                let mut inputs = long_list(seed, 2_000, true);
                let last = Random::new(seed).below(500);
                inputs.truncate(inputs.len() - 1 - last);
                woven(seed, inputs)
            }
            List::Several { seed, days, end } => ended(seed, woven(seed, several(seed, days)), end),
            List::Frames { seed, amount } => {
                let mut random = Random::new(seed);
                let call = |frame| Input {
                    frame,
                    space: any_space(&mut random),
                };
                frames(seed, amount).into_iter().map(call).collect()
            }
            List::Made { .. } => Vec::new(),
        }
    }

    /// The bytes that the program reads.
    pub fn bytes(&self) -> Vec<u8> {
        match self {
            List::Made { bytes, .. } => bytes.clone(),
            list => list.calls().iter().flat_map(item).collect(),
        }
    }
}

/// Lists of the generator, short and long ones, from this many seeds.
pub fn generated(seeds: u64) -> Vec<List> {
    (1..=seeds)
        .map(|seed| List::Generated {
            seed,
            events: [100, 400, 1_000, 2_000, 6_000][seed as usize % 5],
            end: ENDS[seed as usize % ENDS.len()],
        })
        .collect()
}

pub fn every_number(seeds: u64) -> Vec<List> {
    (1..=seeds).map(|seed| List::EveryNumber { seed }).collect()
}

pub fn several_days(seeds: u64) -> Vec<List> {
    (1..=seeds)
        .map(|seed| List::Several {
            seed,
            days: 2 + seed % 5,
            end: ENDS[seed as usize % ENDS.len()],
        })
        .collect()
}

pub fn any_frames(seeds: u64) -> Vec<List> {
    (1..=seeds)
        .map(|seed| List::Frames { seed, amount: 500 })
        .collect()
}
