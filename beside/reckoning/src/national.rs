//! Request 2026-01, "National prices and the execution range".

use crate::book::{Book, BUY, LEGS, SELL, SERIES};
use crate::nets::{net, side_taken, LegPrice};
use crate::table::Table;

/// "a fresh book has 9,999".
pub const FRESH_RANGE: u32 = 9_999;

/// The national prices of the series, and the execution range.
#[derive(Clone, Debug, PartialEq, Eq)]
pub struct National {
    /// The national bid and offer of each series; "0 meaning missing".
    prices: [[u32; 2]; SERIES as usize],
    /// The series that have one of the two, as a 32-bit set.
    known: u32,
    /// The range in cents.
    pub range: u32,
}

impl Default for National {
    /// "a fresh book misses all".
    fn default() -> Self {
        National {
            prices: [[0; 2]; SERIES as usize],
            known: 0,
            range: FRESH_RANGE,
        }
    }
}

impl National {
    /// Sets both prices of a series; a 0 takes the old one away.
    pub fn set(&mut self, series: u8, bid: u32, offer: u32) {
        self.prices[usize::from(series)] = [bid, offer];
        let known = u32::from(bid != 0 || offer != 0);
        self.known = self.known & !(1 << series) | known << series;
    }

    /// The national bid (side 0) or offer (side 1) of a series.
    pub fn price(&self, series: u8, side: u8) -> Option<u32> {
        match self.prices[usize::from(series)][usize::from(side)] {
            0 => None,
            price => Some(price),
        }
    }

    /// The series that have a national bid or offer, as a 32-bit set.
    pub fn known(&self) -> u32 {
        self.known
    }
}

/// "A national bid above a national offer, neither 0".
pub fn crossed(bid: u32, offer: u32) -> bool {
    bid > offer && offer != 0
}

/// The prices at which complex orders and sweeps of a strategy may fill: the
/// buyer's up to the highest, the seller's from the lowest on.
#[derive(Clone, Copy, Debug, PartialEq, Eq)]
pub struct Bounds {
    pub lowest: i64,
    pub highest: i64,
}

impl Bounds {
    /// "A missing national net bounds nothing".
    pub const NONE: Bounds = Bounds {
        lowest: i64::MIN,
        highest: i64::MAX,
    };

    /// Whether an order of this side may fill at the price: "No complex order or
    /// sweep that buys fills above the national offer net plus the range, and
    /// none that sells below the national bid net less it."
    pub fn allow(&self, side: u8, price: i64) -> bool {
        if side == BUY {
            price <= self.highest
        } else {
            price >= self.lowest
        }
    }

    /// Whether a buyer and a seller may fill at the price.
    pub fn allow_both(&self, price: i64) -> bool {
        self.allow(BUY, price) && self.allow(SELL, price)
    }
}

impl Book {
    /// The national net that an order of this side takes: "The national nets are
    /// formed like our leg nets."
    pub fn national_net(&self, strategy: u8, order_side: u8) -> Option<i64> {
        let mut prices: Table<LegPrice, LEGS> = Table::default();
        for leg in self.legs(strategy) {
            let side = side_taken(order_side, leg);
            let price = self.national.price(leg.series, 1 - side)?;
            prices.push(LegPrice {
                leg: *leg,
                side,
                price,
                contracts: 0,
            });
        }
        Some(net(&prices))
    }

    /// The bounds of the strategy's fills, from the national nets and the range.
    /// Neither moves while an event runs, so a pass asks once.
    pub fn bounds(&self, strategy: u8) -> Bounds {
        // A series without any price leaves both nets missing.
        if self.strategies[usize::from(strategy)].series & !self.national.known != 0 {
            return Bounds::NONE;
        }
        let range = i64::from(self.national.range);
        let offer_net = self.national_net(strategy, BUY);
        let bid_net = self.national_net(strategy, SELL);
        Bounds {
            lowest: bid_net.map_or(i64::MIN, |net| net - range),
            highest: offer_net.map_or(i64::MAX, |net| net + range),
        }
    }
}
