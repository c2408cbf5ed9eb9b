//! Request 2026-03: the leg orders that are live at a place of a list, and the leg net
//! that a sweep has to better when it comes.

use crate::frames::{Leg, Terms};
use crate::nets::net;
use std::collections::BTreeSet;

/// A leg order in a place of what entered.
#[derive(Clone, Copy, Debug, PartialEq, Eq, PartialOrd, Ord)]
pub struct LegOrder {
    pub series: i64,
    pub side: i64,
    pub price: i64,
    /// Its number, and which of those that entered with it.
    pub entered: (i64, usize),
}

/// The leg orders that are live, each side of a series by price.
#[derive(Clone, Debug, Default, PartialEq, Eq)]
pub struct LegBook {
    live: BTreeSet<LegOrder>,
}

impl LegBook {
    /// The leg order is live from now on, or is not.
    pub fn set(&mut self, order: LegOrder, live: bool) {
        if live {
            self.live.insert(order);
        } else {
            self.live.remove(&order);
        }
    }

    /// The best price of a side of a series: the highest of its buys, the lowest of
    /// its sells.
    fn best(&self, series: i64, side: i64) -> Option<i64> {
        let end = |price, number| LegOrder {
            series,
            side,
            price,
            entered: (number, 0),
        };
        let mut orders = (self.live).range(end(i64::MIN, i64::MIN)..end(i64::MAX, i64::MAX));
        let best = match side {
            0 => orders.next_back(),
            _ => orders.next(),
        };
        best.map(|order| order.price)
    }

    /// The leg net of a side in the strategy with these legs: the bid net of a buy,
    /// the offer net of a sell; none if it is unknown.
    pub fn net(&self, legs: &[Leg], side: i64) -> Option<i64> {
        net(legs, side, |series, side| self.best(series, side))
    }
}

/// A sweep as it came: its side, its limit, and the leg net of its side, if known.
#[derive(Clone, Copy, Debug, PartialEq, Eq)]
pub struct Arrival {
    pub side: i64,
    pub limit: i64,
    pub net: Option<i64>,
}

impl Arrival {
    pub fn new(terms: &Terms, net: Option<i64>) -> Arrival {
        Arrival {
            side: terms.side.into(),
            limit: terms.limit,
            net,
        }
    }

    /// By how much the limit is better than the net, if that is known: "above the bid
    /// net when it buys, below the offer net when it sells".
    pub fn better(&self) -> Option<i64> {
        self.net.map(|net| match self.side {
            0 => self.limit - net,
            _ => net - self.limit,
        })
    }

    /// "Where that net is unknown, every price betters it."
    pub fn holds(&self) -> bool {
        self.better().is_none_or(|better| better > 0)
    }
}
