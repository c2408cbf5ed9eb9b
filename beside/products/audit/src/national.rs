//! Request 2026-01: the national prices and the execution range as the frames of a
//! day set them, and what they bound.

use crate::frames::{Event, Leg};
use crate::nets::{net, BID, OFFER};

/// What is known at a place of a list.
#[derive(Clone, Debug, PartialEq, Eq)]
pub struct National {
    /// The national bid and offer of each series; "0 meaning missing".
    prices: [[u32; 2]; 32],
    range: u32,
}

impl Default for National {
    /// "a fresh book has 9,999", and "misses all".
    fn default() -> National {
        National {
            prices: [[0; 2]; 32],
            range: 9_999,
        }
    }
}

/// A fill of one side with the national net and the range that bound it.
#[derive(Clone, Copy, Debug, PartialEq, Eq)]
pub struct Bounded {
    pub side: i64,
    pub price: i64,
    pub net: i64,
    pub range: i64,
}

impl National {
    /// An accepted event: what is known after it.
    pub fn apply(&mut self, event: &Event) {
        match *event {
            Event::National { series, prices } => {
                if let Some(known) = self.prices.get_mut(series as usize) {
                    *known = prices;
                }
            }
            Event::Range(range) => self.range = range,
            _ => {}
        }
    }

    /// "The national nets are formed like our leg nets": the offer net for a buyer, for
    /// a seller the bid net.
    fn net(&self, legs: &[Leg], side: i64) -> Option<i64> {
        let of = if side == 0 { OFFER } else { BID };
        net(legs, of, |series, side| {
            let prices = self.prices.get(series as usize)?;
            let price = *prices.get(side as usize)?;
            (price != 0).then_some(price.into())
        })
    }

    /// A fill in the strategy with these legs, if something bounds it: "A missing
    /// national net bounds nothing".
    pub fn bounded(&self, legs: &[Leg], side: i64, price: i64) -> Option<Bounded> {
        if side != 0 && side != 1 {
            return None;
        }
        self.net(legs, side).map(|net| Bounded {
            side,
            price,
            net,
            range: self.range.into(),
        })
    }
}

impl Bounded {
    /// By how much the fill is better than its bound: "No complex order or sweep
    /// that buys fills above the national offer net plus the range, and none that
    /// sells below the national bid net less it."
    pub fn better(&self) -> i64 {
        match self.side {
            0 => self.net + self.range - self.price,
            _ => self.price - (self.net - self.range),
        }
    }

    pub fn holds(&self) -> bool {
        self.better() >= 0
    }
}
