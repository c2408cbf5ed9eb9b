//! Document 01, "Strategies and nets"; request 2026-02, "Best price and its
//! contracts together"; request 2026-05, "Leg nets kept in the strategy".

use crate::book::{Book, Depth, RowEntry, Strategy, BUY, LEGS, SELL};
use crate::frames::Leg;
use crate::table::Table;
use std::cmp::Ordering;

/// Ratios are divided by their greatest common divisor, "found by Euclid's
/// step calling itself".
fn common_divisor(first: u8, second: u8) -> u8 {
    if second == 0 {
        first
    } else {
        common_divisor(second, first % second)
    }
}

/// "Ratios are divided by their greatest common divisor […]. Legs stand by
/// rising series."
pub fn normal(legs: &[Leg]) -> Strategy {
    let divisor = legs
        .iter()
        .fold(0, |divisor, leg| common_divisor(divisor, leg.ratio));
    let mut legs: Table<Leg, LEGS> = legs
        .iter()
        .map(|leg| Leg {
            ratio: leg.ratio / divisor,
            ..*leg
        })
        .collect();
    legs.sort_unstable_by_key(|leg| leg.series);
    Strategy {
        series: series_set(&legs),
        legs,
        nets: Nets::UNKNOWN,
    }
}

/// "The series of a strategy are a 32-bit set".
fn series_set(legs: &[Leg]) -> u32 {
    legs.iter().fold(0, |set, leg| set | 1 << leg.series)
}

/// "series twice, or largest ratio over 3 × smallest".
pub fn refused_5(legs: &[Leg]) -> bool {
    let largest = legs.iter().map(|leg| leg.ratio).max().unwrap_or(0);
    let smallest = legs.iter().map(|leg| leg.ratio).min().unwrap_or(0);
    series_set(legs).count_ones() as usize != legs.len() || largest > 3 * smallest
}

/// "A buy takes each leg on its own side, a sell on the other."
pub fn side_taken(order_side: u8, leg: &Leg) -> u8 {
    if order_side == BUY {
        leg.side
    } else {
        1 - leg.side
    }
}

/// Request 2026-02: "Find both in one walk over the leg orders, from a running
/// pair that starts afresh at a better price". Takes one leg order of this side
/// into the pair of best price and contracts.
pub fn add_to_pair(pair: &mut Option<Depth>, side: u8, price: u32, contracts: u32) {
    let Some(best) = pair else {
        *pair = Some(Depth { price, contracts });
        return;
    };
    // A higher bid is better, and a lower offer.
    let quality = match side {
        BUY => price.cmp(&best.price),
        _ => best.price.cmp(&price),
    };
    match quality {
        Ordering::Less => {}
        Ordering::Equal => best.contracts += contracts,
        Ordering::Greater => *best = Depth { price, contracts },
    }
}

/// "After each slot the pair is that of the slots walked so far": takes one slot
/// into the pair of a series and side. A slot of another series or side, or
/// without contracts, changes nothing.
pub fn add_slot(pair: &mut Option<Depth>, slot: &RowEntry, series: u8, side: u8) {
    if slot.contracts > 0 && slot.series == series && slot.side == side {
        add_to_pair(pair, side, slot.price, u32::from(slot.contracts));
    }
}

/// What one leg offers to an order that takes it: the best price, and its
/// contracts.
#[derive(Clone, Copy, Debug, Default, PartialEq, Eq)]
pub struct LegPrice {
    pub leg: Leg,
    /// The side the order takes on this leg.
    pub side: u8,
    pub price: u32,
    pub contracts: u32,
}

/// What a leg adds to a net at this price: ratio × price of a buy leg, less it of a sell
/// leg.
fn value(leg: &Leg, price: u32) -> i64 {
    let value = i64::from(leg.ratio) * i64::from(price);
    if leg.side == BUY {
        value
    } else {
        -value
    }
}

/// Request 2026-05: the "bid and offer net" that a strategy keeps; none is the "mark for
/// unknown".
#[derive(Clone, Copy, Debug, Default, PartialEq, Eq)]
pub struct Nets {
    pub bid: Option<i64>,
    pub offer: Option<i64>,
}

impl Nets {
    /// Both are unknown.
    pub const UNKNOWN: Nets = Nets {
        bid: None,
        offer: None,
    };

    /// The net that an order of this side takes: the offer net for a buy, the bid net for
    /// a sell.
    pub fn taken_by(&self, order_side: u8) -> Option<i64> {
        if order_side == BUY {
            self.offer
        } else {
            self.bid
        }
    }

    fn set(&mut self, order_side: u8, net: Option<i64>) {
        if order_side == BUY {
            self.offer = net;
        } else {
            self.bid = net;
        }
    }
}

impl Book {
    /// The best price that an order of this side takes on a leg: "Offer net takes offers
    /// for buy legs, bids for sell legs; bid net the reverse; unknown if a price is
    /// missing."
    fn leg_price(&self, order_side: u8, leg: &Leg) -> Option<LegPrice> {
        let side = side_taken(order_side, leg);
        let best = self.depth(leg.series, 1 - side)?;
        Some(LegPrice {
            leg: *leg,
            side,
            price: best.price,
            contracts: best.contracts,
        })
    }

    /// The best prices that an order of this side takes leg by leg.
    pub fn leg_prices(&self, strategy: u8, order_side: u8) -> Option<Table<LegPrice, LEGS>> {
        let legs = self.legs(strategy).iter();
        legs.map(|leg| self.leg_price(order_side, leg)).collect()
    }

    /// Finds a net of a strategy from the best prices of its legs, and keeps it.
    fn renew_net(&mut self, strategy: u8, order_side: u8) {
        let legs = self.legs(strategy).iter();
        let values = legs.map(|leg| Some(value(leg, self.leg_price(order_side, leg)?.price)));
        let net: Option<i64> = values.sum();
        let held = &mut self.strategies[usize::from(strategy)];
        held.nets.set(order_side, net);
    }

    /// "Defining a strategy sets them."
    pub fn set_nets(&mut self, strategy: u8) {
        for order_side in [BUY, SELL] {
            self.renew_net(strategy, order_side);
        }
    }

    /// "Each event that touches a leg order keeps them true after each fill": the best bid
    /// or offer of the series has another price, or none. The one net of each strategy
    /// holding it that takes the price moves with it; where there was none before, it is
    /// found from all legs.
    pub fn renew_nets(&mut self, series: u8, side: u8, old: Option<u32>, new: Option<u32>) {
        for strategy in self.strategies_holding(series) {
            let held = &mut self.strategies[usize::from(strategy)];
            let Some(leg) = held.legs.iter().find(|leg| leg.series == series) else {
                continue;
            };
            // Who takes the leg on the other side takes this price.
            let order_side = side_taken(1 - side, leg);
            match (old, new) {
                (Some(old), Some(new)) => {
                    let moved = value(leg, new) - value(leg, old);
                    let net = held.nets.taken_by(order_side);
                    held.nets.set(order_side, net.map(|net| net + moved));
                }
                (None, Some(_)) => self.renew_net(strategy, order_side),
                (_, None) => held.nets.set(order_side, None),
            }
        }
    }

    /// The net that an order of this side takes, as the strategy keeps it.
    pub fn leg_net(&self, strategy: u8, order_side: u8) -> Option<i64> {
        let held = &self.strategies[usize::from(strategy)];
        held.nets.taken_by(order_side)
    }

    /// "Offer net takes offers for buy legs, bids for sell legs".
    pub fn offer_net(&self, strategy: u8) -> Option<i64> {
        self.leg_net(strategy, BUY)
    }

    /// "bid net the reverse".
    pub fn bid_net(&self, strategy: u8) -> Option<i64> {
        self.leg_net(strategy, SELL)
    }
}

/// "Net = sum of ratio × price over buy legs, less that over sell legs; a buyer
/// pays it."
pub fn net(prices: &[LegPrice]) -> i64 {
    prices
        .iter()
        .map(|entry| value(&entry.leg, entry.price))
        .sum()
}

/// "The legs are ready when each best price holds at least the ratio in
/// contracts."
pub fn ready(prices: &[LegPrice]) -> bool {
    prices
        .iter()
        .all(|entry| entry.contracts >= u32::from(entry.leg.ratio))
}
