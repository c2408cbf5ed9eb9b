//! Document 01, "Passes", within the bounds of request 2026-01, with the specialist's
//! portion of request 2026-04. The leg net is the one that the strategy keeps by request
//! 2026-05.

use crate::book::{Book, Entry, BUY, COMPLEX_ORDERS, DAY, ENTRIES, LEGS};
use crate::coverage::{
    count_allotment, count_leftover, count_leg_fill, count_specialist, count_stop, count_turn,
    count_unready, filled, Turn,
};
use crate::nets::{ready, side_taken, LegPrice};
use crate::records::{Record, LEG_FILL, WHOLE_FILL};
use crate::specialist::Specialist;
use crate::table::Table;

/// How the holders of one limit are met.
#[derive(Clone, Copy, Debug, PartialEq, Eq)]
pub enum Holders {
    /// "In a shared pass one limit's holders go in groups"; in a starter's pass with
    /// the strategy's specialist, if it has one.
    Shared(Option<Specialist>),
    /// "In a numbered pass they go by number alone."
    Numbered,
    /// A pass by legs only meets no holder.
    Nobody,
}

/// What one holder gives to the active order.
#[derive(Clone, Copy, Debug, Default, PartialEq, Eq)]
pub struct Given {
    pub number: u32,
    pub units: u32,
}

/// Whether a price meets a limit: not above it for a buy, not below it for a
/// sell.
pub fn meets(side: u8, limit: i64, price: i64) -> bool {
    if side == BUY {
        price <= limit
    } else {
        price >= limit
    }
}

/// Whether the first price is strictly better for an active order of this side:
/// lower for a buy, higher for a sell.
pub fn strictly_better(side: u8, first: i64, second: i64) -> bool {
    if side == BUY {
        first < second
    } else {
        first > second
    }
}

/// Turns a group's sizes into what it gives: all of each when the group is not
/// larger than what remains, else "remaining × size / group total, rounded down,
/// then one unit each by number until none is left". The group stands by number.
pub fn share(remaining: u32, group: &mut [Given]) {
    let total = sum(group);
    if total <= remaining {
        return;
    }
    for size in group.iter_mut() {
        size.units = (u64::from(remaining) * u64::from(size.units) / u64::from(total)) as u32;
    }
    let mut left = remaining - sum(group);
    count_leftover(remaining, left);
    for share in group {
        if left > 0 {
            share.units += 1;
            left -= 1;
        }
    }
}

/// Turns sizes into what is given in turn: each all it has while any remains.
fn in_turn(remaining: u32, group: &mut [Given]) {
    let mut left = remaining;
    for size in group {
        size.units = left.min(size.units);
        left -= size.units;
    }
}

/// The units of a group.
pub fn sum(group: &[Given]) -> u32 {
    group.iter().map(|given| given.units).sum()
}

/// What each holder of one limit gives, in the order of the fills. The holders
/// stand by number.
pub fn allot(holders: &[Entry], how: Holders, units: u32) -> Table<Given, ENTRIES> {
    let mut fills: Table<Given, ENTRIES> = Table::default();
    if let Holders::Shared(specialist) = how {
        let mut remaining = units;
        // "customers by number; then sweeps and market makers; then
        // broker-dealers".
        for group in 0..3 {
            let first = fills.len();
            let own = || holders.iter().filter(|holder| holder.group == group);
            fills.extend(own().map(size));
            let members = &mut fills[first..];
            // The specialist, and the place of its sweep, which is in the second group.
            let portion = specialist.and_then(|specialist| {
                let place = own().position(|holder| specialist.holds(holder))?;
                Some((specialist, place))
            });
            if group == 0 {
                in_turn(remaining, members);
            } else {
                // "where the second group must be shared and the specialist has a
                // sweep there".
                match portion {
                    Some((specialist, place)) if sum(members) > remaining => {
                        specialist.share(remaining, members, place);
                    }
                    _ => share(remaining, members),
                }
            }
            remaining -= sum(members);
        }
        count_allotment(holders, &fills);
    } else {
        fills.extend(holders.iter().map(size));
        in_turn(units, &mut fills);
    }
    // "No fill record has quantity 0."
    fills.retain(|fill| fill.units > 0);
    fills
}

/// The size of a holder: its live units.
fn size(holder: &Entry) -> Given {
    Given {
        number: holder.number,
        units: holder.units,
    }
}

impl Book {
    /// The live entries of the strategy on the other side, by number.
    fn opposite(&self, active: &Entry) -> impl Iterator<Item = &Entry> {
        let side = active.side;
        self.entries_of(active.strategy)
            .filter(move |entry| entry.side != side)
    }

    /// "the best opposite limit in the strategy".
    fn best_opposite(&self, active: &Entry) -> Option<i32> {
        let limits = self.opposite(active).map(|entry| entry.limit);
        if active.side == BUY {
            limits.min()
        } else {
            limits.max()
        }
    }

    /// The leg net, with the prices of the legs, where a turn takes it: "if the legs
    /// are ready and it is strictly better for the active order or no opposite
    /// limit stands". The legs are looked at only if the net that is kept is so and
    /// meets the order's limit: where it does not, no worse opposite limit does.
    fn legs_taken(
        &self,
        active: &Entry,
        whole: Option<i64>,
    ) -> Option<(i64, Table<LegPrice, LEGS>)> {
        let net = self.leg_net(active.strategy, active.side)?;
        let better = whole.is_none_or(|price| strictly_better(active.side, net, price));
        if !better || !meets(active.side, i64::from(active.limit), net) {
            return None;
        }
        let prices = self.leg_prices(active.strategy, active.side)?;
        if !ready(&prices) {
            count_unready(self, active, &prices);
            return None;
        }
        Some((net, prices))
    }

    /// "A pass fills one active order. Repeat while units of it remain: take
    /// the best opposite limit in the strategy, or the leg net […] if the legs
    /// are ready and it is strictly better for the active order or no opposite
    /// limit stands. Stop when neither meets its limit." Request 2026-01: "A
    /// pass […] stops at the first fill that either complex party may not take".
    /// All fills at one limit have one price, so a turn is made whole or not at
    /// all.
    pub fn pass(&mut self, number: u32, holders: Holders, legs: bool, records: &mut Vec<Record>) {
        // Reckoned at the first turn, and the same in all.
        let mut bounds = None;
        let first = records.len();
        while let Some(active) = self.entry(number) {
            let limit = i64::from(active.limit);
            let whole = if holders == Holders::Nobody {
                None
            } else {
                self.best_opposite(&active).map(i64::from)
            };
            let taken = if legs {
                self.legs_taken(&active, whole)
            } else {
                None
            };
            let by_legs = taken.is_some();
            let Some(price) = taken.as_ref().map(|(net, _)| *net).or(whole) else {
                return;
            };
            if !meets(active.side, limit, price) {
                return;
            }
            let bounds = *bounds.get_or_insert_with(|| self.bounds(active.strategy));
            // Of the legs' fill the active order is the one complex party.
            let allowed = if by_legs {
                bounds.allow(active.side, price)
            } else {
                bounds.allow_both(price)
            };
            let turn = Turn {
                holders,
                legs,
                by_legs,
                price,
                whole,
                bounds,
            };
            if !allowed {
                count_stop(self, &active, &turn, records.len() > first);
                return;
            }
            count_turn(self, &active, &turn);
            match taken {
                Some((net, prices)) => self.leg_fill(&active, net, &prices, records),
                None => self.whole_turn(&active, price, holders, records),
            }
        }
    }

    /// All fills at one opposite limit.
    fn whole_turn(&mut self, active: &Entry, limit: i64, how: Holders, records: &mut Vec<Record>) {
        let holders: Table<Entry, ENTRIES> = self
            .opposite(active)
            .filter(|entry| i64::from(entry.limit) == limit)
            .copied()
            .collect();
        let fills = allot(&holders, how, active.units);
        count_specialist(self, active, &holders, how, &fills);
        for fill in fills.iter() {
            self.whole_fill(active, fill.number, fill.units, limit, records);
        }
    }

    /// "Legs: units = the least of what remains and each best price's contracts
    /// divided by ratio, rounded down".
    /// Records: the active order's whole fill, its leg fills by leg, then the
    /// leg orders' leg fills.
    fn leg_fill(
        &mut self,
        active: &Entry,
        net: i64,
        prices: &[LegPrice],
        records: &mut Vec<Record>,
    ) {
        let units = prices
            .iter()
            .map(|entry| entry.contracts / u32::from(entry.leg.ratio))
            .fold(active.units, u32::min);
        count_leg_fill(self, active, prices, units);
        records.push(Record::new(
            WHOLE_FILL,
            active.number,
            active.strategy,
            active.side,
            units,
            net,
        ));
        for entry in prices {
            records.push(Record::new(
                LEG_FILL,
                active.number,
                entry.leg.series,
                entry.side,
                units * u32::from(entry.leg.ratio),
                i64::from(entry.price),
            ));
        }
        for entry in prices {
            self.fill_leg_orders(entry, units * u32::from(entry.leg.ratio), records);
        }
        self.take_units(active.number, units);
        filled(self);
    }

    /// "leg orders at one price go by number." Those at the best price hold
    /// enough.
    fn fill_leg_orders(&mut self, best: &LegPrice, contracts: u32, records: &mut Vec<Record>) {
        let mut remaining = contracts;
        while remaining > 0 {
            let Some(order) = self.best_leg_order(best.leg.series, 1 - best.side) else {
                return;
            };
            let taken = remaining.min(order.contracts);
            records.push(Record::new(
                LEG_FILL,
                order.number,
                order.series,
                order.side,
                taken,
                i64::from(order.price),
            ));
            self.take_contracts(order.number, taken);
            remaining -= taken;
        }
    }

    /// "Records of a fill: the active order's whole fill, its leg fills by leg,
    /// then the other side's likewise"; the legs at "price 0 where whole met
    /// whole".
    pub fn whole_fill(
        &mut self,
        active: &Entry,
        other: u32,
        units: u32,
        price: i64,
        records: &mut Vec<Record>,
    ) {
        let strategy = active.strategy;
        for (number, side) in [(active.number, active.side), (other, 1 - active.side)] {
            records.push(Record::new(
                WHOLE_FILL, number, strategy, side, units, price,
            ));
            for leg in self.legs(strategy) {
                records.push(Record::new(
                    LEG_FILL,
                    number,
                    leg.series,
                    side_taken(side, leg),
                    units * u32::from(leg.ratio),
                    0,
                ));
            }
            self.take_units(number, units);
        }
        filled(self);
    }

    /// The legs-only passes after a leg order or an opening: "each day order by
    /// strategy, then number, in strategies holding that series, all open,
    /// without an auction, gets a pass by legs only".
    pub fn legs_only_passes(&mut self, series: u8, records: &mut Vec<Record>) {
        for strategy in self.strategies_holding(series) {
            if !self.all_open(strategy) || self.auction_runs(strategy) {
                continue;
            }
            let day_orders: Table<u32, COMPLEX_ORDERS> = self
                .entries_of(strategy)
                .filter(|entry| entry.life == Some(DAY))
                .map(|entry| entry.number)
                .collect();
            for number in day_orders.iter() {
                self.pass(*number, Holders::Nobody, true, records);
            }
        }
    }
}
