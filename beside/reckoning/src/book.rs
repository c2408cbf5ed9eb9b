//! The book: its tables, what is live in them, and the lookups.

use crate::frames::Leg;
use crate::national::National;
use crate::nets::{add_slot, add_to_pair, Nets};
use crate::records::Record;
use crate::specialist::Specialist;
use crate::table::Table;

/// "Tables: 16 strategies, 16 complex orders, 16 sweeps, 32 leg orders."
pub const STRATEGIES: usize = 16;
pub const COMPLEX_ORDERS: usize = 16;
pub const SWEEPS: usize = 16;
pub const LEG_ORDERS: usize = 32;
/// Complex orders and sweeps together.
pub const ENTRIES: usize = COMPLEX_ORDERS + SWEEPS;
/// A strategy has 6 legs at most.
pub const LEGS: usize = 6;
/// "a new order number is due and 100,000 were given".
pub const LAST_NUMBER: u32 = 100_000;
/// "Each event is lent space for 2,560 records", six numbers each.
pub const RECORDS: usize = 2_560;
pub const SPACE: usize = 6 * RECORDS;
/// Series are numbered from 0 to 31.
pub const SERIES: u8 = 32;

/// "Side is 0 buy, 1 sell."
pub const BUY: u8 = 0;
pub const SELL: u8 = 1;

/// "class (1): 1 customer, 2 broker-dealer, 3 market maker".
pub const CUSTOMER: u8 = 1;
pub const BROKER_DEALER: u8 = 2;
pub const MARKET_MAKER: u8 = 3;

/// "life (1): 0 day, 1 immediate, 2 response, 3 do-not-auction".
pub const DAY: u8 = 0;
pub const IMMEDIATE: u8 = 1;
pub const RESPONSE: u8 = 2;
pub const DO_NOT_AUCTION: u8 = 3;

/// A held strategy: "Legs stand by rising series", the ratios divided by their
/// greatest common divisor.
#[derive(Clone, Copy, Debug, Default, PartialEq, Eq)]
pub struct Strategy {
    /// "The series of a strategy are a 32-bit set".
    pub series: u32,
    pub legs: Table<Leg, LEGS>,
    /// Request 2026-05: "store the bid and offer net with each strategy".
    pub nets: Nets,
}

impl Strategy {
    /// Whether a definition is equal to this one: the legs alone are compared.
    pub fn equals(&self, definition: &Strategy) -> bool {
        self.legs == definition.legs
    }

    /// Whether one of the legs is in the series.
    pub fn holds(&self, series: u8) -> bool {
        self.series >> series & 1 == 1
    }
}

/// What a pass looks at: a live complex order or sweep, with its live units.
#[derive(Clone, Copy, Debug, Default, PartialEq, Eq)]
pub struct Entry {
    pub number: u32,
    pub member: u16,
    pub strategy: u8,
    pub side: u8,
    pub units: u32,
    pub limit: i32,
    /// The group in a shared pass: 0 "customers", 1 "sweeps and market
    /// makers", 2 "broker-dealers".
    pub group: u8,
    /// The life of an order; none for a sweep.
    pub life: Option<u8>,
}

impl Entry {
    /// The group of an order's class.
    pub fn group_of(class: u8) -> u8 {
        match class {
            CUSTOMER => 0,
            MARKET_MAKER => 1,
            _ => 2,
        }
    }

    /// The record 3 of what is live.
    pub fn cancelled(&self) -> Record {
        Record::cancelled(self.number, self.side, self.units)
    }
}

/// A leg order with its live contracts.
#[derive(Clone, Copy, Debug, Default, PartialEq, Eq)]
pub struct LegOrder {
    pub number: u32,
    pub member: u16,
    pub series: u8,
    pub side: u8,
    pub contracts: u32,
    pub price: u32,
}

impl LegOrder {
    /// The record 3 of what is live.
    pub fn cancelled(&self) -> Record {
        Record::cancelled(self.number, self.side, self.contracts)
    }
}

/// The best price of a series and side, and its contracts.
#[derive(Clone, Copy, Debug, PartialEq, Eq)]
pub struct Depth {
    pub price: u32,
    pub contracts: u32,
}

/// A running auction of one strategy.
#[derive(Clone, Copy, Debug, PartialEq, Eq)]
pub struct Auction {
    /// The number and side of the order that started it.
    pub starter: u32,
    pub side: u8,
    /// The clock at which it began.
    pub begun: u32,
    /// "legs barred if any opposite sweep or waiting order was accepted
    /// meanwhile".
    pub legs_barred: bool,
}

/// The book. Each table is a row by rising number.
#[derive(Clone, Debug, PartialEq, Eq)]
pub struct Book {
    pub timer: u32,
    pub clock: u32,
    /// The open series as a 32-bit set.
    pub open: u32,
    pub strategies: Table<Strategy, STRATEGIES>,
    /// The live complex orders and sweeps: two tables in one row, for passes
    /// meet both by number.
    pub entries: Table<Entry, ENTRIES>,
    pub leg_orders: Table<LegOrder, LEG_ORDERS>,
    /// The depth of each series and side, found anew whenever a leg order there
    /// enters, trades or is cancelled.
    depths: [[Option<Depth>; 2]; SERIES as usize],
    /// The auction of each strategy, if one runs.
    pub auctions: [Option<Auction>; STRATEGIES],
    /// How many numbers were given: "Numbers rise from 1 over orders and
    /// sweeps together."
    pub given: u32,
    /// The national prices and the execution range.
    pub national: National,
    /// The specialist of each strategy, if one was named today.
    pub specialists: [Option<Specialist>; STRATEGIES],
}

/// Some of the strategies; they come by rising number.
#[derive(Clone, Copy)]
pub struct StrategySet(u16);

impl Iterator for StrategySet {
    type Item = u8;

    fn next(&mut self) -> Option<u8> {
        if self.0 == 0 {
            return None;
        }
        let lowest = self.0.trailing_zeros();
        self.0 &= self.0 - 1;
        Some(lowest as u8)
    }
}

/// One entry of "a row of order entries: series, side, contracts, price, and 0
/// contracts for an empty one".
#[derive(Clone, Copy, Debug, Default, PartialEq, Eq)]
pub struct RowEntry {
    pub series: u8,
    pub side: u8,
    pub contracts: u16,
    pub price: u32,
}

impl Book {
    /// "A first book has timer 5,000, clock 0, all shut, its tables empty and
    /// no number given."
    pub fn first() -> Book {
        Book::fresh(5_000)
    }

    /// "A fresh book is a first book with any timer from 1 to 5,000."
    pub fn fresh(timer: u32) -> Book {
        Book {
            timer,
            clock: 0,
            open: 0,
            strategies: Table::default(),
            entries: Table::default(),
            leg_orders: Table::default(),
            depths: [[None; 2]; SERIES as usize],
            auctions: [None; STRATEGIES],
            given: 0,
            national: National::default(),
            specialists: [None; STRATEGIES],
        }
    }

    /// Whether the series is open.
    pub fn is_open(&self, series: u8) -> bool {
        self.open >> series & 1 == 1
    }

    /// Whether every series of the strategy is open.
    pub fn all_open(&self, strategy: u8) -> bool {
        self.strategies[usize::from(strategy)].series & !self.open == 0
    }

    /// The legs of a held strategy, by rising series.
    pub fn legs(&self, strategy: u8) -> &[Leg] {
        &self.strategies[usize::from(strategy)].legs
    }

    /// Whether an auction runs in the strategy.
    pub fn auction_runs(&self, strategy: u8) -> bool {
        self.auctions[usize::from(strategy)].is_some()
    }

    /// The held strategies with a leg in the series, by number.
    pub fn strategies_holding(&self, series: u8) -> StrategySet {
        let mut set = 0;
        for (number, strategy) in self.strategies.iter().enumerate() {
            set |= u16::from(strategy.holds(series)) << number;
        }
        StrategySet(set)
    }

    /// "Numbers rise from 1 over orders and sweeps together."
    pub fn next_number(&mut self) -> u32 {
        self.given += 1;
        self.given
    }

    /// The live complex orders, by number.
    pub fn complex_orders(&self) -> impl Iterator<Item = &Entry> {
        self.entries.iter().filter(|entry| entry.life.is_some())
    }

    /// The live sweeps, by number.
    pub fn sweeps(&self) -> impl Iterator<Item = &Entry> {
        self.entries.iter().filter(|entry| entry.life.is_none())
    }

    /// The live complex orders and sweeps of the strategy, by number.
    pub fn entries_of(&self, strategy: u8) -> impl Iterator<Item = &Entry> {
        (self.entries.iter()).filter(move |entry| entry.strategy == strategy)
    }

    /// Where the live complex order or sweep of that number stands.
    fn entry_at(&self, number: u32) -> Option<usize> {
        (self.entries)
            .binary_search_by_key(&number, |entry| entry.number)
            .ok()
    }

    /// Where the live leg order of that number stands.
    fn leg_order_at(&self, number: u32) -> Option<usize> {
        (self.leg_orders)
            .binary_search_by_key(&number, |order| order.number)
            .ok()
    }

    /// The live complex order or sweep of that number.
    pub fn entry(&self, number: u32) -> Option<Entry> {
        self.entry_at(number).map(|at| self.entries[at])
    }

    /// The member of the live complex or leg order of that number.
    pub fn member_of(&self, number: u32) -> Option<u16> {
        if let Some(entry) = self.entry(number) {
            return entry.life.map(|_| entry.member);
        }
        (self.leg_order_at(number)).map(|at| self.leg_orders[at].member)
    }

    /// Takes units off a complex order or sweep; "A finished order's slot is
    /// free again".
    pub fn take_units(&mut self, number: u32, units: u32) {
        if let Some(at) = self.entry_at(number) {
            self.entries[at].units -= units;
            if self.entries[at].units == 0 {
                self.entries.remove(at);
            }
        }
    }

    /// Takes contracts off a leg order; "A finished order's slot is free
    /// again".
    pub fn take_contracts(&mut self, number: u32, contracts: u32) {
        if let Some(at) = self.leg_order_at(number) {
            let order = &mut self.leg_orders[at];
            let (series, side) = (order.series, order.side);
            order.contracts -= contracts;
            if order.contracts == 0 {
                self.leg_orders.remove(at);
            }
            self.renew_depth(series, side);
        }
    }

    /// A leg order that rests.
    pub fn rest(&mut self, order: LegOrder) {
        self.leg_orders.push(order);
        self.renew_depth(order.series, order.side);
    }

    /// The leg orders of a series and side, by number.
    pub fn leg_orders_of(&self, series: u8, side: u8) -> impl Iterator<Item = &LegOrder> {
        (self.leg_orders.iter()).filter(move |order| order.series == series && order.side == side)
    }

    /// The leg order of the lowest number at the best price.
    pub fn best_leg_order(&self, series: u8, side: u8) -> Option<LegOrder> {
        let best = self.depth(series, side)?;
        self.leg_orders_of(series, side)
            .find(|order| order.price == best.price)
            .copied()
    }

    /// "best price and its contracts, or empty".
    pub fn depth(&self, series: u8, side: u8) -> Option<Depth> {
        self.depths[usize::from(series)][usize::from(side)]
    }

    /// Finds the depth of a series and side whose leg orders have changed, in one
    /// walk over them; at another best price the nets that take it move.
    fn renew_depth(&mut self, series: u8, side: u8) {
        let mut pair = None;
        for order in self.leg_orders_of(series, side) {
            add_to_pair(&mut pair, side, order.price, order.contracts);
        }
        let kept = &mut self.depths[usize::from(series)][usize::from(side)];
        let old = std::mem::replace(kept, pair);
        let price = |best: Option<Depth>| best.map(|best| best.price);
        if price(old) != price(pair) {
            self.renew_nets(series, side, price(old), price(pair));
        }
    }

    /// Cancels what is live under the number: one record 3, or none if nothing
    /// is live.
    pub fn cancel_live(&mut self, number: u32, records: &mut Vec<Record>) {
        if let Some(at) = self.entry_at(number) {
            records.push(self.entries[at].cancelled());
            self.entries.remove(at);
        } else if let Some(at) = self.leg_order_at(number) {
            let order = self.leg_orders[at];
            records.push(order.cancelled());
            self.take_contracts(number, order.contracts);
        }
    }

    /// "Live quantity of a number (0 if none)."
    pub fn live(&self, number: u32) -> u32 {
        if let Some(at) = self.entry_at(number) {
            self.entries[at].units
        } else if let Some(at) = self.leg_order_at(number) {
            self.leg_orders[at].contracts
        } else {
            0
        }
    }

    /// Every live number, rising.
    pub fn live_numbers(&self) -> Vec<u32> {
        let entries = self.entries.iter().map(|entry| entry.number);
        let legs = self.leg_orders.iter().map(|order| order.number);
        let mut numbers: Vec<u32> = entries.chain(legs).collect();
        numbers.sort_unstable();
        numbers
    }

    /// "Shut legs of a strategy, count and lowest series, 32 when none is shut
    /// (4 if undefined)."
    pub fn shut_legs(&self, strategy: u32) -> Result<(u32, u32), u32> {
        match self.strategies.get(strategy as usize) {
            None => Err(4),
            Some(held) => {
                let shut = held.series & !self.open;
                Ok((shut.count_ones(), shut.trailing_zeros()))
            }
        }
    }

    /// Request 2026-05: the bid and offer net of a strategy, each known or unknown (4
    /// if it is not defined).
    pub fn nets(&self, strategy: u32) -> Result<Nets, u32> {
        let held = self.strategies.get(strategy as usize).ok_or(4_u32)?;
        Ok(held.nets)
    }

    /// The live leg orders as a row of order entries.
    pub fn row(&self) -> Vec<RowEntry> {
        self.leg_orders
            .iter()
            .map(|order| RowEntry {
                series: order.series,
                side: order.side,
                contracts: order.contracts as u16,
                price: order.price,
            })
            .collect()
    }
}

/// "Depth of a series and side: best price and its contracts, or empty, read
/// from the leg orders lent as a row of order entries […] (3 if series or side
/// is out of range, the row has over 32 entries, or an entry that isn't empty
/// has a field outside kind 4's range)."
pub fn depth(row: &[RowEntry], series: u32, side: u32) -> Result<Option<(u32, u32)>, u32> {
    let entry_fits = |entry: &RowEntry| {
        entry.contracts == 0
            || (entry.series <= 31
                && entry.side <= 1
                && entry.contracts <= 9_999
                && (1..=99_999).contains(&entry.price))
    };
    if series > 31 || side > 1 || row.len() > LEG_ORDERS || !row.iter().all(entry_fits) {
        return Err(3);
    }
    let (series, side) = (series as u8, side as u8);
    let mut pair = None;
    for slot in row {
        add_slot(&mut pair, slot, series, side);
    }
    Ok(pair.map(|best| (best.price, best.contracts)))
}
