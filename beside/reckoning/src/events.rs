//! Document 01, "Refusals by cause" and "Events"; kinds 9 and 10 and refusal 14
//! of request 2026-01; refusal 15 of request 2026-03; kind 11 of request 2026-04.

use crate::book::{
    Auction, Book, Entry, LegOrder, Strategy, BROKER_DEALER, BUY, COMPLEX_ORDERS, CUSTOMER, DAY,
    DO_NOT_AUCTION, IMMEDIATE, LAST_NUMBER, LEG_ORDERS, RECORDS, RESPONSE, SELL, SPACE, STRATEGIES,
    SWEEPS,
};
use crate::coverage::{count_opening_pair, filled};
use crate::frames::{read, Event, Leg};
use crate::national::crossed;
use crate::nets::{normal, refused_5};
use crate::passes::{meets, Holders};
use crate::records::{Record, AUCTION_BEGUN, LEG_FILL};
use crate::specialist::Specialist;

/// What an event answers: 0 and a value, or the number of a refusal.
#[derive(Clone, Debug, Default, PartialEq, Eq)]
pub struct Answer {
    pub answer: u32,
    pub value: u32,
    pub records: Vec<Record>,
}

/// The refusals of events in the order in which they are checked: those of
/// document 01 by number, as "The smallest number that applies is given"; 14 of
/// request 2026-01 is "checked after 3", 15 of request 2026-03 "checked between 10
/// and 11". Later refusals join the table, "each checked at the place named".
pub const ORDER: [u32; 15] = [1, 2, 3, 14, 4, 5, 6, 7, 8, 9, 10, 15, 11, 12, 13];

/// The place of each refusal in that order, by its number; there is no 0.
const PLACES: [u32; ORDER.len() + 1] = {
    let mut places = [u32::MAX; ORDER.len() + 1];
    let mut place = 0;
    while place < ORDER.len() {
        places[ORDER[place] as usize] = place as u32;
        place += 1;
    }
    places
};

/// The causes of refusal that apply, as a set of their places in the order.
#[derive(Clone, Copy, Debug, Default, PartialEq, Eq)]
pub struct Causes(u32);

impl Causes {
    /// Adds a cause by its number.
    pub fn add(&mut self, cause: u32) {
        self.0 |= 1 << PLACES[cause as usize];
    }

    /// The number of the cause that is first in the order.
    pub fn first(self) -> Option<u32> {
        if self.0 == 0 {
            None
        } else {
            Some(ORDER[self.0.trailing_zeros() as usize])
        }
    }
}

impl Book {
    /// One event: the frame, and the length of the record space in numbers.
    pub fn step(&mut self, frame: &[u8], space: usize) -> Answer {
        let mut answer = Answer::default();
        self.step_into(frame, space, &mut answer);
        answer
    }

    /// The same, the answer taking the place of an old one.
    /// Of the refusals that apply the first in the order is given, "and never
    /// otherwise. Answer 0 is accepted." A refusal leaves the book as it was.
    pub fn step_into(&mut self, frame: &[u8], space: usize, answer: &mut Answer) {
        let mut causes = Causes::default();
        // "record space under 15,360 numbers".
        if space < SPACE {
            causes.add(1);
        }
        let event = read(frame);
        match &event {
            Err(refusal) => causes.add(*refusal),
            Ok(event) => self.add_causes(event, &mut causes),
        }
        answer.records.clear();
        match (causes.first(), event) {
            (None, Ok(event)) => {
                answer.answer = 0;
                answer.value = self.accept(&event, &mut answer.records);
                assert!(answer.records.len() <= RECORDS, "none needs more");
            }
            (first, _) => {
                answer.answer = first.expect("a refused frame has a cause");
                answer.value = 0;
            }
        }
    }

    /// Adds every cause of refusal from 4 to 15 that applies to the event, one
    /// condition per row of the table.
    fn add_causes(&self, event: &Event, causes: &mut Causes) {
        match *event {
            Event::Strategy { count, legs } => {
                self.add_strategy_causes(&legs[..usize::from(count)], causes)
            }
            Event::Complex { strategy, life, .. } => {
                if !self.defined(strategy) {
                    causes.add(4);
                }
                if life == RESPONSE && !self.auction_runs(strategy) {
                    causes.add(9);
                }
                if self.complex_orders().count() >= COMPLEX_ORDERS {
                    causes.add(12);
                }
                self.add_number_cause(causes);
            }
            Event::Sweep {
                member,
                strategy,
                side,
                units,
                limit,
            } => {
                let replaced = self.equal_sweep(member, strategy, side, limit);
                if !self.defined(strategy) {
                    causes.add(4);
                }
                if !self.auction_runs(strategy) {
                    causes.add(9);
                }
                if units == 0 && replaced.is_none() {
                    causes.add(10);
                }
                // "A sweep that betters nothing is refused with 15".
                if units > 0 && !self.sweep_betters(strategy, side, limit) {
                    causes.add(15);
                }
                // "a sweep that replaces one takes its slot"; "0 units enters
                // nothing".
                if units > 0 && replaced.is_none() && self.sweeps().count() >= SWEEPS {
                    causes.add(12);
                }
                if units > 0 {
                    self.add_number_cause(causes);
                }
            }
            Event::LegOrder { series, .. } => {
                if !self.is_open(series) {
                    causes.add(6);
                }
                if self.leg_orders.len() >= LEG_ORDERS {
                    causes.add(12);
                }
                self.add_number_cause(causes);
            }
            Event::Cancel { member, number } => {
                if self.member_of(number) != Some(member) {
                    causes.add(7);
                }
                if self.starts_running_auction(number) {
                    causes.add(8);
                }
            }
            Event::Series { .. } => {}
            Event::Clock { milliseconds } => {
                // "clock below the last accepted one".
                if milliseconds < self.clock {
                    causes.add(11);
                }
            }
            Event::DayEnd { .. } => {}
            Event::NationalPrices { bid, offer, .. } => {
                if crossed(bid, offer) {
                    causes.add(14);
                }
            }
            Event::ExecutionRange { .. } => {}
            // "an undefined strategy gets 4".
            Event::Specialist { strategy, .. } => {
                if !self.defined(strategy) {
                    causes.add(4);
                }
            }
        }
    }

    /// "a new order number is due and 100,000 were given".
    fn add_number_cause(&self, causes: &mut Causes) {
        if self.given >= LAST_NUMBER {
            causes.add(13);
        }
    }

    /// "series twice, or largest ratio over 3 × smallest"; "the table needed is
    /// full": an equal strategy "takes no slot".
    fn add_strategy_causes(&self, legs: &[Leg], causes: &mut Causes) {
        if refused_5(legs) {
            causes.add(5);
        }
        if self.strategies.len() >= STRATEGIES && self.held(&normal(legs)).is_none() {
            causes.add(12);
        }
    }

    /// Whether a strategy of that number is held.
    fn defined(&self, strategy: u8) -> bool {
        usize::from(strategy) < self.strategies.len()
    }

    /// Whether a running auction was started by the order of that number.
    fn starts_running_auction(&self, number: u32) -> bool {
        self.auctions
            .iter()
            .flatten()
            .any(|auction| auction.starter == number)
    }

    /// The live sweep of the "same member, strategy, side and limit".
    fn equal_sweep(&self, member: u16, strategy: u8, side: u8, limit: i32) -> Option<u32> {
        self.sweeps()
            .find(|sweep| {
                sweep.member == member
                    && sweep.strategy == strategy
                    && sweep.side == side
                    && sweep.limit == limit
            })
            .map(|sweep| sweep.number)
    }

    /// An event without a cause of refusal: its records, and its value: "the
    /// new order number (kinds 2 to 4), the strategy number (kind 1), or 0 (a
    /// sweep of 0 units, all other kinds)".
    fn accept(&mut self, event: &Event, records: &mut Vec<Record>) -> u32 {
        match *event {
            Event::Strategy { count, legs } => self.define(&legs[..usize::from(count)]),
            Event::Complex {
                member,
                strategy,
                side,
                class,
                life,
                units,
                limit,
            } => {
                let order = Entry {
                    number: self.next_number(),
                    member,
                    strategy,
                    side,
                    units: u32::from(units),
                    limit,
                    group: Entry::group_of(class),
                    life: Some(life),
                };
                self.complex_order(&order, class, records);
                order.number
            }
            Event::Sweep {
                member,
                strategy,
                side,
                units,
                limit,
            } => {
                // "the old one is cancelled by record first; 0 units enters
                // nothing".
                if let Some(old) = self.equal_sweep(member, strategy, side, limit) {
                    self.cancel_live(old, records);
                }
                if units == 0 {
                    return 0;
                }
                let number = self.next_number();
                self.entries.push(Entry {
                    number,
                    member,
                    strategy,
                    side,
                    units: u32::from(units),
                    limit,
                    group: 1,
                    life: None,
                });
                self.accepted_meanwhile(strategy, side);
                number
            }
            Event::LegOrder {
                member,
                series,
                side,
                contracts,
                price,
            } => {
                let order = LegOrder {
                    number: self.next_number(),
                    member,
                    series,
                    side,
                    contracts: u32::from(contracts),
                    price,
                };
                self.leg_order(order, records);
                order.number
            }
            Event::Cancel { number, .. } => {
                // "one record 3 for what is live".
                self.cancel_live(number, records);
                0
            }
            Event::Series { series, state } => {
                self.series(series, state, records);
                0
            }
            Event::Clock { milliseconds } => {
                self.clock = milliseconds;
                self.end_due_auctions(records);
                0
            }
            Event::DayEnd { timer } => {
                self.day_end(u32::from(timer), records);
                0
            }
            // "Both kinds change nothing else."
            Event::NationalPrices { series, bid, offer } => {
                self.national.set(series, bid, offer);
                0
            }
            Event::ExecutionRange { cents } => {
                self.national.range = u32::from(cents);
                0
            }
            // "It sets the strategy's specialist until day end; the last one named
            // holds".
            Event::Specialist {
                member,
                strategy,
                percentage,
            } => {
                self.specialists[usize::from(strategy)] = Some(Specialist { member, percentage });
                0
            }
        }
    }

    /// The number of the held strategy that the definition is equal to.
    fn held(&self, definition: &Strategy) -> Option<usize> {
        (self.strategies.iter()).position(|held| held.equals(definition))
    }

    /// "an equal one answers its old number and takes no slot, else the next
    /// number from 0".
    fn define(&mut self, legs: &[Leg]) -> u32 {
        let strategy = normal(legs);
        match self.held(&strategy) {
            Some(number) => number as u32,
            None => {
                let number = self.strategies.len();
                self.strategies.push(strategy);
                self.set_nets(number as u8);
                number as u32
            }
        }
    }

    /// An opposite sweep or waiting order accepted while an auction runs bars
    /// the legs for the starter.
    fn accepted_meanwhile(&mut self, strategy: u8, side: u8) {
        if let Some(auction) = &mut self.auctions[usize::from(strategy)] {
            if auction.side != side {
                auction.legs_barred = true;
            }
        }
    }

    /// "**Complex order**".
    fn complex_order(&mut self, order: &Entry, class: u8, records: &mut Vec<Record>) {
        let (number, strategy, side, life) = (order.number, order.strategy, order.side, order.life);
        self.entries.push(*order);
        if !self.all_open(strategy) {
            // "if a series is shut, day rests and others are cancelled".
            if life != Some(DAY) {
                self.cancel_live(number, records);
            }
        } else if self.auction_runs(strategy) {
            // "If an auction runs, do-not-auction is cancelled and others
            // wait."
            if life == Some(DO_NOT_AUCTION) {
                self.cancel_live(number, records);
            } else {
                self.accepted_meanwhile(strategy, side);
            }
        } else if self.starts_auction(order, class) {
            records.push(Record::new(
                AUCTION_BEGUN,
                number,
                strategy,
                side,
                order.units,
                i64::from(order.limit),
            ));
            self.auctions[usize::from(strategy)] = Some(Auction {
                starter: number,
                side,
                begun: self.clock,
                legs_barred: false,
            });
        } else {
            // "Else a shared pass; then day rests, others are cancelled."
            self.pass(number, Holders::Shared(None), true, records);
            if life != Some(DAY) {
                self.cancel_live(number, records);
            }
        }
    }

    /// "class 1 or 2 with life 0 or 1 starts an auction if its limit is better
    /// than the known leg net of its own side (buy above bid net, sell below
    /// offer net)".
    fn starts_auction(&self, order: &Entry, class: u8) -> bool {
        (class == CUSTOMER || class == BROKER_DEALER)
            && (order.life == Some(DAY) || order.life == Some(IMMEDIATE))
            && (self.betters_own_net(order.strategy, order.side, order.limit)).unwrap_or(false)
    }

    /// Request 2026-03: "a sweep of 1 unit or more has to be above the bid net when
    /// it buys, below the offer net when it sells. Where that net is unknown, every
    /// price betters it." A strategy that is not defined has no net.
    fn sweep_betters(&self, strategy: u8, side: u8, limit: i32) -> bool {
        !self.defined(strategy) || self.betters_own_net(strategy, side, limit).unwrap_or(true)
    }

    /// Whether a limit is better than the leg net of its own side, "buy above bid
    /// net, sell below offer net"; nothing where that net is unknown. Whether the legs
    /// are ready plays no part.
    pub fn betters_own_net(&self, strategy: u8, side: u8, limit: i32) -> Option<bool> {
        let limit = i64::from(limit);
        if side == BUY {
            self.bid_net(strategy).map(|net| limit > net)
        } else {
            self.offer_net(strategy).map(|net| limit < net)
        }
    }

    /// "**Leg order**: trades with opposite leg orders that meet its price,
    /// best price then number, at the resting price, incoming record first. If
    /// any rests", the legs-only passes.
    fn leg_order(&mut self, mut incoming: LegOrder, records: &mut Vec<Record>) {
        let limit = i64::from(incoming.price);
        while incoming.contracts > 0 {
            match self.best_leg_order(incoming.series, 1 - incoming.side) {
                Some(resting) if meets(incoming.side, limit, i64::from(resting.price)) => {
                    let contracts = incoming.contracts.min(resting.contracts);
                    for order in [&incoming, &resting] {
                        records.push(Record::new(
                            LEG_FILL,
                            order.number,
                            order.series,
                            order.side,
                            contracts,
                            i64::from(resting.price),
                        ));
                    }
                    incoming.contracts -= contracts;
                    self.take_contracts(resting.number, contracts);
                    filled(self);
                }
                _ => break,
            }
        }
        if incoming.contracts > 0 {
            self.rest(incoming);
            self.legs_only_passes(incoming.series, records);
        }
    }

    /// "**Series**: shut ends the auctions of strategies holding it […].
    /// Opening one that was shut: each all-open strategy holding it, by
    /// strategy, matches […]; when all have matched, the legs-only passes. No
    /// change of state does nothing."
    fn series(&mut self, series: u8, state: u8, records: &mut Vec<Record>) {
        let was_open = self.is_open(series);
        if state == 0 && was_open {
            self.open &= !(1 << series);
            self.end_shut_auctions(series, records);
        }
        if state == 1 && !was_open {
            self.open |= 1 << series;
            for strategy in self.strategies_holding(series) {
                if self.all_open(strategy) {
                    self.opening_match(strategy, records);
                }
            }
            self.legs_only_passes(series, records);
        }
    }

    /// "matches best buy with best sell (price, then number) while they meet,
    /// at the lower number's limit, its order active". Request 2026-01: an
    /// "opening match stops at the first fill that either complex party may not
    /// take".
    fn opening_match(&mut self, strategy: u8, records: &mut Vec<Record>) {
        let bounds = self.bounds(strategy);
        let first = records.len();
        loop {
            let buy = self
                .entries_of(strategy)
                .filter(|entry| entry.side == BUY)
                .min_by_key(|entry| (-entry.limit, entry.number));
            let sell = self
                .entries_of(strategy)
                .filter(|entry| entry.side == SELL)
                .min_by_key(|entry| (entry.limit, entry.number));
            match (buy.copied(), sell.copied()) {
                (Some(buy), Some(sell)) if buy.limit >= sell.limit => {
                    let (active, other) = if buy.number < sell.number {
                        (buy, sell)
                    } else {
                        (sell, buy)
                    };
                    let price = i64::from(active.limit);
                    count_opening_pair(&bounds, price, records.len() > first);
                    if !bounds.allow_both(price) {
                        return;
                    }
                    let units = buy.units.min(sell.units);
                    self.whole_fill(&active, other.number, units, price, records);
                }
                _ => return,
            }
        }
    }

    /// "**Day end**: records 5 by strategy, 3 by number, then a fresh book with
    /// the new timer."
    fn day_end(&mut self, timer: u32, records: &mut Vec<Record>) {
        for (strategy, auction) in self.auctions.iter().enumerate() {
            if let Some(auction) = auction {
                records.push(Record::auction_ended(auction.starter, strategy as u8));
            }
        }
        let first = records.len();
        records.extend(self.entries.iter().map(Entry::cancelled));
        records.extend(self.leg_orders.iter().map(LegOrder::cancelled));
        records[first..].sort_unstable_by_key(|record| record.number);
        *self = Book::fresh(timer);
    }
}
