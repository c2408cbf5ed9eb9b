//! The sums of "The totals after a list", for one day, the fills that national nets
//! bound, and the leg net that each sweep met. They are added up record by record and
//! held by number, never by event. Records may come in any order: a number's records
//! count, too, if they come before it enters.

use crate::frames::{Event, Leg, Terms, What};
use crate::lines::Record;
use crate::national::{Bounded, National};
use crate::sweeps::{Arrival, LegBook, LegOrder};
use std::collections::btree_map::Entry as Slot;
use std::collections::BTreeMap;

const WHOLE_FILL: i64 = 1;
const LEG_FILL: i64 = 2;
const CANCELLED: i64 = 3;

// What is held of a day at most, whatever the lines say: twice what document 01
// allows, so that there is room for what is wrong. It allows 100,000 numbers, 6
// legs, 32 series and 16 strategies.
const NUMBERS: usize = 2 * 100_000;
const NUMBERS_BY_SERIES: usize = 6 * NUMBERS;
const SERIES: usize = 2 * 32;
const STRATEGIES: usize = 2 * 16;

/// What entered under a number, and what came of it. "The event's units or
/// contracts are what it entered."
#[derive(Clone, Copy, Debug, PartialEq, Eq)]
pub struct Entry {
    pub number: i64,
    pub terms: Terms,
    /// "Filled sums the quantities of its records 1, for a leg order of its
    /// records 2; cancelled, of its records 3."
    pub filled: i128,
    pub cancelled: i128,
    pub live: i128,
    /// The price of its worst fill: "A fill is a record 1, or a leg order's
    /// record 2".
    pub worst: Option<i64>,
    /// How many records 1 a leg order has: its fills are its records 2.
    pub whole_fills: u64,
}

/// "Contracts filled on a leg sum its records 2 in that series."
#[derive(Clone, Copy, Debug, PartialEq, Eq)]
pub struct OnLeg {
    pub series: i64,
    pub ratio: i64,
    pub contracts: i128,
}

/// "Bought sums a series' records 2 of side 0, sold those of side 1."
#[derive(Clone, Copy, Debug, Default, PartialEq, Eq)]
pub struct Traded {
    pub bought: i128,
    pub sold: i128,
}

/// "Cash paid sums quantity × price over the fills of side 0, received over
/// those of side 1."
#[derive(Clone, Copy, Debug, Default, PartialEq, Eq)]
pub struct Cash {
    pub paid: i128,
    pub received: i128,
}

/// A number that did not enter: how many records 1 to 3 it has, and what is live
/// under it.
#[derive(Clone, Copy, Debug, PartialEq, Eq)]
pub struct Other {
    pub number: i64,
    pub records: u64,
    pub live: i128,
}

/// The records 1 of a number that a national net bounds.
#[derive(Clone, Copy, Debug, PartialEq, Eq)]
pub struct BoundedFills {
    pub count: u64,
    /// The one that is better than its bound by the least.
    pub worst: Bounded,
}

/// The records of one number and kind.
#[derive(Clone, Copy, Debug, Default, PartialEq, Eq)]
struct Fills {
    count: u64,
    quantity: i128,
    lowest: i64,
    highest: i64,
}

/// The records of one number.
#[derive(Clone, Copy, Debug, Default, PartialEq, Eq)]
struct Own {
    /// How many records 1 to 3.
    records: u64,
    whole_fills: Fills,
    leg_fills: Fills,
    /// What its records 2 are in cash, if it is a leg order.
    leg_cash: Cash,
    cancelled: i128,
    live: i128,
}

/// The sums of one day, as far as it was read.
#[derive(Clone, Debug, Default, PartialEq, Eq)]
pub struct Totals {
    /// What entered, by number; those of one number in their order.
    entered: BTreeMap<(i64, usize), Terms>,
    /// The legs that each strategy was answered for, each once: one row for a
    /// strategy, if all is right.
    strategies: BTreeMap<i64, Vec<Vec<Leg>>>,
    own: BTreeMap<i64, Own>,
    /// The contracts of records 2, by number and series.
    contracts: BTreeMap<(i64, i64), i128>,
    series: BTreeMap<i64, Traded>,
    whole_cash: Cash,
    /// The national prices and the range that are known so far.
    national: National,
    bounded: BTreeMap<i64, BoundedFills>,
    /// The leg orders that are live so far.
    leg_book: LegBook,
    /// The leg net that each sweep of `entered` met, if it was known.
    met: BTreeMap<(i64, usize), Option<i64>>,
}

impl Entry {
    pub fn strategy(&self) -> Option<i64> {
        self.terms.strategy()
    }

    pub fn sum_holds(&self) -> bool {
        i128::from(self.terms.quantity) == self.filled + self.cancelled + self.live
    }

    /// By how much the worst fill is better than the limit: "worse […] if its
    /// price is above it for a buy, below it for a sell".
    pub fn better(&self) -> Option<i64> {
        let worst = self.worst?;
        Some(match self.terms.side {
            0 => self.terms.limit - worst,
            _ => worst - self.terms.limit,
        })
    }

    pub fn limit_holds(&self) -> bool {
        self.better().unwrap_or(0) >= 0
    }

    /// The contracts that its units are on the leg.
    pub fn due(&self, leg: &OnLeg) -> i128 {
        i128::from(leg.ratio) * self.filled
    }

    pub fn leg_holds(&self, leg: &OnLeg) -> bool {
        leg.contracts == self.due(leg)
    }
}

impl Fills {
    fn add(&mut self, record: &Record) {
        if self.count == 0 {
            (self.lowest, self.highest) = (record.price, record.price);
        }
        self.count += 1;
        self.quantity += i128::from(record.quantity);
        self.lowest = self.lowest.min(record.price);
        self.highest = self.highest.max(record.price);
    }

    /// The worst price for the side.
    fn worst(&self, side: u32) -> Option<i64> {
        (self.count > 0).then_some(match side {
            0 => self.highest,
            _ => self.lowest,
        })
    }
}

impl Cash {
    fn add(&mut self, record: &Record) {
        let cash = i128::from(record.quantity) * i128::from(record.price);
        match record.side {
            0 => self.paid += cash,
            1 => self.received += cash,
            _ => {}
        }
    }
}

impl Traded {
    fn add(&mut self, record: &Record) {
        match record.side {
            0 => self.bought += i128::from(record.quantity),
            1 => self.sold += i128::from(record.quantity),
            _ => {}
        }
    }
}

/// The value under the key, in a map that has room for so many.
fn held<'a, K: Ord, V: Default>(
    map: &'a mut BTreeMap<K, V>,
    key: K,
    most: usize,
    what: &str,
) -> Result<&'a mut V, String> {
    let count = map.len();
    match map.entry(key) {
        Slot::Occupied(slot) => Ok(slot.into_mut()),
        Slot::Vacant(slot) => {
            room(count, most, what)?;
            Ok(slot.insert(V::default()))
        }
    }
}

/// That one more can be held.
fn room(held: usize, most: usize, what: &str) -> Result<(), String> {
    if held < most {
        Ok(())
    } else {
        Err(format!("a day of more than {most} {what}"))
    }
}

impl Totals {
    /// An order or sweep that enters: "by an accepted event of kind 2, 3 or 4
    /// whose value isn't 0. That value is its number". An error is said where a
    /// day has more than is held; also below.
    pub fn enter(&mut self, number: i64, terms: Terms) -> Result<(), String> {
        let count = self.entered.len();
        room(count, NUMBERS, "numbers")?;
        if let What::Sweep { strategy } = terms.what {
            let net = self.net_met(strategy.into(), &terms);
            self.met.insert((number, count), net);
        }
        self.entered.insert((number, count), terms);
        self.set_live(number, count);
        Ok(())
    }

    /// The leg net of a sweep's own side, as the records before it leave the leg orders.
    /// A strategy that no event has answered yet has none; of several rows the one
    /// counts that the sweep betters least.
    fn net_met(&self, strategy: i64, terms: &Terms) -> Option<i64> {
        let rows = self.strategies.get(&strategy).into_iter().flatten();
        let nets = rows.filter_map(|legs| self.leg_book.net(legs, terms.side.into()));
        nets.min_by_key(|net| Arrival::new(terms, Some(*net)).better())
    }

    /// The leg orders that entered with this number, from this one of them on, are live
    /// if their contracts are more than its records 2 and 3 have.
    fn set_live(&mut self, number: i64, first: usize) {
        let own = self.own(number);
        let gone = own.leg_fills.quantity + own.cancelled;
        for (entered, terms) in self.entered.range((number, first)..=(number, usize::MAX)) {
            if let What::LegOrder { series } = terms.what {
                let order = LegOrder {
                    series: series.into(),
                    side: terms.side.into(),
                    price: terms.limit,
                    entered: *entered,
                };
                let live = i128::from(terms.quantity) > gone;
                self.leg_book.set(order, live);
            }
        }
    }

    /// "The ratio is that of the accepted kind 1 event that answered its
    /// strategy".
    pub fn define(&mut self, strategy: i64, legs: Vec<Leg>) -> Result<(), String> {
        let count = self.strategies.values().map(Vec::len).sum();
        let rows = self.strategies.entry(strategy).or_default();
        if !rows.contains(&legs) {
            room(count, STRATEGIES, "strategies")?;
            rows.push(legs);
        }
        Ok(())
    }

    /// A record of an event of the day.
    pub fn add(&mut self, record: &Record) -> Result<(), String> {
        if record.kind > CANCELLED {
            return Ok(());
        }
        let own = held(&mut self.own, record.number, NUMBERS, "numbers")?;
        own.records += 1;
        match record.kind {
            WHOLE_FILL => {
                own.whole_fills.add(record);
                self.whole_cash.add(record);
                self.add_bounded(record);
            }
            LEG_FILL => {
                own.leg_fills.add(record);
                own.leg_cash.add(record);
                self.add_contracts(record)?;
                self.set_live(record.number, 0);
            }
            _ => {
                own.cancelled += i128::from(record.quantity);
                self.set_live(record.number, 0);
            }
        }
        Ok(())
    }

    /// An accepted event, after its records: it may set what bounds later ones.
    pub fn apply(&mut self, event: &Event) {
        self.national.apply(event);
    }

    /// "each fill of a complex order or sweep keeps to the range and prices known
    /// when it was made". A strategy that no event has answered yet has no net. There
    /// is room, as each number here has records.
    fn add_bounded(&mut self, record: &Record) {
        let parties = self.parties(record);
        let rows = parties.iter().flat_map(|(strategy, side)| {
            let rows = self.strategies.get(strategy).into_iter().flatten();
            rows.filter_map(|legs| self.national.bounded(legs, *side, record.price))
        });
        let Some(worst) = rows.min_by_key(Bounded::better) else {
            return;
        };
        let fills = self.bounded.entry(record.number);
        let fills = fills.or_insert(BoundedFills { count: 0, worst });
        fills.count += 1;
        if worst.better() < fills.worst.better() {
            fills.worst = worst;
        }
    }

    /// The strategy and side of a record 1: those of the complex order or sweep that
    /// entered with its number, or its own where the number has not entered.
    fn parties(&self, record: &Record) -> Vec<(i64, i64)> {
        let number = record.number;
        if !self.has_entered(number) {
            return vec![(record.place, record.side)];
        }
        let entered = self.entered.range((number, 0)..=(number, usize::MAX));
        entered
            .filter_map(|(_, terms)| Some((terms.strategy()?, terms.side.into())))
            .collect()
    }

    fn add_contracts(&mut self, record: &Record) -> Result<(), String> {
        let key = (record.number, record.place);
        let what = "numbers by series";
        *held(&mut self.contracts, key, NUMBERS_BY_SERIES, what)? += i128::from(record.quantity);
        held(&mut self.series, record.place, SERIES, "series")?.add(record);
        Ok(())
    }

    /// A record of the day end after the list: what it cancels was live.
    pub fn add_live(&mut self, record: &Record) -> Result<(), String> {
        if record.kind == CANCELLED {
            let own = held(&mut self.own, record.number, NUMBERS, "numbers")?;
            own.live += i128::from(record.quantity);
        }
        Ok(())
    }

    /// Nothing entered, and no number has a record 1 to 3 or anything live.
    pub fn is_empty(&self) -> bool {
        self.entered.is_empty() && self.own.is_empty()
    }

    fn own(&self, number: i64) -> Own {
        self.own.get(&number).copied().unwrap_or_default()
    }

    fn has_entered(&self, number: i64) -> bool {
        let mut own = self.entered.range((number, 0)..=(number, usize::MAX));
        own.next().is_some()
    }

    /// What entered, by number.
    pub fn entries(&self) -> impl Iterator<Item = Entry> + '_ {
        self.entered.iter().map(|((number, _), terms)| {
            let own = self.own(*number);
            let (fills, whole_fills) = match terms.what {
                What::LegOrder { .. } => (own.leg_fills, own.whole_fills.count),
                _ => (own.whole_fills, 0),
            };
            Entry {
                number: *number,
                terms: *terms,
                filled: fills.quantity,
                cancelled: own.cancelled,
                live: own.live,
                worst: fills.worst(terms.side),
                whole_fills,
            }
        })
    }

    /// Whether an accepted event of the day answered its strategy; of a leg order
    /// it need not.
    pub fn defines(&self, entry: &Entry) -> bool {
        match entry.strategy() {
            Some(strategy) => self.strategies.contains_key(&strategy),
            None => true,
        }
    }

    /// The contracts on each leg of its strategy, and in each series outside it
    /// that the number has records 2 in: "a series outside the strategy counts as
    /// a leg of ratio 0".
    pub fn on_legs(&self, entry: &Entry) -> Vec<OnLeg> {
        let strategy = entry.strategy();
        let rows = strategy.and_then(|strategy| self.strategies.get(&strategy));
        let rows = rows.into_iter().flatten();
        rows.flat_map(|legs| self.on_row(entry.number, legs))
            .collect()
    }

    fn on_row(&self, number: i64, legs: &[Leg]) -> Vec<OnLeg> {
        let contracts = |series| self.contracts.get(&(number, series)).copied();
        let on_leg = |leg: &Leg| OnLeg {
            series: leg.series,
            ratio: leg.ratio,
            contracts: contracts(leg.series).unwrap_or(0),
        };
        let own = self
            .contracts
            .range((number, i64::MIN)..=(number, i64::MAX));
        let outside = own
            .filter(|((_, series), _)| legs.iter().all(|leg| leg.series != *series))
            .map(|((_, series), contracts)| OnLeg {
                series: *series,
                ratio: 0,
                contracts: *contracts,
            });
        let mut row: Vec<OnLeg> = legs.iter().map(on_leg).chain(outside).collect();
        row.sort_by_key(|leg| (leg.series, leg.ratio));
        row
    }

    /// "No other number has a record 1 to 3 or anything live": those that have.
    pub fn others(&self) -> impl Iterator<Item = Other> + '_ {
        let others = (self.own.iter()).filter(|(number, _)| !self.has_entered(**number));
        others.map(|(number, own)| Other {
            number: *number,
            records: own.records,
            live: own.live,
        })
    }

    /// The fills that a national net bounds, by number.
    pub fn bounded(&self) -> impl Iterator<Item = (i64, BoundedFills)> + '_ {
        (self.bounded.iter()).map(|(number, fills)| (*number, *fills))
    }

    /// The sweeps as they came, by number.
    pub fn sweeps(&self) -> impl Iterator<Item = (i64, Arrival)> + '_ {
        self.entered.iter().filter_map(|(entered, terms)| {
            let net = self.met.get(entered)?;
            Some((entered.0, Arrival::new(terms, *net)))
        })
    }

    pub fn series(&self) -> impl Iterator<Item = (i64, Traded)> + '_ {
        self.series
            .iter()
            .map(|(series, traded)| (*series, *traded))
    }

    /// The cash of records 1, and of the records 2 of leg orders.
    pub fn cash(&self) -> Cash {
        let mut cash = self.whole_cash;
        let mut last = None;
        for entry in self.entries().filter(|entry| entry.strategy().is_none()) {
            // A number that was given twice counts once.
            if last != Some(entry.number) {
                let own = self.own(entry.number).leg_cash;
                cash.paid += own.paid;
                cash.received += own.received;
            }
            last = Some(entry.number);
        }
        cash
    }
}
