//! Who a number is, and what of it is filled and cancelled.

use crate::event::Event;
use crate::printed::Record;
use assemble::plural::counted;
use std::collections::BTreeMap;

/// What a party trades.
#[derive(Clone, Copy, Debug, PartialEq, Eq)]
pub enum Sort {
    /// Units of a strategy; its fills are its records 1.
    Whole,
    /// Contracts of a series; its fills are its records 2.
    Leg,
}

impl Sort {
    /// What its quantity counts, and where.
    pub fn words(self) -> (&'static str, &'static str) {
        match self {
            Sort::Whole => ("unit", "strategy"),
            Sort::Leg => ("contract", "series"),
        }
    }

    /// The kind of record that is its fill.
    pub fn fill(self) -> i64 {
        match self {
            Sort::Whole => 1,
            Sort::Leg => 2,
        }
    }
}

/// The kinds of event that bring a party in: what it trades, what it is called
/// (`{class}` is a field) and the name of its quantity.
const ENTRIES: &[(u32, Sort, &str, &str)] = &[
    (2, Sort::Whole, "{class} order", "units"),
    (3, Sort::Whole, "sweep", "units"),
    (4, Sort::Leg, "leg order", "contracts"),
];

/// A party that entered.
#[derive(Clone, Debug, PartialEq, Eq)]
pub struct Party {
    pub sort: Sort,
    what: String,
    member: i64,
    /// The strategy or the series.
    pub place: i64,
    side: i64,
    entered: i128,
    filled: i128,
    cancelled: i128,
}

impl Party {
    /// The party that an event brings in, if it is accepted and given a number.
    pub fn new(event: &Event) -> Option<Party> {
        let kind = event.kind()?;
        let (_, sort, what, quantity) = ENTRIES.iter().find(|(known, ..)| *known == kind)?;
        let (_, place) = sort.words();
        let class = event.word("class").unwrap_or_default();
        Some(Party {
            sort: *sort,
            what: what.replace("{class}", &class),
            member: event.value("member")?,
            place: event.value(place)?,
            side: event.value("side")?,
            entered: event.value(quantity)?.into(),
            filled: 0,
            cancelled: 0,
        })
    }

    fn live(&self) -> i128 {
        self.entered - self.filled - self.cancelled
    }
}

/// The parties of one day.
#[derive(Default)]
pub struct Parties {
    known: BTreeMap<i64, Party>,
}

impl Parties {
    /// Whether the number is new.
    pub fn enter(&mut self, number: i64, party: Party) -> bool {
        self.known.insert(number, party).is_none()
    }

    pub fn get(&self, number: i64) -> Option<&Party> {
        self.known.get(&number)
    }

    pub fn sort(&self, number: i64) -> Option<Sort> {
        self.get(number).map(|party| party.sort)
    }

    /// `number 6 (customer order, member 21)`.
    pub fn who(&self, number: i64) -> String {
        match self.get(number) {
            Some(Party { what, member, .. }) => {
                format!("number {number} ({what}, member {member})")
            }
            None => format!("number {number} (never entered)"),
        }
    }

    /// A record of a party is counted.
    pub fn count(&mut self, record: &Record) {
        if let Some(party) = self.known.get_mut(&record.number) {
            match record.kind {
                3 => party.cancelled += i128::from(record.quantity),
                kind if kind == party.sort.fill() => party.filled += i128::from(record.quantity),
                _ => {}
            }
        }
    }

    /// What each number has live that has not nothing.
    pub fn live(&self) -> Vec<String> {
        let live = self.known.iter().filter(|(_, party)| party.live() != 0);
        live.map(|(number, party)| {
            let (what, place) = party.sort.words();
            let quantity = counted(party.live(), what);
            let side = side(party.side);
            let who = self.who(*number);
            format!("{who}: {quantity} of {place} {} to {side}", party.place)
        })
        .collect()
    }
}

/// `buy` or `sell`; a record of another side fits no sentence.
pub fn side(side: i64) -> &'static str {
    match side {
        0 => "buy",
        _ => "sell",
    }
}
