//! What a group of records says, as one sentence. It has each number of each of
//! its records: the records can be read from the sentence.

use crate::grouping::Group;
use crate::parties::{side, Parties};
use crate::printed::Record;
use assemble::plural::counted;

/// What a record of each kind is.
const RECORDS: &[(i64, &str)] = &[
    (1, "whole fill"),
    (2, "leg fill"),
    (3, "cancelled"),
    (4, "auction begun"),
    (5, "auction ended"),
];

pub fn sentence(group: &Group, parties: &Parties) -> String {
    match group {
        Group::AuctionBegun(record) => begun(record, parties),
        Group::AuctionEnded(record) => {
            let who = parties.who(record.number);
            format!("auction of {who} in strategy {} ended", record.place)
        }
        Group::Cancelled(record) => cancelled(record, parties),
        Group::Whole {
            active,
            legs,
            other,
        } => {
            let other = parties.who(other.number);
            format!("{}{other}: {}", takes(active, parties), legs_alone(legs))
        }
        Group::Legs { active, legs } => {
            let legs: Vec<String> = (legs.iter())
                .map(|(leg, orders)| leg_with(leg, orders, parties))
                .collect();
            format!("{}the legs: {}", takes(active, parties), legs.join(", "))
        }
        Group::Trade(one, two) => trade(one, two, parties),
        Group::Alone(record) => alone(record, parties),
    }
}

/// `buys`, and from whom; `sells`, and to whom.
fn does(record: &Record) -> (&'static str, &'static str) {
    match record.side {
        0 => ("buys", "from"),
        _ => ("sells", "to"),
    }
}

fn begun(record: &Record, parties: &Parties) -> String {
    let who = parties.who(record.number);
    let (does, _) = does(record);
    let units = counted(record.quantity, "unit");
    let Record { place, price, .. } = record;
    format!("auction begun in strategy {place} by {who}: {does} {units}, limit {price}")
}

/// The place of this record is 0; the party's own says of what.
fn cancelled(record: &Record, parties: &Parties) -> String {
    let who = parties.who(record.number);
    let of = parties.get(record.number).map(|party| {
        let (what, place) = party.sort.words();
        let quantity = counted(record.quantity, what);
        format!("{quantity} of {place} {}", party.place)
    });
    let of = of.unwrap_or(record.quantity.to_string());
    let is = if record.quantity == 1 { "is" } else { "are" };
    format!("{who}: {of} to {} {is} cancelled", side(record.side))
}

/// The active order's side of a fill, up to whom it meets.
fn takes(active: &Record, parties: &Parties) -> String {
    let who = parties.who(active.number);
    let (does, with) = does(active);
    let units = counted(active.quantity, "unit");
    let Record { place, price, .. } = active;
    format!("{who} {does} {units} of strategy {place} at net {price} {with} ")
}

/// `series 0 buy 3`.
fn leg(record: &Record) -> String {
    let Record {
        place, quantity, ..
    } = record;
    format!("series {place} {} {quantity}", side(record.side))
}

/// The legs where whole met whole: "price 0 where whole met whole".
fn legs_alone(legs: &[Record]) -> String {
    if legs.iter().all(|record| record.price == 0) {
        let legs: Vec<String> = legs.iter().map(leg).collect();
        return format!("{}, no leg prices", legs.join(", "));
    }
    let priced = |record: &Record| format!("{} at {}", leg(record), record.price);
    let legs: Vec<String> = legs.iter().map(priced).collect();
    legs.join(", ")
}

/// A leg with the leg orders that fill it; where they are several, how much each.
fn leg_with(record: &Record, orders: &[Record], parties: &Parties) -> String {
    let (_, with) = does(record);
    let (leg, price) = (leg(record), record.price);
    if let [order] = orders {
        return format!("{leg} at {price} {with} {}", parties.who(order.number));
    }
    let orders: Vec<String> = (orders.iter())
        .map(|order| format!("{} {with} {}", order.quantity, parties.who(order.number)))
        .collect();
    format!("{leg} at {price}, {}", orders.join(" and "))
}

fn trade(one: &Record, two: &Record, parties: &Parties) -> String {
    let (who, other) = (parties.who(one.number), parties.who(two.number));
    let (does, with) = does(one);
    let Record {
        place,
        quantity,
        price,
        ..
    } = one;
    format!("{who} {does} {quantity} of series {place} at {price} {with} {other}")
}

/// A record by itself, number by number.
fn alone(record: &Record, parties: &Parties) -> String {
    let known = RECORDS.iter().find(|(kind, _)| *kind == record.kind);
    let name = known.map_or("of no known kind", |(_, name)| name);
    let who = parties.who(record.number);
    let Record {
        kind,
        place,
        side,
        quantity,
        price,
        ..
    } = record;
    format!(
        "record {kind}, {name}: {who}, place {place}, side {side}, quantity {quantity}, price {price}"
    )
}
