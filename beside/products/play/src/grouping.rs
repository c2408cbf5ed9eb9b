//! The records of an event put together as document 01 has them: "Records of a
//! fill: the active order's whole fill, its leg fills by leg, then the other
//! side's likewise (leg orders: leg fills only)".

use crate::parties::{Parties, Sort};
use crate::printed::Record;

/// What one or several records say. A group is made only where each number of
/// each record follows from its words.
#[derive(Clone, Debug, PartialEq, Eq)]
pub enum Group<'a> {
    AuctionBegun(&'a Record),
    AuctionEnded(&'a Record),
    Cancelled(&'a Record),
    /// Whole met whole: the whole fills of the active order and of the other
    /// side, and the leg fills of the active order, of which the other side's are
    /// the opposites.
    Whole {
        active: &'a Record,
        legs: &'a [Record],
        other: &'a Record,
    },
    /// Whole met the legs: the active order's whole fill, and each of its leg
    /// fills with those of the leg orders.
    Legs {
        active: &'a Record,
        legs: Vec<(&'a Record, &'a [Record])>,
    },
    /// Two leg orders: the incoming one's fill, and the resting one's.
    Trade(&'a Record, &'a Record),
    /// A record that fits none of these.
    Alone(&'a Record),
}

impl Group<'_> {
    /// How many records it has.
    fn length(&self) -> usize {
        match self {
            Group::Whole { legs, .. } => 2 + 2 * legs.len(),
            Group::Legs { legs, .. } => 1 + legs.iter().map(|(_, o)| 1 + o.len()).sum::<usize>(),
            Group::Trade(..) => 2,
            _ => 1,
        }
    }
}

/// The groups of an event's records, in their order.
pub fn groups<'a>(records: &'a [Record], parties: &Parties) -> Vec<Group<'a>> {
    let mut list = Vec::new();
    let mut rest = records;
    while let Some(first) = rest.first() {
        let group = match first.kind {
            1 => whole(rest, parties).or_else(|| against_legs(rest, parties)),
            2 => trade(rest, parties),
            _ => single(first, parties),
        };
        let group = group.unwrap_or(Group::Alone(first));
        rest = &rest[group.length()..];
        list.push(group);
    }
    list
}

/// A record that says something by itself.
fn single<'a>(record: &'a Record, parties: &Parties) -> Option<Group<'a>> {
    let Record {
        kind,
        number,
        place,
        side,
        quantity,
        price,
    } = *record;
    let sided = side == 0 || side == 1;
    match kind {
        3 if sided && (place, price) == (0, 0) && parties.get(number).is_some() => {
            Some(Group::Cancelled(record))
        }
        4 if sided => Some(Group::AuctionBegun(record)),
        5 if (side, quantity, price) == (0, 0, 0) => Some(Group::AuctionEnded(record)),
        _ => None,
    }
}

/// A fill of one side, of more than nothing, by someone who is not known to
/// trade otherwise.
fn is_fill(record: &Record, sort: Sort, parties: &Parties) -> bool {
    record.kind == sort.fill()
        && (record.side == 0 || record.side == 1)
        && record.quantity > 0
        && parties
            .sort(record.number)
            .is_none_or(|known| known == sort)
}

/// The two are opposites: but for the number and the side the same.
fn opposite(one: &Record, two: &Record) -> bool {
    let mirrored = Record {
        number: two.number,
        side: 1 - one.side,
        ..*one
    };
    mirrored == *two && one.number != two.number
}

/// The active order's whole fill, its leg fills, and the records after them.
fn active<'a>(
    records: &'a [Record],
    parties: &Parties,
) -> Option<(&'a Record, &'a [Record], &'a [Record])> {
    let (active, rest) = records.split_first()?;
    if !is_fill(active, Sort::Whole, parties) {
        return None;
    }
    let own = |record: &&Record| {
        let sided = record.side == 0 || record.side == 1;
        record.kind == 2 && record.number == active.number && sided && record.quantity > 0
    };
    let count = rest.iter().take_while(own).count();
    let (legs, rest) = rest.split_at(count);
    (count > 0).then_some((active, legs, rest))
}

fn whole<'a>(records: &'a [Record], parties: &Parties) -> Option<Group<'a>> {
    let (active, legs, rest) = active(records, parties)?;
    let (other, rest) = rest.split_first()?;
    let others = rest.get(..legs.len())?;
    let meets = |(one, two): (&Record, &Record)| opposite(one, two) && two.number == other.number;
    let fits = is_fill(other, Sort::Whole, parties)
        && opposite(active, other)
        && legs.iter().zip(others).all(meets);
    fits.then_some(Group::Whole {
        active,
        legs,
        other,
    })
}

fn against_legs<'a>(records: &'a [Record], parties: &Parties) -> Option<Group<'a>> {
    let (active, legs, mut rest) = active(records, parties)?;
    let mut list = Vec::new();
    for leg in legs {
        let orders;
        (orders, rest) = orders_of(leg, rest, parties)?;
        list.push((leg, orders));
    }
    Some(Group::Legs { active, legs: list })
}

/// The fills of leg orders that make up the fill of a leg, and the records after
/// them.
fn orders_of<'a>(
    leg: &Record,
    records: &'a [Record],
    parties: &Parties,
) -> Option<(&'a [Record], &'a [Record])> {
    let mut sum = 0;
    for (at, record) in records.iter().enumerate() {
        let part = Record {
            quantity: record.quantity,
            ..*leg
        };
        if !is_fill(record, Sort::Leg, parties) || !opposite(&part, record) {
            return None;
        }
        sum += i128::from(record.quantity);
        if sum == i128::from(leg.quantity) {
            return Some(records.split_at(at + 1));
        }
    }
    None
}

fn trade<'a>(records: &'a [Record], parties: &Parties) -> Option<Group<'a>> {
    let [one, two, ..] = records else { return None };
    let of_leg_order = |record: &Record| {
        is_fill(record, Sort::Leg, parties) && parties.sort(record.number).is_some()
    };
    let fits = of_leg_order(one) && of_leg_order(two) && opposite(one, two);
    fits.then_some(Group::Trade(one, two))
}
