//! Counts of the situations that lists of events reach, for tests of the
//! generator. They play no part in any answer.

use crate::book::{
    depth, Book, Depth, Entry, LegOrder, RowEntry, BUY, DAY, DO_NOT_AUCTION, IMMEDIATE,
    LAST_NUMBER, LEG_ORDERS, SELL, STRATEGIES, SWEEPS,
};
use crate::events::Answer;
use crate::frames::{read, Event};
use crate::national::{Bounds, FRESH_RANGE};
use crate::nets::{net, LegPrice, Nets};
use crate::passes::{meets, strictly_better, Given, Holders};
use crate::records::{Record, AUCTION_BEGUN, AUCTION_ENDED, CANCELLED, LEG_FILL, WHOLE_FILL};
use std::cell::{Cell, RefCell};
use std::cmp::Ordering;
use std::collections::{BTreeMap, BTreeSet};

thread_local! {
    static COUNTING: Cell<bool> = const { Cell::new(false) };
    static REACHED: RefCell<BTreeMap<&'static str, u64>> = const { RefCell::new(BTreeMap::new()) };
    static AFTER_FILLS: Cell<Option<fn(&Book)>> = const { Cell::new(None) };
    /// The nets of each strategy as its definition set them, and as the last day ended.
    static DEFINED: Cell<[Nets; STRATEGIES]> = const { Cell::new([Nets::UNKNOWN; STRATEGIES]) };
    static ENDED: Cell<[Nets; STRATEGIES]> = const { Cell::new([Nets::UNKNOWN; STRATEGIES]) };
}

/// Every situation that is counted and can occur.
pub const SITUATIONS: &[&str] = &[
    "auction: a net becomes better",
    "auction: a net becomes known",
    "auction: a net becomes unknown by a cancel",
    "auction: a net becomes unknown by fills",
    "auction: a net becomes worse by a cancel",
    "auction: a net becomes worse by fills",
    "auction: a net passes a live sweep",
    "auction: a net that was unknown passes a live sweep",
    "best: a better price behind a worse one",
    "best: a better price with fewer contracts than the worse one",
    "best: a first order on an empty side",
    "best: a side is empty after a cancel",
    "best: a side is empty after fills",
    "best: a worse price behind the best",
    "best: an equal price adds",
    "best: an equal price adds after a fresh start",
    "best: one of several orders is cancelled",
    "best: one of several orders is filled away",
    "best: one side is empty, the other is not",
    "best: the next price counts after a cancel",
    "best: the next price counts after fills",
    "best: three orders or more",
    "clock: an auction ends",
    "clock: an auction goes on",
    "clock: several auctions end",
    "complex: cancelled at a shut series",
    "complex: do-not-auction cancelled in an auction",
    "complex: fills an order that rested crossed",
    "complex: fills at four prices or more",
    "complex: fills at two prices or more",
    "complex: fills on arrival",
    "complex: fourth auction at once",
    "complex: rests beside a shut series",
    "complex: rests crossed",
    "complex: second auction at once",
    "complex: starter met on arrival",
    "complex: the net meets and is not ready",
    "complex: the pass stops at the range",
    "complex: waits in an auction",
    "day end: a specialist is named",
    "day end: an auction ends",
    "day end: national prices and a range are set",
    "day end: several auctions end",
    "end: a day starter rests",
    "end: a later pass meets an order from before",
    "end: a later pass meets the specialist's sweep",
    "end: a later pass meets the starter's rest",
    "end: a sweep fills that the net has passed",
    "end: a sweep that the net has passed is cancelled",
    "end: a sweep's own pass fills",
    "end: a sweep's own pass stops at the range",
    "end: a waiting order uses legs",
    "end: a waiting order's own pass fills",
    "end: a waiting order's own pass stops at the range",
    "end: an immediate starter is cancelled",
    "end: legs barred by what is gone",
    "end: legs barred for the starter",
    "end: the specialist's portion after fills at another limit",
    "end: the specialist's sweep in full, then its portion at another limit",
    "end: the starter fills by both",
    "end: the starter fills by legs only",
    "end: the starter fills whole only",
    "end: the starter's pass stops at the range",
    "leg order: an order that rests crossed fills by legs",
    "leg order: fills in several strategies",
    "leg order: one trade",
    "leg order: resting orders fill by legs",
    "leg order: several trades",
    "leg order: trades at several prices",
    "leg order: trades with several orders at one price",
    "leg order: trades, then resting orders fill by legs",
    "legs: a fill takes a part of the second order",
    "legs: a fill takes all at the best price, a worse one stays",
    "legs: a fill takes from several orders",
    "legs: a fill that a worse price before would make larger",
    "legs: a fill that a worse price behind would make larger",
    "legs: a pass goes on at the next prices",
    "legs: not ready, a worse price alone would hold the ratio",
    "legs: not ready, a worse price before would add up to the ratio",
    "legs: not ready, a worse price behind would add up to the ratio",
    "legs: ready only by several orders together",
    "national: a price is taken away",
    "national: both prices known",
    "national: both prices missing",
    "national: equal prices",
    "national: one price missing",
    "nets: 0 after a change",
    "nets: 15 where the net of the definition would let the sweep in",
    "nets: a day end with known ones",
    "nets: a definition over leg orders, both known",
    "nets: a definition over leg orders, both unknown",
    "nets: a definition over leg orders, one known",
    "nets: a definition where the day before had others",
    "nets: a fill by legs at a net that another strategy's fill changed",
    "nets: a limit taken after a fill by legs",
    "nets: a pass ends, its fill made the net unknown",
    "nets: a pass ends, its fill made the net worse than the limit",
    "nets: a series shuts, they stay known",
    "nets: a sweep that the net of the definition would refuse",
    "nets: a turn by legs at another net than the fill before",
    "nets: an auction that the net of the definition would not start",
    "nets: an equal definition after a change",
    "nets: another by a cancel",
    "nets: another by a fill by legs",
    "nets: another by a leg order that rests",
    "nets: another by a trade",
    "nets: as before, a better leg order was filled by legs",
    "nets: below 0 after a change",
    "nets: both of a strategy changed",
    "nets: changed beside a shut series",
    "nets: changed by a cancel in a shut series",
    "nets: kept, a cancel behind the best price",
    "nets: kept, a cancel of one of several at the best price",
    "nets: kept, a fill by legs with a part of the best prices",
    "nets: kept, a leg order at the best price",
    "nets: kept, a leg order behind the best price",
    "nets: kept, a trade with a part of the best price",
    "nets: known by a leg order that rests",
    "nets: no auction where the net of the definition would start one",
    "nets: one changed, the other unknown",
    "nets: several strategies changed",
    "nets: unknown at another best price",
    "nets: unknown by a cancel",
    "nets: unknown by a fill by legs",
    "nets: unknown by a trade",
    "opening: a match at a bound",
    "opening: a match fills, then stops",
    "opening: a match stops above the buyer's bound",
    "opening: a match stops below the seller's bound",
    "opening: a strategy matches",
    "opening: a strategy stays crossed, another matches",
    "opening: a strategy stays crossed, orders fill by legs",
    "opening: at the buy's limit",
    "opening: at the sell's limit",
    "opening: matches, then fills by legs",
    "opening: orders fill by legs",
    "opening: several strategies match",
    "portion: a percentage that is rounded down",
    "portion: after customers, less than the percentage of all",
    "portion: all that remains, beside others",
    "portion: as by the old rule",
    "portion: at 0 per cent",
    "portion: at 100 per cent",
    "portion: before a market maker's order of its member",
    "portion: behind a market maker's order of its member",
    "portion: beside a sweep of another strategy's specialist",
    "portion: broker-dealers behind the group",
    "portion: by its size",
    "portion: by the percentage",
    "portion: by the share",
    "portion: in another strategy than 0",
    "portion: more than by the old rule",
    "portion: nothing of what remains",
    "portion: nothing remains after customers",
    "portion: of one between others",
    "portion: of the first in its group",
    "portion: of the last in its group",
    "portion: of the whole group",
    "portion: one unit less than by the old rule",
    "portion: the rest alone would not be shared",
    "portion: the rest is filled in full",
    "portion: the rest leaves a holder without a unit",
    "portion: the rest shares, a unit left over",
    "portion: the rest shares, no unit left over",
    "portion: the rest shares, several units left over",
    "portion: the share equals the percentage",
    "portion: to a buying starter",
    "portion: to a selling starter",
    "portion: to a starter of its own member",
    "range: 0",
    "range: narrowed",
    "range: widened",
    "range: widened where orders rest crossed",
    "share: a holder gets nothing",
    "share: no unit left over",
    "share: one unit left over",
    "share: several broker-dealers in full",
    "share: several sweeps and makers in full",
    "share: several units left over",
    "share: three groups at one limit",
    "shut: an auction ends",
    "shut: several auctions end",
    "specialist: 0 per cent",
    "specialist: 1 to 99 per cent",
    "specialist: 100 per cent",
    "specialist: 4 of a strategy that is not defined",
    "specialist: a market maker's order of its member, without a sweep, in a shared group",
    "specialist: an order of its member in a group that an arriving order shares",
    "specialist: another member named",
    "specialist: another member named in an auction",
    "specialist: another member named in an auction with a sweep of the old one",
    "specialist: its sweep in a group that is not shared",
    "specialist: named",
    "specialist: named beside a shut series",
    "specialist: named in an auction",
    "specialist: named in an auction with a sweep of its member",
    "specialist: named in two strategies",
    "specialist: named once more as it was",
    "specialist: no entry of its member in a shared group",
    "specialist: the same member at another percentage",
    "stop: after fills",
    "stop: another limit could fill",
    "stop: in a legs-only pass",
    "stop: in a numbered pass",
    "stop: in a shared pass",
    "stop: legs above the buyer's bound",
    "stop: legs below the seller's bound",
    "stop: limit above the active buyer's bound",
    "stop: limit above the other buyer's bound",
    "stop: limit below the active seller's bound",
    "stop: limit below the other seller's bound",
    "stop: the legs could fill",
    "strategy: equal in a full table",
    "strategy: equal to a held one",
    "sweep: 10 where it betters nothing",
    "sweep: 12 where it betters the net",
    "sweep: 15 at a net below 0",
    "sweep: 15 at a net that is not ready",
    "sweep: 15 beside an unknown net of the other side",
    "sweep: 15 in a full table",
    "sweep: 15 of a buy at the bid net",
    "sweep: 15 of a buy below the bid net",
    "sweep: 15 of a replacement",
    "sweep: 15 of a replacement in a full table",
    "sweep: 15 of a sell above the offer net",
    "sweep: 15 of a sell at the offer net",
    "sweep: 15 where it betters the national net",
    "sweep: 9 where it betters nothing",
    "sweep: a buy between the nets",
    "sweep: a buy one cent above the bid net",
    "sweep: a buy where the bid net is unknown",
    "sweep: a replacement one cent better than the net",
    "sweep: a sell between the nets",
    "sweep: a sell one cent below the offer net",
    "sweep: a sell where the offer net is unknown",
    "sweep: betters the net and not the national net",
    "sweep: its net is unknown, the other is known",
    "sweep: one cent better than a net below 0",
    "sweep: one cent better than a net that is not ready",
    "sweep: replaced",
    "sweep: replaced in a full table",
    "sweep: withdrawn",
    "sweep: withdrawn where it betters nothing",
    "turn: between two bounds",
    "turn: legs at the buyer's bound",
    "turn: legs at the seller's bound",
    "turn: legs better than a limit",
    "turn: legs in a legs-only pass",
    "turn: legs in a numbered pass",
    "turn: legs in a shared pass",
    "turn: only the buyer is bound",
    "turn: only the seller is bound",
    "turn: whole at a limit better than the leg net",
    "turn: whole at a limit that equals the leg net",
    "turn: whole at the buyer's bound",
    "turn: whole at the seller's bound",
    "turn: whole in a numbered pass",
    "turn: whole in a shared pass",
];

/// Every situation that is counted and needs all 100,000 numbers given.
pub const LAST_SITUATIONS: &[&str] = &[
    "numbers: 13 of a sweep one cent better than the net",
    "numbers: 15 of a new sweep",
    "numbers: 15 of a replacement",
    "numbers: withdrawn where it betters nothing",
];

/// Every situation of a depth lookup in a lent row that is counted and can occur.
pub const ROW_SITUATIONS: &[&str] = &[
    "row: 32 entries, none empty",
    "row: 33 entries or more",
    "row: a better price of another series",
    "row: a better price of the other side",
    "row: a field out of range",
    "row: a worse price behind the best",
    "row: an empty entry at a better price",
    "row: an empty entry with a field out of range",
    "row: an empty side, the other is not",
    "row: an equal price after a fresh start",
    "row: an equal price after a worse one",
    "row: empty entries only",
    "row: no entry",
    "row: one order at the best",
    "row: over 65,535 contracts at the best",
    "row: several orders at the best",
    "row: the pair starts afresh once",
    "row: the pair starts afresh several times",
];

/// Whether this thread counts.
fn counting() -> bool {
    COUNTING.get()
}

/// Counts one more occurrence of the situation on this thread.
pub fn reach(situation: &'static str) {
    if !counting() {
        return;
    }
    REACHED.with(|reached| *reached.borrow_mut().entry(situation).or_insert(0) += 1);
}

/// Counts one more occurrence if the condition holds.
pub fn reach_if(condition: bool, situation: &'static str) {
    if condition {
        reach(situation);
    }
}

/// The counts of this thread so far; they begin anew, with another list. A thread counts
/// nothing before its first call.
pub fn take() -> BTreeMap<&'static str, u64> {
    COUNTING.set(true);
    DEFINED.set([Nets::UNKNOWN; STRATEGIES]);
    ENDED.set([Nets::UNKNOWN; STRATEGIES]);
    REACHED.with(|reached| std::mem::take(&mut *reached.borrow_mut()))
}

/// What this thread, once it counts, calls with the book after each fill and each trade
/// of leg orders.
pub fn call_after_fills(call: fn(&Book)) {
    AFTER_FILLS.set(Some(call));
}

/// A fill or a trade of leg orders was made.
pub fn filled(book: &Book) {
    if counting() {
        if let Some(call) = AFTER_FILLS.get() {
            call(book);
        }
    }
}

/// Counts the units that were left over after the shares, rounded down.
pub fn count_leftover(remaining: u32, left: u32) {
    reach_if(remaining > 0 && left == 0, "share: no unit left over");
    reach_if(left == 1, "share: one unit left over");
    reach_if(left > 1, "share: several units left over");
}

/// Counts what a shared pass gave to the holders of one limit.
pub fn count_allotment(holders: &[Entry], fills: &[Given]) {
    if !counting() {
        return;
    }
    let stands = |group| holders.iter().any(|holder| holder.group == group);
    let given = |group| {
        let group = holders.iter().filter(move |holder| holder.group == group);
        group
            .filter(|holder| {
                let (number, units) = (holder.number, holder.units);
                fills.contains(&Given { number, units })
            })
            .count()
    };
    reach_if(
        stands(0) && stands(1) && stands(2),
        "share: three groups at one limit",
    );
    reach_if(given(1) > 1, "share: several sweeps and makers in full");
    reach_if(given(2) > 1, "share: several broker-dealers in full");
    reach_if(
        fills.iter().any(|fill| fill.units == 0),
        "share: a holder gets nothing",
    );
}

/// Counts what a specialist's sweep and orders meet at one limit, and what they were
/// given (2026-04).
pub fn count_specialist(
    book: &Book,
    active: &Entry,
    holders: &[Entry],
    how: Holders,
    fills: &[Given],
) {
    if counting() {
        specialist(book, active, holders, how, fills);
    }
}

#[cold]
fn specialist(book: &Book, active: &Entry, holders: &[Entry], how: Holders, fills: &[Given]) {
    let (Holders::Shared(known), Some(named)) =
        (how, book.specialists[usize::from(active.strategy)])
    else {
        return;
    };
    let given = |holder: &Entry| {
        let own = fills.iter().find(|fill| fill.number == holder.number);
        own.map_or(0, |fill| fill.units)
    };
    let in_group = |group: u8| holders.iter().filter(move |holder| holder.group == group);
    let customers: u32 = in_group(0).map(given).sum();
    let remaining = active.units - customers;
    let group: Vec<Entry> = in_group(1).copied().collect();
    let total: u32 = group.iter().map(|holder| holder.units).sum();
    let shared = total > remaining;
    let own = |holder: &Entry| holder.member == named.member;
    if known.is_none() {
        return reach_if(
            shared && remaining > 0 && group.iter().any(own) && group.len() > 1,
            "specialist: an order of its member in a group that an arriving order shares",
        );
    }
    let place = group.iter().position(|holder| named.holds(holder));
    let Some(place) = place else {
        return match group.iter().any(own) {
            true => reach_if(
                shared && remaining > 0,
                "specialist: a market maker's order of its member, without a sweep, in a shared group",
            ),
            false => reach_if(
                shared && remaining > 0,
                "specialist: no entry of its member in a shared group",
            ),
        };
    };
    if !shared {
        return reach("specialist: its sweep in a group that is not shared");
    }
    if remaining == 0 {
        return reach("portion: nothing remains after customers");
    }
    let sweep = group[place];
    let portion = given(&sweep);
    let size = sweep.units;
    let floor = |holder: &Entry| u64::from(remaining) * u64::from(holder.units) / u64::from(total);
    let share = floor(&sweep) as u32;
    let hundredths = |of: u32| u32::from(named.percentage) * of;
    let part = hundredths(remaining) / 100;
    if part > size {
        reach("portion: by its size");
    } else {
        reach(match part.cmp(&share) {
            Ordering::Less => "portion: by the share",
            Ordering::Equal => "portion: the share equals the percentage",
            Ordering::Greater => "portion: by the percentage",
        });
        reach_if(
            part > share && hundredths(remaining) % 100 > 0,
            "portion: a percentage that is rounded down",
        );
    }
    reach_if(named.percentage == 0, "portion: at 0 per cent");
    reach_if(named.percentage == 100, "portion: at 100 per cent");
    reach_if(portion == 0, "portion: nothing of what remains");
    let of_all = size.min(share.max(hundredths(active.units) / 100));
    reach_if(
        customers > 0 && portion < of_all,
        "portion: after customers, less than the percentage of all",
    );
    // By the old rule it would have a part in the leftovers.
    let floors: u64 = group.iter().map(floor).sum();
    let left_over = u64::from(remaining) - floors;
    let by_old_rule = share + u32::from((place as u64) < left_over);
    reach(match portion.cmp(&by_old_rule) {
        Ordering::Less => "portion: one unit less than by the old rule",
        Ordering::Equal => "portion: as by the old rule",
        Ordering::Greater => "portion: more than by the old rule",
    });
    reach(match (place, group.len() - 1 - place) {
        (0, 0) => "portion: of the whole group",
        (0, _) => "portion: of the first in its group",
        (_, 0) => "portion: of the last in its group",
        _ => "portion: of one between others",
    });
    reach_if(
        group[..place].iter().any(own),
        "portion: behind a market maker's order of its member",
    );
    reach_if(
        group[place + 1..].iter().any(own),
        "portion: before a market maker's order of its member",
    );
    let elsewhere = |holder: &Entry| {
        let mut others = book.specialists.iter().flatten();
        holder.number != sweep.number && others.any(|other| other.holds(holder))
    };
    reach_if(
        group.iter().any(elsewhere),
        "portion: beside a sweep of another strategy's specialist",
    );
    reach_if(
        in_group(2).next().is_some(),
        "portion: broker-dealers behind the group",
    );
    reach_if(active.strategy > 0, "portion: in another strategy than 0");
    reach_if(
        active.member == named.member,
        "portion: to a starter of its own member",
    );
    reach(match active.side {
        BUY => "portion: to a buying starter",
        _ => "portion: to a selling starter",
    });
    let rest: Vec<Entry> = (group.iter().copied())
        .filter(|holder| holder.number != sweep.number)
        .collect();
    let (left, rest_total) = (remaining - portion, total - size);
    reach_if(
        rest_total <= remaining && !rest.is_empty(),
        "portion: the rest alone would not be shared",
    );
    if rest.is_empty() {
        return;
    }
    reach_if(left == 0, "portion: all that remains, beside others");
    reach_if(
        left > 0 && rest_total == left,
        "portion: the rest is filled in full",
    );
    if left > 0 && rest_total > left {
        let floors = |holder: &Entry| u64::from(left) * u64::from(holder.units);
        let floors: u64 = (rest.iter())
            .map(|holder| floors(holder) / u64::from(rest_total))
            .sum();
        reach(match u64::from(left) - floors {
            0 => "portion: the rest shares, no unit left over",
            1 => "portion: the rest shares, a unit left over",
            _ => "portion: the rest shares, several units left over",
        });
        reach_if(
            rest.iter().any(|holder| given(holder) == 0),
            "portion: the rest leaves a holder without a unit",
        );
    }
}

/// Counts an event of kind 11, as its answer tells (2026-04).
fn count_named(before: &Book, event: &Event, answer: u32) {
    let Event::Specialist {
        member,
        strategy,
        percentage,
    } = *event
    else {
        return;
    };
    if answer != 0 {
        return reach_if(
            answer == 4,
            "specialist: 4 of a strategy that is not defined",
        );
    }
    reach(match percentage {
        0 => "specialist: 0 per cent",
        100 => "specialist: 100 per cent",
        _ => "specialist: 1 to 99 per cent",
    });
    let old = before.specialists[usize::from(strategy)];
    let another = old.is_some_and(|old| old.member != member);
    reach(match old {
        None => "specialist: named",
        Some(_) if another => "specialist: another member named",
        Some(old) if old.percentage != percentage => {
            "specialist: the same member at another percentage"
        }
        _ => "specialist: named once more as it was",
    });
    let mut others = before.specialists.iter().enumerate();
    reach_if(
        others.any(|(at, other)| {
            at != usize::from(strategy) && other.is_some_and(|other| other.member == member)
        }),
        "specialist: named in two strategies",
    );
    reach_if(
        !before.all_open(strategy),
        "specialist: named beside a shut series",
    );
    let Some(auction) = before.auctions[usize::from(strategy)] else {
        return;
    };
    let has_sweep = |member: u16| {
        (before.sweeps()).any(|sweep| {
            (sweep.strategy, sweep.member) == (strategy, member) && sweep.side != auction.side
        })
    };
    reach("specialist: named in an auction");
    reach_if(
        has_sweep(member),
        "specialist: named in an auction with a sweep of its member",
    );
    reach_if(another, "specialist: another member named in an auction");
    reach_if(
        another && old.is_some_and(|old| has_sweep(old.member)),
        "specialist: another member named in an auction with a sweep of the old one",
    );
}

/// A turn of a pass, as it was chosen.
pub struct Turn {
    pub holders: Holders,
    /// Whether the pass may use legs.
    pub legs: bool,
    /// Whether the legs fill it, at their net, or an opposite limit.
    pub by_legs: bool,
    pub price: i64,
    /// The best opposite limit.
    pub whole: Option<i64>,
    pub bounds: Bounds,
}

/// The net of the legs that the turn could use, where they are ready.
fn ready_net(book: &Book, active: &Entry, turn: &Turn) -> Option<i64> {
    let prices = book.leg_prices(active.strategy, active.side);
    let prices = prices.filter(|prices| turn.legs && crate::nets::ready(prices));
    prices.map(|prices| net(&prices))
}

/// Counts what a turn of a pass chose, and how near to the bounds it fills.
pub fn count_turn(book: &Book, active: &Entry, turn: &Turn) {
    if counting() {
        chosen(book, active, turn);
    }
}

#[cold]
fn chosen(book: &Book, active: &Entry, turn: &Turn) {
    let (legs, whole) = (turn.by_legs, turn.whole);
    let leg_net = ready_net(book, active, turn);
    reach(match (turn.holders, legs) {
        (Holders::Nobody, _) => "turn: legs in a legs-only pass",
        (Holders::Shared(_), true) => "turn: legs in a shared pass",
        (Holders::Shared(_), false) => "turn: whole in a shared pass",
        (Holders::Numbered, true) => "turn: legs in a numbered pass",
        (Holders::Numbered, false) => "turn: whole in a numbered pass",
    });
    reach_if(legs && whole.is_some(), "turn: legs better than a limit");
    reach_if(
        !legs && leg_net.is_some() && leg_net == whole,
        "turn: whole at a limit that equals the leg net",
    );
    reach_if(
        !legs && leg_net.is_some() && leg_net != whole,
        "turn: whole at a limit better than the leg net",
    );
    let Bounds { lowest, highest } = turn.bounds;
    if turn.price == highest {
        reach(match legs {
            true => "turn: legs at the buyer's bound",
            false => "turn: whole at the buyer's bound",
        });
    }
    if turn.price == lowest {
        reach(match legs {
            true => "turn: legs at the seller's bound",
            false => "turn: whole at the seller's bound",
        });
    }
    match (lowest > i64::MIN, highest < i64::MAX) {
        (true, true) => reach("turn: between two bounds"),
        (true, false) => reach("turn: only the seller is bound"),
        (false, true) => reach("turn: only the buyer is bound"),
        (false, false) => {}
    }
}

/// Counts a turn that the bounds forbid, so that the pass stops; `filled` if the
/// pass had fills before.
pub fn count_stop(book: &Book, active: &Entry, turn: &Turn, filled: bool) {
    if !counting() {
        return;
    }
    let (side, price, bounds) = (active.side, turn.price, turn.bounds);
    // The party that may not take the fill.
    let (own, buyer) = (!bounds.allow(side, price), !bounds.allow(BUY, price));
    reach(match (turn.by_legs, own, buyer) {
        (true, _, true) => "stop: legs above the buyer's bound",
        (true, _, false) => "stop: legs below the seller's bound",
        (false, true, true) => "stop: limit above the active buyer's bound",
        (false, true, false) => "stop: limit below the active seller's bound",
        (false, false, true) => "stop: limit above the other buyer's bound",
        (false, false, false) => "stop: limit below the other seller's bound",
    });
    reach_if(filled, "stop: after fills");
    let taken = |price: i64| meets(side, i64::from(active.limit), price);
    let by_legs = |net: i64| taken(net) && bounds.allow(side, net);
    reach_if(
        !turn.by_legs && ready_net(book, active, turn).is_some_and(by_legs),
        "stop: the legs could fill",
    );
    let mut others = book.entries_of(active.strategy).filter(|e| e.side != side);
    let could_fill = |limit: i64| taken(limit) && bounds.allow_both(limit);
    reach_if(
        turn.holders != Holders::Nobody && others.any(|e| could_fill(i64::from(e.limit))),
        "stop: another limit could fill",
    );
    let auction = book.auction_runs(active.strategy);
    match turn.holders {
        Holders::Nobody => reach("stop: in a legs-only pass"),
        Holders::Shared(_) => {
            reach("stop: in a shared pass");
            reach(match auction {
                true => "end: the starter's pass stops at the range",
                false => "complex: the pass stops at the range",
            });
        }
        Holders::Numbered => {
            reach("stop: in a numbered pass");
            reach(match active.life {
                None => "end: a sweep's own pass stops at the range",
                Some(_) => "end: a waiting order's own pass stops at the range",
            });
        }
    }
}

/// The leg orders that an order taking the leg meets, by number.
fn leg_orders_met<'a>(book: &'a Book, entry: &LegPrice) -> Vec<&'a LegOrder> {
    book.leg_orders_of(entry.leg.series, 1 - entry.side)
        .collect()
}

/// The contracts at worse prices of leg orders that stand before the first at the
/// best price, or behind it.
fn worse_contracts(book: &Book, entry: &LegPrice, behind: bool) -> u32 {
    let orders = leg_orders_met(book, entry);
    let first = orders.iter().position(|order| order.price == entry.price);
    let first = first.unwrap_or(orders.len());
    let part = if behind {
        &orders[first..]
    } else {
        &orders[..first]
    };
    let worse = part.iter().filter(|order| order.price != entry.price);
    worse.map(|order| order.contracts).sum()
}

/// The prices with those contracts added to the best price's.
fn with_worse(book: &Book, prices: &[LegPrice], behind: bool) -> Vec<LegPrice> {
    let added = |entry: &LegPrice| LegPrice {
        contracts: entry.contracts + worse_contracts(book, entry, behind),
        ..*entry
    };
    prices.iter().map(added).collect()
}

/// Counts a fill by legs of these units, before it is made: from which orders of
/// the best prices it takes, and what worse prices would change.
pub fn count_leg_fill(book: &Book, active: &Entry, prices: &[LegPrice], units: u32) {
    if counting() {
        leg_fill(book, active, prices, units);
    }
}

#[cold]
fn leg_fill(book: &Book, active: &Entry, prices: &[LegPrice], units: u32) {
    let (mut together, mut several, mut part, mut all) = (false, false, false, false);
    for entry in prices {
        let ratio = u32::from(entry.leg.ratio);
        let orders = leg_orders_met(book, entry);
        let best: Vec<u32> = (orders.iter())
            .filter(|order| order.price == entry.price)
            .map(|order| order.contracts)
            .collect();
        let taken = units * ratio;
        together |= best.iter().all(|contracts| *contracts < ratio);
        several |= taken > best[0];
        part |= best.len() > 1 && (best[0] + 1..best[0] + best[1]).contains(&taken);
        all |= taken == entry.contracts && orders.len() > best.len();
    }
    reach_if(together, "legs: ready only by several orders together");
    reach_if(several, "legs: a fill takes from several orders");
    reach_if(part, "legs: a fill takes a part of the second order");
    reach_if(
        all,
        "legs: a fill takes all at the best price, a worse one stays",
    );
    let larger = |behind: bool| {
        let most = (with_worse(book, prices, behind).iter())
            .map(|entry| entry.contracts / u32::from(entry.leg.ratio))
            .fold(active.units, u32::min);
        most > units
    };
    reach_if(
        larger(false),
        "legs: a fill that a worse price before would make larger",
    );
    reach_if(
        larger(true),
        "legs: a fill that a worse price behind would make larger",
    );
}

/// Counts legs that are not ready for an order, where with worse prices they would
/// be and would meet its limit.
pub fn count_unready(book: &Book, active: &Entry, prices: &[LegPrice]) {
    if counting() {
        unready(book, active, prices);
    }
}

#[cold]
fn unready(book: &Book, active: &Entry, prices: &[LegPrice]) {
    let taken = |prices: &[LegPrice]| {
        crate::nets::ready(prices) && meets(active.side, i64::from(active.limit), net(prices))
    };
    reach_if(
        taken(&with_worse(book, prices, false)),
        "legs: not ready, a worse price before would add up to the ratio",
    );
    reach_if(
        taken(&with_worse(book, prices, true)),
        "legs: not ready, a worse price behind would add up to the ratio",
    );
    // Where a leg is not ready, the best of the prices that hold the ratio.
    let holding = |entry: &LegPrice| {
        let ratio = u32::from(entry.leg.ratio);
        let mut held: BTreeMap<u32, u32> = BTreeMap::new();
        for order in leg_orders_met(book, entry) {
            *held.entry(order.price).or_default() += order.contracts;
        }
        held.retain(|_, contracts| *contracts >= ratio);
        let best = if entry.side == BUY {
            held.first_key_value()
        } else {
            held.last_key_value()
        };
        best.map(|(price, contracts)| LegPrice {
            price: *price,
            contracts: *contracts,
            ..*entry
        })
    };
    let held: Option<Vec<LegPrice>> = prices.iter().map(holding).collect();
    reach_if(
        held.is_some_and(|held| taken(&held)),
        "legs: not ready, a worse price alone would hold the ratio",
    );
}

/// Counts a leg order of this number and its trades, from the book before it.
fn count_leg_order(before: &Book, event: &Event, number: u32, records: &[Record]) {
    let Event::LegOrder {
        series,
        side,
        contracts,
        price,
        ..
    } = *event
    else {
        return;
    };
    let trades: Vec<&Record> = (records.iter().take_while(|r| r.kind == LEG_FILL))
        .filter(|record| record.number == number as i32)
        .collect();
    let mut prices: Vec<i32> = trades.iter().map(|record| record.price).collect();
    prices.dedup();
    reach_if(prices.len() > 1, "leg order: trades at several prices");
    reach_if(
        trades.len() > prices.len(),
        "leg order: trades with several orders at one price",
    );
    let traded: i32 = trades.iter().map(|record| record.quantity).sum();
    if traded == i32::from(contracts) {
        return;
    }
    let Some(best) = before.depth(series, side) else {
        return reach("best: a first order on an empty side");
    };
    if price == best.price {
        reach("best: an equal price adds");
        let mut orders = before.leg_orders_of(series, side);
        reach_if(
            orders.next().is_some_and(|order| order.price != price),
            "best: an equal price adds after a fresh start",
        );
    } else if strictly_better(1 - side, i64::from(price), i64::from(best.price)) {
        reach("best: a better price behind a worse one");
        reach_if(
            u32::from(contracts) < best.contracts,
            "best: a better price with fewer contracts than the worse one",
        );
    } else {
        reach("best: a worse price behind the best");
    }
}

/// Counts what became of best prices when leg orders traded or were cancelled.
fn count_best(before: &Book, event: &Event, after: &Book) {
    if before.leg_orders == after.leg_orders || matches!(event, Event::DayEnd { .. }) {
        return;
    }
    let cancel = matches!(event, Event::Cancel { .. });
    let orders = |book: &Book, series: u8, side: u8, best: Depth| {
        let own = book.leg_orders_of(series, side);
        own.filter(|order| order.price == best.price).count()
    };
    for series in 0..32 {
        let mut changed = false;
        for side in [BUY, SELL] {
            let (old, new) = (before.depth(series, side), after.depth(series, side));
            changed |= old != new;
            let three = new.is_some_and(|best| orders(after, series, side, best) > 2);
            reach_if(old != new && three, "best: three orders or more");
            let Some(old) = old else { continue };
            match new {
                None if cancel => reach("best: a side is empty after a cancel"),
                None => reach("best: a side is empty after fills"),
                Some(new) if new.price == old.price => {
                    let stay = orders(after, series, side, new);
                    let gone = stay < orders(before, series, side, old);
                    reach_if(gone && cancel, "best: one of several orders is cancelled");
                    reach_if(
                        gone && !cancel,
                        "best: one of several orders is filled away",
                    );
                }
                Some(new) => {
                    let (new, old) = (i64::from(new.price), i64::from(old.price));
                    let worse = strictly_better(1 - side, old, new);
                    reach_if(
                        worse && cancel,
                        "best: the next price counts after a cancel",
                    );
                    reach_if(worse && !cancel, "best: the next price counts after fills");
                }
            }
        }
        let empty = |side: u8| after.depth(series, side).is_none();
        reach_if(
            changed && empty(BUY) != empty(SELL),
            "best: one side is empty, the other is not",
        );
    }
}

/// Counts a depth lookup in a lent row.
pub fn observe_row(row: &[RowEntry], series: u8, side: u8) {
    let used = |entry: &&RowEntry| entry.contracts > 0;
    reach_if(row.len() > LEG_ORDERS, "row: 33 entries or more");
    let fits = depth(row, u32::from(series), u32::from(side)).is_ok();
    if !fits {
        reach_if(row.len() <= LEG_ORDERS, "row: a field out of range");
        return;
    }
    let held: Vec<&RowEntry> = row.iter().filter(used).collect();
    reach_if(row.is_empty(), "row: no entry");
    reach_if(
        !row.is_empty() && held.is_empty(),
        "row: empty entries only",
    );
    reach_if(held.len() == LEG_ORDERS, "row: 32 entries, none empty");
    reach_if(
        row.iter().any(|entry| !used(&entry) && entry.series > 31),
        "row: an empty entry with a field out of range",
    );
    let own: Vec<&RowEntry> = (held.iter().copied())
        .filter(|entry| entry.series == series && entry.side == side)
        .collect();
    let better =
        |first: u32, second: u32| strictly_better(1 - side, i64::from(first), i64::from(second));
    let (mut best, mut starts, mut equal, mut worse) = (None, 0, false, false);
    let (mut equal_afresh, mut equal_after_worse) = (false, false);
    for entry in &own {
        match best {
            Some(price) if price == entry.price => {
                equal = true;
                equal_afresh |= starts > 1;
                equal_after_worse |= worse;
            }
            Some(price) if better(price, entry.price) => worse = true,
            _ => {
                best = Some(entry.price);
                starts += 1;
                (equal, worse) = (false, false);
                (equal_afresh, equal_after_worse) = (false, false);
            }
        }
    }
    let Some(price) = best else {
        return reach_if(
            held.iter().any(|entry| entry.series == series),
            "row: an empty side, the other is not",
        );
    };
    reach_if(!equal, "row: one order at the best");
    reach_if(equal, "row: several orders at the best");
    reach_if(starts == 2, "row: the pair starts afresh once");
    reach_if(starts > 2, "row: the pair starts afresh several times");
    reach_if(equal_afresh, "row: an equal price after a fresh start");
    reach_if(equal_after_worse, "row: an equal price after a worse one");
    reach_if(worse, "row: a worse price behind the best");
    let contracts: u32 = (own.iter().filter(|entry| entry.price == price))
        .map(|entry| u32::from(entry.contracts))
        .sum();
    reach_if(
        contracts > u32::from(u16::MAX),
        "row: over 65,535 contracts at the best",
    );
    let mut others = row.iter().filter(|entry| better(entry.price, price));
    reach_if(
        others.clone().any(|entry| !used(&entry)),
        "row: an empty entry at a better price",
    );
    reach_if(
        others
            .clone()
            .any(|e| used(&e) && e.series != series && e.side == side),
        "row: a better price of another series",
    );
    reach_if(
        others.any(|e| used(&e) && e.series == series && e.side != side),
        "row: a better price of the other side",
    );
}

/// Counts a pair of an opening match, which fills at the price or stops it;
/// `filled` if the match had fills before.
pub fn count_opening_pair(bounds: &Bounds, price: i64, filled: bool) {
    if !counting() {
        return;
    }
    let (buyer, seller) = (bounds.allow(BUY, price), bounds.allow(SELL, price));
    reach_if(!buyer, "opening: a match stops above the buyer's bound");
    reach_if(!seller, "opening: a match stops below the seller's bound");
    reach_if(
        filled && !(buyer && seller),
        "opening: a match fills, then stops",
    );
    reach_if(
        price == bounds.lowest || price == bounds.highest,
        "opening: a match at a bound",
    );
}

/// Whether the order rests in an open strategy without an auction, beside an
/// opposite order that meets its limit.
fn rests_crossed(book: &Book, number: u32) -> bool {
    book.entry(number).is_some_and(|entry| {
        book.all_open(entry.strategy)
            && !book.auction_runs(entry.strategy)
            && book.entries_of(entry.strategy).any(|other| {
                other.side != entry.side
                    && meets(entry.side, i64::from(entry.limit), i64::from(other.limit))
            })
    })
}

/// The strategies with orders that rest crossed.
fn crossed_strategies(book: &Book) -> BTreeSet<i32> {
    (book.entries.iter())
        .filter(|entry| rests_crossed(book, entry.number))
        .map(|entry| i32::from(entry.strategy))
        .collect()
}

/// One fill as its records tell it.
struct Fill {
    strategy: i32,
    active: u32,
    /// The other side's number, where whole met whole.
    other: Option<u32>,
    price: i32,
}

/// The fills of complex orders and sweeps in a row of records.
fn fills(book: &Book, records: &[Record]) -> Vec<Fill> {
    let mut list = Vec::new();
    let mut at = 0;
    while at < records.len() {
        let record = records[at];
        at += 1;
        if record.kind != WHOLE_FILL {
            continue;
        }
        let legs = book.legs(record.place as u8).len();
        let whole = records[at].price == 0;
        at += legs;
        let other = whole.then(|| records[at].number as u32);
        if whole {
            at += 1 + legs;
        }
        list.push(Fill {
            strategy: record.place,
            active: record.number as u32,
            other,
            price: record.price,
        });
    }
    list
}

/// By how many cents a limit is better than a net of its own side.
fn cents_better(side: u8, limit: i32, net: i64) -> i64 {
    let above = i64::from(limit) - net;
    if side == BUY {
        above
    } else {
        -above
    }
}

/// Counts a sweep against the net of its side, as its answer tells (2026-03).
fn count_sweep(before: &Book, event: &Event, answer: u32) {
    let Event::Sweep {
        member,
        strategy,
        side,
        units,
        limit,
    } = *event
    else {
        return;
    };
    // 1 and 4 look at no net.
    if ![0, 9, 10, 12, 13, 15].contains(&answer) {
        return;
    }
    let own = before.leg_prices(strategy, 1 - side);
    let own_net = own.map(|prices| net(&prices));
    let other = before.leg_net(strategy, side);
    let better = own_net.map(|net| cents_better(side, limit, net));
    let nothing = better.is_some_and(|cents| cents <= 0);
    let one_cent = better == Some(1);
    let ready = own.is_some_and(|prices| crate::nets::ready(&prices));
    let below_0 = own_net.is_some_and(|net| net < 0);
    let national =
        (before.national_net(strategy, 1 - side)).map(|net| cents_better(side, limit, net) > 0);
    let replaced = before.sweeps().any(|sweep| {
        (sweep.member, sweep.strategy, sweep.side, sweep.limit) == (member, strategy, side, limit)
    });
    let full = before.sweeps().count() == SWEEPS;
    let last = before.given == LAST_NUMBER;
    match (answer, units) {
        (9, 1..) => reach_if(nothing, "sweep: 9 where it betters nothing"),
        (10, _) => reach_if(nothing, "sweep: 10 where it betters nothing"),
        (0, 0) => {
            reach_if(nothing, "sweep: withdrawn where it betters nothing");
            reach_if(
                nothing && last,
                "numbers: withdrawn where it betters nothing",
            );
        }
        (12, _) => reach_if(better.is_some(), "sweep: 12 where it betters the net"),
        (13, _) => reach_if(
            one_cent,
            "numbers: 13 of a sweep one cent better than the net",
        ),
        (15, _) => {
            reach(match (side, better) {
                (BUY, Some(0)) => "sweep: 15 of a buy at the bid net",
                (BUY, _) => "sweep: 15 of a buy below the bid net",
                (_, Some(0)) => "sweep: 15 of a sell at the offer net",
                _ => "sweep: 15 of a sell above the offer net",
            });
            reach_if(replaced, "sweep: 15 of a replacement");
            reach_if(
                replaced && full,
                "sweep: 15 of a replacement in a full table",
            );
            reach_if(full && !replaced, "sweep: 15 in a full table");
            reach_if(below_0, "sweep: 15 at a net below 0");
            reach_if(!ready, "sweep: 15 at a net that is not ready");
            reach_if(
                other.is_none(),
                "sweep: 15 beside an unknown net of the other side",
            );
            reach_if(
                national == Some(true),
                "sweep: 15 where it betters the national net",
            );
            reach_if(last && !replaced, "numbers: 15 of a new sweep");
            reach_if(last && replaced, "numbers: 15 of a replacement");
        }
        (0, _) => {
            if better.is_none() {
                reach(match side {
                    BUY => "sweep: a buy where the bid net is unknown",
                    _ => "sweep: a sell where the offer net is unknown",
                });
                reach_if(
                    other.is_some(),
                    "sweep: its net is unknown, the other is known",
                );
                return;
            }
            // Its limit does not better the net of the other side as well.
            if other.is_some_and(|net| cents_better(side, limit, net) <= 0) {
                reach(match side {
                    BUY => "sweep: a buy between the nets",
                    _ => "sweep: a sell between the nets",
                });
            }
            reach_if(
                national == Some(false),
                "sweep: betters the net and not the national net",
            );
            if one_cent {
                reach(match side {
                    BUY => "sweep: a buy one cent above the bid net",
                    _ => "sweep: a sell one cent below the offer net",
                });
                reach_if(
                    replaced,
                    "sweep: a replacement one cent better than the net",
                );
                reach_if(below_0, "sweep: one cent better than a net below 0");
                reach_if(
                    !ready,
                    "sweep: one cent better than a net that is not ready",
                );
            }
        }
        _ => {}
    }
}

/// Counts how an event other than a clock moved the nets of strategies whose auction
/// goes on, and what that means for the live sweeps.
fn count_net_moves(before: &Book, event: &Event, after: &Book) {
    let cancel = matches!(event, Event::Cancel { .. });
    let goes_on = |strategy: &u8| before.auction_runs(*strategy) && after.auction_runs(*strategy);
    for strategy in (0..before.strategies.len() as u8).filter(goes_on) {
        for side in [BUY, SELL] {
            let net = |book: &Book| book.leg_net(strategy, 1 - side);
            match (net(before), net(after)) {
                (None, Some(_)) => reach("auction: a net becomes known"),
                (Some(_), None) if cancel => reach("auction: a net becomes unknown by a cancel"),
                (Some(_), None) => reach("auction: a net becomes unknown by fills"),
                (Some(old), Some(new)) if old != new => {
                    reach(match (strictly_better(1 - side, new, old), cancel) {
                        (true, _) => "auction: a net becomes better",
                        (false, true) => "auction: a net becomes worse by a cancel",
                        (false, false) => "auction: a net becomes worse by fills",
                    })
                }
                _ => {}
            }
        }
        let live = |sweep: &&Entry| after.live(sweep.number) > 0 && sweep.strategy == strategy;
        for sweep in before.sweeps().filter(live) {
            let betters = |book: &Book| book.betters_own_net(strategy, sweep.side, sweep.limit);
            match (betters(before), betters(after)) {
                (Some(true), Some(false)) => reach("auction: a net passes a live sweep"),
                (None, Some(false)) => reach("auction: a net that was unknown passes a live sweep"),
                _ => {}
            }
        }
    }
}

/// The nets that the book keeps for the strategy.
fn kept(book: &Book, strategy: u8) -> Nets {
    book.strategies[usize::from(strategy)].nets
}

/// Counts a definition of this number and the nets that it set, and remembers them; and
/// a day end with the nets before it (2026-05).
fn count_set_nets(before: &Book, event: &Event, number: u32, after: &Book) {
    if let Event::DayEnd { .. } = event {
        let mut ended = [Nets::UNKNOWN; STRATEGIES];
        for (nets, held) in ended.iter_mut().zip(before.strategies.iter()) {
            *nets = held.nets;
        }
        reach_if(
            ended.iter().any(|nets| *nets != Nets::UNKNOWN),
            "nets: a day end with known ones",
        );
        return ENDED.set(ended);
    }
    if !matches!(event, Event::Strategy { .. }) {
        return;
    }
    let at = number as usize;
    let nets = kept(after, number as u8);
    let mut defined = DEFINED.get();
    if at < before.strategies.len() {
        return reach_if(
            nets != defined[at],
            "nets: an equal definition after a change",
        );
    }
    defined[at] = nets;
    DEFINED.set(defined);
    let ended = ENDED.get()[at];
    reach_if(
        ended != Nets::UNKNOWN && ended != nets,
        "nets: a definition where the day before had others",
    );
    let held = after.strategies[at];
    if (after.leg_orders.iter()).any(|order| held.holds(order.series)) {
        reach(match (nets.bid, nets.offer) {
            (None, None) => "nets: a definition over leg orders, both unknown",
            (Some(_), Some(_)) => "nets: a definition over leg orders, both known",
            _ => "nets: a definition over leg orders, one known",
        });
    }
}

/// Counts an order or sweep that the net of its definition would judge otherwise than
/// the net of now (2026-05).
fn count_checked(before: &Book, event: &Event, answer: &Answer) {
    let defined = |strategy: u8| DEFINED.get()[usize::from(strategy)];
    let betters = |net: Option<i64>, side, limit| net.map(|net| cents_better(side, limit, net) > 0);
    match *event {
        Event::Complex {
            strategy,
            side,
            class: 1 | 2,
            life: DAY | IMMEDIATE,
            limit,
            ..
        } if answer.answer == 0 && before.all_open(strategy) && !before.auction_runs(strategy) => {
            let by_definition = betters(defined(strategy).taken_by(1 - side), side, limit);
            let would_start = by_definition == Some(true);
            let starts = answer.records.iter().any(|r| r.kind == AUCTION_BEGUN);
            reach_if(
                starts && !would_start,
                "nets: an auction that the net of the definition would not start",
            );
            reach_if(
                !starts && would_start,
                "nets: no auction where the net of the definition would start one",
            );
        }
        Event::Sweep {
            strategy,
            side,
            units: 1..,
            limit,
            ..
        } if [0, 15].contains(&answer.answer) => {
            let by_definition = betters(defined(strategy).taken_by(1 - side), side, limit);
            let would_refuse = by_definition == Some(false);
            reach_if(
                answer.answer == 15 && !would_refuse,
                "nets: 15 where the net of the definition would let the sweep in",
            );
            reach_if(
                answer.answer == 0 && would_refuse,
                "nets: a sweep that the net of the definition would refuse",
            );
        }
        _ => {}
    }
}

/// What touched leg orders in an event.
#[derive(Clone, Copy, PartialEq, Eq)]
enum Touch {
    Rest,
    Trade,
    FillByLegs,
    Cancel,
    /// A leg order that rests after trades, or whose rest is filled by legs.
    Several,
}

/// What touched leg orders in an event other than a day end; nothing where none changed.
fn touch(before: &Book, event: &Event, answer: &Answer, after: &Book) -> Option<Touch> {
    if before.leg_orders == after.leg_orders {
        return None;
    }
    let whole_fills = answer.records.iter().any(|r| r.kind == WHOLE_FILL);
    let rests = after.live(answer.value) > 0;
    Some(match event {
        Event::Cancel { .. } => Touch::Cancel,
        Event::LegOrder { .. } => match (answer.records.is_empty(), whole_fills, rests) {
            (true, _, _) => Touch::Rest,
            (false, false, false) => Touch::Trade,
            _ => Touch::Several,
        },
        _ => Touch::FillByLegs,
    })
}

/// Counts how an event other than a day end changed the nets that are kept (2026-05).
fn count_kept_nets(before: &Book, event: &Event, answer: &Answer, after: &Book) {
    let known = |strategy: &u8| kept(before, *strategy) != Nets::UNKNOWN;
    if let Event::Series { series, state: 0 } = *event {
        reach_if(
            before.is_open(series) && before.strategies_holding(series).any(|s| known(&s)),
            "nets: a series shuts, they stay known",
        );
    }
    let Some(touch) = touch(before, event, answer, after) else {
        return;
    };
    let mut changed = 0;
    for strategy in 0..before.strategies.len() as u8 {
        let (old, new) = (kept(before, strategy), kept(after, strategy));
        if old == new {
            continue;
        }
        changed += 1;
        for side in [BUY, SELL] {
            count_change(old.taken_by(side), new.taken_by(side), touch);
        }
        let both = old.bid != new.bid && old.offer != new.offer;
        reach_if(both, "nets: both of a strategy changed");
        let other_unknown = |old: Option<i64>, new: Option<i64>| old.is_none() && new.is_none();
        reach_if(
            other_unknown(old.bid, new.bid) || other_unknown(old.offer, new.offer),
            "nets: one changed, the other unknown",
        );
        if !after.all_open(strategy) {
            let touched = |series: u8| {
                [BUY, SELL]
                    .iter()
                    .any(|side| before.depth(series, *side) != after.depth(series, *side))
            };
            let mut legs = after.legs(strategy).iter();
            let shut = legs.any(|leg| touched(leg.series) && !after.is_open(leg.series));
            reach(match shut {
                true => "nets: changed by a cancel in a shut series",
                false => "nets: changed beside a shut series",
            });
        }
    }
    reach_if(changed > 1, "nets: several strategies changed");
    count_unchanged(before, event, answer, after, touch);
}

/// Counts one net before and after it was touched.
fn count_change(old: Option<i64>, new: Option<i64>, touch: Touch) {
    let situation = match (old, new, touch) {
        (None, Some(_), _) => "nets: known by a leg order that rests",
        (Some(_), None, Touch::Trade) => "nets: unknown by a trade",
        (Some(_), None, Touch::FillByLegs) => "nets: unknown by a fill by legs",
        (Some(_), None, Touch::Cancel) => "nets: unknown by a cancel",
        (Some(old), Some(new), _) if old == new => return,
        (Some(_), Some(_), Touch::Rest) => "nets: another by a leg order that rests",
        (Some(_), Some(_), Touch::Trade) => "nets: another by a trade",
        (Some(_), Some(_), Touch::FillByLegs) => "nets: another by a fill by legs",
        (Some(_), Some(_), Touch::Cancel) => "nets: another by a cancel",
        _ => return,
    };
    reach(situation);
    reach_if(new == Some(0), "nets: 0 after a change");
    reach_if(
        new.is_some_and(|net| net < 0),
        "nets: below 0 after a change",
    );
}

/// Counts nets that stay as they are while leg orders of their strategy change.
fn count_unchanged(before: &Book, event: &Event, answer: &Answer, after: &Book, touch: Touch) {
    for strategy in 0..before.strategies.len() as u8 {
        let nets = kept(after, strategy);
        if kept(before, strategy) != nets {
            continue;
        }
        for leg in after.legs(strategy) {
            for side in [BUY, SELL] {
                let (old, new) = (
                    before.depth(leg.series, side),
                    after.depth(leg.series, side),
                );
                let orders = |book: &Book| book.leg_orders_of(leg.series, side).count();
                let price = |best: Option<Depth>| best.map(|best| best.price);
                if price(old) != price(new) {
                    reach("nets: unknown at another best price");
                } else if nets == Nets::UNKNOWN {
                    continue;
                } else if old == new && orders(before) != orders(after) {
                    match touch {
                        Touch::Rest => reach("nets: kept, a leg order behind the best price"),
                        Touch::Cancel => reach("nets: kept, a cancel behind the best price"),
                        _ => {}
                    }
                } else if old != new {
                    reach(match touch {
                        Touch::Rest => "nets: kept, a leg order at the best price",
                        Touch::Cancel => "nets: kept, a cancel of one of several at the best price",
                        Touch::Trade => "nets: kept, a trade with a part of the best price",
                        _ => "nets: kept, a fill by legs with a part of the best prices",
                    });
                }
            }
        }
        if let Event::LegOrder {
            series,
            side,
            price,
            ..
        } = *event
        {
            let best = before.depth(series, side);
            let better = best.is_none_or(|best| {
                strictly_better(1 - side, i64::from(price), i64::from(best.price))
            });
            let filled = answer.records.iter().any(|r| r.kind == WHOLE_FILL);
            reach_if(
                better && filled && after.live(answer.value) == 0 && nets != Nets::UNKNOWN,
                "nets: as before, a better leg order was filled by legs",
            );
        }
    }
}

/// Counts fills by legs that read a net which a fill of the same event changed (2026-05).
fn count_reread(before: &Book, event: &Event, answer: &Answer, after: &Book, fills: &[Fill]) {
    for pair in fills.windows(2) {
        let [first, second] = pair else { continue };
        if first.active != second.active || first.other.is_some() {
            continue;
        }
        reach_if(
            second.other.is_none() && first.price != second.price,
            "nets: a turn by legs at another net than the fill before",
        );
        reach_if(
            second.other.is_some(),
            "nets: a limit taken after a fill by legs",
        );
    }
    match *event {
        Event::Complex {
            strategy,
            side,
            limit,
            ..
        } if fills.last().is_some_and(|fill| fill.other.is_none()) => {
            let number = answer.value as i32;
            let cancelled = |r: &Record| r.kind == CANCELLED && r.number == number;
            if after.live(answer.value) == 0 && !answer.records.iter().any(cancelled) {
                return;
            }
            match kept(after, strategy).taken_by(side) {
                None => reach("nets: a pass ends, its fill made the net unknown"),
                Some(net) => reach_if(
                    !meets(side, i64::from(limit), net),
                    "nets: a pass ends, its fill made the net worse than the limit",
                ),
            }
        }
        // No leg order comes in these, so what moved a net was a fill.
        Event::Series { .. } | Event::Clock { .. } => {
            let by_legs = |fill: &&Fill| fill.other.is_none();
            for (at, fill) in fills.iter().enumerate().filter(|(_, fill)| by_legs(fill)) {
                let strategy = fill.strategy as u8;
                let other = |earlier: &Fill| earlier.strategy != fill.strategy;
                let own = |earlier: &Fill| earlier.strategy == fill.strategy;
                let mut earlier = fills[..at].iter().filter(by_legs);
                let side = before.entry(fill.active).map_or(BUY, |entry| entry.side);
                let net = kept(before, strategy).taken_by(side);
                reach_if(
                    earlier.clone().any(other)
                        && !earlier.any(own)
                        && net != Some(i64::from(fill.price)),
                    "nets: a fill by legs at a net that another strategy's fill changed",
                );
            }
        }
        _ => {}
    }
}

/// Counts the situations of one event, from the book before it and after it, and its
/// answer: of a refused one those of a sweep or of kind 11.
pub fn observe(before: &Book, frame: &[u8], answer: &Answer, after: &Book) {
    let Ok(event) = read(frame) else {
        return;
    };
    count_sweep(before, &event, answer.answer);
    count_named(before, &event, answer.answer);
    count_checked(before, &event, answer);
    if answer.answer != 0 {
        return;
    }
    count_set_nets(before, &event, answer.value, after);
    if !matches!(event, Event::DayEnd { .. }) {
        count_kept_nets(before, &event, answer, after);
    }
    if !matches!(event, Event::Clock { .. }) {
        count_net_moves(before, &event, after);
    }
    let records = &answer.records;
    let filled = records.iter().any(|record| record.kind == WHOLE_FILL);
    let ended = records.iter().filter(|r| r.kind == AUCTION_ENDED).count();
    count_leg_order(before, &event, answer.value, records);
    count_best(before, &event, after);
    let fills_made = fills(before, records);
    let by_legs_again = |pair: &[Fill]| {
        pair[0].active == pair[1].active && pair.iter().all(|fill| fill.other.is_none())
    };
    reach_if(
        fills_made.windows(2).any(by_legs_again),
        "legs: a pass goes on at the next prices",
    );
    count_reread(before, &event, answer, after, &fills_made);
    match event {
        Event::Strategy { .. } => {
            let equal = (answer.value as usize) < before.strategies.len();
            reach_if(equal, "strategy: equal to a held one");
            reach_if(
                equal && before.strategies.len() == STRATEGIES,
                "strategy: equal in a full table",
            );
        }
        Event::Complex {
            strategy,
            side,
            life,
            limit,
            ..
        } => {
            if !before.all_open(strategy) {
                reach_if(life == DAY, "complex: rests beside a shut series");
                reach_if(life != DAY, "complex: cancelled at a shut series");
            } else if before.auction_runs(strategy) {
                let cancelled = life == DO_NOT_AUCTION;
                reach_if(cancelled, "complex: do-not-auction cancelled in an auction");
                reach_if(!cancelled, "complex: waits in an auction");
            } else if records.iter().any(|r| r.kind == AUCTION_BEGUN) {
                let met = before.entries_of(strategy).any(|entry| {
                    entry.side != side && meets(side, i64::from(limit), i64::from(entry.limit))
                });
                reach_if(met, "complex: starter met on arrival");
                let running = before.auctions.iter().flatten().count();
                reach_if(running >= 1, "complex: second auction at once");
                reach_if(running >= 3, "complex: fourth auction at once");
            } else {
                reach_if(filled, "complex: fills on arrival");
                let prices: BTreeSet<i32> =
                    fills(before, records).iter().map(|f| f.price).collect();
                reach_if(prices.len() >= 2, "complex: fills at two prices or more");
                reach_if(prices.len() >= 4, "complex: fills at four prices or more");
                let unready = before.leg_prices(strategy, side).is_some_and(|prices| {
                    !crate::nets::ready(&prices) && meets(side, i64::from(limit), net(&prices))
                });
                reach_if(unready, "complex: the net meets and is not ready");
                reach_if(rests_crossed(after, answer.value), "complex: rests crossed");
                let others = fills(before, records);
                let mut others = others.iter().filter_map(|fill| fill.other);
                reach_if(
                    others.any(|number| rests_crossed(before, number)),
                    "complex: fills an order that rested crossed",
                );
            }
        }
        Event::Sweep { units, .. } => {
            let old = records.iter().any(|record| record.kind == CANCELLED);
            reach_if(old && units == 0, "sweep: withdrawn");
            reach_if(old && units > 0, "sweep: replaced");
            reach_if(
                old && units > 0 && before.sweeps().count() == SWEEPS,
                "sweep: replaced in a full table",
            );
        }
        Event::LegOrder { .. } => {
            let trades = records.iter().take_while(|r| r.kind == LEG_FILL).count() / 2;
            reach_if(trades == 1, "leg order: one trade");
            reach_if(trades > 1, "leg order: several trades");
            reach_if(filled, "leg order: resting orders fill by legs");
            reach_if(
                filled && trades > 0,
                "leg order: trades, then resting orders fill by legs",
            );
            let places: BTreeSet<i32> = (fills(before, records).iter())
                .map(|fill| fill.strategy)
                .collect();
            reach_if(places.len() > 1, "leg order: fills in several strategies");
            let mut active = fills(before, records).into_iter().map(|fill| fill.active);
            reach_if(
                active.any(|number| rests_crossed(before, number)),
                "leg order: an order that rests crossed fills by legs",
            );
        }
        Event::Cancel { .. } => {}
        Event::Series { .. } => {
            reach_if(ended > 0, "shut: an auction ends");
            reach_if(ended > 1, "shut: several auctions end");
            count_opening(before, records, after);
        }
        Event::Clock { .. } => {
            reach_if(ended > 0, "clock: an auction ends");
            reach_if(ended > 1, "clock: several auctions end");
            let running = after.auctions.iter().flatten().count();
            reach_if(running > 0, "clock: an auction goes on");
            let mut rest = &records[..];
            while let Some(last) = rest.iter().position(|r| r.kind == AUCTION_ENDED) {
                count_end(before, &rest[..last], rest[last], after);
                rest = &rest[last + 1..];
            }
        }
        Event::DayEnd { .. } => {
            reach_if(ended > 0, "day end: an auction ends");
            reach_if(ended > 1, "day end: several auctions end");
            let national = &before.national;
            reach_if(
                national.known() != 0 && national.range != FRESH_RANGE,
                "day end: national prices and a range are set",
            );
            reach_if(
                before.specialists.iter().any(Option::is_some),
                "day end: a specialist is named",
            );
        }
        Event::NationalPrices { series, bid, offer } => {
            reach(match (bid, offer) {
                (0, 0) => "national: both prices missing",
                (0, _) | (_, 0) => "national: one price missing",
                _ => "national: both prices known",
            });
            reach_if(bid != 0 && bid == offer, "national: equal prices");
            let gone = |side, price| price == 0 && before.national.price(series, side).is_some();
            reach_if(
                gone(BUY, bid) || gone(SELL, offer),
                "national: a price is taken away",
            );
        }
        Event::ExecutionRange { cents } => {
            let (old, new) = (before.national.range, u32::from(cents));
            reach_if(new == 0, "range: 0");
            reach_if(new < old, "range: narrowed");
            reach_if(new > old, "range: widened");
            reach_if(
                new > old && !crossed_strategies(before).is_empty(),
                "range: widened where orders rest crossed",
            );
        }
        Event::Specialist { .. } => {}
    }
}

/// Counts what an opening did.
fn count_opening(before: &Book, records: &[Record], after: &Book) {
    let fills = fills(before, records);
    let mut places = BTreeSet::new();
    for fill in &fills {
        let Some(other) = fill.other else { continue };
        places.insert(fill.strategy);
        let limit = |number| before.entry(number).map(|entry| entry.limit);
        let buy = before.entry(fill.active);
        let buy_active = buy.is_some_and(|entry| entry.side == BUY);
        if limit(fill.active) != limit(other) {
            reach_if(buy_active, "opening: at the buy's limit");
            reach_if(!buy_active, "opening: at the sell's limit");
        }
    }
    let by_legs = fills.iter().any(|fill| fill.other.is_none());
    reach_if(!places.is_empty(), "opening: a strategy matches");
    reach_if(places.len() > 1, "opening: several strategies match");
    reach_if(by_legs, "opening: orders fill by legs");
    reach_if(
        by_legs && !places.is_empty(),
        "opening: matches, then fills by legs",
    );
    // Strategies that were shut before and stay crossed.
    let mut crossed = crossed_strategies(after);
    crossed.retain(|strategy| !before.all_open(*strategy as u8));
    for strategy in &crossed {
        reach_if(
            places.iter().any(|place| place != strategy),
            "opening: a strategy stays crossed, another matches",
        );
        reach_if(
            by_legs,
            "opening: a strategy stays crossed, orders fill by legs",
        );
    }
}

/// Counts what the end of one auction did; `ended` is its record 5.
fn count_end(before: &Book, records: &[Record], ended: Record, after: &Book) {
    let starter = ended.number as u32;
    let strategy = ended.place as u8;
    let Some(auction) = before.auctions[usize::from(strategy)] else {
        return;
    };
    let opposite_live = before
        .entries_of(strategy)
        .any(|entry| entry.number > starter && entry.side != auction.side);
    reach_if(auction.legs_barred, "end: legs barred for the starter");
    reach_if(
        auction.legs_barred && !opposite_live,
        "end: legs barred by what is gone",
    );
    let fills = fills(before, records);
    let (own, others): (Vec<&Fill>, Vec<&Fill>) =
        fills.iter().partition(|fill| fill.active == starter);
    let by_legs = own.iter().any(|fill| fill.other.is_none());
    let whole = own.iter().any(|fill| fill.other.is_some());
    reach_if(whole && !by_legs, "end: the starter fills whole only");
    reach_if(by_legs && !whole, "end: the starter fills by legs only");
    reach_if(whole && by_legs, "end: the starter fills by both");
    let is_sweep = |number: u32| before.sweeps().any(|sweep| sweep.number == number);
    if let Some(named) = before.specialists[usize::from(strategy)] {
        let holds = |number: u32| {
            before
                .entry(number)
                .is_some_and(|entry| named.holds(&entry))
        };
        let met = |fill: &&&Fill| fill.other.is_some_and(holds);
        // What of a sweep the starter left, it left by its portion.
        let left = |fill: &Fill| {
            let later = |record: &&Record| fill.other == Some(record.number as u32);
            let own = records.iter().filter(later);
            let filled = own.filter(|r| r.kind == WHOLE_FILL).count();
            let cancelled = |record: &Record| later(&record) && record.kind == CANCELLED;
            filled > 1 || records.iter().any(cancelled)
        };
        let sweeps: Vec<&&Fill> = own.iter().filter(met).collect();
        if let Some(last) = sweeps.last().filter(|fill| left(fill)) {
            reach_if(
                own.iter().any(|fill| fill.price != last.price),
                "end: the specialist's portion after fills at another limit",
            );
            reach_if(
                sweeps.iter().any(|fill| fill.price != last.price),
                "end: the specialist's sweep in full, then its portion at another limit",
            );
        }
        reach_if(
            others.iter().any(|fill| met(&fill)),
            "end: a later pass meets the specialist's sweep",
        );
    }
    for fill in others {
        reach_if(fill.other.is_none(), "end: a waiting order uses legs");
        reach_if(is_sweep(fill.active), "end: a sweep's own pass fills");
        reach_if(
            !is_sweep(fill.active),
            "end: a waiting order's own pass fills",
        );
        reach_if(
            fill.other == Some(starter),
            "end: a later pass meets the starter's rest",
        );
        reach_if(
            fill.other.is_some_and(|other| other < starter),
            "end: a later pass meets an order from before",
        );
    }
    for sweep in before.sweeps().filter(|sweep| sweep.strategy == strategy) {
        if before.betters_own_net(strategy, sweep.side, sweep.limit) == Some(false) {
            let wrote = |kind: i32| {
                let own = |record: &Record| record.number == sweep.number as i32;
                (records.iter()).any(|record| record.kind == kind && own(record))
            };
            reach_if(
                wrote(WHOLE_FILL),
                "end: a sweep fills that the net has passed",
            );
            reach_if(
                wrote(CANCELLED),
                "end: a sweep that the net has passed is cancelled",
            );
        }
    }
    reach_if(after.live(starter) > 0, "end: a day starter rests");
    let cancelled = |record: &Record| record.kind == CANCELLED && record.number == ended.number;
    reach_if(
        records.iter().any(cancelled),
        "end: an immediate starter is cancelled",
    );
}
