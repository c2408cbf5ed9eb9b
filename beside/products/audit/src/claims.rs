//! The claims of "The totals after a list" and of requests 2026-01 and 2026-03: what of
//! them does not hold on a day.

use crate::national::Bounded;
use crate::sweeps::Arrival;
use crate::totals::{Entry, Totals};

/// Says what does not hold, in the order of the tables.
pub fn check(totals: &Totals, fails: &mut impl FnMut(String)) {
    for entry in totals.entries() {
        check_sum(totals, &entry, fails);
    }
    check_others(totals, fails);
    for entry in totals.entries() {
        check_limit(&entry, fails);
    }
    check_bounded(totals, fails);
    check_sweeps(totals, fails);
    for entry in totals.entries() {
        check_legs(totals, &entry, fails);
    }
    check_trades(totals, fails);
}

fn check_sum(totals: &Totals, entry: &Entry, fails: &mut impl FnMut(String)) {
    let Entry {
        number,
        filled,
        cancelled,
        live,
        whole_fills,
        ..
    } = entry;
    if !entry.sum_holds() {
        fails(format!(
            "number {number}: entered {}, but filled {filled} + cancelled {cancelled} + live {live} = {}",
            entry.terms.quantity,
            filled + cancelled + live
        ));
    }
    if let (Some(strategy), false) = (entry.strategy(), totals.defines(entry)) {
        fails(format!(
            "number {number}: no accepted event of the day defines strategy {strategy}"
        ));
    }
    if *whole_fills > 0 {
        fails(format!(
            "number {number}: a leg order, and has records 1: {whole_fills}"
        ));
    }
}

fn check_others(totals: &Totals, fails: &mut impl FnMut(String)) {
    for other in totals.others() {
        let number = other.number;
        if other.records > 0 {
            fails(format!(
                "number {number}: did not enter, and has records 1 to 3: {}",
                other.records
            ));
        }
        if other.live != 0 {
            fails(format!(
                "number {number}: did not enter, and has live {}",
                other.live
            ));
        }
    }
}

fn check_limit(entry: &Entry, fails: &mut impl FnMut(String)) {
    let Some(worst) = entry.worst.filter(|_| !entry.limit_holds()) else {
        return;
    };
    let than = match entry.terms.side {
        0 => "above",
        _ => "below",
    };
    fails(format!(
        "number {}: filled at {worst}, {than} its limit {}",
        entry.number, entry.terms.limit
    ));
}

fn check_bounded(totals: &Totals, fails: &mut impl FnMut(String)) {
    for (number, fills) in totals.bounded() {
        let Bounded {
            side,
            price,
            net,
            range,
        } = fills.worst;
        if !fills.worst.holds() {
            fails(match side {
                0 => format!(
                    "number {number}: filled at {price}, above the national offer net {net} + range {range} = {}",
                    net + range
                ),
                _ => format!(
                    "number {number}: filled at {price}, below the national bid net {net} - range {range} = {}",
                    net - range
                ),
            });
        }
    }
}

fn check_sweeps(totals: &Totals, fails: &mut impl FnMut(String)) {
    for (number, arrival) in totals.sweeps() {
        let Arrival { side, limit, net } = arrival;
        if let (Some(net), false) = (net, arrival.holds()) {
            fails(match side {
                0 => format!(
                    "number {number}: a sweep that buys at {limit}, not above the bid net {net} of its arrival"
                ),
                _ => format!(
                    "number {number}: a sweep that sells at {limit}, not below the offer net {net} of its arrival"
                ),
            });
        }
    }
}

fn check_legs(totals: &Totals, entry: &Entry, fails: &mut impl FnMut(String)) {
    let legs = totals.on_legs(entry);
    for leg in legs.iter().filter(|leg| !entry.leg_holds(leg)) {
        fails(format!(
            "number {}, series {}: {} contracts, but ratio {} x {} units = {}",
            entry.number,
            leg.series,
            leg.contracts,
            leg.ratio,
            entry.filled,
            entry.due(leg)
        ));
    }
}

fn check_trades(totals: &Totals, fails: &mut impl FnMut(String)) {
    for (series, traded) in totals.series() {
        if traded.bought != traded.sold {
            fails(format!(
                "series {series}: bought {}, but sold {}",
                traded.bought, traded.sold
            ));
        }
    }
    let cash = totals.cash();
    if cash.paid != cash.received {
        fails(format!(
            "cash: paid {}, but received {}",
            cash.paid, cash.received
        ));
    }
}
