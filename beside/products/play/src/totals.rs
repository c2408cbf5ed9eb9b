//! The totals of one day in words.

use crate::grouping::Group;
use crate::parties::{Parties, Sort};
use crate::printed::{Answer, Record};
use assemble::plural::counted;
use std::collections::BTreeMap;

/// Of side 0 and of side 1.
type Sides = [i128; 2];

/// How many fills or cancels there were of one sort, and of how much.
#[derive(Default)]
struct Sum {
    count: u64,
    quantity: i128,
}

impl Sum {
    fn add(&mut self, record: &Record) {
        self.count += 1;
        self.quantity += i128::from(record.quantity);
    }

    /// Of those of this sort, in these units; nothing where there are none.
    fn words(&self, sort: &str, what: &str) -> Option<String> {
        let quantity = counted(self.quantity, what);
        (self.count > 0).then(|| format!("{} {sort} ({quantity})", self.count))
    }
}

#[derive(Default)]
pub struct Totals {
    events: u64,
    accepted: u64,
    /// How often each refusal was given.
    refused: BTreeMap<i64, u64>,
    begun: u64,
    ended: u64,
    whole: Sum,
    legs: Sum,
    trades: Sum,
    cancelled_whole: Sum,
    cancelled_leg: Sum,
    /// Records that fit no sentence.
    alone: u64,
    contracts: BTreeMap<i64, Sides>,
    cash: Sides,
}

impl Totals {
    pub fn answer(&mut self, answer: &Answer) {
        self.events += 1;
        match answer.answer {
            0 => self.accepted += 1,
            refusal => *self.refused.entry(refusal).or_default() += 1,
        }
    }

    pub fn group(&mut self, group: &Group, parties: &Parties) {
        match group {
            Group::AuctionBegun(_) => self.begun += 1,
            Group::AuctionEnded(_) => self.ended += 1,
            Group::Cancelled(record) => match parties.sort(record.number) {
                Some(Sort::Leg) => self.cancelled_leg.add(record),
                _ => self.cancelled_whole.add(record),
            },
            Group::Whole { active, .. } => self.whole.add(active),
            Group::Legs { active, .. } => self.legs.add(active),
            Group::Trade(one, _) => self.trades.add(one),
            Group::Alone(_) => self.alone += 1,
        }
    }

    /// "Bought sums a series' records 2 of side 0"; "cash paid sums quantity ×
    /// price over the fills of side 0", a fill being "a record 1, or a leg
    /// order's record 2".
    pub fn record(&mut self, record: &Record, parties: &Parties) {
        let Ok(side) = usize::try_from(record.side) else {
            return;
        };
        if side > 1 {
            return;
        }
        let quantity = i128::from(record.quantity);
        if record.kind == 2 {
            self.contracts.entry(record.place).or_default()[side] += quantity;
        }
        let of_leg_order = parties.sort(record.number) == Some(Sort::Leg);
        if record.kind == 1 || (record.kind == 2 && of_leg_order) {
            self.cash[side] += quantity * i128::from(record.price);
        }
    }

    pub fn is_empty(&self) -> bool {
        self.events == 0
    }

    pub fn events(&self) -> u64 {
        self.events
    }

    /// A sentence a line.
    pub fn lines(&self, parties: &Parties) -> Vec<String> {
        let mut lines = vec![
            self.answers(),
            self.auctions(),
            self.fills(),
            self.cancels(),
        ];
        if self.alone > 0 {
            let records = counted(self.alone, "record");
            lines.push(format!("{records} told one by one"));
        }
        lines.extend(self.contracts.iter().map(|(series, [bought, sold])| {
            let bought = counted(*bought, "contract");
            format!("series {series}: {bought} bought, {sold} sold")
        }));
        let [paid, received] = self.cash;
        lines.push(format!("cash in cents: {paid} paid, {received} received"));
        let live = parties.live();
        if live.is_empty() {
            lines.push("nothing is live".to_string());
        }
        lines.extend(live.iter().map(|live| format!("live: {live}")));
        lines
    }

    fn answers(&self) -> String {
        let accepted = counted(self.accepted, "event");
        let refused: u64 = self.refused.values().sum();
        let by_number: Vec<String> = (self.refused.iter())
            .map(|(refusal, count)| format!("{count} with {refusal}"))
            .collect();
        match by_number.is_empty() {
            true => format!("{accepted} accepted, none refused"),
            false => format!(
                "{accepted} accepted, {refused} refused: {}",
                by_number.join(", ")
            ),
        }
    }

    fn auctions(&self) -> String {
        match (self.begun, self.ended) {
            (0, 0) => "no auctions".to_string(),
            (begun, ended) => format!("{} begun, {ended} ended", counted(begun, "auction")),
        }
    }

    fn fills(&self) -> String {
        sums(
            "fill",
            &[
                (&self.whole, "of whole with whole", "unit"),
                (&self.legs, "of whole with the legs", "unit"),
                (&self.trades, "of leg orders alone", "contract"),
            ],
        )
    }

    fn cancels(&self) -> String {
        sums(
            "cancel",
            &[
                (
                    &self.cancelled_whole,
                    "of complex orders and sweeps",
                    "unit",
                ),
                (&self.cancelled_leg, "of leg orders", "contract"),
            ],
        )
    }
}

/// How many there were, and of each sort that there was how many and how much.
fn sums(name: &str, sorts: &[(&Sum, &str, &str)]) -> String {
    let count: u64 = sorts.iter().map(|(sum, ..)| sum.count).sum();
    let words: Vec<String> = (sorts.iter())
        .filter_map(|(sum, sort, what)| sum.words(sort, what))
        .collect();
    match count {
        0 => format!("no {name}s"),
        _ => format!("{}: {}", counted(count, name), words.join(", ")),
    }
}
