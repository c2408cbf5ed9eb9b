//! What the compared lists held: calls by kind and answer, spaces and frames by
//! sort, the lines of the lookups by what they tell, and the situations that the
//! book reached.

use crate::lists::{best_orders, is_passed, is_specialist_s, rests_crossed};
use reckoning::book::{Book, BUY, SELL, SPACE};
use reckoning::calls::items;
use reckoning::national::FRESH_RANGE;
use reckoning::nets::ready;
use std::collections::BTreeMap;
use std::fmt;
use tapes::tally::{kind_of, kinds, name_of, situations};

#[derive(Default)]
pub struct Tally {
    pub lists: u64,
    pub bytes: u64,
    pub lines: u64,
    /// Calls by kind, or `OTHER`, and answer.
    pub calls: BTreeMap<(u32, u32), u64>,
    /// Records by kind.
    pub records: BTreeMap<u32, u64>,
    /// The highest value answered, and the highest number with something live.
    pub highest: u32,
    pub highest_live: u32,
    /// How often each of `SEEN` was seen.
    pub seen: BTreeMap<&'static str, u64>,
    pub situations: BTreeMap<&'static str, u64>,
}

/// Everything that is counted and has to be seen.
pub const SEEN: &[&str] = &[
    "cut",
    "D at the best of several prices",
    "D at the best of three prices or more",
    "D before a worse price",
    "D behind a worse price",
    "D of bids",
    "D of offers",
    "D of one order",
    "D of one order with fewer contracts than a worse price",
    "D of several orders",
    "D of several orders behind a worse price",
    "D of the one side, the other being empty",
    "D in a shut series",
    "L in a list without a sweep",
    "L of a complex order",
    "L of a leg order",
    "L of a specialist's sweep",
    "L of a sweep",
    "L of a sweep that the net has passed",
    "L of an auction's starter",
    "L of an order that rests crossed",
    "N above 0",
    "N below 0",
    "N beside a shut leg",
    "N of a strategy in an auction",
    "N of legs that are not ready",
    "N of strategy 15",
    "N with both known",
    "N with both unknown",
    "N with the bid net alone",
    "N with the offer net alone",
    "S with a shut leg that is not the first",
    "S with every leg shut",
    "S with one shut leg",
    "S with several shut legs",
    "S without a shut leg",
    "frame: empty",
    "frame: its length field is wrong",
    "frame: under 4 bytes",
    "list: all tables but the strategies are used",
    "list: an auction runs",
    "list: another range than 9,999",
    "list: a specialist is named",
    "list: every lookup is empty",
    "list: national prices are known",
    "list: several auctions run",
    "list: several specialists are named",
    "list: 16 complex orders",
    "list: 16 strategies",
    "list: 16 sweeps",
    "list: 32 leg orders",
    "space: 0",
    "space: 15,359",
    "space: 15,360",
    "space: 15,361",
    "space: 65,535",
    "space: another long one",
    "space: another short one",
];

impl Tally {
    fn see(&mut self, what: &'static str) {
        self.see_if(true, what);
    }

    fn see_if(&mut self, condition: bool, what: &'static str) {
        assert!(SEEN.contains(&what), "{what} is not listed");
        if condition {
            *self.seen.entry(what).or_default() += 1;
        }
    }

    /// Adds a list with the lines that were printed for it and found right, and
    /// the reckoning's book after it.
    pub fn add(&mut self, input: &[u8], printed: &[u8], book: &Book) {
        let (calls, _) = items(input);
        self.lists += 1;
        self.bytes += input.len() as u64;
        for call in &calls {
            let length = call.frame.len();
            self.see(match call.space {
                0 => "space: 0",
                15_359 => "space: 15,359",
                SPACE => "space: 15,360",
                15_361 => "space: 15,361",
                65_535 => "space: 65,535",
                1..SPACE => "space: another short one",
                _ => "space: another long one",
            });
            self.see_if(length == 0, "frame: empty");
            self.see_if(length < 4, "frame: under 4 bytes");
            if let [low, high, _, _, ..] = call.frame[..] {
                let field = u16::from_le_bytes([low, high]);
                self.see_if(
                    usize::from(field) != length,
                    "frame: its length field is wrong",
                );
            }
        }
        let text = String::from_utf8_lossy(printed);
        let mut index = 0;
        let mut lookups = false;
        for line in text.lines() {
            self.lines += 1;
            let words: Vec<&str> = line.split(' ').collect();
            let number = |at: usize| words.get(at).and_then(|word| word.parse::<u32>().ok());
            let number = |at: usize| number(at).unwrap_or(0);
            match words[0] {
                "E" => {
                    let kind = kind_of(&calls[index].frame);
                    *self.calls.entry((kind, number(2))).or_default() += 1;
                    self.highest = self.highest.max(number(3));
                    index += 1;
                }
                "R" => *self.records.entry(number(1)).or_default() += 1,
                "L" => self.live(number(1), book),
                "S" => self.shut(number(1), number(2), number(3), book),
                "N" => self.nets(number(1) as u8, &words[2..], book),
                "D" => self.depth(number(1) as u8, number(2) as u8, book),
                _ => self.see("cut"),
            }
            lookups |= ["L", "S", "N", "D"].contains(&words[0]);
        }
        self.see_if(!lookups, "list: every lookup is empty");
        let auctions = book.auctions.iter().flatten().count();
        self.see_if(auctions > 0, "list: an auction runs");
        self.see_if(auctions > 1, "list: several auctions run");
        let tables = [
            (book.complex_orders().count(), 16, "list: 16 complex orders"),
            (book.sweeps().count(), 16, "list: 16 sweeps"),
            (book.leg_orders.len(), 32, "list: 32 leg orders"),
            (book.strategies.len(), 16, "list: 16 strategies"),
        ];
        for (held, slots, what) in tables {
            self.see_if(held == slots, what);
        }
        self.see_if(
            book.national.known() != 0,
            "list: national prices are known",
        );
        self.see_if(
            book.national.range != FRESH_RANGE,
            "list: another range than 9,999",
        );
        let named = book.specialists.iter().flatten().count();
        self.see_if(named > 0, "list: a specialist is named");
        self.see_if(named > 1, "list: several specialists are named");
        self.see_if(
            tables[..3].iter().all(|(held, _, _)| *held > 0),
            "list: all tables but the strategies are used",
        );
        let list = calls.iter().map(|call| (&call.frame[..], call.space));
        for (situation, count) in situations(list) {
            *self.situations.entry(situation).or_default() += count;
        }
    }

    fn live(&mut self, number: u32, book: &Book) {
        let complex = book.complex_orders().any(|o| o.number == number);
        let mut sweeps = book.sweeps().filter(|sweep| sweep.number == number);
        let sweep = sweeps.next();
        let leg = book.leg_orders.iter().any(|o| o.number == number);
        let starter = (book.auctions.iter().flatten()).any(|a| a.starter == number);
        self.highest_live = self.highest_live.max(number);
        self.see_if(complex, "L of a complex order");
        self.see_if(sweep.is_some(), "L of a sweep");
        self.see_if(
            sweep.is_some_and(|sweep| is_passed(book, sweep)),
            "L of a sweep that the net has passed",
        );
        self.see_if(
            sweep.is_some_and(|sweep| is_specialist_s(book, sweep)),
            "L of a specialist's sweep",
        );
        self.see_if(leg, "L of a leg order");
        self.see_if(starter, "L of an auction's starter");
        self.see_if(
            rests_crossed(book, number),
            "L of an order that rests crossed",
        );
        self.see_if(
            book.sweeps().next().is_none(),
            "L in a list without a sweep",
        );
    }

    fn shut(&mut self, strategy: u32, count: u32, lowest: u32, book: &Book) {
        let legs = book.legs(strategy as u8);
        self.see(match count {
            0 => "S without a shut leg",
            1 => "S with one shut leg",
            _ => "S with several shut legs",
        });
        self.see_if(count as usize == legs.len(), "S with every leg shut");
        self.see_if(
            count > 0 && u32::from(legs[0].series) != lowest,
            "S with a shut leg that is not the first",
        );
    }

    /// The words are the bid net and the offer net.
    fn nets(&mut self, strategy: u8, words: &[&str], book: &Book) {
        let nets: Vec<Option<i64>> = words.iter().map(|word| word.parse().ok()).collect();
        self.see(match nets[..] {
            [None, None] => "N with both unknown",
            [_, None] => "N with the bid net alone",
            [None, _] => "N with the offer net alone",
            _ => "N with both known",
        });
        let known = || nets.iter().copied().flatten();
        self.see_if(known().any(|net| net > 0), "N above 0");
        self.see_if(known().any(|net| net < 0), "N below 0");
        self.see_if(
            known().next().is_some() && !book.all_open(strategy),
            "N beside a shut leg",
        );
        let unready = |side: u8| {
            let prices = book.leg_prices(strategy, side);
            prices.is_some_and(|prices| !ready(&prices))
        };
        self.see_if(
            unready(BUY) || unready(SELL),
            "N of legs that are not ready",
        );
        self.see_if(book.auction_runs(strategy), "N of a strategy in an auction");
        self.see_if(strategy == 15, "N of strategy 15");
    }

    fn depth(&mut self, series: u8, side: u8, book: &Book) {
        let mut prices: Vec<u32> = (book.leg_orders.iter())
            .filter(|order| order.series == series && order.side == side)
            .map(|order| order.price)
            .collect();
        prices.sort_unstable();
        prices.dedup();
        let several = best_orders(book, series, side) > 1;
        self.see(if side == BUY {
            "D of bids"
        } else {
            "D of offers"
        });
        self.see(if several {
            "D of several orders"
        } else {
            "D of one order"
        });
        let own = || book.leg_orders_of(series, side);
        let best = book.depth(series, side).map(|best| best.price);
        let first = own().next().map(|order| order.price);
        let last = own().last().map(|order| order.price);
        self.see_if(first != best, "D behind a worse price");
        self.see_if(last != best, "D before a worse price");
        self.see_if(
            several && first != best,
            "D of several orders behind a worse price",
        );
        let contracts = |price: u32| -> u32 {
            let at_price = own().filter(|order| order.price == price);
            at_price.map(|order| order.contracts).sum()
        };
        let fewest = best.map_or(0, contracts);
        self.see_if(
            !several && prices.iter().any(|price| contracts(*price) > fewest),
            "D of one order with fewer contracts than a worse price",
        );
        self.see_if(
            book.depth(series, 1 - side).is_none(),
            "D of the one side, the other being empty",
        );
        self.see_if(prices.len() > 1, "D at the best of several prices");
        self.see_if(prices.len() > 2, "D at the best of three prices or more");
        self.see_if(!book.is_open(series), "D in a shut series");
    }

    /// Adds another tally.
    pub fn join(&mut self, other: Tally) {
        self.lists += other.lists;
        self.bytes += other.bytes;
        self.lines += other.lines;
        self.highest = self.highest.max(other.highest);
        self.highest_live = self.highest_live.max(other.highest_live);
        for (at, count) in other.calls {
            *self.calls.entry(at).or_default() += count;
        }
        for (kind, count) in other.records {
            *self.records.entry(kind).or_default() += count;
        }
        for (what, count) in other.seen {
            *self.seen.entry(what).or_default() += count;
        }
        for (situation, count) in other.situations {
            *self.situations.entry(situation).or_default() += count;
        }
    }

    pub fn total(&self) -> u64 {
        self.calls.values().sum()
    }

    /// How many calls of the kind had the answer.
    pub fn of(&self, kind: u32, answer: u32) -> u64 {
        self.calls.get(&(kind, answer)).copied().unwrap_or(0)
    }

    /// How many calls had the answer.
    pub fn answered(&self, answer: u32) -> u64 {
        kinds().map(|kind| self.of(kind, answer)).sum()
    }

    pub fn written(&self, kind: u32) -> u64 {
        self.records.get(&kind).copied().unwrap_or(0)
    }

    pub fn saw(&self, what: &str) -> u64 {
        self.seen.get(what).copied().unwrap_or(0)
    }

    pub fn reached(&self, situation: &str) -> u64 {
        self.situations.get(situation).copied().unwrap_or(0)
    }
}

impl fmt::Display for Tally {
    fn fmt(&self, out: &mut fmt::Formatter) -> fmt::Result {
        writeln!(
            out,
            "  {} calls in {} lists, {} bytes, {} lines",
            self.total(),
            self.lists,
            self.bytes,
            self.lines
        )?;
        for kind in kinds() {
            let name = name_of(kind);
            let counts: Vec<String> = (self.calls.iter())
                .filter(|((of, _), _)| *of == kind)
                .map(|((_, answer), count)| format!("{answer}: {count}"))
                .collect();
            writeln!(out, "  kind {name}, by answer: {}", counts.join(", "))?;
        }
        let counts: Vec<String> = (self.records.iter())
            .map(|(kind, count)| format!("{kind}: {count}"))
            .collect();
        writeln!(out, "  records by kind: {}", counts.join(", "))?;
        let least = self.situations.values().min().copied().unwrap_or(0);
        write!(
            out,
            "  {} situations, each {least} times or more",
            self.situations.len()
        )?;
        for (what, count) in &self.seen {
            write!(out, "\n  {what}: {count}")?;
        }
        Ok(())
    }
}
