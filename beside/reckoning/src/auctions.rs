//! The end of an auction: document 01, "Clock" and "Series".

use crate::book::{Book, Entry, ENTRIES, IMMEDIATE, RESPONSE};
use crate::passes::Holders;
use crate::records::Record;
use crate::table::Table;

impl Book {
    /// "auctions begun at least the timer ago end, by strategy".
    pub fn end_due_auctions(&mut self, records: &mut Vec<Record>) {
        for strategy in 0..self.strategies.len() as u8 {
            let due = match &self.auctions[usize::from(strategy)] {
                Some(auction) => self.clock - auction.begun >= self.timer,
                None => false,
            };
            if due {
                self.end_auction(strategy, records);
            }
        }
    }

    /// "The starter gets a shared pass, legs barred if any opposite sweep or
    /// waiting order was accepted meanwhile. Then each other entry accepted
    /// meanwhile, by number, gets a numbered pass; sweeps never use legs." Request
    /// 2026-04: the starter's pass alone knows the strategy's specialist, the one
    /// named last.
    fn end_auction(&mut self, strategy: u8, records: &mut Vec<Record>) {
        let auction = self.auctions[usize::from(strategy)].expect("the auction runs");
        self.pass(
            auction.starter,
            Holders::Shared(self.specialists[usize::from(strategy)]),
            !auction.legs_barred,
            records,
        );
        let meanwhile: Table<Entry, ENTRIES> = self
            .entries_of(strategy)
            .filter(|entry| entry.number > auction.starter)
            .copied()
            .collect();
        for entry in meanwhile.iter() {
            let is_sweep = entry.life.is_none();
            self.pass(entry.number, Holders::Numbered, !is_sweep, records);
        }
        self.close_auction(strategy, records);
    }

    /// "Sweeps, responses and immediates left are cancelled by number; record
    /// 5."
    pub fn close_auction(&mut self, strategy: u8, records: &mut Vec<Record>) {
        self.entries.retain(|entry| {
            let ends = match entry.life {
                None | Some(RESPONSE) | Some(IMMEDIATE) => entry.strategy == strategy,
                Some(_) => false,
            };
            if ends {
                records.push(entry.cancelled());
            }
            !ends
        });
        if let Some(auction) = self.auctions[usize::from(strategy)].take() {
            records.push(Record::auction_ended(auction.starter, strategy));
        }
    }

    /// "shut ends the auctions of strategies holding it, by strategy, without
    /// fills, as above from the cancels on".
    pub fn end_shut_auctions(&mut self, series: u8, records: &mut Vec<Record>) {
        for strategy in self.strategies_holding(series) {
            if self.auction_runs(strategy) {
                self.close_auction(strategy, records);
            }
        }
    }
}
