//! The comparison finds slips in the book itself: the reckoning's sources with
//! one edit each are built anew, and their tape has to differ from the
//! reckoning's. Among them are the slips that document 01 names, and those of
//! requests 2026-01 to 2026-05.

#![forbid(unsafe_code)]
#![deny(warnings)]

use std::fs;
use std::path::Path;
use std::time::Duration;
use tapes::agree::agrees;
use tapes::days::{any_frames, every_number, generated, several_days, Day};
use tapes::hand::{
    best_prices, ends, extremes, full_tables, kept_nets, national, near_nets, specialists,
};
use tapes::program::Program;
use tapes::slips::{built, missed, Slip};

const SLIPS: &[Slip] = &[
    // "Which slips tempt?"
    (
        "5 contracts at ratio 2 as 3 units",
        "passes.rs",
        ".map(|entry| entry.contracts / u32::from(entry.leg.ratio))",
        ".map(|entry| entry.contracts.div_ceil(u32::from(entry.leg.ratio)))",
    ),
    (
        "leftover units to the largest",
        "passes.rs",
        "    for share in group {\n        if left > 0 {",
        "    let most = group.iter().map(|share| share.units).max();\n    for share in group {\n        if left > 0 && Some(share.units) == most {",
    ),
    (
        "a customer passed by for a sweep",
        "book.rs",
        "            CUSTOMER => 0,",
        "            CUSTOMER => 1,",
    ),
    (
        "a sell leg added into a net",
        "nets.rs",
        "        -value\n",
        "        value\n",
    ),
    (
        "sweeps kept past the end",
        "auctions.rs",
        "None | Some(RESPONSE) | Some(IMMEDIATE) => entry.strategy == strategy,",
        "None => false,\n                Some(RESPONSE) | Some(IMMEDIATE) => entry.strategy == strategy,",
    ),
    // "Which books fail?"
    (
        "fills reported and the leg orders let be",
        "passes.rs",
        "            self.take_contracts(order.number, taken);\n",
        "",
    ),
    (
        "the first turn of a pass only",
        "passes.rs",
        "        while let Some(active) = self.entry(number) {",
        "        if let Some(active) = self.entry(number) {",
    ),
    (
        "full beside a free slot of complex orders",
        "events.rs",
        "self.complex_orders().count() >= COMPLEX_ORDERS {",
        "self.complex_orders().count() + 1 >= COMPLEX_ORDERS {",
    ),
    (
        "full beside a free slot of sweeps",
        "events.rs",
        "self.sweeps().count() >= SWEEPS {",
        "self.sweeps().count() + 1 >= SWEEPS {",
    ),
    (
        "full beside a free slot of leg orders",
        "events.rs",
        "self.leg_orders.len() >= LEG_ORDERS {",
        "self.leg_orders.len() + 1 >= LEG_ORDERS {",
    ),
    (
        "one strategy more than there are slots for",
        "book.rs",
        "pub const STRATEGIES: usize = 16;",
        "pub const STRATEGIES: usize = 17;",
    ),
    // Passes.
    (
        "legs before an equal limit",
        "passes.rs",
        "        first < second\n",
        "        first <= second\n",
    ),
    (
        "a limit that is not met",
        "passes.rs",
        "        price >= limit\n",
        "        price > limit\n",
    ),
    (
        "legs ready only above the ratio",
        "nets.rs",
        "entry.contracts >= u32::from(entry.leg.ratio)",
        "entry.contracts > u32::from(entry.leg.ratio)",
    ),
    (
        "customers share too",
        "passes.rs",
        "            if group == 0 {",
        "            if group == 3 {",
    ),
    (
        "broker-dealers in turn",
        "passes.rs",
        "            if group == 0 {",
        "            if group != 1 {",
    ),
    (
        "broker-dealers before market makers",
        "passes.rs",
        "for group in 0..3 {",
        "for group in [0, 2, 1] {",
    ),
    (
        "leftover units to the last",
        "passes.rs",
        "    for share in group {\n",
        "    for share in group.iter_mut().rev() {\n",
    ),
    (
        "a leg fill with its price where whole met whole",
        "passes.rs",
        "                    units * u32::from(leg.ratio),\n                    0,\n",
        "                    units * u32::from(leg.ratio),\n                    price,\n",
    ),
    (
        "the other side first",
        "passes.rs",
        "in [(active.number, active.side), (other, 1 - active.side)] {",
        "in [(other, 1 - active.side), (active.number, active.side)] {",
    ),
    (
        "legs-only passes during an auction",
        "passes.rs",
        "if !self.all_open(strategy) || self.auction_runs(strategy) {",
        "if !self.all_open(strategy) {",
    ),
    (
        "legs-only passes beside a shut series",
        "passes.rs",
        "if !self.all_open(strategy) || self.auction_runs(strategy) {",
        "if self.auction_runs(strategy) {",
    ),
    (
        "legs-only passes from the last number",
        "passes.rs",
        "for number in day_orders.iter() {",
        "for number in day_orders.iter().rev() {",
    ),
    // Auctions.
    (
        "an auction that ends one millisecond late",
        "auctions.rs",
        "self.clock - auction.begun >= self.timer,",
        "self.clock - auction.begun > self.timer,",
    ),
    (
        "legs never barred",
        "auctions.rs",
        "            !auction.legs_barred,\n",
        "            true,\n",
    ),
    (
        "a starter's pass by number",
        "auctions.rs",
        "            Holders::Shared(self.specialists[usize::from(strategy)]),\n",
        "            Holders::Numbered,\n",
    ),
    (
        "shared passes for the other entries",
        "auctions.rs",
        "Holders::Numbered, !is_sweep",
        "Holders::Shared(None), !is_sweep",
    ),
    (
        "sweeps that use legs",
        "auctions.rs",
        "Holders::Numbered, !is_sweep",
        "Holders::Numbered, true",
    ),
    (
        "passes for the orders from before",
        "auctions.rs",
        ".filter(|entry| entry.number > auction.starter)",
        ".filter(|entry| entry.number != auction.starter)",
    ),
    (
        "responses kept past the end",
        "auctions.rs",
        "None | Some(RESPONSE) | Some(IMMEDIATE) =>",
        "None | Some(IMMEDIATE) =>",
    ),
    (
        "fills when a series shuts",
        "auctions.rs",
        "            if self.auction_runs(strategy) {\n                self.close_auction(strategy, records);",
        "            if self.auction_runs(strategy) {\n                self.end_auction(strategy, records);",
    ),
    (
        "a starter at its own net",
        "events.rs",
        "(self.betters_own_net(order.strategy, order.side, order.limit)).unwrap_or(false)",
        "(self.betters_own_net(order.strategy, order.side, order.limit - i32::from(order.side))).unwrap_or(false)",
    ),
    (
        "an auction where the net is unknown",
        "events.rs",
        "(self.betters_own_net(order.strategy, order.side, order.limit)).unwrap_or(false)",
        "(self.betters_own_net(order.strategy, order.side, order.limit)).unwrap_or(order.side == BUY)",
    ),
    (
        "a market maker's auction",
        "events.rs",
        "(class == CUSTOMER || class == BROKER_DEALER)",
        "(class >= CUSTOMER)",
    ),
    (
        "a waiting order that does not bar the legs",
        "events.rs",
        "                self.accepted_meanwhile(strategy, side);\n            }\n        } else if",
        "            }\n        } else if",
    ),
    // Leg orders, the opening, the day end.
    (
        "a leg trade at the incoming price",
        "events.rs",
        "                            contracts,\n                            i64::from(resting.price),",
        "                            contracts,\n                            limit,",
    ),
    (
        "no passes after a leg order",
        "events.rs",
        "            self.legs_only_passes(incoming.series, records);\n",
        "",
    ),
    (
        "passes after a leg order that is gone",
        "events.rs",
        "            self.rest(incoming);\n            self.legs_only_passes(incoming.series, records);\n        }\n",
        "            self.rest(incoming);\n        }\n        self.legs_only_passes(incoming.series, records);\n",
    ),
    (
        "an opening at the higher number's limit",
        "events.rs",
        "if buy.number < sell.number {",
        "if buy.number > sell.number {",
    ),
    (
        "an opening by number before price",
        "events.rs",
        ".min_by_key(|entry| (-entry.limit, entry.number));",
        ".min_by_key(|entry| (entry.number, -entry.limit));",
    ),
    (
        "an opening that opens nothing",
        "events.rs",
        "            self.open |= 1 << series;\n            for strategy",
        "            for strategy",
    ),
    (
        "passes before the matches of an opening",
        "events.rs",
        "            self.open |= 1 << series;\n",
        "            self.open |= 1 << series;\n            self.legs_only_passes(series, records);\n",
    ),
    (
        "the clock kept over the day end",
        "events.rs",
        "        *self = Book::fresh(timer);\n",
        "        let clock = self.clock;\n        *self = Book::fresh(timer);\n        self.clock = clock;\n",
    ),
    (
        "the timer kept over the day end",
        "events.rs",
        "        *self = Book::fresh(timer);\n",
        "        *self = Book::fresh(timer.max(self.timer));\n",
    ),
    // Strategies and refusals.
    (
        "ratios not divided",
        "nets.rs",
        "ratio: leg.ratio / divisor,",
        "ratio: leg.ratio / divisor * divisor,",
    ),
    (
        "legs as they were sent",
        "nets.rs",
        "    legs.sort_unstable_by_key(|leg| leg.series);\n",
        "    legs.rotate_left(0);\n",
    ),
    (
        "a ratio of 3 x the smallest refused",
        "nets.rs",
        "largest > 3 * smallest",
        "largest >= 3 * smallest",
    ),
    (
        "a sweep that replaces one needs a slot",
        "events.rs",
        "if units > 0 && replaced.is_none() && self.sweeps()",
        "if units > 0 && self.sweeps()",
    ),
    (
        "the last refusal in the order",
        "events.rs",
        "Some(ORDER[self.0.trailing_zeros() as usize])",
        "Some(ORDER[31 - self.0.leading_zeros() as usize])",
    ),
    (
        "number 100,000 not given",
        "events.rs",
        "if self.given >= LAST_NUMBER {",
        "if self.given + 1 >= LAST_NUMBER {",
    ),
    (
        "an equal clock refused",
        "events.rs",
        "if milliseconds < self.clock {",
        "if milliseconds <= self.clock && milliseconds > 0 {",
    ),
    // Request 2026-01: the bounds.
    (
        "only the active party bound",
        "passes.rs",
        "                bounds.allow_both(price)\n",
        "                bounds.allow(active.side, price)\n",
    ),
    (
        "only the other party bound",
        "passes.rs",
        "                bounds.allow_both(price)\n",
        "                bounds.allow(1 - active.side, price)\n",
    ),
    (
        "leg orders bound too",
        "passes.rs",
        "                bounds.allow(active.side, price)\n",
        "                bounds.allow_both(price)\n",
    ),
    (
        "a fill by legs not bound",
        "passes.rs",
        "                bounds.allow(active.side, price)\n",
        "                true\n",
    ),
    (
        "the limit bound in the place of the price",
        "passes.rs",
        "                bounds.allow(active.side, price)\n",
        "                bounds.allow(active.side, limit)\n",
    ),
    (
        "the seller bound by the offer net",
        "national.rs",
        "let bid_net = self.national_net(strategy, SELL);",
        "let bid_net = self.national_net(strategy, BUY);",
    ),
    (
        "the buyer bound by the bid net",
        "national.rs",
        "let offer_net = self.national_net(strategy, BUY);",
        "let offer_net = self.national_net(strategy, SELL);",
    ),
    (
        "the range put on the bid net",
        "national.rs",
        "|net| net - range)",
        "|net| net + range)",
    ),
    (
        "the range taken off the offer net",
        "national.rs",
        "|net| net + range)",
        "|net| net - range)",
    ),
    (
        "equal to the buyer's bound refused",
        "national.rs",
        "            price <= self.highest\n",
        "            price < self.highest\n",
    ),
    (
        "equal to the seller's bound refused",
        "national.rs",
        "            price >= self.lowest\n",
        "            price > self.lowest\n",
    ),
    (
        "a missing net of one side that frees both",
        "national.rs",
        "        let range = i64::from(self.national.range);\n",
        "        let range = i64::from(self.national.range);\n        if self.national_net(strategy, BUY).is_none() || self.national_net(strategy, SELL).is_none() {\n            return Bounds::NONE;\n        }\n",
    ),
    (
        "a missing price as 0 in a net",
        "national.rs",
        "            0 => None,\n            price => Some(price),\n",
        "            price => Some(price),\n",
    ),
    (
        "national nets without ratios",
        "national.rs",
        "                leg: *leg,\n",
        "                leg: crate::frames::Leg { ratio: 1, ..*leg },\n",
    ),
    (
        "a fresh range of 9,998",
        "national.rs",
        "pub const FRESH_RANGE: u32 = 9_999;",
        "pub const FRESH_RANGE: u32 = 9_998;",
    ),
    // Request 2026-01: what stops.
    (
        "the legs tried after a forbidden limit",
        "passes.rs",
        "            let taken = if legs {\n",
        "            let whole = whole.filter(|price| self.bounds(active.strategy).allow_both(*price));\n            let taken = if legs {\n",
    ),
    (
        "the next limit tried after a forbidden one",
        "passes.rs",
        "let limits = self.opposite(active).map(|entry| entry.limit);",
        "let bounds = self.bounds(active.strategy);\n        let limits = self.opposite(active).map(|entry| entry.limit);\n        let limits = limits.filter(|limit| bounds.allow_both(i64::from(*limit)));",
    ),
    (
        "a day order cancelled where its pass stops",
        "passes.rs",
        "                count_stop(self, &active, &turn, records.len() > first);\n",
        "                self.cancel_live(number, records);\n",
    ),
    (
        "only the first turn of a pass tested",
        "passes.rs",
        "            if !allowed {\n",
        "            if !allowed && records.len() == first {\n",
    ),
    (
        "numbered passes not tested",
        "passes.rs",
        "            if !allowed {\n",
        "            if !allowed && holders != Holders::Numbered {\n",
    ),
    (
        "legs-only passes not tested",
        "passes.rs",
        "            if !allowed {\n",
        "            if !allowed && holders != Holders::Nobody {\n",
    ),
    (
        "the starter's pass not tested",
        "passes.rs",
        "            if !allowed {\n",
        "            if !allowed && !(matches!(holders, Holders::Shared(_)) && self.auction_runs(active.strategy)) {\n",
    ),
    (
        "a starter's pass that stops ends the others too",
        "auctions.rs",
        "        let meanwhile: Table<Entry, ENTRIES> = self\n",
        "        let stopped = self.entry(auction.starter).is_some_and(|starter| {\n            let limit = i64::from(starter.limit);\n            self.entries_of(strategy).any(|entry| {\n                entry.side != starter.side\n                    && crate::passes::meets(starter.side, limit, i64::from(entry.limit))\n            })\n        });\n        if stopped {\n            return self.close_auction(strategy, records);\n        }\n        let meanwhile: Table<Entry, ENTRIES> = self\n",
    ),
    (
        "an auction not begun where its order may not fill",
        "events.rs",
        "(self.betters_own_net(order.strategy, order.side, order.limit)).unwrap_or(false)\n",
        "(self.betters_own_net(order.strategy, order.side, order.limit)).unwrap_or(false)\n            && self.bounds(order.strategy).allow(order.side, i64::from(order.limit))\n",
    ),
    (
        "the opening match not tested",
        "events.rs",
        "                    if !bounds.allow_both(price) {\n                        return;\n                    }\n",
        "",
    ),
    (
        "only the active party of an opening match bound",
        "events.rs",
        "if !bounds.allow_both(price) {",
        "if !bounds.allow(active.side, price) {",
    ),
    (
        "an opening match that stops ends the others too",
        "events.rs",
        "                    self.opening_match(strategy, records);\n",
        "                    self.opening_match(strategy, records);\n                    let own = |side: u8| self.entries_of(strategy).filter(move |entry| entry.side == side);\n                    let sell = own(SELL).map(|entry| entry.limit).min();\n                    if sell.is_some() && own(BUY).map(|entry| entry.limit).max() >= sell {\n                        break;\n                    }\n",
    ),
    (
        "an opening match that stops ends the legs-only passes too",
        "events.rs",
        "                    self.opening_match(strategy, records);\n",
        "                    self.opening_match(strategy, records);\n                    let own = |side: u8| self.entries_of(strategy).filter(move |entry| entry.side == side);\n                    let sell = own(SELL).map(|entry| entry.limit).min();\n                    if sell.is_some() && own(BUY).map(|entry| entry.limit).max() >= sell {\n                        return;\n                    }\n",
    ),
    // Request 2026-01: kinds 9 and 10.
    (
        "a price of 0 that keeps the old one",
        "national.rs",
        "        self.prices[usize::from(series)] = [bid, offer];\n",
        "        let old = self.prices[usize::from(series)];\n        let kept = |new: u32, old: u32| if new == 0 { old } else { new };\n        let (bid, offer) = (kept(bid, old[0]), kept(offer, old[1]));\n        self.prices[usize::from(series)] = [bid, offer];\n",
    ),
    (
        "crossed prices accepted",
        "events.rs",
        "                if crossed(bid, offer) {\n",
        "                if crossed(bid, offer) && bid > 99_999 {\n",
    ),
    (
        "equal prices refused",
        "national.rs",
        "    bid > offer && offer != 0\n",
        "    bid >= offer && offer != 0\n",
    ),
    (
        "a missing offer crossed",
        "national.rs",
        "    bid > offer && offer != 0\n",
        "    bid > offer\n",
    ),
    (
        "14 checked before 3",
        "events.rs",
        "            Err(refusal) => causes.add(*refusal),\n",
        "            Err(3) if frame[2] == 9 && crossed(u32::from_le_bytes([frame[5], frame[6], frame[7], frame[8]]), u32::from_le_bytes([frame[9], frame[10], frame[11], frame[12]])) => causes.add(14),\n            Err(refusal) => causes.add(*refusal),\n",
    ),
    (
        "passes after national prices",
        "events.rs",
        "                self.national.set(series, bid, offer);\n",
        "                self.national.set(series, bid, offer);\n                self.legs_only_passes(series, records);\n",
    ),
    (
        "matches after a wider range",
        "events.rs",
        "                self.national.range = u32::from(cents);\n",
        "                self.national.range = u32::from(cents);\n                for strategy in 0..self.strategies.len() as u8 {\n                    if self.all_open(strategy) && !self.auction_runs(strategy) {\n                        self.opening_match(strategy, records);\n                    }\n                }\n",
    ),
    (
        "the range kept over the day end",
        "events.rs",
        "        *self = Book::fresh(timer);\n",
        "        let range = self.national.range;\n        *self = Book::fresh(timer);\n        self.national.range = range;\n",
    ),
    (
        "national prices kept over the day end",
        "events.rs",
        "        *self = Book::fresh(timer);\n",
        "        let mut national = self.national.clone();\n        national.range = 9_999;\n        *self = Book::fresh(timer);\n        self.national = national;\n",
    ),
    // Request 2026-02: the running pair.
    (
        "a pair that does not start afresh: the old contracts stay in the sum",
        "nets.rs",
        "        Ordering::Greater => *best = Depth { price, contracts },\n",
        "        Ordering::Greater => *best = Depth { price, contracts: best.contracts + contracts },\n",
    ),
    (
        "a better price with the old contracts",
        "nets.rs",
        "        Ordering::Greater => *best = Depth { price, contracts },\n",
        "        Ordering::Greater => best.price = price,\n",
    ),
    (
        "a better price that changes nothing",
        "nets.rs",
        "        Ordering::Greater => *best = Depth { price, contracts },\n",
        "        Ordering::Greater => {}\n",
    ),
    (
        "a better price with 0 contracts until another comes",
        "nets.rs",
        "        Ordering::Greater => *best = Depth { price, contracts },\n",
        "        Ordering::Greater => *best = Depth { price, contracts: 0 },\n",
    ),
    (
        "an equal price that replaces",
        "nets.rs",
        "        Ordering::Equal => best.contracts += contracts,\n",
        "        Ordering::Equal => best.contracts = contracts,\n",
    ),
    (
        "an equal price that changes nothing",
        "nets.rs",
        "        Ordering::Equal => best.contracts += contracts,\n",
        "        Ordering::Equal => {}\n",
    ),
    (
        "the larger of the orders at an equal price",
        "nets.rs",
        "        Ordering::Equal => best.contracts += contracts,\n",
        "        Ordering::Equal => best.contracts = best.contracts.max(contracts),\n",
    ),
    (
        "contracts of 16 bits",
        "nets.rs",
        "        Ordering::Equal => best.contracts += contracts,\n",
        "        Ordering::Equal => best.contracts = (best.contracts + contracts) % 65_536,\n",
    ),
    (
        "a worse price that adds",
        "nets.rs",
        "        Ordering::Less => {}\n",
        "        Ordering::Less => best.contracts += contracts,\n",
    ),
    (
        "a worse price that replaces",
        "nets.rs",
        "        Ordering::Less => {}\n",
        "        Ordering::Less => *best = Depth { price, contracts },\n",
    ),
    (
        "a worse price with more contracts that replaces",
        "nets.rs",
        "        Ordering::Less => {}\n",
        "        Ordering::Less if contracts > best.contracts => *best = Depth { price, contracts },\n        Ordering::Less => {}\n",
    ),
    (
        "the higher offer as the better one",
        "nets.rs",
        "        _ => best.price.cmp(&price),\n",
        "        _ => price.cmp(&best.price),\n",
    ),
    (
        "the lower bid as the better one",
        "nets.rs",
        "        BUY => price.cmp(&best.price),\n",
        "        BUY => best.price.cmp(&price),\n",
    ),
    (
        "the walk begun with the old pair",
        "book.rs",
        "        let mut pair = None;\n        for order in",
        "        let mut pair = self.depth(series, side);\n        for order in",
    ),
    (
        "the first order of a side not walked",
        "book.rs",
        "        for order in self.leg_orders_of(series, side) {\n",
        "        let alone = self.leg_orders_of(series, side).count() < 2;\n        for order in self.leg_orders_of(series, side).skip(usize::from(!alone)) {\n",
    ),
    (
        "the last slot not walked",
        "book.rs",
        "        for order in self.leg_orders_of(series, side) {\n",
        "        let own = |order: &&LegOrder| order.series == series && order.side == side;\n        for order in self.leg_orders.iter().take(LEG_ORDERS - 1).filter(own) {\n",
    ),
    (
        "orders of the other side walked",
        "book.rs",
        "        for order in self.leg_orders_of(series, side) {\n",
        "        for order in self.leg_orders.iter().filter(|order| order.series == series) {\n",
    ),
    (
        "orders of other series walked",
        "book.rs",
        "        for order in self.leg_orders_of(series, side) {\n",
        "        for order in self.leg_orders.iter().filter(|order| order.side == side) {\n",
    ),
    (
        "the pair kept when an order is filled away",
        "book.rs",
        "                self.leg_orders.remove(at);\n            }\n            self.renew_depth(series, side);\n",
        "                self.leg_orders.remove(at);\n                if self.leg_orders_of(series, side).count() > 0 {\n                    return;\n                }\n            }\n            self.renew_depth(series, side);\n",
    ),
    (
        "the pair kept when an order is filled in part",
        "book.rs",
        "                self.leg_orders.remove(at);\n            }\n            self.renew_depth(series, side);\n",
        "                self.leg_orders.remove(at);\n                self.renew_depth(series, side);\n            }\n",
    ),
    (
        "an empty side as a price of 0",
        "nets.rs",
        "        let best = self.depth(leg.series, 1 - side)?;\n",
        "        let best = self.depth(leg.series, 1 - side).unwrap_or(Depth { price: 0, contracts: 0 });\n",
    ),
    (
        "the pair of the same side taken",
        "nets.rs",
        "        let best = self.depth(leg.series, 1 - side)?;\n",
        "        let best = self.depth(leg.series, side)?;\n",
    ),
    // Request 2026-03: sweeps better the leg market.
    (
        "sweeps at any price",
        "events.rs",
        "                    causes.add(15);\n",
        "",
    ),
    (
        "a buy at the bid net",
        "events.rs",
        "self.betters_own_net(strategy, side, limit).unwrap_or(true)",
        "self.betters_own_net(strategy, side, limit + i32::from(side == BUY)).unwrap_or(true)",
    ),
    (
        "a sell at the offer net",
        "events.rs",
        "self.betters_own_net(strategy, side, limit).unwrap_or(true)",
        "self.betters_own_net(strategy, side, limit - i32::from(side == SELL)).unwrap_or(true)",
    ),
    (
        "a buy two cents above the bid net at least",
        "events.rs",
        "self.betters_own_net(strategy, side, limit).unwrap_or(true)",
        "self.betters_own_net(strategy, side, limit - i32::from(side == BUY)).unwrap_or(true)",
    ),
    (
        "only buys looked at",
        "events.rs",
        "if units > 0 && !self.sweep_betters(",
        "if units > 0 && side == BUY && !self.sweep_betters(",
    ),
    (
        "only sells looked at",
        "events.rs",
        "if units > 0 && !self.sweep_betters(",
        "if units > 0 && side == SELL && !self.sweep_betters(",
    ),
    (
        "only what is opposite the starter looked at",
        "events.rs",
        "if units > 0 && !self.sweep_betters(",
        "if units > 0 && self.auctions[usize::from(strategy)].is_some_and(|auction| auction.side != side) && !self.sweep_betters(",
    ),
    (
        "the net of the other side",
        "events.rs",
        "self.betters_own_net(strategy, side, limit).unwrap_or(true)",
        "(if side == BUY { self.offer_net(strategy).map(|net| i64::from(limit) > net) } else { self.bid_net(strategy).map(|net| i64::from(limit) < net) }).unwrap_or(true)",
    ),
    (
        "worse than the net of the other side",
        "events.rs",
        "self.betters_own_net(strategy, side, limit).unwrap_or(true)",
        "(if side == BUY { self.offer_net(strategy).map(|net| i64::from(limit) < net) } else { self.bid_net(strategy).map(|net| i64::from(limit) > net) }).unwrap_or(true)",
    ),
    (
        "the bid net for both sides",
        "events.rs",
        "self.betters_own_net(strategy, side, limit).unwrap_or(true)",
        "self.bid_net(strategy).map(|net| if side == BUY { i64::from(limit) > net } else { i64::from(limit) < net }).unwrap_or(true)",
    ),
    (
        "an unknown net refuses",
        "events.rs",
        "self.betters_own_net(strategy, side, limit).unwrap_or(true)",
        "self.betters_own_net(strategy, side, limit).unwrap_or(false)",
    ),
    (
        "an unknown net as 0",
        "events.rs",
        "self.betters_own_net(strategy, side, limit).unwrap_or(true)",
        "self.betters_own_net(strategy, side, limit).unwrap_or(if side == BUY { limit > 0 } else { limit < 0 })",
    ),
    (
        "an unknown net of the other side frees",
        "events.rs",
        "self.betters_own_net(strategy, side, limit).unwrap_or(true)",
        "self.leg_net(strategy, side).is_none() || self.betters_own_net(strategy, side, limit).unwrap_or(true)",
    ),
    (
        "a net that is not ready frees",
        "events.rs",
        "self.betters_own_net(strategy, side, limit).unwrap_or(true)",
        "!self.leg_prices(strategy, 1 - side).is_some_and(|prices| crate::nets::ready(&prices)) || self.betters_own_net(strategy, side, limit).unwrap_or(true)",
    ),
    (
        "a net that the other side has no ready legs for frees",
        "events.rs",
        "self.betters_own_net(strategy, side, limit).unwrap_or(true)",
        "self.leg_prices(strategy, side).is_some_and(|prices| !crate::nets::ready(&prices)) || self.betters_own_net(strategy, side, limit).unwrap_or(true)",
    ),
    (
        "the national net in the place of the leg net",
        "events.rs",
        "self.betters_own_net(strategy, side, limit).unwrap_or(true)",
        "self.national_net(strategy, 1 - side).map(|net| if side == BUY { i64::from(limit) > net } else { i64::from(limit) < net }).unwrap_or(true)",
    ),
    (
        "the national net bettered as well",
        "events.rs",
        "self.betters_own_net(strategy, side, limit).unwrap_or(true)",
        "self.betters_own_net(strategy, side, limit).unwrap_or(true) && self.national_net(strategy, 1 - side).map(|net| if side == BUY { i64::from(limit) > net } else { i64::from(limit) < net }).unwrap_or(true)",
    ),
    (
        "a price far from the net compared by its size",
        "events.rs",
        "self.betters_own_net(strategy, side, limit).unwrap_or(true)",
        "self.leg_net(strategy, 1 - side).map(|net| if side == BUY { i64::from(limit).abs() > net.abs() } else { i64::from(limit).abs() < net.abs() }).unwrap_or(true)",
    ),
    (
        "a response refused 15",
        "events.rs",
        "            Event::Complex { strategy, life, .. } => {\n",
        "            Event::Complex { strategy, life, side, limit, .. } => {\n                if life == RESPONSE && !self.sweep_betters(strategy, side, limit) {\n                    causes.add(15);\n                }\n",
    ),
    // Request 2026-03: the place of 15.
    (
        "15 before 9",
        "events.rs",
        "[1, 2, 3, 14, 4, 5, 6, 7, 8, 9, 10, 15, 11, 12, 13]",
        "[1, 2, 3, 14, 4, 5, 6, 7, 8, 15, 9, 10, 11, 12, 13]",
    ),
    (
        "15 in the place of 10",
        "events.rs",
        "                    causes.add(10);\n",
        "                    causes.add(if self.sweep_betters(strategy, side, limit) { 10 } else { 15 });\n",
    ),
    (
        "15 after 12",
        "events.rs",
        "[1, 2, 3, 14, 4, 5, 6, 7, 8, 9, 10, 15, 11, 12, 13]",
        "[1, 2, 3, 14, 4, 5, 6, 7, 8, 9, 10, 11, 12, 15, 13]",
    ),
    (
        "15 after 13",
        "events.rs",
        "                if units > 0 && !self.sweep_betters(strategy, side, limit) {\n",
        "                if units > 0 && self.given < LAST_NUMBER && !self.sweep_betters(strategy, side, limit) {\n",
    ),
    (
        "15 after 12 and 13",
        "events.rs",
        "[1, 2, 3, 14, 4, 5, 6, 7, 8, 9, 10, 15, 11, 12, 13]",
        "[1, 2, 3, 14, 4, 5, 6, 7, 8, 9, 10, 11, 12, 13, 15]",
    ),
    // Request 2026-03: 0 units, replacements, sweeps that are in.
    (
        "a sweep of 0 units refused 15",
        "events.rs",
        "if units > 0 && !self.sweep_betters(",
        "if !self.sweep_betters(",
    ),
    (
        "a sweep of 1 unit not looked at",
        "events.rs",
        "if units > 0 && !self.sweep_betters(",
        "if units > 1 && !self.sweep_betters(",
    ),
    (
        "a replacement not looked at",
        "events.rs",
        "if units > 0 && !self.sweep_betters(",
        "if units > 0 && replaced.is_none() && !self.sweep_betters(",
    ),
    (
        "only replacements looked at",
        "events.rs",
        "if units > 0 && !self.sweep_betters(",
        "if units > 0 && replaced.is_some() && !self.sweep_betters(",
    ),
    (
        "a refused replacement takes the old one out",
        "events.rs",
        "            (first, _) => {\n",
        "            (first, event) => {\n                if let (Some(15), Ok(Event::Sweep { member, strategy, side, limit, .. })) = (first, event) {\n                    if let Some(old) = self.equal_sweep(member, strategy, side, limit) {\n                        self.cancel_live(old, &mut Vec::new());\n                    }\n                }\n",
    ),
    (
        "a sweep refused 15 bars the legs",
        "events.rs",
        "            (first, _) => {\n",
        "            (first, event) => {\n                if let (Some(15), Ok(Event::Sweep { strategy, side, .. })) = (first, event) {\n                    self.accepted_meanwhile(strategy, side);\n                }\n",
    ),
    (
        "a number taken by a sweep refused 15",
        "events.rs",
        "            (first, _) => {\n",
        "            (first, _) => {\n                if first == Some(15) {\n                    self.given = (self.given + 1).min(LAST_NUMBER);\n                }\n",
    ),
    (
        "sweeps looked at again when a leg order rests",
        "events.rs",
        "            self.rest(incoming);\n",
        "            self.rest(incoming);\n            let passed: Vec<u32> = self.sweeps().filter(|sweep| self.betters_own_net(sweep.strategy, sweep.side, sweep.limit) == Some(false)).map(|sweep| sweep.number).collect();\n            for number in passed {\n                self.cancel_live(number, records);\n            }\n",
    ),
    (
        "sweeps looked at again when the auction ends",
        "auctions.rs",
        "        let auction = self.auctions[usize::from(strategy)].expect(\"the auction runs\");\n",
        "        let auction = self.auctions[usize::from(strategy)].expect(\"the auction runs\");\n        let passed: Vec<u32> = self.sweeps().filter(|sweep| self.betters_own_net(sweep.strategy, sweep.side, sweep.limit) == Some(false)).map(|sweep| sweep.number).collect();\n        for number in passed {\n            self.cancel_live(number, records);\n        }\n",
    ),
    (
        "sweeps looked at again when one comes",
        "events.rs",
        "                self.accepted_meanwhile(strategy, side);\n                number\n",
        "                self.accepted_meanwhile(strategy, side);\n                let passed: Vec<u32> = self.sweeps().filter(|sweep| self.betters_own_net(sweep.strategy, sweep.side, sweep.limit) == Some(false)).map(|sweep| sweep.number).collect();\n                for old in passed {\n                    self.cancel_live(old, records);\n                }\n                number\n",
    ),
    // Request 2026-04: the specialist's portion.
    (
        "no portion",
        "auctions.rs",
        "            Holders::Shared(self.specialists[usize::from(strategy)]),\n",
        "            Holders::Shared(None),\n",
    ),
    (
        "the share alone",
        "specialist.rs",
        "        size.min(part.max(share as u32))\n",
        "        size.min(share as u32 + 0 * part)\n",
    ),
    (
        "the percentage alone",
        "specialist.rs",
        "        size.min(part.max(share as u32))\n",
        "        size.min(part.max(0 * share as u32))\n",
    ),
    (
        "the lesser of share and percentage",
        "specialist.rs",
        "        size.min(part.max(share as u32))\n",
        "        size.min(part.min(share as u32))\n",
    ),
    (
        "the percentage on top of the share",
        "specialist.rs",
        "        size.min(part.max(share as u32))\n",
        "        size.min(part + share as u32).min(remaining)\n",
    ),
    (
        "above its size",
        "specialist.rs",
        "        size.min(part.max(share as u32))\n",
        "        part.max(share as u32)\n",
    ),
    (
        "one unit at least",
        "specialist.rs",
        "        size.min(part.max(share as u32))\n",
        "        size.min(part.max(share as u32).max(1)).min(remaining)\n",
    ),
    (
        "the percentage rounded up",
        "specialist.rs",
        "        let part = u32::from(self.percentage) * remaining / 100;\n",
        "        let part = (u32::from(self.percentage) * remaining).div_ceil(100);\n",
    ),
    (
        "the percentage rounded to the nearest",
        "specialist.rs",
        "        let part = u32::from(self.percentage) * remaining / 100;\n",
        "        let part = (u32::from(self.percentage) * remaining + 50) / 100;\n",
    ),
    (
        "the share rounded up",
        "specialist.rs",
        "        let share = u64::from(remaining) * u64::from(size) / u64::from(total);\n",
        "        let share = (u64::from(remaining) * u64::from(size)).div_ceil(u64::from(total));\n",
    ),
    (
        "the percentage of its size",
        "specialist.rs",
        "        let part = u32::from(self.percentage) * remaining / 100;\n",
        "        let part = (u32::from(self.percentage) * size / 100).min(remaining);\n",
    ),
    (
        "the percentage of the group",
        "specialist.rs",
        "        let part = u32::from(self.percentage) * remaining / 100;\n",
        "        let part = (u32::from(self.percentage) * total / 100).min(remaining);\n",
    ),
    (
        "the percentage of the rest of the group",
        "specialist.rs",
        "        let part = u32::from(self.percentage) * remaining / 100;\n",
        "        let part = (u32::from(self.percentage) * (total - size) / 100).min(remaining);\n",
    ),
    (
        "the percentage of what remains after the shares of the rest",
        "specialist.rs",
        "        let part = u32::from(self.percentage) * remaining / 100;\n",
        "        let others = u64::from(remaining) * u64::from(total - size) / u64::from(total);\n        let part = u32::from(self.percentage) * (remaining - others as u32) / 100;\n",
    ),
    (
        "the percentage before customers",
        "passes.rs",
        "                        specialist.share(remaining, members, place);\n",
        "                        let percentage = (u32::from(specialist.percentage) * units / remaining.max(1)).min(100) as u8;\n                        Specialist { percentage, ..specialist }.share(remaining, members, place);\n",
    ),
    (
        "the portion before customers",
        "passes.rs",
        "            if group == 0 {\n                in_turn(remaining, members);\n",
        "            if group == 0 {\n                let own = specialist.and_then(|specialist| holders.iter().find(|holder| specialist.holds(holder)).map(|sweep| sweep.units.min(u32::from(specialist.percentage) * remaining / 100)));\n                in_turn(remaining - own.unwrap_or(0), members);\n",
    ),
    (
        "0 per cent as no specialist",
        "auctions.rs",
        "            Holders::Shared(self.specialists[usize::from(strategy)]),\n",
        "            Holders::Shared(self.specialists[usize::from(strategy)].filter(|named| named.percentage > 0)),\n",
    ),
    (
        "nothing at 0 per cent",
        "specialist.rs",
        "        size.min(part.max(share as u32))\n",
        "        if self.percentage == 0 {\n            return 0;\n        }\n        size.min(part.max(share as u32))\n",
    ),
    // Request 2026-04: the leftovers, the rest, the order of the fills.
    (
        "a part in the leftovers of the whole group",
        "specialist.rs",
        "        let portion = self.portion(remaining, group[place].units, sum(group));\n",
        "        let mut old = group.to_vec();\n        share(remaining, &mut old);\n        let portion = self.portion(remaining, group[place].units, sum(group)).max(old[place].units);\n",
    ),
    (
        "the leftovers of the rest to the specialist",
        "specialist.rs",
        "        let portion = self.portion(remaining, group[place].units, sum(group));\n        group[place].units = portion;\n        // The sweep stands last while the rest shares.\n        group[place..].rotate_left(1);\n        let rest = group.len() - 1;\n        share(remaining - portion, &mut group[..rest]);\n",
        "        let size = group[place].units;\n        let portion = self.portion(remaining, group[place].units, sum(group));\n        group[place..].rotate_left(1);\n        let rest = group.len() - 1;\n        let (left, total) = (remaining - portion, sum(&group[..rest]));\n        group[rest].units = portion;\n        if total > left {\n            let mut floors = group[..rest].to_vec();\n            for given in &mut floors {\n                given.units = (u64::from(left) * u64::from(given.units) / u64::from(total)) as u32;\n            }\n            let own = (portion + left - sum(&floors)).min(size);\n            group[rest].units = own;\n            share(remaining - own, &mut group[..rest]);\n        }\n",
    ),
    (
        "the rest shares with the sweep in its total",
        "specialist.rs",
        "        let portion = self.portion(remaining, group[place].units, sum(group));\n        group[place].units = portion;\n        // The sweep stands last while the rest shares.\n        group[place..].rotate_left(1);\n        let rest = group.len() - 1;\n        share(remaining - portion, &mut group[..rest]);\n",
        "        let total = sum(group);\n        let portion = self.portion(remaining, group[place].units, sum(group));\n        group[place].units = portion;\n        group[place..].rotate_left(1);\n        let rest = group.len() - 1;\n        let mut left = remaining - portion;\n        let shared = left;\n        for given in &mut group[..rest] {\n            given.units = (u64::from(shared) * u64::from(given.units) / u64::from(total)) as u32;\n            left -= given.units;\n        }\n        for given in &mut group[..rest] {\n            given.units += u32::from(left > 0);\n            left = left.saturating_sub(1);\n        }\n",
    ),
    (
        "the rest shares all that remains",
        "specialist.rs",
        "        share(remaining - portion, &mut group[..rest]);\n",
        "        share(remaining, &mut group[..rest]);\n",
    ),
    (
        "the rest by number",
        "specialist.rs",
        "        share(remaining - portion, &mut group[..rest]);\n",
        "        let mut left = remaining - portion;\n        for given in &mut group[..rest] {\n            given.units = given.units.min(left);\n            left -= given.units;\n        }\n",
    ),
    (
        "the rest without the leftovers",
        "specialist.rs",
        "        share(remaining - portion, &mut group[..rest]);\n",
        "        let (left, total) = (remaining - portion, sum(&group[..rest]));\n        if total > left {\n            for given in &mut group[..rest] {\n                given.units = (u64::from(left) * u64::from(given.units) / u64::from(total)) as u32;\n            }\n        }\n",
    ),
    (
        "the leftovers of the rest from its last on",
        "specialist.rs",
        "        share(remaining - portion, &mut group[..rest]);\n",
        "        group[..rest].reverse();\n        share(remaining - portion, &mut group[..rest]);\n        group[..rest].reverse();\n",
    ),
    (
        "the specialist first",
        "specialist.rs",
        "        group[place..].rotate_right(1);\n",
        "        group.rotate_right(1);\n",
    ),
    (
        "the specialist last",
        "specialist.rs",
        "        group[place..].rotate_right(1);\n",
        "",
    ),
    (
        "asked without the sweep whether the group must be shared",
        "passes.rs",
        "                    Some((specialist, place)) if sum(members) > remaining => {\n",
        "                    Some((specialist, place)) if sum(members) - members[place].units > remaining => {\n",
    ),
    (
        "asked with what the starter wants before customers",
        "passes.rs",
        "                    Some((specialist, place)) if sum(members) > remaining => {\n",
        "                    Some((specialist, place)) if sum(members) > units => {\n",
    ),
    // Request 2026-04: whose sweep, and in which pass.
    (
        "a market maker's order taken for the sweep",
        "specialist.rs",
        "        holder.life.is_none() && holder.member == self.member\n",
        "        holder.member == self.member\n",
    ),
    (
        "the last entry of its member taken for the sweep",
        "passes.rs",
        "                let place = own().position(|holder| specialist.holds(holder))?;\n",
        "                own().position(|holder| specialist.holds(holder))?;\n                let last = own().filter(|holder| holder.member == specialist.member).last()?;\n                let place = own().position(|holder| holder.number == last.number)?;\n",
    ),
    (
        "only a market maker's order taken for the sweep",
        "specialist.rs",
        "        holder.life.is_none() && holder.member == self.member\n",
        "        holder.life.is_some() && holder.group == 1 && holder.member == self.member\n",
    ),
    (
        "any sweep taken for the specialist's",
        "specialist.rs",
        "        holder.life.is_none() && holder.member == self.member\n",
        "        holder.life.is_none()\n",
    ),
    (
        "a member of one byte",
        "specialist.rs",
        "        holder.life.is_none() && holder.member == self.member\n",
        "        holder.life.is_none() && holder.member as u8 == self.member as u8\n",
    ),
    (
        "the portion at the first limit alone",
        "passes.rs",
        "                None => self.whole_turn(&active, price, holders, records),\n",
        "                None => {\n                    let how = match holders {\n                        Holders::Shared(_) if records.len() > first => Holders::Shared(None),\n                        other => other,\n                    };\n                    self.whole_turn(&active, price, how, records)\n                }\n",
    ),
    (
        "the portion at a limit of several alone",
        "passes.rs",
        "                None => self.whole_turn(&active, price, holders, records),\n",
        "                None => {\n                    let how = match holders {\n                        Holders::Shared(_) if records.len() == first => Holders::Shared(None),\n                        other => other,\n                    };\n                    self.whole_turn(&active, price, how, records)\n                }\n",
    ),
    (
        "the specialist in the numbered passes",
        "auctions.rs",
        "Holders::Numbered, !is_sweep",
        "Holders::Shared(self.specialists[usize::from(strategy)]), !is_sweep",
    ),
    (
        "a market maker's order of its member in an arriving order's pass",
        "passes.rs",
        "            .copied()\n            .collect();\n        let fills = allot(&holders, how, active.units);\n",
        "            .copied()\n            .collect();\n        let named = self.specialists[usize::from(active.strategy)];\n        let mut holders = holders;\n        let how = match how {\n            Holders::Shared(None) if !self.auction_runs(active.strategy) => {\n                for holder in holders.iter_mut().filter(|holder| holder.group == 1) {\n                    holder.life = None;\n                }\n                Holders::Shared(named)\n            }\n            other => other,\n        };\n        let fills = allot(&holders, how, active.units);\n",
    ),
    (
        "no portion to a starter of its own member",
        "auctions.rs",
        "            Holders::Shared(self.specialists[usize::from(strategy)]),\n",
        "            Holders::Shared(self.specialists[usize::from(strategy)].filter(|named| self.entry(auction.starter).is_some_and(|starter| starter.member != named.member))),\n",
    ),
    (
        "no portion to a selling starter",
        "auctions.rs",
        "            Holders::Shared(self.specialists[usize::from(strategy)]),\n",
        "            Holders::Shared(self.specialists[usize::from(strategy)].filter(|_| auction.side == 0)),\n",
    ),
    (
        "no portion to a broker-dealer's starter",
        "auctions.rs",
        "            Holders::Shared(self.specialists[usize::from(strategy)]),\n",
        "            Holders::Shared(self.specialists[usize::from(strategy)].filter(|_| self.entry(auction.starter).is_some_and(|starter| starter.group == 0))),\n",
    ),
    (
        "the specialist of strategy 0 for all",
        "auctions.rs",
        "            Holders::Shared(self.specialists[usize::from(strategy)]),\n",
        "            Holders::Shared(self.specialists[0]),\n",
    ),
    // Request 2026-04: kind 11.
    (
        "the first one named holds",
        "events.rs",
        "                self.specialists[usize::from(strategy)] = Some(Specialist { member, percentage });\n",
        "                let named = &mut self.specialists[usize::from(strategy)];\n                named.get_or_insert(Specialist { member, percentage });\n",
    ),
    (
        "the highest percentage holds",
        "events.rs",
        "                self.specialists[usize::from(strategy)] = Some(Specialist { member, percentage });\n",
        "                let old = self.specialists[usize::from(strategy)];\n                if old.is_none_or(|old| old.percentage <= percentage) {\n                    self.specialists[usize::from(strategy)] = Some(Specialist { member, percentage });\n                }\n",
    ),
    (
        "another percentage of the same member not heard",
        "events.rs",
        "                self.specialists[usize::from(strategy)] = Some(Specialist { member, percentage });\n",
        "                let old = self.specialists[usize::from(strategy)];\n                if old.is_none_or(|old| old.member != member) {\n                    self.specialists[usize::from(strategy)] = Some(Specialist { member, percentage });\n                }\n",
    ),
    (
        "another member at the old percentage",
        "events.rs",
        "                self.specialists[usize::from(strategy)] = Some(Specialist { member, percentage });\n",
        "                let old = self.specialists[usize::from(strategy)];\n                let percentage = old.map_or(percentage, |old| old.percentage);\n                self.specialists[usize::from(strategy)] = Some(Specialist { member, percentage });\n",
    ),
    (
        "one specialist of all strategies",
        "events.rs",
        "                self.specialists[usize::from(strategy)] = Some(Specialist { member, percentage });\n",
        "                self.specialists = [Some(Specialist { member, percentage }); STRATEGIES];\n",
    ),
    (
        "a member in one strategy at a time",
        "events.rs",
        "                self.specialists[usize::from(strategy)] = Some(Specialist { member, percentage });\n",
        "                for old in self.specialists.iter_mut() {\n                    *old = old.filter(|old| old.member != member);\n                }\n                self.specialists[usize::from(strategy)] = Some(Specialist { member, percentage });\n",
    ),
    (
        "not heard while an auction runs",
        "events.rs",
        "                self.specialists[usize::from(strategy)] = Some(Specialist { member, percentage });\n",
        "                if !self.auction_runs(strategy) {\n                    self.specialists[usize::from(strategy)] = Some(Specialist { member, percentage });\n                }\n",
    ),
    (
        "heard while an auction runs alone",
        "events.rs",
        "                self.specialists[usize::from(strategy)] = Some(Specialist { member, percentage });\n",
        "                if self.auction_runs(strategy) {\n                    self.specialists[usize::from(strategy)] = Some(Specialist { member, percentage });\n                }\n",
    ),
    (
        "not heard beside a shut series",
        "events.rs",
        "                self.specialists[usize::from(strategy)] = Some(Specialist { member, percentage });\n",
        "                if self.all_open(strategy) {\n                    self.specialists[usize::from(strategy)] = Some(Specialist { member, percentage });\n                }\n",
    ),
    (
        "0 per cent takes the specialist away",
        "events.rs",
        "                self.specialists[usize::from(strategy)] = Some(Specialist { member, percentage });\n",
        "                self.specialists[usize::from(strategy)] = Some(Specialist { member, percentage }).filter(|named| named.percentage > 0);\n",
    ),
    (
        "kept over the day end",
        "events.rs",
        "        *self = Book::fresh(timer);\n",
        "        let specialists = self.specialists;\n        *self = Book::fresh(timer);\n        self.specialists = specialists;\n",
    ),
    (
        "forgotten when an auction ends",
        "auctions.rs",
        "            records.push(Record::auction_ended(auction.starter, strategy));\n",
        "            records.push(Record::auction_ended(auction.starter, strategy));\n            self.specialists[usize::from(strategy)] = None;\n",
    ),
    (
        "forgotten when a series shuts",
        "events.rs",
        "            self.end_shut_auctions(series, records);\n",
        "            self.end_shut_auctions(series, records);\n            for strategy in self.strategies_holding(series) {\n                self.specialists[usize::from(strategy)] = None;\n            }\n",
    ),
    (
        "forgotten when the strategy is defined again",
        "events.rs",
        "            Some(number) => number as u32,\n",
        "            Some(number) => {\n                self.specialists[number] = None;\n                number as u32\n            }\n",
    ),
    (
        "a strategy that is not defined accepted",
        "events.rs",
        "            Event::Specialist { strategy, .. } => {\n                if !self.defined(strategy) {\n",
        "            Event::Specialist { strategy, .. } => {\n                if strategy as usize > STRATEGIES {\n",
    ),
    (
        "a strategy that is not defined refused 3",
        "events.rs",
        "            Event::Specialist { strategy, .. } => {\n                if !self.defined(strategy) {\n                    causes.add(4);\n",
        "            Event::Specialist { strategy, .. } => {\n                if !self.defined(strategy) {\n                    causes.add(3);\n",
    ),
    (
        "refused 4 and kept",
        "events.rs",
        "            (first, _) => {\n",
        "            (first, event) => {\n                if let (Some(4), Ok(Event::Specialist { member, strategy, percentage })) = (first, event) {\n                    self.specialists[usize::from(strategy)] = Some(Specialist { member, percentage });\n                }\n",
    ),
    (
        "4 checked before 3",
        "events.rs",
        "            Err(refusal) => causes.add(*refusal),\n",
        "            Err(3) if frame[2] == 11 && usize::from(frame[6]) >= self.strategies.len() => causes.add(4),\n            Err(refusal) => causes.add(*refusal),\n",
    ),
    (
        "percentage 101 accepted",
        "frames.rs",
        "member >= 1 && strategy <= 15 && percentage <= 100",
        "member >= 1 && strategy <= 15 && percentage <= 101",
    ),
    (
        "percentage 100 refused",
        "frames.rs",
        "member >= 1 && strategy <= 15 && percentage <= 100",
        "member >= 1 && strategy <= 15 && percentage < 100",
    ),
    (
        "percentage 0 refused",
        "frames.rs",
        "member >= 1 && strategy <= 15 && percentage <= 100",
        "member >= 1 && strategy <= 15 && percentage <= 100 && percentage > 0",
    ),
    (
        "a specialist of member 0",
        "frames.rs",
        "member >= 1 && strategy <= 15 && percentage <= 100",
        "strategy <= 15 && percentage <= 100",
    ),
    (
        "strategy 16 refused 4",
        "frames.rs",
        "member >= 1 && strategy <= 15 && percentage <= 100",
        "member >= 1 && strategy <= 16 && percentage <= 100",
    ),
    (
        "strategy 15 refused 3",
        "frames.rs",
        "member >= 1 && strategy <= 15 && percentage <= 100",
        "member >= 1 && strategy <= 14 && percentage <= 100",
    ),
    (
        "kind 11 of 9 bytes",
        "frames.rs",
        "        11 => Ok(8),\n",
        "        11 => Ok(if frame.len() == 9 { 9 } else { 8 }),\n",
    ),
    (
        "the strategy number answered",
        "events.rs",
        "                self.specialists[usize::from(strategy)] = Some(Specialist { member, percentage });\n                0\n",
        "                self.specialists[usize::from(strategy)] = Some(Specialist { member, percentage });\n                u32::from(strategy)\n",
    ),
    (
        "passes after a specialist is named",
        "events.rs",
        "                self.specialists[usize::from(strategy)] = Some(Specialist { member, percentage });\n",
        "                self.specialists[usize::from(strategy)] = Some(Specialist { member, percentage });\n                for leg in self.legs(strategy).to_vec() {\n                    self.legs_only_passes(leg.series, records);\n                }\n",
    ),
    (
        "matches after a specialist is named",
        "events.rs",
        "                self.specialists[usize::from(strategy)] = Some(Specialist { member, percentage });\n",
        "                self.specialists[usize::from(strategy)] = Some(Specialist { member, percentage });\n                if self.all_open(strategy) && !self.auction_runs(strategy) {\n                    self.opening_match(strategy, records);\n                }\n",
    ),
    (
        "an auction that ends when a specialist is named",
        "events.rs",
        "                self.specialists[usize::from(strategy)] = Some(Specialist { member, percentage });\n",
        "                self.specialists[usize::from(strategy)] = Some(Specialist { member, percentage });\n                if self.auction_runs(strategy) {\n                    self.close_auction(strategy, records);\n                }\n",
    ),
    (
        "a number taken by kind 11",
        "events.rs",
        "                self.specialists[usize::from(strategy)] = Some(Specialist { member, percentage });\n",
        "                self.specialists[usize::from(strategy)] = Some(Specialist { member, percentage });\n                self.given = (self.given + 1).min(LAST_NUMBER);\n",
    ),
    // Request 2026-05: nets that strategies keep.
    (
        "nets as their definition set them",
        "nets.rs",
        "        for strategy in self.strategies_holding(series) {\n            let held = &mut self.strategies[usize::from(strategy)];\n",
        "        for strategy in self.strategies_holding(series).take(0) {\n            let held = &mut self.strategies[usize::from(strategy)];\n",
    ),
    (
        "nets not set at the definition",
        "events.rs",
        "                self.set_nets(number as u8);\n",
        "",
    ),
    (
        "the bid net alone set at the definition",
        "nets.rs",
        "        for order_side in [BUY, SELL] {\n",
        "        for order_side in [SELL] {\n",
    ),
    (
        "an equal definition that forgets the nets",
        "events.rs",
        "            Some(number) => number as u32,\n",
        "            Some(number) => {\n                self.strategies[number].nets = crate::nets::Nets::UNKNOWN;\n                number as u32\n            }\n",
    ),
    (
        "a cancel that leaves the nets",
        "book.rs",
        "            records.push(order.cancelled());\n            self.take_contracts(number, order.contracts);\n",
        "            let held = self.strategies;\n            records.push(order.cancelled());\n            self.take_contracts(number, order.contracts);\n            self.strategies = held;\n",
    ),
    (
        "a trade of leg orders that leaves the nets of the resting side",
        "events.rs",
        "                    self.take_contracts(resting.number, contracts);\n",
        "                    let held = self.strategies;\n                    self.take_contracts(resting.number, contracts);\n                    self.strategies = held;\n",
    ),
    (
        "a fill by legs that leaves the nets",
        "passes.rs",
        "            self.take_contracts(order.number, taken);\n",
        "            let held = self.strategies;\n            self.take_contracts(order.number, taken);\n            self.strategies = held;\n",
    ),
    (
        "a fill by legs that is seen on its first leg alone",
        "passes.rs",
        "        for entry in prices {\n            self.fill_leg_orders(entry, units * u32::from(entry.leg.ratio), records);\n        }\n",
        "        for (at, entry) in prices.iter().enumerate() {\n            let held = self.strategies;\n            self.fill_leg_orders(entry, units * u32::from(entry.leg.ratio), records);\n            if at > 0 {\n                self.strategies = held;\n            }\n        }\n",
    ),
    (
        "a fill by legs that is seen in its own strategy alone",
        "passes.rs",
        "        for entry in prices {\n            self.fill_leg_orders(entry, units * u32::from(entry.leg.ratio), records);\n        }\n",
        "        let held = self.strategies;\n        for entry in prices {\n            self.fill_leg_orders(entry, units * u32::from(entry.leg.ratio), records);\n        }\n        for (at, held) in held.iter().enumerate() {\n            if at != usize::from(active.strategy) {\n                self.strategies[at].nets = held.nets;\n            }\n        }\n",
    ),
    (
        "a leg order that rests after trades and leaves the nets",
        "events.rs",
        "            self.rest(incoming);\n",
        "            let held = self.strategies;\n            self.rest(incoming);\n            if !records.is_empty() {\n                self.strategies = held;\n            }\n",
    ),
    (
        "nets found before the fill and not after",
        "book.rs",
        "        let kept = &mut self.depths[usize::from(series)][usize::from(side)];\n        let old = std::mem::replace(kept, pair);\n        let price = |best: Option<Depth>| best.map(|best| best.price);\n        if price(old) != price(pair) {\n            self.renew_nets(series, side, price(old), price(pair));\n        }\n",
        "        let old = self.depth(series, side);\n        if old.map(|best| best.price) != pair.map(|best| best.price) {\n            for strategy in self.strategies_holding(series) {\n                self.set_nets(strategy);\n            }\n        }\n        self.depths[usize::from(series)][usize::from(side)] = pair;\n",
    ),
    (
        "only a better price seen",
        "book.rs",
        "        if price(old) != price(pair) {\n",
        "        let better = match (old, pair) {\n            (Some(old), Some(new)) if side == BUY => new.price > old.price,\n            (Some(old), Some(new)) => new.price < old.price,\n            (None, new) => new.is_some(),\n            _ => false,\n        };\n        if better {\n",
    ),
    (
        "a side that becomes empty not seen",
        "book.rs",
        "        if price(old) != price(pair) {\n",
        "        if pair.is_some() && price(old) != price(pair) {\n",
    ),
    (
        "a first price not seen",
        "book.rs",
        "        if price(old) != price(pair) {\n",
        "        if old.is_some() && price(old) != price(pair) {\n",
    ),
    (
        "unknown as 0 cents",
        "nets.rs",
        "    fn set(&mut self, order_side: u8, net: Option<i64>) {\n",
        "    fn set(&mut self, order_side: u8, net: Option<i64>) {\n        let net = Some(net.unwrap_or(0));\n",
    ),
    (
        "a net that does not become unknown",
        "nets.rs",
        "    fn set(&mut self, order_side: u8, net: Option<i64>) {\n",
        "    fn set(&mut self, order_side: u8, net: Option<i64>) {\n        if net.is_none() {\n            return;\n        }\n",
    ),
    (
        "an unknown net that makes both unknown",
        "nets.rs",
        "    fn set(&mut self, order_side: u8, net: Option<i64>) {\n",
        "    fn set(&mut self, order_side: u8, net: Option<i64>) {\n        if net.is_none() {\n            *self = Nets::UNKNOWN;\n        }\n",
    ),
    (
        "a net of 16 bits",
        "nets.rs",
        "    fn set(&mut self, order_side: u8, net: Option<i64>) {\n",
        "    fn set(&mut self, order_side: u8, net: Option<i64>) {\n        let net = net.map(|net| i64::from(net as i16));\n",
    ),
    (
        "a net without its sign",
        "nets.rs",
        "    fn set(&mut self, order_side: u8, net: Option<i64>) {\n",
        "    fn set(&mut self, order_side: u8, net: Option<i64>) {\n        let net = net.map(i64::abs);\n",
    ),
    (
        "the net of the other side found anew",
        "nets.rs",
        "            let order_side = side_taken(1 - side, leg);\n",
        "            let order_side = side_taken(side, leg);\n",
    ),
    (
        "the net of the price's side, whatever the leg",
        "nets.rs",
        "            let order_side = side_taken(1 - side, leg);\n",
        "            let order_side = if leg.ratio > 0 { 1 - side } else { side };\n",
    ),
    (
        "the nets exchanged",
        "nets.rs",
        "            self.offer\n        } else {\n            self.bid\n",
        "            self.bid\n        } else {\n            self.offer\n",
    ),
    (
        "the first strategy that holds the series alone",
        "nets.rs",
        "        for strategy in self.strategies_holding(series) {\n            let held = &mut self.strategies[usize::from(strategy)];\n",
        "        for strategy in self.strategies_holding(series).take(1) {\n            let held = &mut self.strategies[usize::from(strategy)];\n",
    ),
    (
        "the last strategy that holds the series left out",
        "nets.rs",
        "        for strategy in self.strategies_holding(series) {\n            let held = &mut self.strategies[usize::from(strategy)];\n",
        "        for strategy in self.strategies_holding(series) {\n            if strategy > 0 && self.strategies_holding(series).last() == Some(strategy) {\n                continue;\n            }\n            let held = &mut self.strategies[usize::from(strategy)];\n",
    ),
    (
        "strategies beside a shut series left as they are",
        "nets.rs",
        "        for strategy in self.strategies_holding(series) {\n            let held = &mut self.strategies[usize::from(strategy)];\n",
        "        for strategy in self.strategies_holding(series) {\n            if !self.all_open(strategy) {\n                continue;\n            }\n            let held = &mut self.strategies[usize::from(strategy)];\n",
    ),
    (
        "strategies in an auction left as they are",
        "nets.rs",
        "        for strategy in self.strategies_holding(series) {\n            let held = &mut self.strategies[usize::from(strategy)];\n",
        "        for strategy in self.strategies_holding(series) {\n            if self.auction_runs(strategy) {\n                continue;\n            }\n            let held = &mut self.strategies[usize::from(strategy)];\n",
    ),
    (
        "the first leg of a strategy alone seen",
        "nets.rs",
        "            let Some(leg) = held.legs.iter().find(",
        "            let Some(leg) = held.legs[..1].iter().find(",
    ),
    (
        "the nets of another slot renewed",
        "nets.rs",
        "        for strategy in self.strategies_holding(series) {\n            let held = &mut self.strategies[usize::from(strategy)];\n",
        "        let slots = self.strategies.len() as u8;\n        for strategy in self.strategies_holding(series).map(|strategy| (strategy ^ 1).min(slots - 1)) {\n            let held = &mut self.strategies[usize::from(strategy)];\n",
    ),
    (
        "the nets of strategy 0 for all",
        "nets.rs",
        "        let held = &self.strategies[usize::from(strategy)];\n        held.nets.taken_by(order_side)\n",
        "        let held = self.strategies.first().filter(|_| strategy < 16)?;\n        held.nets.taken_by(order_side)\n",
    ),
    (
        "prices without the ratio in contracts as missing",
        "nets.rs",
        "        let values = legs.map(|leg| Some(value(leg, self.leg_price(order_side, leg)?.price)));\n",
        "        let enough = |price: &LegPrice| price.contracts >= u32::from(price.leg.ratio);\n        let values = legs.map(|leg| Some(value(leg, self.leg_price(order_side, leg).filter(enough)?.price)));\n",
    ),
    (
        "prices of shut series as missing",
        "nets.rs",
        "        let values = legs.map(|leg| Some(value(leg, self.leg_price(order_side, leg)?.price)));\n",
        "        let open = |price: &LegPrice| self.is_open(price.leg.series);\n        let values = legs.map(|leg| Some(value(leg, self.leg_price(order_side, leg).filter(open)?.price)));\n",
    ),
    (
        "a series that shuts makes the nets unknown",
        "events.rs",
        "            self.open &= !(1 << series);\n",
        "            self.open &= !(1 << series);\n            for strategy in self.strategies_holding(series) {\n                self.strategies[usize::from(strategy)].nets = crate::nets::Nets::UNKNOWN;\n            }\n",
    ),
    (
        "a net that moves without the ratio",
        "nets.rs",
        "                    let moved = value(leg, new) - value(leg, old);\n",
        "                    let unit = Leg { ratio: 1, ..*leg };\n                    let moved = value(&unit, new) - value(&unit, old);\n",
    ),
    (
        "a net that moves the other way",
        "nets.rs",
        "                    let moved = value(leg, new) - value(leg, old);\n",
        "                    let moved = value(leg, old) - value(leg, new);\n",
    ),
    (
        "a net that moves and becomes known",
        "nets.rs",
        "                    held.nets.set(order_side, net.map(|net| net + moved));\n",
        "                    held.nets.set(order_side, Some(net.unwrap_or(0) + moved));\n",
    ),
    (
        "a net known by the first price of one leg",
        "nets.rs",
        "                (None, Some(_)) => self.renew_net(strategy, order_side),\n",
        "                (None, Some(new)) => {\n                    let net = held.nets.taken_by(order_side).unwrap_or(0);\n                    held.nets.set(order_side, Some(net + value(leg, new)));\n                }\n",
    ),
    (
        "a fill by legs that leaves units of its order and the nets",
        "passes.rs",
        "        for entry in prices {\n            self.fill_leg_orders(entry, units * u32::from(entry.leg.ratio), records);\n        }\n",
        "        let held = self.strategies;\n        for entry in prices {\n            self.fill_leg_orders(entry, units * u32::from(entry.leg.ratio), records);\n        }\n        if units < active.units {\n            self.strategies = held;\n        }\n",
    ),
    (
        "strategies and their nets kept over the day end",
        "events.rs",
        "        *self = Book::fresh(timer);\n",
        "        let held = self.strategies;\n        *self = Book::fresh(timer);\n        self.strategies = held;\n",
    ),
    (
        "fills and cancels that leave the nets",
        "book.rs",
        "                self.leg_orders.remove(at);\n            }\n            self.renew_depth(series, side);\n",
        "                self.leg_orders.remove(at);\n            }\n            let held = self.strategies;\n            self.renew_depth(series, side);\n            self.strategies = held;\n",
    ),
    (
        "the nets from before a leg order read by its passes",
        "events.rs",
        "            self.rest(incoming);\n            self.legs_only_passes(incoming.series, records);\n",
        "            let held = self.strategies;\n            self.rest(incoming);\n            self.strategies = held;\n            self.legs_only_passes(incoming.series, records);\n            for strategy in 0..self.strategies.len() as u8 {\n                self.set_nets(strategy);\n            }\n",
    ),
    (
        "a pass that reads the net of the other side",
        "passes.rs",
        "        let net = self.leg_net(active.strategy, active.side)?;\n",
        "        let net = self.leg_net(active.strategy, 1 - active.side)?;\n",
    ),
];

/// A part of the days that the proved tape is compared on.
fn days() -> Vec<Day> {
    let mut days = full_tables();
    days.extend(generated(60));
    days.extend(several_days(10));
    days.extend(any_frames(1));
    days.extend(extremes());
    days.extend(national());
    days.extend(best_prices());
    days.extend(near_nets());
    days.extend(specialists());
    days.extend(kept_nets());
    days.extend(ends().into_iter().step_by(40));
    days.extend(every_number(1));
    days
}

#[test]
fn slips_in_the_book_are_found() {
    let days = days();
    let folder = Path::new(env!("CARGO_TARGET_TMPDIR")).join("slips");
    fs::remove_dir_all(&folder).ok();
    let unchanged = ("none", "lib.rs", "pub mod tape;\n", "pub mod tape;\n");
    let program = Program::new(built(&folder, "tape", &unchanged), &[]);
    if let Err(different) = agrees(&program, &days) {
        panic!("without an edit: {different}");
    }
    let missed = missed(&folder, "tape", SLIPS, |built| {
        let mut program = Program::new(built, &[]);
        program.limit = Duration::from_secs(20);
        agrees(&program, &days)
            .err()
            .map(|different| different.to_string())
    });
    assert!(missed.is_empty(), "slips not found: {missed:#?}");
    println!("slips found: {}", SLIPS.len());
    assert!(SLIPS.len() >= 257);
}
