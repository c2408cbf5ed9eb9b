//! The comparison finds slips in `calls`: the reckoning's sources with one edit
//! each are built anew, and their `calls` has to differ from the reckoning's.

#![forbid(unsafe_code)]
#![deny(warnings)]

use calls::agree::{agrees, difference, reckoned};
use calls::hand::{days, depths, ends, last_numbers, nets, portions, refused_sweeps, spaces};
use calls::lists::{generated, several_days, List};
use std::fs;
use std::path::Path;
use std::time::Duration;
use tapes::program::Program;
use tapes::slips::{built, missed, Slip};

const SLIPS: &[Slip] = &[
    // Live quantity.
    (
        "live quantity without sweeps",
        "calls.rs",
        "    for number in book.live_numbers() {\n",
        "    let sweeps = || book.sweeps().map(|sweep| sweep.number);\n    for number in book.live_numbers().into_iter().filter(|number| sweeps().all(|sweep| sweep != *number)) {\n",
    ),
    (
        "live quantity without leg orders",
        "calls.rs",
        "    for number in book.live_numbers() {\n",
        "    let legs = || book.leg_orders.iter().map(|order| order.number);\n    for number in book.live_numbers().into_iter().filter(|number| legs().all(|leg| leg != *number)) {\n",
    ),
    (
        "live quantity without the starters of auctions",
        "calls.rs",
        "    for number in book.live_numbers() {\n",
        "    let starters = || book.auctions.iter().flatten().map(|auction| auction.starter);\n    for number in book.live_numbers().into_iter().filter(|number| starters().all(|starter| starter != *number)) {\n",
    ),
    (
        "live numbers by table",
        "book.rs",
        "        numbers.sort_unstable();\n        numbers\n",
        "        numbers\n",
    ),
    (
        "numbers with nothing live",
        "calls.rs",
        "    for number in book.live_numbers() {\n",
        "    for number in 1..=book.given {\n",
    ),
    (
        "live numbers up to 99,999",
        "calls.rs",
        "    for number in book.live_numbers() {\n",
        "    for number in book.live_numbers().into_iter().filter(|number| *number < 100_000) {\n",
    ),
    // Shut legs.
    (
        "the highest shut series",
        "book.rs",
        "Ok((shut.count_ones(), shut.trailing_zeros()))",
        "Ok((shut.count_ones(), if shut == 0 { 32 } else { 31 - shut.leading_zeros() }))",
    ),
    (
        "open legs counted",
        "book.rs",
        "let shut = held.series & !self.open;",
        "let shut = held.series & self.open;",
    ),
    (
        "the lowest shut series of all",
        "book.rs",
        "Ok((shut.count_ones(), shut.trailing_zeros()))",
        "Ok((shut.count_ones(), if shut == 0 { 32 } else { (!self.open).trailing_zeros() }))",
    ),
    (
        "0 when none is shut",
        "book.rs",
        "Ok((shut.count_ones(), shut.trailing_zeros()))",
        "Ok((shut.count_ones(), shut.trailing_zeros() % 32))",
    ),
    (
        "one shut leg for several",
        "book.rs",
        "Ok((shut.count_ones(), shut.trailing_zeros()))",
        "Ok((shut.count_ones().min(1), shut.trailing_zeros()))",
    ),
    (
        "strategies with a shut leg only",
        "calls.rs",
        "            writeln!(output, \"S {strategy} {count} {lowest}\")?;\n",
        "            if count > 0 { writeln!(output, \"S {strategy} {count} {lowest}\")?; }\n",
    ),
    (
        "strategies that are not defined",
        "book.rs",
        "            None => Err(4),\n",
        "            None if strategy > 14 => Ok((0, 32)),\n            None => Err(4),\n",
    ),
    (
        "strategy 15 left out",
        "calls.rs",
        "for strategy in 0..STRATEGIES as u32 {\n        if let Ok((count, lowest))",
        "for strategy in 0..STRATEGIES as u32 - 1 {\n        if let Ok((count, lowest))",
    ),
    // Depth.
    (
        "the worse price",
        "nets.rs",
        "        add_to_pair(pair, side, slot.price, u32::from(slot.contracts));\n",
        "        add_to_pair(pair, 1 - side, slot.price, u32::from(slot.contracts));\n",
    ),
    (
        "contracts at all prices",
        "book.rs",
        "    Ok(pair.map(|best| (best.price, best.contracts)))\n",
        "    let own = row.iter().filter(|slot| slot.series == series && slot.side == side);\n    let contracts = own.map(|slot| u32::from(slot.contracts)).sum();\n    Ok(pair.map(|best| (best.price, contracts)))\n",
    ),
    (
        "contracts of the first order",
        "book.rs",
        "    Ok(pair.map(|best| (best.price, best.contracts)))\n",
        "    let first = |price| row.iter().find(|slot| slot.series == series && slot.side == side && slot.price == price);\n    Ok(pair.map(|best| (best.price, first(best.price).map_or(0, |slot| u32::from(slot.contracts)))))\n",
    ),
    (
        "open series only",
        "calls.rs",
        "            if let Some((price, contracts)) = found {",
        "            if let Some((price, contracts)) = found.filter(|_| book.is_open(series as u8)) {",
    ),
    (
        "offers before bids",
        "calls.rs",
        "        for side in 0..2 {\n",
        "        for side in [1, 0] {\n",
    ),
    (
        "series 31 left out",
        "calls.rs",
        "for series in 0..u32::from(SERIES) {",
        "for series in 0..u32::from(SERIES) - 1 {",
    ),
    (
        "depth before shut legs",
        "calls.rs",
        "    put_lookups(&book, output)?;\n    Ok(book)\n",
        "    let mut lines = Vec::new();\n    put_lookups(&book, &mut lines)?;\n    let text = String::from_utf8_lossy(&lines);\n    let of = |kind: char| text.lines().filter(move |line| line.starts_with(kind));\n    for line in of('L').chain(of('D')).chain(of('S')).chain(of('N')) {\n        writeln!(output, \"{line}\")?;\n    }\n    Ok(book)\n",
    ),
    // Refusal 1 and the spaces.
    (
        "refusal 1 after 2",
        "events.rs",
        "match (causes.first(), event) {",
        "let others = Causes(causes.0 & !1).first();\n        match (others.filter(|cause| *cause == 2).or(causes.first()), event) {",
    ),
    (
        "refusal 1 after 3",
        "events.rs",
        "match (causes.first(), event) {",
        "let others = Causes(causes.0 & !1).first();\n        match (others.filter(|cause| *cause <= 3).or(causes.first()), event) {",
    ),
    (
        "refusal 1 after all others",
        "events.rs",
        "match (causes.first(), event) {",
        "let others = Causes(causes.0 & !1).first();\n        match (others.or(causes.first()), event) {",
    ),
    (
        "a space of 15,359 accepted",
        "events.rs",
        "        if space < SPACE {\n",
        "        if space + 1 < SPACE {\n",
    ),
    (
        "a space of 15,360 refused",
        "events.rs",
        "        if space < SPACE {\n",
        "        if space <= SPACE {\n",
    ),
    (
        "only the records needed have to fit",
        "events.rs",
        "        if space < SPACE {\n",
        "        if space < 6 {\n",
    ),
    (
        "a longer space refused",
        "calls.rs",
        "let lent = call.space.min(SPACE);",
        "let lent = if call.space > SPACE { 0 } else { call.space };",
    ),
    (
        "a space with its bytes exchanged",
        "calls.rs",
        "let space = usize::from(u16::from_le_bytes([*m0, *m1]));",
        "let space = usize::from(u16::from_be_bytes([*m0, *m1]));",
    ),
    (
        "a signed space",
        "calls.rs",
        "let lent = call.space.min(SPACE);",
        "let lent = if call.space > 32_767 { 0 } else { call.space.min(SPACE) };",
    ),
    (
        "a call refused 1 that changes the book",
        "events.rs",
        "        let event = read(frame);\n",
        "        let event = read(frame);\n        if let (true, Ok(event)) = (space < SPACE, &event) {\n            let mut others = Causes::default();\n            self.add_causes(event, &mut others);\n            if others.first().is_none() {\n                self.accept(event, &mut Vec::new());\n            }\n        }\n",
    ),
    (
        "a number taken by a refused call",
        "events.rs",
        "            (first, _) => {\n",
        "            (first, event) => {\n                if let Ok(Event::LegOrder { .. }) = event {\n                    self.given = (self.given + 1).min(LAST_NUMBER);\n                }\n",
    ),
    // Items, the end of the input, the day end.
    (
        "cut not printed",
        "calls.rs",
        "    if cut {\n",
        "    if cut && items.len() > usize::MAX - 1 {\n",
    ),
    (
        "cut printed at every end",
        "calls.rs",
        "    if cut {\n",
        "    if cut || !items.is_empty() {\n",
    ),
    (
        "no cut inside the lengths",
        "calls.rs",
        "(items, !rest.is_empty())",
        "(items, rest.len() >= 4)",
    ),
    (
        "no cut inside a frame",
        "calls.rs",
        "(items, !rest.is_empty())",
        "(items, (1..4).contains(&rest.len()))",
    ),
    (
        "no lookups after a cut",
        "calls.rs",
        "    put_lookups(&book, output)?;\n    Ok(book)\n",
        "    if !cut {\n        put_lookups(&book, output)?;\n    }\n    Ok(book)\n",
    ),
    (
        "lookups after a cut only",
        "calls.rs",
        "    put_lookups(&book, output)?;\n    Ok(book)\n",
        "    if cut {\n        put_lookups(&book, output)?;\n    }\n    Ok(book)\n",
    ),
    (
        "lookups of the first book",
        "calls.rs",
        "    put_lookups(&book, output)?;\n    Ok(book)\n",
        "    put_lookups(&Book::first(), output)?;\n    Ok(book)\n",
    ),
    (
        "a frame that is cut, played",
        "calls.rs",
        "        if length > after.len() {\n            break;\n        }\n        let (frame, next) = after.split_at(length);\n",
        "        let (frame, next) = after.split_at(length.min(after.len()));\n",
    ),
    (
        "an empty frame ends the list",
        "calls.rs",
        "        if length > after.len() {\n",
        "        if length == 0 || length > after.len() {\n",
    ),
    (
        "the frame's own length taken",
        "calls.rs",
        "        let frame = frame.to_vec();\n        items.push",
        "        let own = if length < 2 { length } else { usize::from(u16::from_le_bytes([frame[0], frame[1]])) };\n        let frame = frame[..own.min(length)].to_vec();\n        items.push",
    ),
    (
        "lengths of one byte",
        "calls.rs",
        "let length = usize::from(u16::from_le_bytes([*n0, *n1]));",
        "let length = usize::from(*n0) + 0 * usize::from(*n1);",
    ),
    (
        "the list stops at a day end",
        "calls.rs",
        "        put_answer(index, &answer, output)?;\n",
        "        put_answer(index, &answer, output)?;\n        if answer.answer == 0 && call.frame[2] == 8 {\n            break;\n        }\n",
    ),
    (
        "the index from 0 after a refusal 1",
        "calls.rs",
        "        put_answer(index, &answer, output)?;\n",
        "        put_answer(if answer.answer == 1 { 0 } else { index }, &answer, output)?;\n",
    ),
    // Request 2026-01.
    (
        "national prices set by a call refused 1",
        "events.rs",
        "        let event = read(frame);\n",
        "        let event = read(frame);\n        if let (true, Ok(Event::NationalPrices { series, bid, offer })) = (space < SPACE, &event) {\n            if !crossed(*bid, *offer) {\n                self.national.set(*series, *bid, *offer);\n            }\n        }\n",
    ),
    (
        "a range set by a call refused 1",
        "events.rs",
        "        let event = read(frame);\n",
        "        let event = read(frame);\n        if let (true, Ok(Event::ExecutionRange { cents })) = (space < SPACE, &event) {\n            self.national.range = u32::from(*cents);\n        }\n",
    ),
    (
        "crossed national prices refused 14 and set",
        "events.rs",
        "            (first, _) => {\n",
        "            (first, event) => {\n                if let (Some(14), Ok(Event::NationalPrices { series, bid, offer })) = (first, event) {\n                    self.national.set(series, bid, offer);\n                }\n",
    ),
    (
        "refusal 1 after 14",
        "events.rs",
        "match (causes.first(), event) {",
        "let crossed = Causes(causes.0 & 1 << 3).first();\n        match (crossed.or(causes.first()), event) {",
    ),
    (
        "live quantity without orders out of the range",
        "calls.rs",
        "    for number in book.live_numbers() {\n",
        "    let within = |number: &u32| book.entry(*number).map_or(true, |entry| book.bounds(entry.strategy).allow(entry.side, i64::from(entry.limit)));\n    for number in book.live_numbers().into_iter().filter(within) {\n",
    ),
    (
        "whole fills not bound",
        "passes.rs",
        "                bounds.allow_both(price)\n",
        "                true\n",
    ),
    (
        "the range kept over the day end",
        "events.rs",
        "        *self = Book::fresh(timer);\n",
        "        let range = self.national.range;\n        *self = Book::fresh(timer);\n        self.national.range = range;\n",
    ),
    // Request 2026-02: the running pair of the depth lookup alone.
    (
        "a pair that does not start afresh: the old contracts stay in the sum",
        "nets.rs",
        "        add_to_pair(pair, side, slot.price, u32::from(slot.contracts));\n",
        "        let old = *pair;\n        add_to_pair(pair, side, slot.price, u32::from(slot.contracts));\n        if let (Some(old), Some(best)) = (old, pair) {\n            if old.price != best.price {\n                best.contracts += old.contracts;\n            }\n        }\n",
    ),
    (
        "a better price with the old contracts",
        "nets.rs",
        "        add_to_pair(pair, side, slot.price, u32::from(slot.contracts));\n",
        "        let old = *pair;\n        add_to_pair(pair, side, slot.price, u32::from(slot.contracts));\n        if let (Some(old), Some(best)) = (old, pair) {\n            if old.price != best.price {\n                best.contracts = old.contracts;\n            }\n        }\n",
    ),
    (
        "a better price that changes nothing",
        "nets.rs",
        "        add_to_pair(pair, side, slot.price, u32::from(slot.contracts));\n",
        "        let old = *pair;\n        add_to_pair(pair, side, slot.price, u32::from(slot.contracts));\n        if old.is_some_and(|old| old.price != pair.map_or(0, |best| best.price)) {\n            *pair = old;\n        }\n",
    ),
    (
        "an equal price that replaces",
        "nets.rs",
        "        add_to_pair(pair, side, slot.price, u32::from(slot.contracts));\n",
        "        if pair.is_some_and(|best| best.price == slot.price) {\n            *pair = None;\n        }\n        add_to_pair(pair, side, slot.price, u32::from(slot.contracts));\n",
    ),
    (
        "a worse price that adds",
        "nets.rs",
        "        add_to_pair(pair, side, slot.price, u32::from(slot.contracts));\n",
        "        add_to_pair(pair, side, slot.price, u32::from(slot.contracts));\n        if let Some(best) = pair {\n            if best.price != slot.price {\n                best.contracts += u32::from(slot.contracts);\n            }\n        }\n",
    ),
    (
        "a worse price that replaces",
        "nets.rs",
        "        add_to_pair(pair, side, slot.price, u32::from(slot.contracts));\n",
        "        if pair.is_some_and(|best| best.price != slot.price) {\n            *pair = None;\n        }\n        add_to_pair(pair, side, slot.price, u32::from(slot.contracts));\n",
    ),
    (
        "contracts of 16 bits",
        "book.rs",
        "    Ok(pair.map(|best| (best.price, best.contracts)))\n",
        "    Ok(pair.map(|best| (best.price, best.contracts % 65_536)))\n",
    ),
    (
        "the first slot not walked",
        "book.rs",
        "    for slot in row {\n",
        "    for slot in row.iter().skip(1) {\n",
    ),
    (
        "the last of 32 slots not walked",
        "book.rs",
        "    for slot in row {\n",
        "    for slot in row.iter().take(LEG_ORDERS - 1) {\n",
    ),
    (
        "slots of the other side walked",
        "nets.rs",
        "    if slot.contracts > 0 && slot.series == series && slot.side == side {\n",
        "    if slot.contracts > 0 && slot.series == series {\n",
    ),
    (
        "slots of other series walked",
        "nets.rs",
        "    if slot.contracts > 0 && slot.series == series && slot.side == side {\n",
        "    if slot.contracts > 0 && slot.series <= series && slot.side == side {\n",
    ),
    (
        "a pair begun with a price of either side",
        "book.rs",
        "    let mut pair = None;\n    for slot",
        "    let mut pair = row.iter().find(|slot| slot.series == series).map(|slot| Depth { price: slot.price, contracts: 0 });\n    for slot",
    ),
    (
        "an empty side printed",
        "calls.rs",
        "            if let Some((price, contracts)) = found {",
        "            let found = found.or(book.depth(series as u8, 1 - side as u8).map(|_| (0, 0)));\n            if let Some((price, contracts)) = found {",
    ),
    // Request 2026-03.
    (
        "refusal 1 after 15",
        "events.rs",
        "match (causes.first(), event) {",
        "let sweep = Causes(causes.0 & 1 << 11).first();\n        match (sweep.or(causes.first()), event) {",
    ),
    (
        "a sweep refused 15 that is live",
        "events.rs",
        "            (first, _) => {\n",
        "            (first, event) => {\n                if let (Some(15), Ok(event)) = (first, event) {\n                    if self.sweeps().count() < SWEEPS && self.given < LAST_NUMBER {\n                        self.accept(&event, &mut Vec::new());\n                    }\n                }\n",
    ),
    (
        "a refused replacement takes the old one out",
        "events.rs",
        "            (first, _) => {\n",
        "            (first, event) => {\n                if let (Some(15), Ok(Event::Sweep { member, strategy, side, limit, .. })) = (first, event) {\n                    if let Some(old) = self.equal_sweep(member, strategy, side, limit) {\n                        self.cancel_live(old, &mut Vec::new());\n                    }\n                }\n",
    ),
    (
        "a refused replacement with the new units in the old one",
        "events.rs",
        "            (first, _) => {\n",
        "            (first, event) => {\n                if let (Some(15), Ok(Event::Sweep { member, strategy, side, limit, units })) = (first, event) {\n                    if let Some(old) = self.equal_sweep(member, strategy, side, limit) {\n                        if let Some(entry) = self.entries.iter_mut().find(|entry| entry.number == old) {\n                            entry.units = u32::from(units);\n                        }\n                    }\n                }\n",
    ),
    (
        "a sweep with a short space and 15 that takes the old one out",
        "events.rs",
        "            (first, _) => {\n",
        "            (first, event) => {\n                if let (Some(1), Ok(Event::Sweep { member, strategy, side, limit, .. })) = (first, event) {\n                    if !self.sweep_betters(strategy, side, limit) {\n                        if let Some(old) = self.equal_sweep(member, strategy, side, limit) {\n                            self.cancel_live(old, &mut Vec::new());\n                        }\n                    }\n                }\n",
    ),
    (
        "live quantity without sweeps that the net has passed",
        "calls.rs",
        "    for number in book.live_numbers() {\n",
        "    let passed = |number: &u32| book.entry(*number).is_some_and(|entry| entry.life.is_none() && book.betters_own_net(entry.strategy, entry.side, entry.limit) == Some(false));\n    for number in book.live_numbers().into_iter().filter(|number| !passed(number)) {\n",
    ),
    (
        "an equal limit betters",
        "events.rs",
        "self.betters_own_net(strategy, side, limit).unwrap_or(true)",
        "self.leg_net(strategy, 1 - side) == Some(i64::from(limit)) || self.betters_own_net(strategy, side, limit).unwrap_or(true)",
    ),
    (
        "15 after 13",
        "events.rs",
        "                if units > 0 && !self.sweep_betters(strategy, side, limit) {\n",
        "                if units > 0 && self.given < LAST_NUMBER && !self.sweep_betters(strategy, side, limit) {\n",
    ),
    (
        "15 after 12",
        "events.rs",
        "[1, 2, 3, 14, 4, 5, 6, 7, 8, 9, 10, 15, 11, 12, 13]",
        "[1, 2, 3, 14, 4, 5, 6, 7, 8, 9, 10, 11, 12, 15, 13]",
    ),
    // Request 2026-04.
    (
        "a specialist named by a call refused 1",
        "events.rs",
        "        let event = read(frame);\n",
        "        let event = read(frame);\n        if let (true, Ok(Event::Specialist { member, strategy, percentage })) = (space < SPACE, &event) {\n            if self.defined(*strategy) {\n                let (member, percentage) = (*member, *percentage);\n                self.specialists[usize::from(*strategy)] = Some(Specialist { member, percentage });\n            }\n        }\n",
    ),
    (
        "a specialist refused 4 and kept",
        "events.rs",
        "            (first, _) => {\n",
        "            (first, event) => {\n                if let (Some(4), Ok(Event::Specialist { member, strategy, percentage })) = (first, event) {\n                    self.specialists[usize::from(strategy)] = Some(Specialist { member, percentage });\n                }\n",
    ),
    (
        "refusal 1 after 4",
        "events.rs",
        "match (causes.first(), event) {",
        "let undefined = Causes(causes.0 & 1 << 4).first();\n        match (undefined.or(causes.first()), event) {",
    ),
    (
        "no portion",
        "auctions.rs",
        "            Holders::Shared(self.specialists[usize::from(strategy)]),\n",
        "            Holders::Shared(None),\n",
    ),
    (
        "a part in the leftovers of the whole group",
        "specialist.rs",
        "        let portion = self.portion(remaining, group[place].units, sum(group));\n",
        "        let mut old = group.to_vec();\n        share(remaining, &mut old);\n        let portion = self.portion(remaining, group[place].units, sum(group)).max(old[place].units);\n",
    ),
    (
        "the percentage rounded up",
        "specialist.rs",
        "        let part = u32::from(self.percentage) * remaining / 100;\n",
        "        let part = (u32::from(self.percentage) * remaining).div_ceil(100);\n",
    ),
    (
        "the specialist last",
        "specialist.rs",
        "        group[place..].rotate_right(1);\n",
        "",
    ),
    (
        "specialists kept over the day end",
        "events.rs",
        "        *self = Book::fresh(timer);\n",
        "        let specialists = self.specialists;\n        *self = Book::fresh(timer);\n        self.specialists = specialists;\n",
    ),
    (
        "the first one named holds",
        "events.rs",
        "                self.specialists[usize::from(strategy)] = Some(Specialist { member, percentage });\n",
        "                let named = &mut self.specialists[usize::from(strategy)];\n                named.get_or_insert(Specialist { member, percentage });\n",
    ),
    (
        "percentage 101 accepted",
        "frames.rs",
        "member >= 1 && strategy <= 15 && percentage <= 100",
        "member >= 1 && strategy <= 15 && percentage <= 101",
    ),
    (
        "live quantity without the specialists' sweeps",
        "calls.rs",
        "    for number in book.live_numbers() {\n",
        "    let named = |number: &u32| book.entry(*number).is_some_and(|entry| book.specialists[usize::from(entry.strategy)].is_some_and(|named| named.holds(&entry)));\n    for number in book.live_numbers().into_iter().filter(|number| !named(number)) {\n",
    ),
    // Request 2026-05.
    (
        "the offer net before the bid net",
        "calls.rs",
        "            writeln!(output, \"N {strategy} {} {}\", net(nets.bid), net(nets.offer))?;\n",
        "            writeln!(output, \"N {strategy} {} {}\", net(nets.offer), net(nets.bid))?;\n",
    ),
    (
        "an unknown net printed as 0",
        "calls.rs",
        "    let net = |net: Option<i64>| net.map_or(\"-\".to_string(), |cents| cents.to_string());\n",
        "    let net = |net: Option<i64>| net.map_or(\"0\".to_string(), |cents| cents.to_string());\n",
    ),
    (
        "an unknown net printed as nothing",
        "calls.rs",
        "    let net = |net: Option<i64>| net.map_or(\"-\".to_string(), |cents| cents.to_string());\n",
        "    let net = |net: Option<i64>| net.map_or(String::new(), |cents| cents.to_string());\n",
    ),
    (
        "a net printed without its sign",
        "calls.rs",
        "    let net = |net: Option<i64>| net.map_or(\"-\".to_string(), |cents| cents.to_string());\n",
        "    let net = |net: Option<i64>| net.map_or(\"-\".to_string(), |cents| cents.abs().to_string());\n",
    ),
    (
        "nets only where one is known",
        "calls.rs",
        "            writeln!(output, \"N {strategy} {} {}\", net(nets.bid), net(nets.offer))?;\n",
        "            if nets.bid.is_some() || nets.offer.is_some() {\n                writeln!(output, \"N {strategy} {} {}\", net(nets.bid), net(nets.offer))?;\n            }\n",
    ),
    (
        "nets only where no leg is shut",
        "calls.rs",
        "            writeln!(output, \"N {strategy} {} {}\", net(nets.bid), net(nets.offer))?;\n",
        "            if book.all_open(strategy as u8) {\n                writeln!(output, \"N {strategy} {} {}\", net(nets.bid), net(nets.offer))?;\n            }\n",
    ),
    (
        "nets only where no auction runs",
        "calls.rs",
        "            writeln!(output, \"N {strategy} {} {}\", net(nets.bid), net(nets.offer))?;\n",
        "            if !book.auction_runs(strategy as u8) {\n                writeln!(output, \"N {strategy} {} {}\", net(nets.bid), net(nets.offer))?;\n            }\n",
    ),
    (
        "nets of strategy 15 left out",
        "calls.rs",
        "    for strategy in 0..STRATEGIES as u32 {\n        if let Ok(nets) = book.nets(strategy) {\n",
        "    for strategy in 0..STRATEGIES as u32 - 1 {\n        if let Ok(nets) = book.nets(strategy) {\n",
    ),
    (
        "nets of strategies that are not defined",
        "book.rs",
        "        let held = self.strategies.get(strategy as usize).ok_or(4_u32)?;\n",
        "        if strategy as usize == self.strategies.len() && strategy < 16 {\n            return Ok(Nets::UNKNOWN);\n        }\n        let held = self.strategies.get(strategy as usize).ok_or(4_u32)?;\n",
    ),
    (
        "nets before shut legs",
        "calls.rs",
        "    put_lookups(&book, output)?;\n    Ok(book)\n",
        "    let mut lines = Vec::new();\n    put_lookups(&book, &mut lines)?;\n    let text = String::from_utf8_lossy(&lines);\n    let of = |kind: char| text.lines().filter(move |line| line.starts_with(kind));\n    for line in of('L').chain(of('N')).chain(of('S')).chain(of('D')) {\n        writeln!(output, \"{line}\")?;\n    }\n    Ok(book)\n",
    ),
    (
        "nets after depths",
        "calls.rs",
        "    put_lookups(&book, output)?;\n    Ok(book)\n",
        "    let mut lines = Vec::new();\n    put_lookups(&book, &mut lines)?;\n    let text = String::from_utf8_lossy(&lines);\n    let of = |kind: char| text.lines().filter(move |line| line.starts_with(kind));\n    for line in of('L').chain(of('S')).chain(of('D')).chain(of('N')) {\n        writeln!(output, \"{line}\")?;\n    }\n    Ok(book)\n",
    ),
    (
        "nets and shut legs in turn",
        "calls.rs",
        "    put_lookups(&book, output)?;\n    Ok(book)\n",
        "    let mut lines = Vec::new();\n    put_lookups(&book, &mut lines)?;\n    let text = String::from_utf8_lossy(&lines);\n    let of = |kind: char| text.lines().filter(move |line| line.starts_with(kind));\n    let pairs = of('S').zip(of('N')).flat_map(|(shut, nets)| [shut, nets]);\n    for line in of('L').chain(pairs).chain(of('D')) {\n        writeln!(output, \"{line}\")?;\n    }\n    Ok(book)\n",
    ),
    (
        "nets found anew by the checks, and those that are kept let be",
        "nets.rs",
        "        for strategy in self.strategies_holding(series) {\n            let held = &mut self.strategies[usize::from(strategy)];\n            let Some(leg) = held.legs.iter().find(|leg| leg.series == series) else {\n                continue;\n            };\n            // Who takes the leg on the other side takes this price.\n            let order_side = side_taken(1 - side, leg);\n            match (old, new) {\n                (Some(old), Some(new)) => {\n                    let moved = value(leg, new) - value(leg, old);\n                    let net = held.nets.taken_by(order_side);\n                    held.nets.set(order_side, net.map(|net| net + moved));\n                }\n                (None, Some(_)) => self.renew_net(strategy, order_side),\n                (_, None) => held.nets.set(order_side, None),\n            }\n        }\n    }\n\n    /// The net that an order of this side takes, as the strategy keeps it.\n    pub fn leg_net(&self, strategy: u8, order_side: u8) -> Option<i64> {\n        let held = &self.strategies[usize::from(strategy)];\n        held.nets.taken_by(order_side)\n    }\n",
        "        self.strategies_holding(series).take(usize::from(side) + old.or(new).unwrap_or(0) as usize).count();\n    }\n\n    pub fn leg_net(&self, strategy: u8, order_side: u8) -> Option<i64> {\n        let prices = self.leg_prices(strategy, order_side)?;\n        Some(net(&prices))\n    }\n",
    ),
    (
        "a leg order refused 1 that is seen in the nets",
        "events.rs",
        "            (first, _) => {\n",
        "            (first, event) => {\n                if let (Some(1), Ok(Event::LegOrder { series, .. })) = (first, event) {\n                    for strategy in self.strategies_holding(series) {\n                        self.strategies[usize::from(strategy)].nets = crate::nets::Nets::UNKNOWN;\n                    }\n                }\n",
    ),
    (
        "nets as their definition set them",
        "nets.rs",
        "        for strategy in self.strategies_holding(series) {\n            let held = &mut self.strategies[usize::from(strategy)];\n",
        "        for strategy in self.strategies_holding(series).take(0) {\n            let held = &mut self.strategies[usize::from(strategy)];\n",
    ),
    (
        "nets not set at the definition",
        "events.rs",
        "                self.set_nets(number as u8);\n",
        "",
    ),
    (
        "an equal definition that forgets the nets",
        "events.rs",
        "            Some(number) => number as u32,\n",
        "            Some(number) => {\n                self.strategies[number].nets = crate::nets::Nets::UNKNOWN;\n                number as u32\n            }\n",
    ),
    (
        "a cancel that leaves the nets",
        "book.rs",
        "            records.push(order.cancelled());\n            self.take_contracts(number, order.contracts);\n",
        "            let held = self.strategies;\n            records.push(order.cancelled());\n            self.take_contracts(number, order.contracts);\n            self.strategies = held;\n",
    ),
    (
        "a trade of leg orders that leaves the nets of the resting side",
        "events.rs",
        "                    self.take_contracts(resting.number, contracts);\n",
        "                    let held = self.strategies;\n                    self.take_contracts(resting.number, contracts);\n                    self.strategies = held;\n",
    ),
    (
        "a fill by legs that leaves the nets",
        "passes.rs",
        "            self.take_contracts(order.number, taken);\n",
        "            let held = self.strategies;\n            self.take_contracts(order.number, taken);\n            self.strategies = held;\n",
    ),
    (
        "a fill by legs that is seen on its first leg alone",
        "passes.rs",
        "        for entry in prices {\n            self.fill_leg_orders(entry, units * u32::from(entry.leg.ratio), records);\n        }\n",
        "        for (at, entry) in prices.iter().enumerate() {\n            let held = self.strategies;\n            self.fill_leg_orders(entry, units * u32::from(entry.leg.ratio), records);\n            if at > 0 {\n                self.strategies = held;\n            }\n        }\n",
    ),
    (
        "a fill by legs that is seen in its own strategy alone",
        "passes.rs",
        "        for entry in prices {\n            self.fill_leg_orders(entry, units * u32::from(entry.leg.ratio), records);\n        }\n",
        "        let held = self.strategies;\n        for entry in prices {\n            self.fill_leg_orders(entry, units * u32::from(entry.leg.ratio), records);\n        }\n        for (at, held) in held.iter().enumerate() {\n            if at != usize::from(active.strategy) {\n                self.strategies[at].nets = held.nets;\n            }\n        }\n",
    ),
    (
        "nets found before the fill and not after",
        "book.rs",
        "        let kept = &mut self.depths[usize::from(series)][usize::from(side)];\n        let old = std::mem::replace(kept, pair);\n        let price = |best: Option<Depth>| best.map(|best| best.price);\n        if price(old) != price(pair) {\n            self.renew_nets(series, side, price(old), price(pair));\n        }\n",
        "        let old = self.depth(series, side);\n        if old.map(|best| best.price) != pair.map(|best| best.price) {\n            for strategy in self.strategies_holding(series) {\n                self.set_nets(strategy);\n            }\n        }\n        self.depths[usize::from(series)][usize::from(side)] = pair;\n",
    ),
    (
        "unknown as 0 cents",
        "nets.rs",
        "    fn set(&mut self, order_side: u8, net: Option<i64>) {\n",
        "    fn set(&mut self, order_side: u8, net: Option<i64>) {\n        let net = Some(net.unwrap_or(0));\n",
    ),
    (
        "a net that does not become unknown",
        "nets.rs",
        "    fn set(&mut self, order_side: u8, net: Option<i64>) {\n",
        "    fn set(&mut self, order_side: u8, net: Option<i64>) {\n        if net.is_none() {\n            return;\n        }\n",
    ),
    (
        "the net of the other side found anew",
        "nets.rs",
        "            let order_side = side_taken(1 - side, leg);\n",
        "            let order_side = side_taken(side, leg);\n",
    ),
    (
        "the nets exchanged",
        "nets.rs",
        "            self.offer\n        } else {\n            self.bid\n",
        "            self.bid\n        } else {\n            self.offer\n",
    ),
    (
        "the first strategy that holds the series alone",
        "nets.rs",
        "        for strategy in self.strategies_holding(series) {\n            let held = &mut self.strategies[usize::from(strategy)];\n",
        "        for strategy in self.strategies_holding(series).take(1) {\n            let held = &mut self.strategies[usize::from(strategy)];\n",
    ),
    (
        "strategies beside a shut series left as they are",
        "nets.rs",
        "        for strategy in self.strategies_holding(series) {\n            let held = &mut self.strategies[usize::from(strategy)];\n",
        "        for strategy in self.strategies_holding(series) {\n            if !self.all_open(strategy) {\n                continue;\n            }\n            let held = &mut self.strategies[usize::from(strategy)];\n",
    ),
    (
        "the nets of another slot renewed",
        "nets.rs",
        "        for strategy in self.strategies_holding(series) {\n            let held = &mut self.strategies[usize::from(strategy)];\n",
        "        let slots = self.strategies.len() as u8;\n        for strategy in self.strategies_holding(series).map(|strategy| (strategy ^ 1).min(slots - 1)) {\n            let held = &mut self.strategies[usize::from(strategy)];\n",
    ),
    (
        "prices of shut series as missing",
        "nets.rs",
        "        let values = legs.map(|leg| Some(value(leg, self.leg_price(order_side, leg)?.price)));\n",
        "        let open = |price: &LegPrice| self.is_open(price.leg.series);\n        let values = legs.map(|leg| Some(value(leg, self.leg_price(order_side, leg).filter(open)?.price)));\n",
    ),
    (
        "a series that shuts makes the nets unknown",
        "events.rs",
        "            self.open &= !(1 << series);\n",
        "            self.open &= !(1 << series);\n            for strategy in self.strategies_holding(series) {\n                self.strategies[usize::from(strategy)].nets = crate::nets::Nets::UNKNOWN;\n            }\n",
    ),
    (
        "a net that moves the other way",
        "nets.rs",
        "                    let moved = value(leg, new) - value(leg, old);\n",
        "                    let moved = value(leg, old) - value(leg, new);\n",
    ),
    (
        "a net that moves and becomes known",
        "nets.rs",
        "                    held.nets.set(order_side, net.map(|net| net + moved));\n",
        "                    held.nets.set(order_side, Some(net.unwrap_or(0) + moved));\n",
    ),
    (
        "strategies and their nets kept over the day end",
        "events.rs",
        "        *self = Book::fresh(timer);\n",
        "        let held = self.strategies;\n        *self = Book::fresh(timer);\n        self.strategies = held;\n",
    ),
];

/// A part of the lists that the proved program is compared on.
fn lists() -> Vec<List> {
    let mut lists: Vec<List> = spaces().into_iter().step_by(5).collect();
    lists.extend(ends().into_iter().step_by(20));
    lists.extend(generated(35));
    lists.extend(several_days(7));
    lists.extend(days());
    lists.extend(depths());
    lists.extend(last_numbers());
    lists.extend(refused_sweeps().into_iter().step_by(5));
    lists.extend(portions());
    lists.extend(nets());
    lists
}

#[test]
fn slips_in_calls_are_found() {
    let lists = lists();
    let folder = Path::new(env!("CARGO_TARGET_TMPDIR")).join("slips-of-calls");
    fs::remove_dir_all(&folder).ok();
    let unchanged = ("none", "lib.rs", "pub mod calls;\n", "pub mod calls;\n");
    let program = Program::new(built(&folder, "calls", &unchanged), &[]);
    if let Err(different) = agrees(&program, &lists) {
        panic!("without an edit: {different}");
    }
    let missed = missed(&folder, "calls", SLIPS, |built| {
        let mut program = Program::new(built, &[]);
        program.limit = Duration::from_secs(60);
        agrees(&program, &lists)
            .err()
            .map(|different| different.to_string())
    });
    assert!(missed.is_empty(), "slips not found: {missed:#?}");
    println!("slips found: {}", SLIPS.len());
    assert!(SLIPS.len() >= 120);
}

#[test]
fn a_program_that_is_missing_is_a_failure() {
    let program = Program::new("/no/such/calls", &[]);
    let said = match agrees(&program, &generated(1)) {
        Ok(_) => String::new(),
        Err(different) => different.to_string(),
    };
    assert!(said.contains("/no/such/calls cannot be run"), "{said}");
}

#[test]
fn the_first_line_that_differs_is_shown_with_its_call() {
    let input = [6, 0, 0, 60, 6, 0, 6, 0, 0, 1, 0, 0, 1, 0];
    let (right, _) = reckoned(&input);
    assert_eq!(right, b"E 0 0 0 0\nE 1 1 0 0\n");
    let said = |printed: &str| difference(&input, printed.as_bytes(), &right).unwrap_or_default();
    assert_eq!(said("E 0 0 0 0\nE 1 1 0 0\n"), "");
    assert_eq!(
        said("E 0 0 0 0\nE 1 2 0 0\n"),
        "call 1 of 2, line 2
  call:      space 1, frame 
  calls:     E 1 2 0 0
  reckoning: E 1 1 0 0"
    );
    assert_eq!(
        said("E 0 0 0 0\nE 1 1 0 0\ncut\n"),
        "call 2 of 2, line 3
  call:      none
  calls:     cut
  reckoning: no line"
    );
    assert_eq!(
        said("E 0 2 0 0\n"),
        "call 0 of 2, line 1
  call:      space 15360, frame 06 00 06 00 00 01
  calls:     E 0 2 0 0
  reckoning: E 0 0 0 0"
    );
}
