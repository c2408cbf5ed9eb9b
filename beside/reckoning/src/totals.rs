//! Document 01, "The totals after a list", what request 2026-01 claims of each fill
//! and request 2026-03 of each sweep, reckoned from the events, the answers and the
//! records alone; of the last book only the live quantities.

use crate::book::{BUY, LAST_NUMBER};
use crate::events::Answer;
use crate::frames::{read, Event, Leg};
use crate::lists::Input;
use crate::nets::normal;
use crate::records::{CANCELLED, LEG_FILL, WHOLE_FILL};
use std::collections::BTreeMap;

/// What entered under one number.
struct Entered {
    /// "the event's units or contracts are what it entered".
    quantity: i128,
    side: u8,
    /// The limit, or "a leg order's price".
    limit: i128,
    /// The strategy of a complex order or sweep; none for a leg order.
    strategy: Option<u8>,
}

/// The sums over the records of one number.
#[derive(Default)]
struct Sums {
    /// "Filled sums the quantities of its records 1".
    records_1: i128,
    /// Its records 2 by series.
    records_2: BTreeMap<i32, i128>,
    /// "cancelled, of its records 3".
    records_3: i128,
}

/// A list has no event after an accepted day end: the numbers begin anew there,
/// so what follows is a list of its own.
fn ends_with_its_day(inputs: &[Input], answers: &[Answer]) -> Result<(), String> {
    for (index, (input, answer)) in inputs.iter().zip(answers).enumerate() {
        let day_end = matches!(read(&input.frame), Ok(Event::DayEnd { .. }));
        if answer.answer == 0 && day_end && index + 1 < inputs.len() {
            return Err(format!("event {index}: events follow its day end"));
        }
    }
    Ok(())
}

/// What entered, by number: "An order or sweep enters by an accepted event of
/// kind 2, 3 or 4 whose value isn't 0. That value is its number".
fn entered(inputs: &[Input], answers: &[Answer]) -> Result<BTreeMap<i64, Entered>, String> {
    let mut orders = BTreeMap::new();
    for (index, (input, answer)) in inputs.iter().zip(answers).enumerate() {
        if answer.answer != 0 || answer.value == 0 {
            continue;
        }
        let order = match read(&input.frame) {
            Ok(Event::Complex {
                strategy,
                side,
                units,
                limit,
                ..
            })
            | Ok(Event::Sweep {
                strategy,
                side,
                units,
                limit,
                ..
            }) => Entered {
                quantity: i128::from(units),
                side,
                limit: i128::from(limit),
                strategy: Some(strategy),
            },
            Ok(Event::LegOrder {
                side,
                contracts,
                price,
                ..
            }) => Entered {
                quantity: i128::from(contracts),
                side,
                limit: i128::from(price),
                strategy: None,
            },
            Ok(_) => continue,
            Err(_) => return Err(format!("event {index}: a frame that reads as refused")),
        };
        if orders.insert(i64::from(answer.value), order).is_some() {
            return Err(format!("number {} entered twice", answer.value));
        }
    }
    Ok(orders)
}

/// "The ratio is that of the accepted kind 1 event that answered its strategy,
/// divided as above".
fn strategies(inputs: &[Input], answers: &[Answer]) -> Result<BTreeMap<u32, Vec<Leg>>, String> {
    let mut held: BTreeMap<u32, Vec<Leg>> = BTreeMap::new();
    for (input, answer) in inputs.iter().zip(answers) {
        if answer.answer != 0 {
            continue;
        }
        if let Ok(Event::Strategy { count, legs }) = read(&input.frame) {
            let legs = normal(&legs[..usize::from(count)]).legs.to_vec();
            let before = held.insert(answer.value, legs.clone());
            if before.is_some_and(|before| before != legs) {
                return Err(format!("strategy {} answered for two", answer.value));
            }
        }
    }
    Ok(held)
}

/// What the accepted kinds 9 and 10 before an event say.
struct National {
    /// The bid and offer of each series; 0 is missing.
    prices: [[i128; 2]; 32],
    range: i128,
}

impl National {
    /// "a fresh book has 9,999"; "a fresh book misses all".
    fn fresh() -> National {
        National {
            prices: [[0; 2]; 32],
            range: 9_999,
        }
    }

    /// Takes in an accepted event.
    fn learn(&mut self, event: Result<Event, u32>) {
        match event {
            Ok(Event::NationalPrices { series, bid, offer }) => {
                self.prices[usize::from(series)] = [i128::from(bid), i128::from(offer)];
            }
            Ok(Event::ExecutionRange { cents }) => self.range = i128::from(cents),
            _ => {}
        }
    }

    /// The national offer net for a buy, the bid net for a sell; none if it is
    /// missing.
    fn net(&self, legs: &[Leg], side: u8) -> Option<i128> {
        let values = legs.iter().map(|leg| {
            let [bid, offer] = self.prices[usize::from(leg.series)];
            let price = if leg.side == side { offer } else { bid };
            let value = i128::from(leg.ratio) * price;
            match price {
                0 => None,
                _ if leg.side == BUY => Some(value),
                _ => Some(-value),
            }
        });
        values.sum()
    }

    /// Whether a fill of this side keeps to the range; a missing net bounds
    /// nothing.
    fn allows(&self, legs: &[Leg], side: u8, price: i128) -> bool {
        match self.net(legs, side) {
            None => true,
            Some(net) if side == BUY => price <= net + self.range,
            Some(net) => price >= net - self.range,
        }
    }
}

/// "each fill of a complex order or sweep keeps to the range and prices known when
/// it was made": those of the accepted kinds 9 and 10 before the event. The nets
/// take the legs of the accepted kind 1 event that answered the strategy.
fn within_the_range(
    inputs: &[Input],
    answers: &[Answer],
    orders: &BTreeMap<i64, Entered>,
    strategies: &BTreeMap<u32, Vec<Leg>>,
) -> Result<(), String> {
    let mut national = National::fresh();
    for (input, answer) in inputs.iter().zip(answers) {
        if answer.answer != 0 {
            continue;
        }
        let fills = (answer.records.iter()).filter(|record| record.kind == WHOLE_FILL);
        for fill in fills {
            let order = orders.get(&i64::from(fill.number));
            let strategy = order.and_then(|order| order.strategy);
            let legs = strategy.and_then(|strategy| strategies.get(&u32::from(strategy)));
            let (Some(order), Some(legs)) = (order, legs) else {
                return Err(format!("number {} fills in no strategy", fill.number));
            };
            if !national.allows(legs, order.side, i128::from(fill.price)) {
                return Err(format!("number {} filled outside the range", fill.number));
            }
        }
        national.learn(read(&input.frame));
    }
    Ok(())
}

/// A leg order as the list so far tells it.
struct LegOrder {
    series: u8,
    side: u8,
    price: i128,
    /// What it entered less its records 2 and 3.
    contracts: i128,
}

/// The leg orders before an event, by number: those that entered, with contracts left.
#[derive(Default)]
struct LegBook {
    orders: BTreeMap<i64, LegOrder>,
}

impl LegBook {
    /// Takes in an accepted event and its records.
    fn learn(&mut self, event: &Event, answer: &Answer) {
        if let (
            Event::LegOrder {
                series,
                side,
                contracts,
                price,
                ..
            },
            1..,
        ) = (*event, answer.value)
        {
            let order = LegOrder {
                series,
                side,
                price: i128::from(price),
                contracts: i128::from(contracts),
            };
            self.orders.insert(i64::from(answer.value), order);
        }
        for record in &answer.records {
            if let (LEG_FILL | CANCELLED, Some(order)) =
                (record.kind, self.orders.get_mut(&i64::from(record.number)))
            {
                order.contracts -= i128::from(record.quantity);
            }
        }
        self.orders.retain(|_, order| order.contracts > 0);
    }

    /// The highest bid or the lowest offer of a series.
    fn best(&self, series: u8, side: u8) -> Option<i128> {
        let own = (self.orders.values())
            .filter(|order| order.series == series && order.side == side)
            .map(|order| order.price);
        match side {
            BUY => own.max(),
            _ => own.min(),
        }
    }

    /// The bid net (side 0) or the offer net (side 1); none if it is unknown. The bid
    /// net takes bids for buy legs, offers for sell legs; the offer net the reverse.
    fn net(&self, legs: &[Leg], side: u8) -> Option<i128> {
        let values = legs.iter().map(|leg| {
            let taken = if leg.side == BUY { side } else { 1 - side };
            let value = i128::from(leg.ratio) * self.best(leg.series, taken)?;
            Some(if leg.side == BUY { value } else { -value })
        });
        values.sum()
    }
}

/// Request 2026-03: "a sweep of 1 unit or more has to be above the bid net when it
/// buys, below the offer net when it sells. Where that net is unknown, every price
/// betters it. Sweeps already in are not looked at again when the legs move." Claimed
/// of every sweep that entered, with records or without: it bettered the net of its
/// side, as the events before its own left the leg orders, or that net was unknown. So
/// each record 1, 2 or 3 of a sweep belongs to one that bettered.
fn sweeps_better(
    inputs: &[Input],
    answers: &[Answer],
    strategies: &BTreeMap<u32, Vec<Leg>>,
) -> Result<(), String> {
    let mut legs_before = LegBook::default();
    let accepted = (inputs.iter().zip(answers))
        .filter(|(_, answer)| answer.answer == 0)
        .filter_map(|(input, answer)| Some((read(&input.frame).ok()?, answer)));
    for (event, answer) in accepted {
        if let (
            Event::Sweep {
                strategy,
                side,
                limit,
                ..
            },
            number @ 1..,
        ) = (event, answer.value)
        {
            let Some(legs) = strategies.get(&u32::from(strategy)) else {
                return Err(format!("number {number} sweeps in no strategy"));
            };
            let limit = i128::from(limit);
            let betters = legs_before.net(legs, side).is_none_or(|net| match side {
                BUY => limit > net,
                _ => limit < net,
            });
            if !betters {
                return Err(format!("number {number} is a sweep that betters nothing"));
            }
        }
        legs_before.learn(&event, answer);
    }
    Ok(())
}

/// The claims of "The totals after a list" and of the requests; a description of the
/// first one that fails. `live` is the lookup of the book after the list.
pub fn check(
    inputs: &[Input],
    answers: &[Answer],
    live: &dyn Fn(u32) -> u32,
) -> Result<(), String> {
    if inputs.len() != answers.len() {
        return Err("as many answers as events".to_string());
    }
    ends_with_its_day(inputs, answers)?;
    let orders = entered(inputs, answers)?;
    let strategies = strategies(inputs, answers)?;

    // "The list's records are those its accepted events wrote".
    let accepted = answers.iter().filter(|answer| answer.answer == 0);
    let mut sums: BTreeMap<i64, Sums> = BTreeMap::new();
    let mut bought: BTreeMap<i32, i128> = BTreeMap::new();
    let mut sold: BTreeMap<i32, i128> = BTreeMap::new();
    let mut paid = 0i128;
    let mut received = 0i128;
    for record in accepted.flat_map(|answer| &answer.records) {
        if !(WHOLE_FILL..=CANCELLED).contains(&record.kind) {
            continue;
        }
        let number = i64::from(record.number);
        let quantity = i128::from(record.quantity);
        let price = i128::from(record.price);
        let Some(order) = orders.get(&number) else {
            return Err(format!("number {number} has a record and never entered"));
        };
        let sum = sums.entry(number).or_default();
        match record.kind {
            WHOLE_FILL => sum.records_1 += quantity,
            LEG_FILL => {
                *sum.records_2.entry(record.place).or_default() += quantity;
                // "Bought sums a series' records 2 of side 0, sold those of
                // side 1."
                match record.side {
                    0 => *bought.entry(record.place).or_default() += quantity,
                    1 => *sold.entry(record.place).or_default() += quantity,
                    _ => {}
                }
            }
            _ => sum.records_3 += quantity,
        }
        // "A fill is a record 1, or a leg order's record 2": a leg order has no
        // record 1.
        if record.kind == WHOLE_FILL && order.strategy.is_none() {
            return Err(format!("number {number}: a leg order with a record 1"));
        }
        let fill =
            record.kind == WHOLE_FILL || (record.kind == LEG_FILL && order.strategy.is_none());
        if fill {
            // "worse than the limit […] if its price is above it for a buy,
            // below it for a sell".
            let worse = if order.side == 0 {
                price > order.limit
            } else {
                price < order.limit
            };
            if worse {
                return Err(format!("number {number} filled worse than its limit"));
            }
            // "Cash paid sums quantity × price over the fills of side 0,
            // received over those of side 1."
            match record.side {
                0 => paid += quantity * price,
                1 => received += quantity * price,
                _ => {}
            }
        }
    }

    within_the_range(inputs, answers, &orders, &strategies)?;
    sweeps_better(inputs, answers, &strategies)?;

    for (number, order) in &orders {
        let empty = Sums::default();
        let sum = sums.get(number).unwrap_or(&empty);
        let filled = match order.strategy {
            Some(_) => sum.records_1,
            None => sum.records_2.values().sum(),
        };
        let quantity = i128::from(live(*number as u32));
        if order.quantity != filled + sum.records_3 + quantity {
            return Err(format!(
                "number {number}: entered {}, filled {filled}, cancelled {}, live {quantity}",
                order.quantity, sum.records_3
            ));
        }
        if let Some(strategy) = order.strategy {
            let Some(legs) = strategies.get(&u32::from(strategy)) else {
                return Err(format!("number {number}: no strategy {strategy}"));
            };
            // "a series outside the strategy counts as a leg of ratio 0".
            let mut places: Vec<i32> = sum.records_2.keys().copied().collect();
            places.extend(0..32);
            for place in places {
                let leg = legs.iter().find(|leg| i32::from(leg.series) == place);
                let ratio = leg.map_or(0, |leg| i128::from(leg.ratio));
                let contracts = sum.records_2.get(&place).copied().unwrap_or(0);
                if contracts != ratio * filled {
                    return Err(format!(
                        "number {number}, series {place}: {contracts} contracts for {filled} units"
                    ));
                }
            }
        }
    }

    // "No other number has a record 1 to 3 or anything live".
    for number in (0..=LAST_NUMBER + 1).chain([i32::MAX as u32, u32::MAX]) {
        if live(number) != 0 && !orders.contains_key(&i64::from(number)) {
            return Err(format!("number {number} is live and never entered"));
        }
    }

    let mut places: Vec<i32> = bought.keys().chain(sold.keys()).copied().collect();
    places.sort_unstable();
    for place in places {
        let first = bought.get(&place).copied().unwrap_or(0);
        let second = sold.get(&place).copied().unwrap_or(0);
        if first != second {
            return Err(format!(
                "series {place}: {first} bought and {second} sold contracts"
            ));
        }
    }
    if paid != received {
        return Err(format!("{paid} paid and {received} received"));
    }
    Ok(())
}
