//! The report on the days of a list, as text. Each day is written when it is
//! over; what does not hold comes last.

use crate::claims::check;
use crate::day::Day;
use crate::failures::Failures;
use crate::frames::What;
use crate::table::Column::{self, Number, Word};
use crate::table::Table;
use crate::totals::{BoundedFills, Totals};
use std::io::{self, Write};

pub struct Report<'a, W> {
    output: &'a mut W,
    failures: Failures,
}

fn said(holds: bool) -> String {
    if holds { "holds" } else { "FAILS" }.to_string()
}

fn side(side: i64) -> String {
    match side {
        0 => "buy".to_string(),
        _ => "sell".to_string(),
    }
}

fn plural(count: usize, one: &str) -> String {
    match count {
        1 => format!("1 {one}"),
        _ => format!("{count} {one}s"),
    }
}

const NUMBERS: [Column; 11] = [
    Number("number"),
    Word("what"),
    Number("member"),
    Word("place"),
    Word("side"),
    Number("limit"),
    Number("entered"),
    Number("filled"),
    Number("cancelled"),
    Number("live"),
    Word("sum"),
];

fn numbers(totals: &Totals) -> impl Iterator<Item = [String; 11]> + '_ {
    totals.entries().map(|entry| {
        let (what, place) = match entry.terms.what {
            What::ComplexOrder { strategy } => ("complex order", format!("strategy {strategy}")),
            What::Sweep { strategy } => ("sweep", format!("strategy {strategy}")),
            What::LegOrder { series } => ("leg order", format!("series {series}")),
        };
        [
            entry.number.to_string(),
            what.to_string(),
            entry.terms.member.to_string(),
            place,
            side(entry.terms.side.into()),
            entry.terms.limit.to_string(),
            entry.terms.quantity.to_string(),
            entry.filled.to_string(),
            entry.cancelled.to_string(),
            entry.live.to_string(),
            said(entry.sum_holds()),
        ]
    })
}

const WORST_FILLS: [Column; 6] = [
    Number("number"),
    Word("side"),
    Number("limit"),
    Number("worst fill"),
    Number("better by"),
    Word(""),
];

fn worst_fills(totals: &Totals) -> impl Iterator<Item = [String; 6]> + '_ {
    totals.entries().filter_map(|entry| {
        Some([
            entry.number.to_string(),
            side(entry.terms.side.into()),
            entry.terms.limit.to_string(),
            entry.worst?.to_string(),
            entry.better()?.to_string(),
            said(entry.limit_holds()),
        ])
    })
}

const BOUNDED: [Column; 8] = [
    Number("number"),
    Word("side"),
    Number("bounded fills"),
    Number("worst fill"),
    Number("national net"),
    Number("range"),
    Number("better by"),
    Word(""),
];

fn bounded(totals: &Totals) -> impl Iterator<Item = [String; 8]> + '_ {
    totals
        .bounded()
        .map(|(number, BoundedFills { count, worst })| {
            [
                number.to_string(),
                side(worst.side),
                count.to_string(),
                worst.price.to_string(),
                worst.net.to_string(),
                worst.range.to_string(),
                worst.better().to_string(),
                said(worst.holds()),
            ]
        })
}

const SWEEPS: [Column; 6] = [
    Number("number"),
    Word("side"),
    Number("limit"),
    Number("leg net"),
    Number("better by"),
    Word(""),
];

fn sweeps(totals: &Totals) -> impl Iterator<Item = [String; 6]> + '_ {
    let or =
        |value: Option<i64>, none: &str| value.map_or(none.to_string(), |value| value.to_string());
    totals.sweeps().map(move |(number, arrival)| {
        [
            number.to_string(),
            side(arrival.side),
            arrival.limit.to_string(),
            or(arrival.net, "unknown"),
            or(arrival.better(), "-"),
            said(arrival.holds()),
        ]
    })
}

const LEGS: [Column; 8] = [
    Number("number"),
    Number("strategy"),
    Number("units"),
    Number("series"),
    Number("ratio"),
    Number("ratio x units"),
    Number("contracts"),
    Word(""),
];

fn legs(totals: &Totals) -> impl Iterator<Item = [String; 8]> + '_ {
    totals.entries().flat_map(|entry| {
        let strategy = entry.strategy().unwrap_or(0);
        let mut legs = totals.on_legs(&entry);
        legs.retain(|leg| entry.worst.is_some() || !entry.leg_holds(leg));
        legs.into_iter().map(move |leg| {
            [
                entry.number.to_string(),
                strategy.to_string(),
                entry.filled.to_string(),
                leg.series.to_string(),
                leg.ratio.to_string(),
                entry.due(&leg).to_string(),
                leg.contracts.to_string(),
                said(entry.leg_holds(&leg)),
            ]
        })
    })
}

const SERIES: [Column; 4] = [Number("series"), Number("bought"), Number("sold"), Word("")];

fn series(totals: &Totals) -> impl Iterator<Item = [String; 4]> + '_ {
    totals.series().map(|(series, traded)| {
        [
            series.to_string(),
            traded.bought.to_string(),
            traded.sold.to_string(),
            said(traded.bought == traded.sold),
        ]
    })
}

const CASH: [Column; 3] = [Number("paid"), Number("received"), Word("")];

fn cash(totals: &Totals) -> impl Iterator<Item = [String; 3]> {
    let cash = totals.cash();
    std::iter::once([
        cash.paid.to_string(),
        cash.received.to_string(),
        said(cash.paid == cash.received),
    ])
}

/// What the day is.
fn heading(day: &Day) -> String {
    let events = plural(day.events, "event");
    let end = if day.ended {
        "its day end is the last, so nothing is live"
    } else {
        "not ended; live is what a day end would cancel"
    };
    format!(
        "Day {}: {events} from index {}, {end}",
        day.number, day.first
    )
}

impl<W: Write> Report<'_, W> {
    pub fn new(output: &mut W) -> Report<'_, W> {
        Report {
            output,
            failures: Failures::default(),
        }
    }

    /// What does not hold of a day.
    pub fn fails(&mut self, day: &Day, failure: &str) {
        self.failures.push(format!("day {}, {failure}", day.number));
    }

    /// A heading, then the table of the rows or that there is none.
    fn section<const COLUMNS: usize, Rows: Iterator<Item = [String; COLUMNS]>>(
        &mut self,
        heading: &str,
        none: &str,
        columns: [Column; COLUMNS],
        rows: impl Fn() -> Rows,
    ) -> io::Result<()> {
        writeln!(self.output, "\n{heading}")?;
        let table = Table::new(columns, rows());
        if table.is_empty() {
            return writeln!(self.output, "{none}");
        }
        table.write(self.output, rows())
    }

    fn tables(&mut self, totals: &Totals) -> io::Result<()> {
        self.section(
            "Each number: entered = filled + cancelled + live, in units, of a leg order in contracts",
            "no number was given",
            NUMBERS,
            || numbers(totals),
        )?;
        self.section(
            "Each number with a fill: its worst fill against its limit, in cents",
            "no number has a fill",
            WORST_FILLS,
            || worst_fills(totals),
        )?;
        self.section(
            "Each number with a fill that a national net bounds: its worst against net and range, in cents",
            "no national net bounds a fill",
            BOUNDED,
            || bounded(totals),
        )?;
        self.section(
            "Each sweep: its limit against the leg net of its own side at its arrival, in cents",
            "no sweep entered",
            SWEEPS,
            || sweeps(totals),
        )?;
        self.section(
            "Each leg of a complex order or sweep with a fill: contracts = ratio x units",
            "no complex order or sweep has a fill",
            LEGS,
            || legs(totals),
        )?;
        self.section(
            "Each series: contracts bought = contracts sold",
            "no contract was traded",
            SERIES,
            || series(totals),
        )?;
        self.section("Cash: paid = received, in cents", "", CASH, || cash(totals))?;
        writeln!(self.output)
    }

    /// The tables of a day that is over.
    pub fn day(&mut self, day: &Day) -> io::Result<()> {
        writeln!(self.output, "{}", heading(day))?;
        if day.totals.is_empty() {
            let none = "No order or sweep entered, and no record 1 to 3 was written.";
            writeln!(self.output, "\n{none}\n")?;
        } else {
            self.tables(&day.totals)?;
        }
        check(&day.totals, &mut |failure| self.fails(day, &failure));
        Ok(())
    }

    /// Last, 'totals hold' or what does not hold.
    pub fn end(self) -> io::Result<Failures> {
        if self.failures.is_empty() {
            writeln!(self.output, "totals hold")?;
        } else {
            writeln!(self.output, "totals do not hold:")?;
            for line in self.failures.lines() {
                writeln!(self.output, "  {line}")?;
            }
        }
        Ok(self.failures)
    }
}
