//! The lines of a day: for each word that begins a line, the words and fields
//! that follow it.

use crate::codec::Row;

/// A field of an event: its name, and its place in the row of numbers.
#[derive(Clone, Copy, Debug, PartialEq, Eq)]
pub struct Field {
    pub name: &'static str,
    pub place: usize,
    /// What the row has more than the value: a limit may be below 0.
    pub more: i64,
}

impl Field {
    /// "A price or limit is in cents"; so are the national prices.
    pub fn in_cents(&self) -> bool {
        ["price", "limit", "bid", "offer"].contains(&self.name)
    }
}

const fn field(name: &'static str, place: usize) -> Field {
    Field {
        name,
        place,
        more: 0,
    }
}

const fn limit(place: usize) -> Field {
    Field {
        name: "limit",
        place,
        more: 10_000_000,
    }
}

/// The words for the values of a field.
pub type Values = &'static [(&'static str, u32)];

/// One part of a line.
#[derive(Clone, Copy, Debug)]
pub enum Part {
    /// This word.
    Word(&'static str),
    /// A whole number.
    Number(Field),
    /// One of these words.
    Choice(Field, Values),
    /// A whole number, or one of these words.
    NumberOr(Field, Values),
}
use Part::{Choice, Number, NumberOr, Word};

/// A line of one event: its first word, its kind, its other parts in their
/// order, and the values that the first word stands for.
pub struct Form {
    pub word: &'static str,
    pub kind: u32,
    pub parts: &'static [Part],
    pub fixed: &'static [(Field, u32)],
}

pub const SIDES: Values = &[("buy", 0), ("sell", 1)];
const CLASSES: Values = &[("customer", 1), ("broker-dealer", 2), ("market-maker", 3)];
const LIVES: Values = &[
    ("day", 0),
    ("immediate", 1),
    ("response", 2),
    ("do-not-auction", 3),
];
/// A national price that is missing.
const MISSING: Values = &[("none", 0)];

/// The kind of a strategy. Its line is a list of legs, for which no `Form`
/// stands.
pub const STRATEGY: u32 = 1;
pub const LEG_COUNT: Field = field("leg count", 1);

/// The fields of the leg with this index.
pub fn leg_fields(index: usize) -> [Field; 3] {
    let first = 2 + 3 * index;
    [
        field("series", first),
        field("side", first + 1),
        field("ratio", first + 2),
    ]
}

/// Every form but that of a strategy and that of bytes.
pub const FORMS: &[Form] = &[
    Form {
        word: "open",
        kind: 6,
        parts: &[Number(field("series", 1))],
        fixed: &[(field("state", 2), 1)],
    },
    Form {
        word: "shut",
        kind: 6,
        parts: &[Number(field("series", 1))],
        fixed: &[(field("state", 2), 0)],
    },
    Form {
        word: "leg-order",
        kind: 4,
        parts: &[
            Word("member"),
            Number(field("member", 1)),
            Choice(field("side", 3), SIDES),
            Number(field("contracts", 4)),
            Word("of"),
            Word("series"),
            Number(field("series", 2)),
            Word("at"),
            Number(field("price", 5)),
        ],
        fixed: &[],
    },
    Form {
        word: "complex-order",
        kind: 2,
        parts: &[
            Word("member"),
            Number(field("member", 1)),
            Choice(field("class", 4), CLASSES),
            Choice(field("side", 3), SIDES),
            Number(field("units", 6)),
            Word("of"),
            Word("strategy"),
            Number(field("strategy", 2)),
            Choice(field("life", 5), LIVES),
            Word("at"),
            Number(limit(7)),
        ],
        fixed: &[],
    },
    Form {
        word: "sweep",
        kind: 3,
        parts: &[
            Word("member"),
            Number(field("member", 1)),
            Choice(field("side", 3), SIDES),
            Number(field("units", 4)),
            Word("of"),
            Word("strategy"),
            Number(field("strategy", 2)),
            Word("at"),
            Number(limit(5)),
        ],
        fixed: &[],
    },
    Form {
        word: "cancel",
        kind: 5,
        parts: &[
            Word("member"),
            Number(field("member", 1)),
            Word("number"),
            Number(field("number", 2)),
        ],
        fixed: &[],
    },
    Form {
        word: "clock",
        kind: 7,
        parts: &[Number(field("milliseconds", 1))],
        fixed: &[],
    },
    Form {
        word: "day-end",
        kind: 8,
        parts: &[Word("timer"), Number(field("timer", 1))],
        fixed: &[],
    },
    Form {
        word: "national-prices",
        kind: 9,
        parts: &[
            Word("series"),
            Number(field("series", 1)),
            Word("bid"),
            NumberOr(field("bid", 2), MISSING),
            Word("offer"),
            NumberOr(field("offer", 3), MISSING),
        ],
        fixed: &[],
    },
    Form {
        word: "execution-range",
        kind: 10,
        parts: &[Number(field("cents", 1))],
        fixed: &[],
    },
    Form {
        word: "specialist",
        kind: 11,
        parts: &[
            Word("member"),
            Number(field("member", 1)),
            Word("strategy"),
            Number(field("strategy", 2)),
            Word("percentage"),
            Number(field("percentage", 3)),
        ],
        fixed: &[],
    },
];

impl Form {
    /// The form as a person writes it, numbers in capitals.
    pub fn shape(&self) -> String {
        let mut words = vec![self.word.to_string()];
        words.extend(self.parts.iter().map(|part| match part {
            Word(word) => word.to_string(),
            Number(field) => field.name.to_uppercase(),
            Choice(_, values) => names(values).join("|"),
            NumberOr(field, values) => {
                format!("{}|{}", field.name.to_uppercase(), names(values).join("|"))
            }
        }));
        words.join(" ")
    }

    /// An event of this kind with every field in its range: 1 is in all ranges.
    pub fn sample(&self) -> Row {
        let mut row = [0; crate::codec::NUMBERS];
        row[0] = self.kind;
        for part in self.parts {
            match part {
                Word(_) => {}
                Number(field) | Choice(field, _) | NumberOr(field, _) => row[field.place] = 1,
            }
        }
        for (field, _) in self.fixed {
            row[field.place] = 1;
        }
        row
    }
}

/// The words of a choice.
pub fn names(values: Values) -> Vec<&'static str> {
    values.iter().map(|(name, _)| *name).collect()
}

/// The form of a strategy's line, and that of a line of bytes.
pub const STRATEGY_SHAPE: &str = "strategy SERIES buy|sell RATIO, SERIES buy|sell RATIO, ..";
pub const BYTES_SHAPE: &str = "bytes HH HH HH*COUNT ..";

/// Every form, a line each, two blanks before it.
pub fn shapes() -> String {
    let mut shapes: Vec<String> = FORMS.iter().map(Form::shape).collect();
    shapes.insert(2, STRATEGY_SHAPE.to_string());
    shapes.push(BYTES_SHAPE.to_string());
    shapes.iter().map(|shape| format!("  {shape}\n")).collect()
}
