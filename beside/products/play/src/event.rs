//! The event of a part of the day: its kind, and its fields by their names, which
//! are those of the forms of a day's lines.

use assemble::codec::{read, Row};
use assemble::forms::{leg_fields, Field, Form, Part as FormPart, Values, FORMS, LEG_COUNT, SIDES};
use assemble::framing::{Part, What, Why};

/// The name of each kind. `strategy`'s line is no form, so it is not in `FORMS`.
pub const KINDS: &[(u32, &str)] = &[
    (1, "strategy"),
    (2, "complex order"),
    (3, "sweep"),
    (4, "leg order"),
    (5, "cancel"),
    (6, "series"),
    (7, "clock"),
    (8, "day end"),
    (9, "national prices"),
    (10, "execution range"),
    (11, "specialist"),
];

/// The kinds that other modules speak of.
pub const STRATEGY: u32 = assemble::forms::STRATEGY;
pub const DAY_END: u32 = 8;

#[derive(Clone, Debug, PartialEq, Eq)]
pub enum Event {
    /// A frame: its kind's number, its length, and its row where it can be read.
    Frame {
        kind: u32,
        length: usize,
        row: Option<Row>,
    },
    Stop(Why),
    /// The day has no such event.
    Missing,
}

impl Event {
    pub fn new(part: &Part) -> Event {
        match &part.what {
            What::Frame(frame) => Event::Frame {
                kind: u32::from(u16::from_le_bytes([frame[2], frame[3]])),
                length: frame.len(),
                row: read(frame).ok(),
            },
            What::Stop(why) => Event::Stop(*why),
            What::NotReached => Event::Missing,
        }
    }

    /// The kind of a frame, whether it can be read or not.
    pub fn kind(&self) -> Option<u32> {
        match self {
            Event::Frame { kind, .. } => Some(*kind),
            _ => None,
        }
    }

    fn row(&self) -> Option<&Row> {
        match self {
            Event::Frame { row, .. } => row.as_ref(),
            _ => None,
        }
    }

    /// The value of the field with this name.
    pub fn value(&self, name: &str) -> Option<i64> {
        let row = self.row()?;
        let (field, _) = field(row[0], name)?;
        Some(i64::from(row[field.place]) - field.more)
    }

    /// The same as a word where the field has words for its values.
    pub fn word(&self, name: &str) -> Option<String> {
        let row = self.row()?;
        let (field, words) = field(row[0], name)?;
        match words {
            [] => self.value(name).map(|value| value.to_string()),
            _ => Some(word(words, row[field.place])),
        }
    }

    /// The legs of a strategy: series, side and ratio of each.
    pub fn legs(&self) -> Vec<[u32; 3]> {
        match self.row() {
            Some(row) if row[0] == STRATEGY => (0..row[LEG_COUNT.place] as usize)
                .map(|leg| leg_fields(leg).map(|field| row[field.place]))
                .collect(),
            _ => Vec::new(),
        }
    }

    /// The line of a day that stands for this event, if it can be read.
    pub fn text(&self) -> Option<String> {
        let row = self.row()?;
        if row[0] == STRATEGY {
            let legs: Vec<String> = (self.legs().iter())
                .map(|[series, side, ratio]| format!("{series} {} {ratio}", word(SIDES, *side)))
                .collect();
            return Some(format!("strategy {}", legs.join(", ")));
        }
        let stands_for = |form: &&Form| {
            let fixed = |(field, value): &(Field, u32)| row[field.place] == *value;
            form.kind == row[0] && form.fixed.iter().all(fixed)
        };
        let form = FORMS.iter().find(stands_for)?;
        let mut words = vec![form.word.to_string()];
        words.extend(form.parts.iter().map(|part| match part {
            FormPart::Word(word) => word.to_string(),
            FormPart::Number(field) => (i64::from(row[field.place]) - field.more).to_string(),
            FormPart::Choice(field, values) | FormPart::NumberOr(field, values) => {
                word(values, row[field.place])
            }
        }));
        Some(words.join(" "))
    }
}

/// The word for a value, or the value where it has none.
fn word(words: Values, value: u32) -> String {
    let known = words.iter().find(|(_, known)| *known == value);
    known.map_or(value.to_string(), |(word, _)| word.to_string())
}

/// The name of a kind.
pub fn kind_name(kind: u32) -> Option<&'static str> {
    let known = KINDS.iter().find(|(number, _)| *number == kind);
    known.map(|(_, name)| *name)
}

/// The field of a kind with this name, and the words for its values.
fn field(kind: u32, name: &str) -> Option<(Field, Values)> {
    FORMS
        .iter()
        .filter(|form| form.kind == kind)
        .flat_map(fields)
        .find(|(field, _)| field.name == name)
}

fn fields(form: &Form) -> impl Iterator<Item = (Field, Values)> + '_ {
    form.parts.iter().filter_map(|part| match part {
        FormPart::Word(_) => None,
        FormPart::Number(field) => Some((*field, &[][..])),
        FormPart::Choice(field, values) | FormPart::NumberOr(field, values) => {
            Some((*field, *values))
        }
    })
}
