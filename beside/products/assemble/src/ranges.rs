//! Which field of a refused event is outside its range, and what that range is,
//! by asking the proved writer: there is no second table of ranges here.

use crate::codec::{write, Row, NUMBERS};
use crate::echo;
use crate::forms::{leg_fields, Field, Form, LEG_COUNT, STRATEGY};

/// A field with its number, and the word that was written for it.
#[derive(Clone, Copy, Debug)]
pub struct Said<'a> {
    pub field: Field,
    pub value: i64,
    pub word: &'a [u8],
}

impl Said<'_> {
    /// The number of the row: the value, and what the row has more. What the
    /// row cannot hold becomes its highest number, which is in no range.
    pub fn held(&self) -> u32 {
        u32::try_from(self.value.saturating_add(self.field.more)).unwrap_or(u32::MAX)
    }
}

/// A strategy of so many legs, each series 1, sell, ratio 1.
fn strategy(count: u32) -> Row {
    let mut row = [0; NUMBERS];
    row[0] = STRATEGY;
    row[1] = count;
    let legs = count.min(6) as usize;
    row[2..2 + 3 * legs].fill(1);
    row
}

/// Whether the writer takes this number in the field, the other fields being
/// those of an event that it takes. `form` is absent for a strategy, whose legs
/// all have the ranges of the first.
fn taken(form: Option<&Form>, field: Field, number: u32) -> bool {
    let row = match form {
        Some(form) => {
            let mut row = form.sample();
            row[field.place] = number;
            row
        }
        None if field == LEG_COUNT => strategy(number),
        None => {
            let mut row = strategy(2);
            let first = leg_fields(0).into_iter().find(|f| f.name == field.name);
            row[first.map_or(field.place, |first| first.place)] = number;
            row
        }
    };
    write(&row).is_ok()
}

/// The last number from `inside` towards `outside` that is taken.
fn edge(inside: u32, outside: u32, taken: &dyn Fn(u32) -> bool) -> u32 {
    let (mut inside, mut outside) = (i64::from(inside), i64::from(outside));
    while (outside - inside).abs() > 1 {
        let middle = inside + (outside - inside) / 2;
        if taken(middle as u32) {
            inside = middle;
        } else {
            outside = middle;
        }
    }
    inside as u32
}

/// The lowest and the highest value of a field.
pub fn range(form: Option<&Form>, field: Field) -> (i64, i64) {
    let taken = |number| taken(form, field, number);
    let inside = if field == LEG_COUNT { 2 } else { 1 };
    let low = if taken(0) { 0 } else { edge(inside, 0, &taken) };
    let high = edge(inside, u32::MAX, &taken);
    (i64::from(low) - field.more, i64::from(high) - field.more)
}

/// What is wrong with an event that the writer refused 3: the first field that
/// it does not take.
pub fn outside(form: Option<&Form>, said: &[Said]) -> String {
    let wrong = |said: &&Said| !taken(form, said.field, said.held());
    match said.iter().find(wrong) {
        Some(Said { field, word, .. }) => {
            let (low, high) = range(form, *field);
            let (name, word) = (field.name, echo::word(word));
            format!("{name} {word} is outside its range, {low} to {high}")
        }
        None => "a field is outside its range".to_string(),
    }
}
