//! The answer of an event in words.

use crate::event::{Event, STRATEGY};
use crate::printed::Answer;
use crate::refusals::{cause, filled};

/// What the value of an accepted event is, by kind; a number where it is not 0.
const VALUES: &[(u32, &str)] = &[
    (STRATEGY, "strategy"),
    (2, "number"),
    (3, "number"),
    (4, "number"),
];

/// What an accepted event sets, by kind, with the names of its fields.
const SETS: &[(u32, &str)] = &[
    (
        9,
        "national prices of series {series}: bid {bid}, offer {offer}",
    ),
    (10, "execution range {cents}"),
    (
        11,
        "specialist of strategy {strategy}: member {member}, {percentage} per cent",
    ),
];

/// An answer in words, `new` where its number was not given before. The count is
/// left out where it is that of the records that came.
pub fn answered(answer: &Answer, event: &Event, records: usize, new: bool) -> String {
    let mut said = match answer.answer {
        0 => "accepted".to_string(),
        refusal => format!("refused {refusal}, {}", cause(refusal, event)),
    };
    let kind = event.kind().filter(|_| answer.answer == 0);
    let sets = SETS.iter().find(|(known, _)| Some(*known) == kind);
    if let Some(words) = sets.and_then(|(_, words)| filled(words, event)) {
        said += &format!(", {words}");
    }
    let name = VALUES.iter().find(|(known, _)| Some(*known) == kind);
    match (name, answer.value) {
        (Some((STRATEGY, name)), value) => said += &format!(", {name} {value}"),
        (_, 0) => {}
        (Some((_, name)), value) => said += &format!(", {name} {value}"),
        (None, value) => said += &format!("; value {value}"),
    }
    if !new {
        said += "; given before";
    }
    if answer.count != records as i64 {
        said += &format!("; counts {} records", answer.count);
    }
    said
}
