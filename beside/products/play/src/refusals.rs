//! The causes of refusals in words: those of document 01's table and of requests
//! 2026-01, 2026-03 and 2026-04, said for the event at hand where its fields are known.

use crate::event::{kind_name, Event};
use assemble::framing::Why;

/// The events that a cause is said for.
enum Of {
    /// All: the cause as the table has it.
    All,
    /// Frames of these kinds.
    Kinds(&'static [u32]),
    /// A frame of a kind that is known, or of one that is not.
    Known,
    Unknown,
    /// Where `tape` stops.
    Under4,
    PastEnd,
    LoneByte,
}
use Of::{All, Kinds, Known, LoneByte, PastEnd, Under4, Unknown};

/// A refusal, the events, and its cause. `{name}` stands for a field of the
/// event; `{kind}`, `{what}` and `{length}` for the number and the name of its
/// kind and for its length; `{twice}`, `{largest}` and `{smallest}` for a series
/// that stands twice in a strategy and for ratios that are too far apart; `{buys}`
/// and `{sells}` for the limit of an event of that side. The first line is said
/// that is of the event and all of whose names are known. The last one of each
/// refusal is of all events.
const CAUSES: &[(i64, Of, &str)] = &[
    (1, All, "the record space is under 15,360 numbers"),
    (2, Under4, "its length field is {length}, under 4"),
    (
        2,
        PastEnd,
        "its length field is {length}, past the end of the input",
    ),
    (2, LoneByte, "it is a lone last byte"),
    (2, Unknown, "kind {kind} is unknown"),
    (
        2,
        Known,
        "{length} bytes are a wrong length for kind {kind}, {what}",
    ),
    (
        2,
        All,
        "under 4 bytes, length not the frame's, unknown kind or wrong length for kind",
    ),
    (
        3,
        Known,
        "a field of this frame of kind {kind}, {what}, is outside its range",
    ),
    (3, All, "a field is outside its range"),
    (4, Kinds(&[2, 3, 11]), "strategy {strategy} is not defined"),
    (4, All, "the strategy is not defined"),
    (5, Kinds(&[1]), "series {twice} stands twice"),
    (
        5,
        Kinds(&[1]),
        "the largest ratio, {largest}, is over 3 times the smallest, {smallest}",
    ),
    (
        5,
        All,
        "a series twice, or the largest ratio over 3 times the smallest",
    ),
    (6, Kinds(&[4]), "series {series} is not open"),
    (6, All, "the series of a leg order is not open"),
    (
        7,
        Kinds(&[5]),
        "member {member} has no live complex or leg order with number {number}",
    ),
    (
        7,
        All,
        "no live complex or leg order of that member and number",
    ),
    (
        8,
        Kinds(&[5]),
        "number {number} is the starter of a running auction",
    ),
    (8, All, "cancel of a running auction's starter"),
    (
        9,
        Kinds(&[2]),
        "a {life}, and no auction runs in strategy {strategy}",
    ),
    (
        9,
        Kinds(&[3]),
        "a sweep, and no auction runs in strategy {strategy}",
    ),
    (
        9,
        All,
        "a sweep or response, and no auction runs in the strategy",
    ),
    (
        10,
        Kinds(&[3]),
        "{units} units, and member {member} has no sweep to {side} strategy {strategy} at {limit}",
    ),
    (10, All, "a sweep of 0 units with none to remove"),
    (
        11,
        Kinds(&[7]),
        "clock {milliseconds} is below the last accepted one",
    ),
    (11, All, "the clock is below the last accepted one"),
    (12, Kinds(&[1]), "the table of strategies is full"),
    (12, Kinds(&[2]), "the table of complex orders is full"),
    (12, Kinds(&[3]), "the table of sweeps is full"),
    (12, Kinds(&[4]), "the table of leg orders is full"),
    (12, All, "the table needed is full"),
    (13, All, "a new order number is due and 100,000 were given"),
    (
        14,
        Kinds(&[9]),
        "the national bid of series {series}, {bid}, is above its national offer, {offer}",
    ),
    (14, All, "a national bid above a national offer, neither 0"),
    (
        15,
        Kinds(&[3]),
        "a buy at {buys}, not above the bid net of strategy {strategy}",
    ),
    (
        15,
        Kinds(&[3]),
        "a sell at {sells}, not below the offer net of strategy {strategy}",
    ),
    (
        15,
        All,
        "a sweep that does not better the leg net of its own side",
    ),
];

/// The cause of a refusal of this event.
pub fn cause(refusal: i64, event: &Event) -> String {
    CAUSES
        .iter()
        .filter(|(number, of, _)| *number == refusal && is_of(of, event))
        .find_map(|(_, _, words)| filled(words, event))
        .unwrap_or("no cause is known for this number".to_string())
}

fn is_of(of: &Of, event: &Event) -> bool {
    let kind = event.kind();
    match of {
        All => true,
        Kinds(kinds) => kind.is_some_and(|kind| kinds.contains(&kind)),
        Known => kind.is_some_and(|kind| kind_name(kind).is_some()),
        Unknown => kind.is_some_and(|kind| kind_name(kind).is_none()),
        Under4 => matches!(event, Event::Stop(Why::Under4(_))),
        PastEnd => matches!(event, Event::Stop(Why::PastEnd(_))),
        LoneByte => *event == Event::Stop(Why::LoneByte),
    }
}

/// The words with each name's value in its place, if all are known.
pub fn filled(words: &str, event: &Event) -> Option<String> {
    let mut text = String::new();
    for (index, part) in words.split(['{', '}']).enumerate() {
        // Every second part is a name.
        match index % 2 {
            0 => text += part,
            _ => text += &named(part, event)?,
        }
    }
    Some(text)
}

fn named(name: &str, event: &Event) -> Option<String> {
    match (name, event) {
        ("kind", Event::Frame { kind, .. }) => Some(kind.to_string()),
        ("what", Event::Frame { kind, .. }) => kind_name(*kind).map(str::to_string),
        ("length", Event::Frame { length, .. }) => Some(length.to_string()),
        ("length", Event::Stop(Why::Under4(length) | Why::PastEnd(length))) => {
            Some(length.to_string())
        }
        ("twice", _) => twice(event).map(|series| series.to_string()),
        ("largest", _) => apart(event).map(|(_, largest)| largest.to_string()),
        ("smallest", _) => apart(event).map(|(smallest, _)| smallest.to_string()),
        ("buys", _) => limit_of(event, 0),
        ("sells", _) => limit_of(event, 1),
        _ => event.word(name),
    }
}

/// The limit of an event of this side.
fn limit_of(event: &Event, side: i64) -> Option<String> {
    let own = event.value("side") == Some(side);
    event.word("limit").filter(|_| own)
}

/// The first series that stands twice in a strategy.
fn twice(event: &Event) -> Option<u32> {
    let legs = event.legs();
    let before = |at: usize| legs[..at].iter().any(|leg| leg[0] == legs[at][0]);
    (0..legs.len()).find(|at| before(*at)).map(|at| legs[at][0])
}

/// The smallest and the largest ratio of a strategy, if "largest ratio over 3 ×
/// smallest".
fn apart(event: &Event) -> Option<(u32, u32)> {
    let legs = event.legs();
    let smallest = legs.iter().map(|leg| leg[2]).min()?;
    let largest = legs.iter().map(|leg| leg[2]).max()?;
    (largest > 3 * smallest).then_some((smallest, largest))
}
