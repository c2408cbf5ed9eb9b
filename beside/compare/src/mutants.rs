//! Codecs that are wrong in one place each. The comparison must find every one.

use crate::fields::{fields, Field, HEAD, LAST};
use crate::rows::{numbers_used, read, write, Row};

/// How many kinds a table has: 0, the known ones, and the next, which is unknown.
const KINDS: usize = LAST as usize + 2;

/// A judge by a table of lengths and fields. As `Table::right` has it, it is that of
/// document 01 and of requests 2026-01 and 2026-04; the mutants change one entry.
#[derive(Clone)]
pub struct Table {
    /// The length of each kind, of a strategy without legs; 0 for an unknown kind.
    lengths: [usize; KINDS],
    /// The fields of each kind, of a strategy the count alone.
    fields: [Vec<Field>; KINDS],
    /// The fields of one leg, and its bytes.
    leg: Vec<Field>,
    leg_length: usize,
    /// A kind and the place of a field that is read with its high byte first.
    turned: Option<(usize, usize)>,
    /// A leg whose fields are not looked at.
    skipped: Option<usize>,
    /// Whether the length in the first two bytes, and the high byte of the kind
    /// are looked at.
    said: bool,
    high_byte: bool,
    /// The answers for a strategy that ends before its count, and for a count
    /// that is out of range.
    no_count: u32,
    bad_count: u32,
    /// Whether the fields are looked at before the length.
    fields_first: bool,
}

impl Table {
    pub fn right() -> Table {
        let mut lengths = [0; KINDS];
        let mut all: [Vec<Field>; KINDS] = Default::default();
        for kind in 1..=LAST as usize {
            all[kind] = fields(kind as u32, 0);
            lengths[kind] = HEAD + all[kind].iter().map(|field| field.width).sum::<usize>();
        }
        Table {
            lengths,
            fields: all,
            leg: fields(1, 1)[1..].to_vec(),
            leg_length: 3,
            turned: None,
            skipped: None,
            said: true,
            high_byte: true,
            no_count: 2,
            bad_count: 3,
            fields_first: false,
        }
    }

    /// The answer for a frame.
    pub fn judge(&self, frame: &[u8]) -> u32 {
        if frame.len() < HEAD {
            return 2;
        }
        let byte = |at: usize| usize::from(frame.get(at).copied().unwrap_or(0));
        let said = byte(0) + 256 * byte(1);
        let kind = byte(2) + if self.high_byte { 256 * byte(3) } else { 0 };
        if self.said && said != frame.len() {
            return 2;
        }
        if kind >= KINDS || self.lengths[kind] == 0 {
            return 2;
        }
        if kind == 1 && frame.len() < 5 {
            return self.no_count;
        }
        let legs = if kind == 1 { byte(4) } else { 0 };
        let right = frame.len() == self.lengths[kind] + self.leg_length * legs;
        if !right && !self.fields_first {
            return 2;
        }
        if kind == 1 && !(self.fields[1][0].low..=self.fields[1][0].high).contains(&(legs as i64)) {
            return self.bad_count;
        }
        let mut at = HEAD;
        for (place, field) in self.fields[kind].iter().enumerate() {
            if !in_range(field, frame, at, self.turned == Some((kind, place))) {
                return 3;
            }
            at += field.width;
        }
        for leg in 0..legs {
            for field in &self.leg {
                if self.skipped != Some(leg) && !in_range(field, frame, at, false) {
                    return 3;
                }
                at += field.width;
            }
        }
        if right {
            0
        } else {
            2
        }
    }
}

/// Whether the field's bytes at a place are in its range.
fn in_range(field: &Field, frame: &[u8], at: usize, turned: bool) -> bool {
    let mut bytes = [0; 8];
    for (place, byte) in bytes[..field.width].iter_mut().enumerate() {
        *byte = frame.get(at + place).copied().unwrap_or(0);
    }
    if turned {
        bytes[..field.width].reverse();
    }
    let mut value = i64::from_le_bytes(bytes);
    if field.low < 0 {
        value = i64::from(value as i32);
    }
    (field.low..=field.high).contains(&value)
}

/// The field with its lowest or its highest value one lower or higher, where
/// its bytes can hold what is then taken or refused.
fn moved(field: &Field) -> Vec<(String, Field)> {
    let mut list = Vec::new();
    for step in [-1, 1] {
        let (low, high) = (field.low + step, field.high + step);
        if low >= 0 || field.low < 0 {
            let name = format!("the lowest {} is {low}", field.name);
            list.push((name, Field { low, ..*field }));
        }
        if high < 1 << (8 * field.width) {
            let name = format!("the highest {} is {high}", field.name);
            list.push((name, Field { high, ..*field }));
        }
    }
    list
}

/// Wrong judges, each with what is wrong.
pub fn judges() -> Vec<(String, Table)> {
    let right = Table::right();
    let mut list: Vec<(String, Table)> = Vec::new();
    let mut add = |name: String, change: &dyn Fn(&mut Table)| {
        let mut table = right.clone();
        change(&mut table);
        list.push((name, table));
    };
    for kind in 1..=LAST as usize {
        for length in [right.lengths[kind] - 1, right.lengths[kind] + 1] {
            let name = format!("kind {kind} has length {length}");
            add(name, &|table| table.lengths[kind] = length);
        }
        let name = format!("kind {kind} is unknown");
        add(name, &|table| table.lengths[kind] = 0);
        for (place, field) in right.fields[kind].iter().enumerate() {
            for (name, other) in moved(field) {
                let name = format!("kind {kind}: {name}");
                add(name, &|table| table.fields[kind][place] = other);
            }
            // A member is any number but 0, in either order of its bytes.
            if field.width > 1 && field.name != "member" {
                let name = format!("kind {kind}: {} has its high byte first", field.name);
                add(name, &|table| table.turned = Some((kind, place)));
            }
            if field.low < 0 {
                let name = format!("kind {kind}: {} has no sign", field.name);
                add(name, &|table| table.fields[kind][place].low = 0);
            }
            // Two fields of one range are judged alike in either order.
            let range = |field: &Field| (field.width, field.low, field.high);
            if place > 0 && range(&right.fields[kind][place - 1]) != range(field) {
                let name = format!("kind {kind}: {} is exchanged with the last", field.name);
                add(name, &|table| table.fields[kind].swap(place - 1, place));
            }
        }
    }
    for place in 0..3 {
        for (name, other) in moved(&right.leg[place]) {
            add(format!("legs: {name}"), &|table| table.leg[place] = other);
        }
    }
    for leg in 0..6 {
        let name = format!("leg {leg} is not looked at");
        add(name, &|table| table.skipped = Some(leg));
    }
    for (unknown, known) in [
        (0, 6),
        (0, 8),
        (KINDS - 1, 6),
        (KINDS - 1, 9),
        (KINDS - 1, 10),
        (KINDS - 1, 11),
    ] {
        let name = format!("kind {unknown} is taken as {known}");
        add(name, &|table| {
            table.lengths[unknown] = table.lengths[known];
            table.fields[unknown] = table.fields[known].clone();
        });
    }
    for length in [2, 4] {
        let name = format!("a leg has {length} bytes");
        add(name, &|table| table.leg_length = length);
    }
    for answer in [0, 3] {
        let name = format!("a strategy without a count is answered {answer}");
        add(name, &|table| table.no_count = answer);
    }
    add("the said length is not looked at".into(), &|table| {
        table.said = false;
    });
    add("the kind is one byte".into(), &|table| {
        table.high_byte = false
    });
    add("a bad count is refused 2".into(), &|table| {
        table.bad_count = 2
    });
    add("a bad count is accepted".into(), &|table| {
        table.bad_count = 0
    });
    add("3 goes before 2".into(), &|table| table.fields_first = true);
    list
}

/// A reader, and a writer, that is wrong.
pub type WrongReader = Box<dyn Fn(&[u8]) -> Result<Row, u32>>;
pub type WrongWriter = Box<dyn Fn(&Row, &mut [u8]) -> Result<usize, u32>>;

/// Wrong readers, each with what is wrong.
pub fn readers() -> Vec<(String, WrongReader)> {
    let mut list: Vec<(String, WrongReader)> = Vec::new();
    for kind in 1..=LAST {
        for at in 0..20 {
            list.push((
                format!("kind {kind}: number {at} is one more"),
                Box::new(move |frame| {
                    let mut row = read(frame)?;
                    if row[0] == kind {
                        row[at] = row[at].wrapping_add(1);
                    }
                    Ok(row)
                }),
            ));
        }
        for at in 2..numbers_used(kind) {
            list.push((
                format!("kind {kind}: numbers {} and {at} are exchanged", at - 1),
                Box::new(move |frame| {
                    let mut row = read(frame)?;
                    if row[0] == kind {
                        row.swap(at - 1, at);
                    }
                    Ok(row)
                }),
            ));
        }
    }
    for (refusal, other) in [(2, 3), (3, 2), (2, 1), (3, 1)] {
        list.push((
            format!("{other} in the place of {refusal}"),
            Box::new(move |frame| {
                read(frame).map_err(|answer| if answer == refusal { other } else { answer })
            }),
        ));
    }
    list
}

/// Wrong writers, each with what is wrong.
pub fn writers() -> Vec<(String, WrongWriter)> {
    let mut list: Vec<(String, WrongWriter)> = Vec::new();
    for at in 0..23 {
        list.push((
            format!("byte {at} is wrong"),
            Box::new(move |row, space| {
                let length = write(row, space)?;
                if at < length {
                    space[at] ^= 1;
                }
                Ok(length)
            }),
        ));
    }
    for kind in 1..=LAST {
        for at in 1..numbers_used(kind) {
            list.push((
                format!("kind {kind}: number {at} is cut to two bytes"),
                Box::new(move |row, space| {
                    let mut cut = *row;
                    if row[0] == kind {
                        cut[at] %= 1 << 16;
                    }
                    write(&cut, space)
                }),
            ));
        }
        list.push((
            format!("kind {kind}: one byte more is needed"),
            Box::new(move |row, space| {
                let mut copy = space.to_vec();
                match write(row, &mut copy) {
                    Ok(length) if row[0] == kind && length == space.len() => Err(1),
                    _ => write(row, space),
                }
            }),
        ));
    }
    for past in 8..20 {
        list.push((
            format!("number {past} is not looked at past the count"),
            Box::new(move |row, space| {
                let mut cleared = *row;
                if row[0] == 1 && row[1] < 6 && past >= 2 + 3 * row[1] as usize {
                    cleared[past] = 0;
                }
                write(&cleared, space)
            }),
        ));
    }
    for refusal in [1, 3] {
        list.push((
            format!("the space is changed at refusal {refusal}"),
            Box::new(move |row, space| {
                let answer = write(row, space);
                if let (Err(given), Some(last)) = (answer, space.last_mut()) {
                    if given == refusal {
                        *last ^= 1;
                    }
                }
                answer
            }),
        ));
    }
    list.push((
        "the space past the frame is changed".into(),
        Box::new(|row, space| {
            let length = write(row, space)?;
            if let Some(byte) = space.get_mut(length) {
                *byte ^= 1;
            }
            Ok(length)
        }),
    ));
    list.push((
        "1 goes before 3".into(),
        Box::new(|row, space| match write(row, space) {
            Err(3) if space.is_empty() => Err(1),
            answer => answer,
        }),
    ));
    list.push((
        "the kind is one byte".into(),
        Box::new(|row, space| {
            let mut cut = *row;
            cut[0] %= 256;
            write(&cut, space)
        }),
    ));
    list
}
