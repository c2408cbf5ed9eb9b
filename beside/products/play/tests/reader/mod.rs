//! The words read back: the lines `E` and `R` that they tell, from the words
//! alone.

/// The rest of a sentence, taken from its start.
struct Rest<'a>(&'a str);

impl Rest<'_> {
    /// Takes this text, if it comes next.
    fn text(&mut self, text: &str) -> Option<()> {
        self.0 = self.0.strip_prefix(text)?;
        Some(())
    }

    /// Takes the first of these texts that comes next, and says which.
    fn one_of(&mut self, texts: &[&str]) -> Option<i64> {
        let at = texts.iter().position(|text| self.0.starts_with(text))?;
        self.text(texts[at])?;
        Some(at as i64)
    }

    fn number(&mut self) -> Option<i64> {
        let digit =
            |(at, letter): &(usize, char)| letter.is_ascii_digit() || (*at == 0 && *letter == '-');
        let length = self.0.char_indices().take_while(digit).count();
        let (number, rest) = self.0.split_at(length);
        self.0 = rest;
        number.parse().ok()
    }

    /// `number 6 (customer order, member 21)`.
    fn who(&mut self) -> Option<i64> {
        self.text("number ")?;
        let number = self.number()?;
        self.text(" (")?;
        self.0 = self.0.split_once(')')?.1;
        Some(number)
    }

    fn units(&mut self) -> Option<i64> {
        let units = self.number()?;
        self.text(if units == 1 { " unit" } else { " units" })?;
        Some(units)
    }

    fn end(&self) -> Option<()> {
        self.0.is_empty().then_some(())
    }
}

type Record = [i64; 6];

const DOES: &[&str] = &[" buys ", " sells "];
const WITH: &[&str] = &[" from ", " to "];

/// The records of a sentence.
fn records(sentence: &str) -> Option<Vec<Record>> {
    let mut rest = Rest(sentence);
    let records = if sentence.starts_with("record ") {
        alone(&mut rest)?
    } else if sentence.starts_with("auction begun") {
        begun(&mut rest)?
    } else if sentence.starts_with("auction of") {
        ended(&mut rest)?
    } else {
        of_party(&mut rest)?
    };
    rest.end()?;
    Some(records)
}

fn alone(rest: &mut Rest) -> Option<Vec<Record>> {
    rest.text("record ")?;
    let kind = rest.number()?;
    rest.text(", ")?;
    rest.0 = rest.0.split_once(": ")?.1;
    let number = rest.who()?;
    rest.text(", place ")?;
    let place = rest.number()?;
    rest.text(", side ")?;
    let side = rest.number()?;
    rest.text(", quantity ")?;
    let quantity = rest.number()?;
    rest.text(", price ")?;
    Some(vec![[kind, number, place, side, quantity, rest.number()?]])
}

fn begun(rest: &mut Rest) -> Option<Vec<Record>> {
    rest.text("auction begun in strategy ")?;
    let place = rest.number()?;
    rest.text(" by ")?;
    let number = rest.who()?;
    rest.text(":")?;
    let side = rest.one_of(DOES)?;
    let units = rest.units()?;
    rest.text(", limit ")?;
    Some(vec![[4, number, place, side, units, rest.number()?]])
}

fn ended(rest: &mut Rest) -> Option<Vec<Record>> {
    rest.text("auction of ")?;
    let number = rest.who()?;
    rest.text(" in strategy ")?;
    let place = rest.number()?;
    rest.text(" ended")?;
    Some(vec![[5, number, place, 0, 0, 0]])
}

/// A sentence that begins with a party.
fn of_party(rest: &mut Rest) -> Option<Vec<Record>> {
    let number = rest.who()?;
    if rest.text(": ").is_some() {
        return cancelled(number, rest);
    }
    let side = rest.one_of(DOES)?;
    let quantity = rest.number()?;
    if rest.text(" of series ").is_some() {
        return trade(number, side, quantity, rest);
    }
    rest.one_of(&[" units", " unit"])?;
    rest.text(" of strategy ")?;
    let place = rest.number()?;
    rest.text(" at net ")?;
    let price = rest.number()?;
    (rest.one_of(WITH)? == side).then_some(())?;
    let active = [1, number, place, side, quantity, price];
    match rest.text("the legs: ") {
        Some(()) => against_legs(active, rest),
        None => whole(active, rest),
    }
}

fn cancelled(number: i64, rest: &mut Rest) -> Option<Vec<Record>> {
    let quantity = rest.number()?;
    rest.one_of(&[" units", " unit", " contracts", " contract"])?;
    rest.one_of(&[" of strategy ", " of series "])?;
    rest.number()?;
    let side = rest.one_of(&[" to buy ", " to sell "])?;
    rest.text(if quantity == 1 {
        "is cancelled"
    } else {
        "are cancelled"
    })?;
    Some(vec![[3, number, 0, side, quantity, 0]])
}

fn trade(number: i64, side: i64, quantity: i64, rest: &mut Rest) -> Option<Vec<Record>> {
    let series = rest.number()?;
    rest.text(" at ")?;
    let price = rest.number()?;
    (rest.one_of(WITH)? == side).then_some(())?;
    let other = rest.who()?;
    Some(vec![
        [2, number, series, side, quantity, price],
        [2, other, series, 1 - side, quantity, price],
    ])
}

/// `series 0 buy 3`, as a leg fill of the number, the price still 0.
fn leg(number: i64, rest: &mut Rest) -> Option<Record> {
    rest.text("series ")?;
    let series = rest.number()?;
    let side = rest.one_of(&[" buy ", " sell "])?;
    Some([2, number, series, side, rest.number()?, 0])
}

fn whole(active: Record, rest: &mut Rest) -> Option<Vec<Record>> {
    let other = rest.who()?;
    rest.text(": ")?;
    let mut legs = Vec::new();
    loop {
        let mut record = leg(active[1], rest)?;
        if rest.text(" at ").is_some() {
            record[5] = rest.number()?;
        }
        legs.push(record);
        if rest.text(", no leg prices").is_some() || rest.text(", ").is_none() {
            break;
        }
    }
    let opposite = |mut record: Record| {
        record[1] = other;
        record[3] = 1 - record[3];
        record
    };
    let mut records = vec![active];
    records.extend(&legs);
    records.push(opposite(active));
    records.extend(legs.iter().copied().map(opposite));
    Some(records)
}

fn against_legs(active: Record, rest: &mut Rest) -> Option<Vec<Record>> {
    let (mut legs, mut orders) = (Vec::new(), Vec::new());
    loop {
        let mut record = leg(active[1], rest)?;
        rest.text(" at ")?;
        record[5] = rest.number()?;
        legs.push(record);
        orders.extend(orders_of(record, rest)?);
        if rest.text(", ").is_none() {
            break;
        }
    }
    let mut records = vec![active];
    records.extend(legs);
    records.extend(orders);
    Some(records)
}

/// The leg orders that fill a leg: one with all of it, or several, each with how
/// much.
fn orders_of(leg: Record, rest: &mut Rest) -> Option<Vec<Record>> {
    let several = rest.text(", ").is_some();
    let mut orders = Vec::new();
    loop {
        let mut order = leg;
        if several {
            order[4] = rest.number()?;
        }
        (rest.one_of(WITH)? == leg[3]).then_some(())?;
        order[1] = rest.who()?;
        order[3] = 1 - leg[3];
        orders.push(order);
        if !several || rest.text(" and ").is_none() {
            break;
        }
    }
    Some(orders)
}

/// An event: its index, answer and value, its count where that is said, and its
/// records.
struct Event {
    numbers: [i64; 3],
    count: Option<i64>,
    records: Vec<Record>,
}

/// What national prices are set, after ", national ".
fn national(rest: &mut Rest) -> Option<()> {
    rest.text("prices of series ")?;
    rest.number()?;
    for side in [": bid ", ", offer "] {
        rest.text(side)?;
        if rest.text("none").is_none() {
            rest.number()?;
        }
    }
    Some(())
}

/// What range is set, after ", execution ".
fn range(rest: &mut Rest) -> Option<()> {
    rest.text("range ")?;
    rest.number().map(|_| ())
}

/// Who is named, after ", specialist ".
fn specialist(rest: &mut Rest) -> Option<()> {
    for before in ["of strategy ", ": member ", ", "] {
        rest.text(before)?;
        rest.number()?;
    }
    rest.text(" per cent")
}

fn event(sentence: &str) -> Option<Event> {
    let mut rest = Rest(sentence);
    rest.text("event ")?;
    let index = rest.number()?;
    if rest.text(" (").is_some() {
        rest.0 = rest.0.split_once(')')?.1;
    }
    rest.text(": ")?;
    let mut parts = rest.0.split("; ");
    let mut first = Rest(parts.next()?);
    let mut value = 0;
    let answer = match first.one_of(&["accepted", "refused "])? {
        0 => {
            let said = [
                ", number ",
                ", strategy ",
                ", national ",
                ", execution ",
                ", specialist ",
            ];
            match first.one_of(&said) {
                None => {}
                Some(0 | 1) => value = first.number()?,
                Some(2) => national(&mut first)?,
                Some(3) => range(&mut first)?,
                Some(_) => specialist(&mut first)?,
            }
            first.end()?;
            0
        }
        _ => {
            let refusal = first.number()?;
            first.text(", ")?;
            refusal
        }
    };
    let mut count = None;
    for part in parts {
        let mut part = Rest(part);
        match part.one_of(&["value ", "counts ", "given before"])? {
            0 => value = part.number()?,
            1 => {
                count = Some(part.number()?);
                part.text(" records")?;
            }
            _ => {}
        }
        part.end()?;
    }
    Some(Event {
        numbers: [index, answer, value],
        count,
        records: Vec::new(),
    })
}

/// What was escaped, as it was.
fn plain(text: &str) -> Option<Vec<u8>> {
    let mut bytes = Vec::new();
    let mut rest = text;
    while let Some(letter) = rest.chars().next() {
        rest = &rest[letter.len_utf8()..];
        if letter != '\\' {
            bytes.extend(letter.to_string().as_bytes());
            continue;
        }
        let escape = rest.chars().next()?;
        rest = &rest[1..];
        match escape {
            '\\' => bytes.push(b'\\'),
            '0' => bytes.push(0),
            't' => bytes.push(b'\t'),
            'r' => bytes.push(b'\r'),
            'n' => bytes.push(b'\n'),
            'x' => {
                bytes.push(u8::from_str_radix(rest.get(..2)?, 16).ok()?);
                rest = &rest[2..];
            }
            'u' => {
                let (digits, after) = rest.strip_prefix('{')?.split_once('}')?;
                let letter = char::from_u32(u32::from_str_radix(digits, 16).ok()?)?;
                bytes.extend(letter.to_string().as_bytes());
                rest = after;
            }
            _ => return None,
        }
    }
    Some(bytes)
}

fn row(first: &str, numbers: &[i64]) -> String {
    let numbers: Vec<String> = numbers.iter().map(i64::to_string).collect();
    format!("{first} {}\n", numbers.join(" "))
}

fn close(open: Option<Event>, lines: &mut Vec<u8>) {
    let Some(event) = open else { return };
    let [index, answer, value] = event.numbers;
    let count = event.count.unwrap_or(event.records.len() as i64);
    lines.extend(row("E", &[index, answer, value, count]).as_bytes());
    for record in event.records {
        lines.extend(row("R", &record).as_bytes());
    }
}

/// The lines that the words tell; or the first sentence that cannot be read.
pub fn lines(words: &str) -> Result<Vec<u8>, String> {
    let mut lines = Vec::new();
    let mut open: Option<Event> = None;
    let mut totals = false;
    for line in words.lines() {
        let unread = || format!("'{line}' cannot be read");
        if let Some(sentence) = line.strip_prefix("  ") {
            if totals || sentence == "not played" || sentence == "no answer came" {
                continue;
            }
            if sentence.starts_with("event ") {
                close(open.take(), &mut lines);
                open = Some(event(sentence).ok_or_else(unread)?);
            } else {
                let records = records(sentence).ok_or_else(unread)?;
                open.as_mut().ok_or_else(unread)?.records.extend(records);
            }
        } else if let Some(printed) = line.strip_prefix("tape prints: ") {
            close(open.take(), &mut lines);
            lines.extend(plain(printed).ok_or_else(unread)?);
            lines.push(b'\n');
            totals = false;
        } else if let Some(rest) = line.strip_prefix("tape prints without a line's end: ") {
            close(open.take(), &mut lines);
            lines.extend(plain(rest).ok_or_else(unread)?);
            totals = false;
        } else {
            totals = line.starts_with("totals of day ");
            let heading = line.starts_with("line ") || line == "past the last event of the day";
            if !totals && !heading {
                return Err(unread());
            }
        }
    }
    close(open, &mut lines);
    Ok(lines)
}
