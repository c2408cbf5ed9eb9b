//! Numbers and rows as text.

use crate::measure::Both;

/// A whole number with a comma before each three digits.
pub fn grouped(number: f64) -> String {
    let digits = format!("{number:.0}");
    let mut text = String::new();
    for (at, digit) in digits.chars().enumerate() {
        if at > 0 && (digits.len() - at) % 3 == 0 {
            text.push(',');
        }
        text.push(digit);
    }
    text
}

/// A ratio, a small one with one digit more, or a dash where there is none.
pub fn ratio(both: &Both) -> String {
    match both.ratio() {
        Some(ratio) if ratio < 0.095 => format!("{ratio:.3}"),
        Some(ratio) => format!("{ratio:.2}"),
        None => "-".to_string(),
    }
}

/// A row of the table of all.
pub fn row(name: &str, proved: &str, reckoning: &str, ratio: &str) -> String {
    format!("{name:<17}  {proved:>12}  {reckoning:>12}  {ratio:>6}")
        .trim_end()
        .to_string()
}

/// A row of the table by kind.
pub fn kind_row(cells: [&str; 6]) -> String {
    let [kind, about, events, proved, reckoning, ratio] = cells;
    format!("{kind:<17}  {about:<45}  {events:>7}  {proved:>7}  {reckoning:>9}  {ratio:>5}")
        .trim_end()
        .to_string()
}

/// A row of the table of single events.
pub fn tail_row(cells: [&str; 7]) -> String {
    let [kind, events, half, most, nearly_all, worst, event] = cells;
    format!(
        "{kind:<15}  {events:>7}  {half:>7}  {most:>7}  {nearly_all:>7}  {worst:>7}  {event:>7}"
    )
}

/// A row of the table of the worst of each kind.
pub fn worst_row(cells: [&str; 5]) -> String {
    let [kind, worst, records, day, event] = cells;
    format!("{kind:<15}  {worst:>7}  {records:>7}  {day:<13}  {event:>7}")
}

/// A row of the table of the days whose events take long.
pub fn long_row(cells: [&str; 4]) -> String {
    let [day, worst, kind, about] = cells;
    format!("{day:<15}  {worst:>7}  {kind:<15}  {about}")
}

/// Nanoseconds as microseconds.
pub fn micro(nanoseconds: u64) -> String {
    format!("{:.2}", nanoseconds as f64 / 1e3)
}
