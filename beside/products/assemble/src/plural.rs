//! Counts in messages.

use std::fmt::Display;

/// `1 byte`, `2 bytes`.
pub fn counted(count: impl Display, what: &str) -> String {
    match count.to_string().as_str() {
        "1" => format!("1 {what}"),
        count => format!("{count} {what}s"),
    }
}
