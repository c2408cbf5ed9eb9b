//! The audit of a list that is at hand whole.

use audit::audit;

#[derive(Debug, PartialEq, Eq)]
pub struct Audited {
    /// What is printed.
    pub text: String,
    /// What does not hold, as it is listed at the end.
    pub failures: Vec<String>,
}

/// The audit of the frames with these lines, or why there is none.
pub fn audited(frames: &[u8], lines: &str, ended: &str) -> Result<Audited, String> {
    let mut text = Vec::new();
    match audit(frames, lines.as_bytes(), ended.as_bytes(), &mut text) {
        Err(wrong) => Err(wrong.to_string()),
        Ok(seen) => Ok(Audited {
            text: String::from_utf8(text).expect("text"),
            failures: seen.failures.lines().collect(),
        }),
    }
}
