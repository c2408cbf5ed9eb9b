//! What does not hold, in the order in which it was found. The first are held,
//! the others counted, so that the list does not grow with the events.

/// How many are held.
pub const MOST: usize = 1_000;

#[derive(Clone, Debug, Default, PartialEq, Eq)]
pub struct Failures {
    list: Vec<String>,
    more: u64,
}

impl Failures {
    pub fn push(&mut self, failure: String) {
        if self.list.len() < MOST {
            self.list.push(failure);
        } else {
            self.more += 1;
        }
    }

    pub fn is_empty(&self) -> bool {
        self.list.is_empty()
    }

    /// A line for each, and one for those that are not held.
    pub fn lines(&self) -> impl Iterator<Item = String> + '_ {
        let more = (self.more > 0).then(|| format!("and {} more", self.more));
        self.list.iter().cloned().chain(more)
    }
}
