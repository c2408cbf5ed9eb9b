//! One day of a list: the events after the day end before it, up to its own.

use crate::totals::Totals;

#[derive(Clone, Debug, Default, PartialEq, Eq)]
pub struct Day {
    /// Its number, from 1.
    pub number: usize,
    /// The index of its first event.
    pub first: usize,
    pub events: usize,
    /// It has its day end.
    pub ended: bool,
    pub totals: Totals,
}

impl Day {
    pub fn first() -> Day {
        Day {
            number: 1,
            ..Day::default()
        }
    }

    /// The day after this one.
    pub fn next_day(&self) -> Day {
        Day {
            number: self.number + 1,
            first: self.first + self.events,
            ..Day::default()
        }
    }
}
