//! Request 2026-04, "The specialist's portion".

use crate::book::Entry;
use crate::passes::{share, sum, Given};

/// "Kind 11 names a member (2) and a strategy (1) […] and a percentage (1) 0–100": what
/// a strategy keeps of it.
#[derive(Clone, Copy, Debug, PartialEq, Eq)]
pub struct Specialist {
    pub member: u16,
    pub percentage: u8,
}

impl Specialist {
    /// Whether the holder is a sweep of the specialist. Its market maker's orders are
    /// none; of the sweeps at one limit one at most is.
    pub fn holds(&self, holder: &Entry) -> bool {
        holder.life.is_none() && holder.member == self.member
    }

    /// "the greater of its rounded-down share and the rounded-down percentage of what
    /// remains after customers, never above its size". The total is the group's, the
    /// sweep in it.
    pub fn portion(&self, remaining: u32, size: u32, total: u32) -> u32 {
        let share = u64::from(remaining) * u64::from(size) / u64::from(total);
        let part = u32::from(self.percentage) * remaining / 100;
        size.min(part.max(share as u32))
    }

    /// Turns the sizes of a group that must be shared into what it gives. The sweep at
    /// this place gets its portion; "The rest of the group shares what is left by the
    /// old sharing rule." The group stands by number, the sweep in its place.
    pub fn share(&self, remaining: u32, group: &mut [Given], place: usize) {
        let portion = self.portion(remaining, group[place].units, sum(group));
        group[place].units = portion;
        // The sweep stands last while the rest shares.
        group[place..].rotate_left(1);
        let rest = group.len() - 1;
        share(remaining - portion, &mut group[..rest]);
        group[place..].rotate_right(1);
    }
}
