//! Document 01, "The totals after a list", request 2026-01, "each fill […] keeps to the
//! range and prices known when it was made", request 2026-03, "a sweep of 1 unit or
//! more has to be above the bid net when it buys, below the offer net when it sells",
//! and request 2026-04, "What members enter still ends as filled, cancelled or live",
//! which is the first of those totals where specialists are named, seen on one list: its
//! frames, and the lines that the program `tape` prints for them, are all that is read.
//! Frames are read by the proved reader. There is no book here but the leg orders that
//! are live by what the lines say.
//!
//! What is live comes from a second play of the same frames with a day end after
//! them: it cancels what is live, and nothing else.
//!
//! All is read as a stream, and each day printed when it is over. What is held
//! grows with the numbers of one day, not with its events, nor with the days.

#![forbid(unsafe_code)]
#![deny(warnings)]

pub mod claims;
pub mod day;
pub mod failures;
pub mod frames;
pub mod lines;
pub mod national;
pub mod nets;
pub mod plays;
pub mod report;
pub mod stop;
pub mod sweeps;
pub mod table;
pub mod totals;
pub mod walk;
pub mod wrong;

pub use walk::{audit, Audited};
