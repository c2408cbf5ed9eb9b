//! Times the proved program `tape` beside the reckoning's `tape`, on the same
//! days: a busy day of kinds 1 to 8, and days of one kind mostly. Of the
//! proved one it counts the copies of the state, and times each event by itself.

#![forbid(unsafe_code)]
#![deny(warnings)]

pub mod copies;
pub mod days;
pub mod measure;
pub mod tails;
pub mod text;
pub mod worst;
