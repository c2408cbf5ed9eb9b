//! Compares a program `tape` with the reckoning over many days, line by line.
//! The program runs as a process of its own, with a day's frames as its input.

#![forbid(unsafe_code)]
#![deny(warnings)]

pub mod agree;
pub mod days;
pub mod faults;
pub mod hand;
pub mod program;
pub mod slips;
pub mod tally;
pub mod waiting;
