//! Compares a program `calls` with the reckoning over many lists of calls, line
//! by line: each call's answer and records, and the lookups after the list. The
//! program runs as a process of its own, with a list's items as its input.

#![forbid(unsafe_code)]
#![deny(warnings)]

pub mod agree;
pub mod hand;
pub mod lists;
pub mod tally;
