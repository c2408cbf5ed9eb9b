//! A second implementation of the complex book of document 01 with requests
//! 2026-01 to 2026-05 of document 02, written for comparison with the engine:
//! plain structures, one function per sentence.

#![forbid(unsafe_code)]
#![deny(warnings)]

pub mod auctions;
pub mod book;
pub mod calls;
pub mod coverage;
pub mod events;
pub mod frames;
pub mod generate;
pub mod lists;
pub mod national;
pub mod nets;
pub mod passes;
pub mod records;
pub mod specialist;
pub mod table;
pub mod tape;
pub mod totals;
