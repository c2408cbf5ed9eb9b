//! Compares the proved codec with the reckoning, frame by frame.

#![deny(unsafe_code)]
#![deny(warnings)]

pub mod agree;
pub mod codec;
pub mod fields;
pub mod frames;
pub mod mutants;
pub mod random;
pub mod rows;
pub mod tally;
