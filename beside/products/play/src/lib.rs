//! A day of events, given as text, played through the program `tape`; what it
//! prints is passed on, or told in words. There is no book here: the words say
//! what the day's frames and the lines of `tape` say.

#![forbid(unsafe_code)]
#![deny(warnings)]

pub mod answers;
pub mod event;
pub mod grouping;
pub mod notes;
pub mod parties;
pub mod play;
pub mod printed;
pub mod refusals;
pub mod sentences;
pub mod tape;
pub mod teller;
pub mod totals;
