//! Why a list cannot be audited.

use std::fmt;
use std::io;

#[derive(Debug)]
pub enum Wrong {
    /// An input cannot be read.
    Read(io::Error),
    /// The lines cannot be those of the frames.
    Lines(String),
    /// The output is not taken.
    Write(io::Error),
}

impl fmt::Display for Wrong {
    fn fmt(&self, to: &mut fmt::Formatter) -> fmt::Result {
        match self {
            Wrong::Read(error) => write!(to, "{error}"),
            Wrong::Lines(said) => write!(to, "{said}"),
            Wrong::Write(error) => write!(to, "writing the output: {error}"),
        }
    }
}
