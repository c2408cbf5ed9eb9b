//! Reads frames from standard input and prints answers and records.

#![forbid(unsafe_code)]
#![deny(warnings)]

use std::io::{self, BufWriter, Read, Write};

fn main() -> io::Result<()> {
    let mut input = Vec::new();
    io::stdin().lock().read_to_end(&mut input)?;
    let mut output = BufWriter::new(io::stdout().lock());
    reckoning::tape::tape(&input, &mut output)?;
    output.flush()
}
