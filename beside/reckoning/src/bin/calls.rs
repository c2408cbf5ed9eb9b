//! Reads calls of the book from standard input and prints answers, records and
//! then the lookups.

#![forbid(unsafe_code)]
#![deny(warnings)]

use std::io::{self, BufWriter, Read, Write};

fn main() -> io::Result<()> {
    let mut input = Vec::new();
    io::stdin().lock().read_to_end(&mut input)?;
    let mut output = BufWriter::new(io::stdout().lock());
    reckoning::calls::calls(&input, &mut output)?;
    output.flush()
}
