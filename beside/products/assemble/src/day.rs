//! The file of a day, read from its start as often as one likes.

use crate::lines::Lines;
use std::fs::File;
use std::io::{self, BufReader, Read};
use std::os::unix::fs::FileExt;
use std::path::Path;

/// A regular file is read again each time. What cannot be read twice, as a pipe,
/// is held in memory.
#[derive(Debug)]
pub enum Day {
    File(File),
    Text(Vec<u8>),
}

impl Day {
    pub fn open(path: impl AsRef<Path>) -> io::Result<Day> {
        let mut file = File::open(path)?;
        if file.metadata()?.is_file() {
            return Ok(Day::File(file));
        }
        let mut text = Vec::new();
        file.read_to_end(&mut text)?;
        Ok(Day::Text(text))
    }

    /// The lines from the first on. Several may be read at a time.
    pub fn lines(&self) -> Lines<BufReader<Reader<'_>>> {
        let reader = Reader { day: self, at: 0 };
        Lines::new(BufReader::with_capacity(1 << 16, reader))
    }
}

/// A place in the day.
pub struct Reader<'a> {
    day: &'a Day,
    at: u64,
}

impl Read for Reader<'_> {
    fn read(&mut self, space: &mut [u8]) -> io::Result<usize> {
        let count = match self.day {
            Day::File(file) => file.read_at(space, self.at)?,
            Day::Text(text) => text
                .get(self.at as usize..)
                .unwrap_or_default()
                .read(space)?,
        };
        self.at += count as u64;
        Ok(count)
    }
}
