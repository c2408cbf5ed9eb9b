//! Where `tape` stopped in the frames, and what of them it did not play.

use assemble::framing::Why;
use assemble::warnings::reason;
use std::fmt;

#[derive(Clone, Copy, Debug, PartialEq, Eq)]
pub struct Stop {
    /// The place of its first byte, from 0.
    pub at: u64,
    pub why: Why,
    /// How many bytes come after it. Its own are the length field and, of a
    /// length 3, one more; of a length past the end all that is left.
    pub after: u64,
}

impl fmt::Display for Stop {
    fn fmt(&self, to: &mut fmt::Formatter) -> fmt::Result {
        write!(to, "tape stopped at byte {} of the frames, ", self.at)?;
        let reason = reason(self.why);
        match self.why {
            Why::Under4(length) | Why::PastEnd(length) => {
                write!(to, "whose length field is {length} ({reason})")?;
            }
            Why::LoneByte => write!(to, "{reason}")?,
        }
        match self.after {
            0 => write!(to, "; nothing stands after it"),
            1 => write!(to, "; 1 byte after it was not played"),
            after => write!(to, "; {after} bytes after it were not played"),
        }
    }
}
