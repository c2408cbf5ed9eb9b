//! Copies of the state and of its tables, told by their length.

/// What may stand beside the state in one copy, in bytes: an answer, or a count.
const BESIDE: usize = 32;

/// The lengths by which copies are told apart.
#[derive(Clone, Copy, Debug, PartialEq, Eq)]
pub struct Bounds {
    /// From here on it is a copy of a table, or of two that stand side by side:
    /// the size of the smallest table.
    pub table: usize,
    /// From here on it is a copy of the whole state: the size of all tables, without
    /// the numbers behind them, which may be copied one by one.
    pub whole: usize,
    /// The longest copy that is one of the state, with something beside it.
    pub longest: usize,
}

impl Bounds {
    /// From the sizes of the state and of its tables; nothing if there is no table.
    pub fn of(state: usize, tables: &[usize]) -> Option<Bounds> {
        Some(Bounds {
            table: *tables.iter().min()?,
            whole: tables.iter().sum(),
            longest: state + BESIDE,
        })
    }
}

/// How many copies there were.
#[derive(Clone, Copy, Debug, Default, PartialEq, Eq)]
pub struct Copies {
    pub whole: u64,
    pub tables: u64,
    /// Those that are longer than the state.
    pub longer: u64,
}

impl Copies {
    /// From lines 'LENGTH CALLS', as `copies.c` writes them; nothing if a line is not
    /// of that form.
    pub fn of(lines: &str, bounds: Bounds) -> Option<Copies> {
        let mut copies = Copies::default();
        for line in lines.lines() {
            let (length, calls) = line.split_once(' ')?;
            let (length, calls): (usize, u64) = (length.parse().ok()?, calls.parse().ok()?);
            match length {
                _ if length < bounds.table => {}
                _ if length < bounds.whole => copies.tables += calls,
                _ if length <= bounds.longest => copies.whole += calls,
                _ => copies.longer += calls,
            }
        }
        Some(copies)
    }
}
