//! Tables as text: columns as wide as what they hold, two blanks between them.
//! The rows are made twice, to find the widths and to be written; none is held.

use std::io::{self, Write};

/// A column: its heading, and whether it is of numbers, which end at its right.
#[derive(Clone, Copy, Debug, PartialEq, Eq)]
pub enum Column {
    Number(&'static str),
    Word(&'static str),
}

impl Column {
    fn heading(&self) -> &'static str {
        match self {
            Column::Number(heading) | Column::Word(heading) => heading,
        }
    }

    /// Adds a cell to a line, with blanks up to the width.
    fn put(&self, line: &mut String, text: &str, width: usize) {
        let blanks = width - text.len();
        let (before, after) = match self {
            Column::Number(_) => (blanks, 0),
            Column::Word(_) => (0, blanks),
        };
        line.extend((0..before).map(|_| ' '));
        line.push_str(text);
        line.extend((0..after).map(|_| ' '));
    }
}

/// The columns of a table with their widths.
pub struct Table<const COLUMNS: usize> {
    columns: [Column; COLUMNS],
    widths: [usize; COLUMNS],
    rows: usize,
}

impl<const COLUMNS: usize> Table<COLUMNS> {
    /// The table of these rows.
    pub fn new(
        columns: [Column; COLUMNS],
        rows: impl Iterator<Item = [String; COLUMNS]>,
    ) -> Table<COLUMNS> {
        let mut table = Table {
            columns,
            widths: columns.map(|column| column.heading().len()),
            rows: 0,
        };
        for row in rows {
            for (width, cell) in table.widths.iter_mut().zip(&row) {
                *width = cell.len().max(*width);
            }
            table.rows += 1;
        }
        table
    }

    pub fn is_empty(&self) -> bool {
        self.rows == 0
    }

    /// Writes its lines, without blanks at their ends. The rows have to be those
    /// that it was made of.
    pub fn write(
        &self,
        output: &mut impl Write,
        rows: impl Iterator<Item = [String; COLUMNS]>,
    ) -> io::Result<()> {
        let headings = self.columns.map(|column| column.heading().to_string());
        let mut line = String::new();
        for row in std::iter::once(headings).chain(rows) {
            line.clear();
            for (at, column) in self.columns.iter().enumerate() {
                if at > 0 {
                    line.push_str("  ");
                }
                column.put(&mut line, &row[at], self.widths[at]);
            }
            writeln!(output, "{}", line.trim_end())?;
        }
        Ok(())
    }
}
