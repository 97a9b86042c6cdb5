//! A table of counts, by a row and a column each, in which some cells cannot be reached.
//! The others must be reached often enough.

use std::io::{self, Write};

/// The least count of a cell that can be reached.
const CELL_MINIMUM: u64 = 1000;

/// Whether a cell can be reached, and its count.
type Cell = (bool, u64);

pub struct Table {
    pub name: &'static str,
    pub columns: Vec<String>,
    pub rows: Vec<(&'static str, Vec<Cell>)>,
}

pub fn rows_of<const COLUMNS: usize>(
    names: impl IntoIterator<Item = &'static str>,
    counts: &[[u64; COLUMNS]],
    can_be: impl Fn(usize, usize) -> bool,
) -> Vec<(&'static str, Vec<Cell>)> {
    let cells = |row: usize| {
        let counts = (0..).zip(&counts[row]);
        counts.map(|(column, &count)| (can_be(row, column), count)).collect()
    };
    (0..).zip(names).map(|(row, name)| (name, cells(row))).collect()
}

impl Table {
    /// What is wrong with the counts, one line each.
    pub fn complaints(&self) -> Vec<String> {
        let Table { name, columns, rows } = self;
        let mut complaints = Vec::new();
        for (row, cells) in rows {
            for (column, &(can_be, count)) in columns.iter().zip(cells) {
                let wrong = wrong(can_be, count);
                complaints.extend(
                    wrong.map(|wrong| format!("{name}, {row}, {column}: {count} of them, {wrong}")),
                );
            }
        }
        complaints
    }

    pub fn print(&self, out: &mut impl Write) -> io::Result<()> {
        write!(out, "{:26}", self.name)?;
        self.columns.iter().try_for_each(|column| write!(out, "{column:>16}"))?;
        writeln!(out)?;
        for (row, cells) in &self.rows {
            write!(out, "{row:26}")?;
            for &(can_be, count) in cells {
                print_cell(out, 16, can_be, count)?;
            }
            writeln!(out)?;
        }
        Ok(())
    }
}

/// What is wrong with the count of a cell.
pub fn wrong(can_be: bool, count: u64) -> Option<String> {
    if can_be {
        (count < CELL_MINIMUM).then(|| format!("at least {CELL_MINIMUM} are asked for"))
    } else {
        (count > 0).then(|| "which cannot be".into())
    }
}

pub fn print_cell(out: &mut impl Write, width: usize, can_be: bool, count: u64) -> io::Result<()> {
    if can_be || count > 0 {
        write!(out, "{count:>width$}")
    } else {
        write!(out, "{:>width$}", "-")
    }
}
