//! Tables of what calls met.

use std::collections::BTreeMap;
use std::fmt;

/// What is counted: a row of a table.
pub trait Row: Copy + Ord + fmt::Debug + 'static {
    /// What the table is of.
    const TITLE: &'static str;
    /// All rows, in their order.
    const ROWS: &'static [Self];

    /// The columns by which it is counted.
    fn columns(self) -> &'static [&'static str];
}

/// How often each row came up, by column.
#[derive(Clone, Debug)]
pub struct Table<R>(BTreeMap<(R, &'static str), u64>);

impl<R> Default for Table<R> {
    /// Nothing came up.
    fn default() -> Table<R> {
        Table(BTreeMap::new())
    }
}

impl<R: Row> Table<R> {
    /// Counts what came up in a column.
    pub fn add(&mut self, rows: Vec<R>, column: &'static str) {
        for row in rows {
            *self.0.entry((row, column)).or_default() += 1;
        }
    }

    /// What has a place in the table and never came up.
    pub fn missing(&self) -> Vec<String> {
        let rows = R::ROWS.iter();
        let places = rows.flat_map(|&row| row.columns().iter().map(move |&column| (row, column)));
        places
            .filter(|place| !self.0.contains_key(place))
            .map(told)
            .collect()
    }

    /// What came up and has no place in the table.
    pub fn foreign(&self) -> Vec<String> {
        let seen = self.0.keys().copied();
        seen.filter(|(row, column)| !row.columns().contains(column))
            .map(told)
            .collect()
    }
}

fn told<R: Row>((row, column): (R, &'static str)) -> String {
    format!("{column} {row:?}")
}

impl<R: Row> fmt::Display for Table<R> {
    /// A line for each row: its columns, and how often it came up in each of them.
    fn fmt(&self, f: &mut fmt::Formatter<'_>) -> fmt::Result {
        writeln!(f, "{}:", R::TITLE)?;
        for &row in R::ROWS {
            write!(f, "  {:14}", format!("{row:?}"))?;
            for column in row.columns() {
                let count = self.0.get(&(row, *column)).unwrap_or(&0);
                write!(f, "  {column} {count}")?;
            }
            writeln!(f)?;
        }
        Ok(())
    }
}
