//! Tables for people.

use crate::console::{Console, Tone};
use crate::ended::Failure;

/// A cell: its text, and the tone it is shown in.
pub struct Cell {
    text: String,
    tone: Tone,
}

impl Cell {
    pub fn toned(text: impl Into<String>, tone: Tone) -> Cell {
        Cell { text: text.into(), tone }
    }
}

impl<T: Into<String>> From<T> for Cell {
    fn from(text: T) -> Cell {
        Cell::toned(text, Tone::Plain)
    }
}

/// A heading; `Right` for columns of numbers.
pub enum Heading {
    Left(&'static str),
    Right(&'static str),
}

impl Heading {
    fn text(&self) -> &'static str {
        match self {
            Heading::Left(text) | Heading::Right(text) => text,
        }
    }
}

/// Prints a table, each column as wide as its widest cell, two spaces between columns.
pub fn print<const N: usize>(
    console: &mut Console,
    headings: &[Heading; N],
    rows: &[[Cell; N]],
) -> Result<(), Failure> {
    let width = |column: usize| {
        let cells = rows.iter().map(|row| row[column].text.chars().count());
        cells.chain([headings[column].text().len()]).max().unwrap_or(0)
    };
    let widths: [usize; N] = std::array::from_fn(width);
    let titles: [Cell; N] = std::array::from_fn(|column| headings[column].text().into());
    for row in std::iter::once(&titles).chain(rows) {
        let mut line = String::new();
        for (column, cell) in row.iter().enumerate() {
            let space = " ".repeat(widths[column] - cell.text.chars().count());
            let text = console.toned(&cell.text, cell.tone);
            line += &match headings[column] {
                Heading::Left(_) => format!("  {text}{space}"),
                Heading::Right(_) => format!("  {space}{text}"),
            };
        }
        console.line(line.trim_end())?;
    }
    Ok(())
}
