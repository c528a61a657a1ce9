//! Prints tables in the format of docs/BENCHMARKS.md.

use std::fmt::Display;

/// Prints the head of a table.
pub fn head(columns: &[&str]) {
    row(columns);
    println!("|{}", "---|".repeat(columns.len()));
}

/// Prints a row.
pub fn row<T: Display>(cells: &[T]) {
    for cell in cells {
        print!("| {cell} ");
    }
    println!("|");
}

/// Formats a ratio.
pub fn ratio(ratio: f64) -> String {
    format!("{ratio:.2}")
}

/// Formats nanoseconds.
pub fn nanoseconds(time: f64) -> String {
    format!("{time:.1}")
}
