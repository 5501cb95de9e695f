//! Lines and tables in plain text.

use std::fmt;

use crate::Tick;

/// A name, a number and what it means.
pub(crate) fn line(
    f: &mut fmt::Formatter<'_>,
    name: &str,
    count: u64,
    remark: &str,
) -> fmt::Result {
    line_of(f, name, &grouped(count), remark)
}

/// The same with something else than a whole number.
pub(crate) fn line_of(
    f: &mut fmt::Formatter<'_>,
    name: &str,
    value: &str,
    remark: &str,
) -> fmt::Result {
    let text = format!("{name:<18}{value:>9}  {remark}");
    writeln!(f, "{}", text.trim_end())
}

/// 1234567 as 1,234,567.
pub(crate) fn grouped(n: u64) -> String {
    let digits = n.to_string();
    let mut out = String::new();
    for (left, digit) in (0..digits.len()).rev().zip(digits.chars()) {
        out.push(digit);
        if left > 0 && left % 3 == 0 {
            out.push(',');
        }
    }
    out
}

/// A tick is a second.
pub(crate) fn seconds(ticks: Tick) -> String {
    format!("{} s", grouped(ticks.into()))
}

/// Where the cells of a column stand.
#[derive(Clone, Copy, Debug, PartialEq, Eq)]
pub(crate) enum Side {
    Left,
    Right,
}

/// Rows of cells as lines, each column as wide as its widest cell.
pub(crate) fn table<const N: usize>(sides: [Side; N], rows: &[[String; N]]) -> Vec<String> {
    let width = |column: usize| rows.iter().map(|r| r[column].len()).max().unwrap_or(0);
    let widths: [usize; N] = std::array::from_fn(width);
    let cell = |row: &[String; N], c: usize| match sides[c] {
        Side::Left => format!("{:<width$}", row[c], width = widths[c]),
        Side::Right => format!("{:>width$}", row[c], width = widths[c]),
    };
    let line = |row: &[String; N]| {
        let cells: Vec<String> = (0..N).map(|c| cell(row, c)).collect();
        cells.join("  ").trim_end().to_owned()
    };
    rows.iter().map(line).collect()
}

#[cfg(test)]
mod tests {
    use super::*;

    #[test]
    fn thousands_are_grouped() {
        let printed = [0, 999, 1000, 1_234_567].map(grouped);
        assert_eq!(printed, ["0", "999", "1,000", "1,234,567"]);
    }

    #[test]
    fn columns_are_as_wide_as_their_widest_cell() {
        let rows = [["bird", "g"], ["Wren", "9.5"], ["Reed warbler", "12"]];
        let rows = rows.map(|r| r.map(str::to_owned));
        let lines = table([Side::Left, Side::Right], &rows);
        let right = [
            "bird            g",
            "Wren          9.5",
            "Reed warbler   12",
        ];
        assert_eq!(lines, right);
    }
}
