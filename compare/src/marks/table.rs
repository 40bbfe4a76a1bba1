//! The tables that go into docs/FIGURES.md.

use super::DAMAGES;
use super::counts::Cell;
use super::pages::LAYOUTS;
use std::fmt::Write as _;

/// By layout, damage and reader.
pub fn tables(readers: &[&str], cell: impl Fn(usize, usize, usize) -> Cell) -> String {
    let mut out = String::new();
    for (layout, (name, _)) in LAYOUTS.iter().enumerate() {
        let _ =
            writeln!(out, "\n| {name} | Read | Copies | Right | Marked | Clean | Unseen | Lost | Passed | Wrong |\n{}|", "|---".repeat(10));
        for (damage, (_, damage_name)) in DAMAGES.iter().enumerate() {
            for (reader, reader_name) in readers.iter().enumerate() {
                let found = cell(layout, damage, reader);
                if found.copies > 0 {
                    let _ = writeln!(out, "| {damage_name} | {reader_name} | {} |{}", found.copies, line(&found));
                }
            }
        }
    }
    out
}

/// In parts of all rows, or of all copies.
fn line(cell: &Cell) -> String {
    let rows = cell.rows;
    let all = rows.right + rows.marked + rows.clean + rows.lost;
    let of_rows = [rows.right, rows.marked, rows.clean, rows.unseen, rows.lost].map(|count| percent(count, all));
    let of_copies = [cell.passed, cell.wrong].map(|count| percent(count, cell.copies));
    format!(" {} | {} |", of_rows.join(" | "), of_copies.join(" | "))
}

fn percent(count: u64, all: u64) -> String {
    match count {
        0 => "0".to_string(),
        _ => format!("{:.3}", 100.0 * count as f64 / all as f64),
    }
}
