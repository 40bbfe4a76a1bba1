//! The tables that go into docs/FIGURES.md, and the whole tally as a file.

use super::ask::{OLD_READINGS, READINGS};
use super::copies::LAYOUTS;
use super::counts::{ByNumber, Cell, Counts, place};
use super::damages::DAMAGES;
use std::fmt::Write as _;

/// For each layout what came of each damage, and of all.
pub fn tables(counts: &Counts) -> String {
    let mut out = String::from("In each cell: counted right / to be looked at / counted wrong.\n");
    for (layout, (name, _)) in LAYOUTS.iter().enumerate() {
        let _ = write!(out, "\n| {name} | Copies |");
        READINGS.iter().for_each(|reading| out.extend([" Read ", reading, " |"]));
        OLD_READINGS.iter().for_each(|&(how, _)| out.extend([" Old tests, ", READINGS[how], " |"]));
        let _ = writeln!(out, " Looked at as the desk reads, by number |\n{}", rule(3 + COLUMNS));
        let mut all = [Cell::EMPTY; COLUMNS];
        for (damage, (_, name)) in DAMAGES.iter().enumerate() {
            let at = place(layout, damage);
            let cells: Vec<&Cell> = counts.desk[at].iter().chain(&counts.old[at]).collect();
            all.iter_mut().zip(&cells).for_each(|(sum, cell)| sum.add(cell));
            put_line(&mut out, name, &cells);
        }
        put_line(&mut out, "all", &all.each_ref());
    }
    out
}

/// The desk's readings, and behind them those of the old tests.
const COLUMNS: usize = READINGS.len() + OLD_READINGS.len();

fn put_line(out: &mut String, name: &str, cells: &[&Cell]) {
    let _ = write!(out, "| {name} | {} |", number(cells[0].copies()));
    cells.iter().for_each(|cell| out.extend([" ", &shown(cell), " |"]));
    let _ = writeln!(out, " {} |", by_number(&cells[0].looked));
}

/// By what the desk refuses the copies that the old tests count wrong.
pub fn gains(counts: &Counts) -> String {
    let mut out = String::from(
        "| Counted wrong by the old tests | Damage | Copies | The desk's numbers, as the desk reads | and in the same reading |\n",
    );
    let _ = writeln!(out, "{}", rule(5));
    for (layout, (name, _)) in LAYOUTS.iter().enumerate() {
        for (reading, &(how, _)) in OLD_READINGS.iter().enumerate() {
            for (damage, (_, damage_name)) in DAMAGES.iter().enumerate() {
                let [desk, same] = &counts.gained[place(layout, damage)][reading];
                let wrong: u64 = desk.iter().sum();
                if wrong > 0 {
                    let (read, count) = (READINGS[how], number(wrong));
                    let _ = writeln!(out, "| {name}, {read} | {damage_name} | {count} | {} | {} |", by_number(desk), by_number(same));
                }
            }
        }
    }
    out
}

/// Every number of the tally, one to a line: layout, damage, whose tests, reading, what came of it, how many.
pub fn whole(counts: &Counts) -> String {
    let mut out = String::new();
    for (layout, (layout_name, _)) in LAYOUTS.iter().enumerate() {
        for (damage, (_, damage_name)) in DAMAGES.iter().enumerate() {
            let at = place(layout, damage);
            let desk = READINGS.iter().zip(&counts.desk[at]).map(|(reading, cell)| ("desk", reading, cell));
            let old = OLD_READINGS.iter().zip(&counts.old[at]).map(|(&(how, _), cell)| ("old", &READINGS[how], cell));
            for (whose, reading, cell) in desk.chain(old) {
                let mut line = |came: &str, count: u64| {
                    let _ = writeln!(out, "{layout_name}\t{damage_name}\t{whose}\t{reading}\t{came}\t{count}");
                };
                line("right", cell.right);
                line("wrong", cell.wrong);
                let looked = cell.looked.iter().enumerate().filter(|&(_, &count)| count > 0);
                looked.for_each(|(number, &count)| line(&format!("looked at, {number}"), count));
            }
        }
    }
    out
}

fn rule(columns: usize) -> String {
    format!("{}|", "|---".repeat(columns))
}

fn shown(cell: &Cell) -> String {
    format!("{} / {} / {}", number(cell.right), number(cell.looked_at()), number(cell.wrong))
}

/// Each number that some were answered with, and how many; 0 stands for those that were counted.
fn by_number(numbers: &ByNumber) -> String {
    let some = numbers.iter().enumerate().filter(|&(_, &count)| count > 0);
    some.map(|(verdict, &count)| format!("{verdict}: {}", number(count))).collect::<Vec<_>>().join(", ")
}

/// With a comma behind the thousands.
fn number(count: u64) -> String {
    let digits = count.to_string();
    let place = |at: usize| if at > 0 && (digits.len() - at).is_multiple_of(3) { "," } else { "" };
    digits.char_indices().map(|(at, digit)| format!("{}{digit}", place(at))).collect()
}
