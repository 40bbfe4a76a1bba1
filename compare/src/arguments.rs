//! The words that the program is given.

use std::time::{SystemTime, UNIX_EPOCH};

#[derive(Debug, PartialEq, Eq)]
pub enum Mode {
    Compare,
    Bench,
    /// Reads the pages that 32 bits do not count.
    Huge,
    /// Judges at least so many damaged copies of booking forms.
    Forms(u64),
    /// Judges so many booking forms, turned and stretched in each of some ways.
    Skew(u64),
    /// Reads at least so many damaged copies of pages in each layout, and counts rows.
    Marks(u64),
    /// Says of each page in a folder whether it is proper.
    Proper(String),
    /// Writes a sample of the crate's answers into a folder, for the program that replays them.
    Sample(String),
    /// Writes the listed pages into a folder, where another decoder can read them.
    Pages(String),
}

#[derive(Debug, PartialEq, Eq)]
pub struct Arguments {
    pub seed: u64,
    /// How many times as many random inputs.
    pub more: u64,
    /// Only the checks whose name has this in it.
    pub only: String,
    pub mode: Mode,
}

pub const USAGE: &str = "usage: compare/run [--seed N] [--more N] [--only TEXT] [bench | huge | forms N | skew N | marks N | proper DIR | sample DIR | pages DIR | test]";

/// Reads the words; without a seed, the clock gives one.
pub fn parse(mut words: impl Iterator<Item = String>) -> Option<Arguments> {
    let mut arguments = Arguments { seed: clock(), more: 1, only: String::new(), mode: Mode::Compare };
    while let Some(word) = words.next() {
        match word.as_str() {
            "--seed" => arguments.seed = words.next()?.parse().ok()?,
            "--more" => arguments.more = words.next()?.parse().ok().filter(|&more| more > 0)?,
            "--only" => arguments.only = words.next()?,
            "bench" if arguments.mode == Mode::Compare => arguments.mode = Mode::Bench,
            "huge" if arguments.mode == Mode::Compare => arguments.mode = Mode::Huge,
            "forms" if arguments.mode == Mode::Compare => {
                arguments.mode = Mode::Forms(words.next()?.parse().ok().filter(|&count| count > 0)?);
            }
            "skew" if arguments.mode == Mode::Compare => {
                arguments.mode = Mode::Skew(words.next()?.parse().ok().filter(|&count| count > 0)?);
            }
            "marks" if arguments.mode == Mode::Compare => {
                arguments.mode = Mode::Marks(words.next()?.parse().ok().filter(|&count| count > 0)?);
            }
            "proper" if arguments.mode == Mode::Compare => arguments.mode = Mode::Proper(words.next()?),
            "sample" if arguments.mode == Mode::Compare => arguments.mode = Mode::Sample(words.next()?),
            "pages" if arguments.mode == Mode::Compare => arguments.mode = Mode::Pages(words.next()?),
            _ => return None,
        }
    }
    Some(arguments)
}

fn clock() -> u64 {
    SystemTime::now().duration_since(UNIX_EPOCH).map_or(1, |time| time.as_nanos() as u64 % 1_000_000_007)
}
