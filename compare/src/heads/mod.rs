//! The heads on a form: the library against a plain reader of pixels, over the rows that the crate reads.
//! Only a library that is linked in is asked.
#![cfg_attr(not(feature = "linked"), allow(dead_code))]

pub mod ask;
pub mod forms;
pub mod plain;
#[cfg(test)]
mod standin;

use crate::random::Random;
use crate::tally::Tally;
use ask::{Ask, HeadsAnswer};
use plain::plain;
use std::fmt::Write as _;

/// The library, the package over it, or who stands in for them.
pub trait Reader {
    fn name(&self) -> &'static str {
        NAME
    }

    /// Whether it is the package.
    fn is_package(&self) -> bool {
        false
    }

    /// Answers every one, in order; nothing where it cannot be asked.
    fn heads(&self, asks: &[Ask]) -> Vec<Option<HeadsAnswer>>;

    /// How many of a thousand inputs must be answered so, so that a check that no longer reaches an answer says so.
    fn least_of(&self, number: u32) -> u64 {
        if number == 0 { 50 } else { 20 }
    }
}

pub const NAME: &str = "heads on the form";

/// How many are asked at a time.
const BATCH: usize = 256;

/// The answers of the list.
const NUMBERS: [u32; 5] = [0, 8, 11, 12, 13];
/// Those of stores and forms that are none: who takes rows and boxes cannot be asked about them.
const UNASKED: [u32; 2] = [8, 11];

/// Asks about random forms on random pages.
pub fn run(reader: &dyn Reader, seed: u64, count: u64) -> Tally {
    let mut tally = Tally::default();
    let mut given = [0; 14];
    for start in (0..count).step_by(BATCH) {
        let asks: Vec<Ask> =
            (start..count.min(start + BATCH as u64)).map(|index| forms::random_ask(&mut Random::of(seed, NAME, index))).collect();
        let answers = reader.heads(&asks);
        assert_eq!(answers.len(), asks.len(), "every one is answered");
        for (index, (ask, got)) in (start..).zip(asks.iter().zip(answers)) {
            let wanted = plain(ask);
            let Some(got) = got else {
                if !UNASKED.contains(&wanted.number) {
                    tally.differs(size(ask), || format!("  input {index} is not asked, and is to be answered {wanted:?}"));
                }
                continue;
            };
            tally.calls += 1;
            tally.by_package += u64::from(reader.is_package());
            given[wanted.number as usize] += 1;
            if got != wanted {
                tally.differs(size(ask), || describe(index, ask, &wanted, &got));
            }
        }
    }
    tally.inputs = count;
    for number in NUMBERS {
        if given[number as usize] * 1000 < reader.least_of(number) * count {
            tally.differs(usize::MAX, || format!("  answer {number} is wanted only {} times", given[number as usize]));
        }
    }
    tally
}

fn size(ask: &Ask) -> usize {
    4 * ask.changes.len() + 9 * ask.ends.len()
}

fn describe(index: u64, ask: &Ask, wanted: &HeadsAnswer, got: &HeadsAnswer) -> String {
    let mut out =
        format!("  input {index}: columns {}, changes {:?}, ends {:?}, marks {:?}\n", ask.columns, ask.changes, ask.ends, ask.marks);
    for (digit, edges) in ask.boxes.chunks(8).enumerate() {
        let _ = writeln!(out, "  boxes of {digit}: {edges:?}");
    }
    let _ = writeln!(out, "  least {}, quota {}", ask.least, ask.quota);
    let _ = write!(out, "  it must answer {wanted:?}\n  it answers {got:?}");
    out
}
