//! The heads on a form, asked of the package.

use super::called::told;
use crate::heads::Reader;
use crate::heads::ask::{Ask, HeadsAnswer};
use crate::heads::plain::{Edges, split};
use drop_in::beyond::{Heads, Mark, Row, TickBox, heads};

pub struct PackageHeads;

impl Reader for PackageHeads {
    fn name(&self) -> &'static str {
        "heads on the form, by the package"
    }

    fn is_package(&self) -> bool {
        true
    }

    fn heads(&self, asks: &[Ask]) -> Vec<Option<HeadsAnswer>> {
        asks.iter().map(one).collect()
    }

    /// Of what 8 refuses only rows that do not ascend can be asked.
    fn least_of(&self, number: u32) -> u64 {
        if number == 8 { 5 } else { 20 }
    }
}

/// None where the package cannot be asked: it takes rows with their marks, and twenty boxes.
fn one(ask: &Ask) -> Option<HeadsAnswer> {
    let rows: Option<Vec<Row>> =
        split(ask)?.into_iter().enumerate().map(|(y, changes)| Some(Row { changes, mark: mark(*ask.marks.get(y)?)? })).collect();
    let (fours, []) = ask.boxes.as_chunks::<4>() else { return None };
    let boxes: Vec<TickBox> = fours.iter().map(|four| tick_box(&Edges::of(four))).collect();
    let (pairs, []) = boxes.as_chunks::<2>() else { return None };
    let form = pairs.try_into().ok()?;
    Some(match heads(ask.columns, rows?, form, ask.least, ask.quota) {
        Ok(Heads { heads, left }) => HeadsAnswer { number: 0, heads, left },
        Err(fault) => HeadsAnswer { number: told(Err(fault)).0, ..HeadsAnswer::default() },
    })
}

fn mark(number: u8) -> Option<Mark> {
    [Mark::Clean, Mark::Cut, Mark::Recovered].get(usize::from(number)).copied()
}

fn tick_box(edges: &Edges) -> TickBox {
    let &Edges { left, right, top, bottom } = edges;
    TickBox { left, right, top, bottom }
}
