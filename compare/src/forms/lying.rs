//! Where a form lies on its page: at its place, or elsewhere, as a sending machine leaves it.

use super::sheet::{ASIDE, FAR, NEAR, ROWS, Shift, header, text, text_with_shift};
use crate::canvas::WIDTH;
use crate::random::Random;

#[derive(Clone, Copy, Debug, PartialEq, Eq)]
pub enum Lying {
    AtItsPlace,
    /// Up to the shift of its form file away, under a sender's line or with its top cut off.
    Elsewhere,
}

/// How a page is moved: to the right (to the left below 0), down (up below 0), and how many white rows stand below.
#[derive(Clone, Copy, Debug, PartialEq, Eq)]
pub struct Move {
    pub across: i64,
    pub down: i64,
    below: usize,
}

impl Lying {
    pub fn told(self) -> &'static str {
        match self {
            Lying::AtItsPlace => "at its place",
            Lying::Elsewhere => "elsewhere on its page",
        }
    }

    /// The form file that the form of a number is judged by.
    pub fn text(self, form: u64) -> String {
        match self {
            Lying::AtItsPlace => text(),
            Lying::Elsewhere => text_with_shift(shift_of(form)),
        }
    }

    /// Where the form of a number lies.
    pub fn drawn(self, form: u64, random: &mut Random) -> Move {
        if self == Lying::AtItsPlace {
            return Move { across: 0, down: 0, below: 0 };
        }
        let shift = shift_of(form);
        let mut up_to = |most: usize| random.below(2 * most as u64 + 1) as i64 - most as i64;
        let [across, down] = shift.map(&mut up_to);
        let least = (-down).max(0) as usize;
        let most = (shift[1] as i64 - down).max(0) as usize;
        Move { across, down, below: random.range(least as u64, most.max(least) as u64) as usize }
    }
}

/// The shift in the form file of the form of a number. The time of a search grows with it, so one form in sixteen has the widest.
fn shift_of(form: u64) -> Shift {
    match form % 16 {
        0 => FAR,
        1..=3 => ASIDE,
        _ => NEAR,
    }
}

impl Move {
    /// The rows of a page that is moved so.
    pub fn rows(self, page: &[Vec<u32>]) -> Vec<Vec<u32>> {
        debug_assert_eq!(page.len(), ROWS);
        let cut = (-self.down).max(0) as usize;
        let own = page[cut..].iter().map(|row| aside(row, self.across));
        header(self.down.max(0) as usize).into_iter().chain(own).chain(vec![Vec::new(); self.below]).collect()
    }
}

/// A row moved to the right, or to the left: what leaves the page is gone, and white comes in.
fn aside(row: &[u32], across: i64) -> Vec<u32> {
    let mut moved: Vec<u32> = Vec::new();
    for &change in row {
        let at = (i64::from(change) + across).clamp(0, WIDTH as i64) as u32;
        // two changes at one place undo each other
        if moved.last() == Some(&at) {
            moved.pop();
        } else {
            moved.push(at);
        }
    }
    if moved.last() == Some(&(WIDTH as u32)) {
        moved.pop();
    }
    moved
}
