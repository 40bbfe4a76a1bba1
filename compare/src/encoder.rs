//! An encoder of its own, written from T.4 and T.6, for making pages: lines, not pages.

use crate::bits::Bits;
use crate::codes::{Colour, make_up, terminating};

/// Writes a run. Make-up codes up to `longest` are used; the longest one is repeated.
pub fn put_run(bits: &mut Bits, colour: Colour, run: u32, longest: u32) {
    let mut left = run;
    while left >= longest {
        bits.code(make_up(colour, longest));
        left -= longest;
    }
    if left >= 64 {
        bits.code(make_up(colour, left / 64 * 64));
    }
    bits.code(terminating(colour, left % 64));
}

/// T.4, 4.1.1: runs of alternating colour, the first one white.
pub fn put_line_1d(bits: &mut Bits, width: u32, row: &[u32], longest: u32) {
    let mut colour = Colour::White;
    let mut position = 0;
    for &change in row.iter().chain([&width]) {
        put_run(bits, colour, change - position, longest);
        colour = colour.other();
        position = change;
    }
}

/// One step of a 2D line.
pub enum Step {
    Pass,
    Vertical(i64),
    /// Two runs, the first in the colour that is current.
    Horizontal(Colour, u32, u32),
}

/// T.6, 2.2: a line against a reference line. Positions are signed here, since a0 starts at -1.
pub fn steps(width: u32, reference: &[u32], row: &[u32]) -> Vec<Step> {
    let width = i64::from(width);
    let mut steps = Vec::new();
    let mut a0 = -1;
    let mut colour = Colour::White;
    while a0 < width {
        let (a1, a2) = pair(row, width, a0, colour);
        let (b1, b2) = pair(reference, width, a0, colour);
        if b2 < a1 {
            steps.push(Step::Pass);
            a0 = b2;
        } else if (a1 - b1).abs() <= 3 {
            steps.push(Step::Vertical(a1 - b1));
            colour = colour.other();
            a0 = a1;
        } else {
            steps.push(Step::Horizontal(colour, (a1 - a0.max(0)) as u32, (a2 - a1) as u32));
            a0 = a2;
        }
    }
    steps
}

pub fn put_line_2d(bits: &mut Bits, width: u32, reference: &[u32], row: &[u32], longest: u32) {
    for step in steps(width, reference, row) {
        match step {
            Step::Pass => bits.code("0001"),
            Step::Vertical(offset) => bits.code(vertical(offset)),
            Step::Horizontal(colour, first, second) => {
                bits.code("001");
                put_run(bits, colour, first, longest);
                put_run(bits, colour.other(), second, longest);
            }
        }
    }
}

/// The first change right of a0 that ends the colour, and the change after it. Changes at even places
/// turn black, so they end white.
fn pair(changes: &[u32], width: i64, a0: i64, colour: Colour) -> (i64, i64) {
    let parity = usize::from(colour == Colour::Black);
    let right = changes.partition_point(|&change| i64::from(change) <= a0);
    let place = if right % 2 == parity { right } else { right + 1 };
    let at = |index: usize| changes.get(index).map_or(width, |&change| i64::from(change));
    (at(place), at(place + 1))
}

fn vertical(offset: i64) -> &'static str {
    match offset {
        0 => "1",
        1 => "011",
        2 => "000011",
        3 => "0000011",
        -1 => "010",
        -2 => "000010",
        _ => "0000010",
    }
}
