//! Forms that were filled in, no two alike: where a tick lies, how it slants, and what specks the page has.

use super::sheet::{HIGH, ROWS, WIDE, corner, printed};
use crate::canvas::{Canvas, WIDTH};
use crate::random::Random;

/// A form: the page with its specks and without its ticks, and the tick of each column.
pub struct Filled {
    pub heads: u32,
    unticked: Canvas,
    ticks: [Tick; 2],
}

/// A cross in a box: two strokes, each from a place in its top row to one in its bottom row.
#[derive(Clone, Copy)]
pub struct Tick {
    pub digit: usize,
    down: usize,
    strokes: [[usize; 2]; 2],
}

/// How many rows a tick has, and how wide its strokes are: some 54 pixels, as in the examples.
const TALL: usize = 14;
const PEN: usize = 2;
/// Over how many columns the ends of its strokes spread on either side.
const REACH: usize = 7;

impl Tick {
    pub fn random(random: &mut Random, digit: usize) -> Self {
        let mut end = |from: usize| from + random.index(REACH);
        let (left, right) = (1, WIDE - PEN - REACH);
        let strokes = [[end(left), end(right)], [end(right), end(left)]];
        Tick { digit, down: random.index(HIGH - TALL + 1), strokes }
    }

    fn draw(self, page: &mut Canvas, column: usize, pen: usize) {
        let (left, top) = corner(column, self.digit);
        for [from, to] in self.strokes {
            for row in 0..TALL {
                let across = (from * (TALL - 1 - row) + to * row) / (TALL - 1);
                page.fill(left + across, top + self.down + row, pen, 1);
            }
        }
    }
}

impl Filled {
    /// A form for so many heads.
    pub fn random(random: &mut Random, heads: u32) -> Self {
        let mut unticked = printed();
        for _ in 0..random.range(2, 8) {
            speck(random, &mut unticked);
        }
        let ticks = [heads / 10, heads % 10].map(|digit| Tick::random(random, digit as usize));
        Filled { heads, unticked, ticks }
    }

    /// The digit of a column.
    pub fn digit(&self, column: usize) -> usize {
        self.ticks[column].digit
    }

    pub fn rows(&self) -> Vec<Vec<u32>> {
        self.rows_with([true, true], None)
    }

    /// With the ticks of these columns, and one more.
    pub fn rows_with(&self, columns: [bool; 2], more: Option<(usize, Tick)>) -> Vec<Vec<u32>> {
        let mut page = self.unticked.clone();
        let own = self.ticks.into_iter().enumerate().filter(|&(column, _)| columns[column]);
        own.chain(more).for_each(|(column, tick)| tick.draw(&mut page, column, PEN));
        page.rows()
    }

    /// The page, ticked by a pen of so many pixels.
    #[cfg(any(feature = "linked", test))]
    pub fn drawn_by(&self, pen: usize) -> Canvas {
        let mut page = self.unticked.clone();
        self.ticks.into_iter().enumerate().for_each(|(column, tick)| tick.draw(&mut page, column, pen));
        page
    }
}

/// A speck anywhere but in the columns of boxes: what lies there the form has a say in.
fn speck(random: &mut Random, page: &mut Canvas) {
    let (wide, high) = (random.range(1, 3) as usize, random.range(1, 2) as usize);
    let clear = |left: usize| (0..2).all(|column| left + wide < corner(column, 0).0 || corner(column, 0).0 + WIDE < left);
    let mut left = random.index(WIDTH - wide);
    while !clear(left) {
        left = random.index(WIDTH - wide);
    }
    page.fill(left, random.index(ROWS - high), wide, high);
}
