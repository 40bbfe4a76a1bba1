//! What must come back, as A11 says it, pixel by pixel where there are not too many of them.

use super::ask::{Ask, HeadsAnswer};
use crate::truth::ascends_below;

/// A box, as it stands in four of the eighty numbers.
pub struct Edges {
    pub left: u32,
    pub right: u32,
    pub top: u32,
    pub bottom: u32,
}

impl Edges {
    pub fn of(four: &[u32]) -> Self {
        Edges { left: four[0], right: four[1], top: four[2], bottom: four[3] }
    }
}

pub fn plain(ask: &Ask) -> HeadsAnswer {
    let bare = |number| HeadsAnswer { number, ..HeadsAnswer::default() };
    let Some(rows) = rows_of(ask) else { return bare(8) };
    if ask.boxes.len() != 80 {
        return bare(11);
    }
    let boxes: Vec<Edges> = ask.boxes.chunks(4).map(Edges::of).collect();
    if boxes.iter().any(|b| b.left > b.right || b.top > b.bottom) || ask.least == 0 || !(-1_000_000..=1_000_000).contains(&ask.quota) {
        return bare(11);
    }
    if boxes.iter().any(|b| rows_under(b, &rows).any(|y| b.left < b.right.min(ask.columns) && ask.marks[y] != 0)) {
        return bare(13);
    }
    // the boxes of a digit are neighbours: tens, units
    let ticked = |column: usize| -> Vec<usize> {
        (0..10).filter(|digit| black_in(ask.columns, &rows, &boxes[2 * digit + column]) >= ask.least).collect()
    };
    match (&ticked(0)[..], &ticked(1)[..]) {
        (&[tens], &[units]) => {
            let heads = 10 * tens + units;
            HeadsAnswer { number: 0, heads: heads as u32, left: ask.quota - heads as i32 }
        }
        _ => bare(12),
    }
}

/// The rows of a store, unless 8 refuses it.
pub fn rows_of(ask: &Ask) -> Option<Vec<&[u32]>> {
    let rows = split(ask)?;
    let marked = |y: usize| ask.marks.get(y).is_some_and(|&mark| mark <= 2);
    let sound = rows.iter().enumerate().all(|(y, row)| ascends_below(row, ask.columns) && marked(y));
    sound.then_some(rows)
}

/// The rows as the row ends part them, unless these fall or pass the array.
pub fn split(ask: &Ask) -> Option<Vec<&[u32]>> {
    let starts = std::iter::once(0).chain(ask.ends.iter().copied());
    starts.zip(&ask.ends).map(|(start, &end)| ask.changes.get(usize::try_from(start).ok()?..usize::try_from(end).ok()?)).collect()
}

fn rows_under(b: &Edges, rows: &[&[u32]]) -> std::ops::Range<usize> {
    let last = rows.len().min(b.bottom as usize);
    last.min(b.top as usize)..last
}

/// More pixels than these are not looked at one by one.
const FEW: u64 = 20_000;

/// The black pixels of a box. By its runs, and one by one where they are few: both must be the same.
pub fn black_in(columns: u32, rows: &[&[u32]], b: &Edges) -> u64 {
    let right = b.right.min(columns);
    let under = || rows_under(b, rows).map(|y| rows[y]);
    let by_runs = under().map(|row| black_between(row, b.left, right)).sum();
    let width = u64::from(right.saturating_sub(b.left));
    if width * under().len() as u64 <= FEW {
        let is_black = |row: &[u32], x: u32| row.iter().filter(|&&change| change <= x).count() % 2 == 1;
        let by_pixels: usize = under().map(|row| (b.left..right).filter(|&x| is_black(row, x)).count()).sum();
        assert_eq!(by_runs, by_pixels as u64, "a box has one count");
    }
    by_runs
}

fn black_between(row: &[u32], left: u32, right: u32) -> u64 {
    let run = |pair: &[u32]| {
        let (from, to) = (pair[0].max(left), pair.get(1).map_or(right, |&end| end.min(right)));
        u64::from(to.saturating_sub(from))
    };
    row.chunks(2).map(run).sum()
}
