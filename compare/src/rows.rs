//! Random rows: lists of changes that ascend strictly below a width.

use crate::encoder::{Step, steps};
use crate::random::Random;

/// The widths that pages are made of, from the narrowest to the widest that is read.
pub const WIDTHS: [u32; 10] = [1, 2, 3, 8, 64, 70, 1728, 2560, 10_000, u32::MAX - 1];

/// Above this width a row is made so that no line of it takes a run of millions of pixels.
const WIDE: u32 = 1_000_000;

/// A row: empty, of few changes, of many, or like the row before it. On a very wide line its 2D code
/// against the row before, or against a white one, is short.
pub fn random_row(random: &mut Random, width: u32, before: &[u32]) -> Vec<u32> {
    let row = any_row(random, width, before);
    if width > WIDE && has_long_run(width, before, &row) { before.to_vec() } else { row }
}

fn has_long_run(width: u32, before: &[u32], row: &[u32]) -> bool {
    let long = |step: &Step| matches!(*step, Step::Horizontal(_, first, second) if first.max(second) > WIDE);
    steps(width, before, row).iter().any(long)
}

fn any_row(random: &mut Random, width: u32, before: &[u32]) -> Vec<u32> {
    match random.below(10) {
        0 => Vec::new(),
        1..=2 => scattered(random, width, 3),
        3 => scattered(random, width, 40),
        4..=5 => stripes(random, width),
        _ => moved(random, width, before),
    }
}

/// A few places anywhere, near the beginning, or near the end.
fn scattered(random: &mut Random, width: u32, most: u64) -> Vec<u32> {
    let count = random.below(most + 1);
    let near = u64::from(width).min(100);
    let mut row: Vec<u32> = (0..count)
        .map(|_| match random.below(3) {
            0 => random.below(near) as u32,
            1 => width - 1 - random.below(near) as u32,
            _ => random.below(u64::from(width)) as u32,
        })
        .collect();
    row.sort_unstable();
    row.dedup();
    tamed(row, width)
}

/// Short runs, one after the other.
fn stripes(random: &mut Random, width: u32) -> Vec<u32> {
    let longest = random.pick(&[1, 2, 5, 70, 700, 2700]);
    let most = random.range(1, 60);
    let mut row = Vec::new();
    let mut at = random.below(longest + 1);
    while at < u64::from(width) && (row.len() as u64) < most {
        row.push(at as u32);
        at += random.range(1, longest);
    }
    tamed(row, width)
}

/// The row before, its changes moved a little, some left out and some put in: what 2D modes are for.
fn moved(random: &mut Random, width: u32, before: &[u32]) -> Vec<u32> {
    let reach = random.pick(&[0, 1, 3, 4, 5]);
    let mut row = Vec::new();
    for &change in before {
        if random.chance(10) {
            continue;
        }
        let at = i64::from(change) + random.range(0, 2 * reach) as i64 - reach as i64;
        row.push(at.clamp(0, i64::from(width) - 1) as u32);
        if random.chance(5) {
            row.push(change);
        }
    }
    if random.chance(10) {
        row.push(width - 1 - random.below(u64::from(width).min(5)) as u32);
    }
    row.sort_unstable();
    row.dedup();
    tamed(row, width)
}

/// On a very wide line only an even number of changes near its beginning and some at its very end are
/// left, so that a 2D line can cross the width by a pass or a vertical mode.
fn tamed(mut row: Vec<u32>, width: u32) -> Vec<u32> {
    if width > WIDE {
        row.retain(|&change| change < 1000 || change >= width - 3);
        let near = row.partition_point(|&change| change < 1000);
        if near % 2 == 1 {
            row.remove(near - 1);
        }
    }
    row
}

/// Rows of a page, each made from the one before it.
pub fn random_rows(random: &mut Random, width: u32, count: usize) -> Vec<Vec<u32>> {
    let mut rows: Vec<Vec<u32>> = Vec::with_capacity(count);
    for _ in 0..count {
        let before = rows.last().map_or(&[][..], Vec::as_slice);
        let row = random_row(random, width, before);
        rows.push(row);
    }
    rows
}

/// Rows as the store holds them: changes one after the other, and where each row ends.
pub fn flattened(rows: &[Vec<u32>]) -> (Vec<u32>, Vec<u32>) {
    let ends = rows.iter().scan(0, |end, row| {
        *end += row.len() as u32;
        Some(*end)
    });
    (rows.concat(), ends.collect())
}
