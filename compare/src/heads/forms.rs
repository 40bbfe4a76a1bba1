//! Random forms on random pages: pages that the crate read and rows made up, boxes that hold a black run, and boxes that are empty, white,
//! outside the page or anywhere, with edges at 0 and at 4,294,967,295.

use super::ask::Ask;
use crate::pages::random_page;
use crate::random::Random;
use crate::rows::{WIDTHS, flattened, random_rows};
use crate::settings::ENCODINGS;
use crate::truth::Outcome;

pub fn random_ask(random: &mut Random) -> Ask {
    let mut ask = if random.chance(40) { read_page(random) } else { made_page(random) };
    let boxes = random_form(random, &ask);
    ask.boxes = boxes;
    ask.least = match random.below(20) {
        0..=12 => 1,
        13..=16 => random.range(1, 40),
        17 => random.range(1, 1 << 33),
        18 => u64::MAX,
        _ => 0,
    };
    let anywhere = random.range(0, 2_000_000) as i32 - 1_000_000;
    ask.quota = random.pick(&[0, 39, 40, -1, 99, 1_000_000, -1_000_000, anywhere]);
    spoil(random, &mut ask);
    ask
}

fn ask_of(columns: u32, changes: Vec<u32>, ends: &[u32], marks: Vec<u8>) -> Ask {
    Ask { columns, changes, ends: ends.iter().copied().map(u64::from).collect(), marks, boxes: Vec::new(), least: 1, quota: 0 }
}

/// What the crate reads, strict or lenient, with its marks, and what lies behind the rows.
fn read_page(random: &mut Random) -> Ask {
    let encoding = random.pick(&ENCODINGS);
    let strict = random.bool();
    let page = random_page(random, encoding, strict);
    let got = Outcome::of_page(&page.settings, &page.src, 0);
    ask_of(page.settings.columns, got.changes, &got.ends, got.marks)
}

fn made_page(random: &mut Random) -> Ask {
    let columns = random.pick(&WIDTHS);
    let count = random.index(12);
    let (changes, ends) = flattened(&random_rows(random, columns, count));
    let mended = random.chance(15);
    let marks = ends.iter().map(|_| if mended && random.chance(20) { random.range(1, 2) as u8 } else { 0 }).collect();
    let mut ask = ask_of(columns, changes, &ends, marks);
    // room behind the rows, as a caller's arrays have it
    ask.changes.extend((0..random.index(3)).map(|_| 7));
    ask.marks.extend((0..random.index(3)).map(|_| 9));
    ask
}

/// In each column a digit whose box holds a black run, if there is one; the other boxes hold none, mostly.
fn random_form(random: &mut Random, ask: &Ask) -> Vec<u32> {
    let wild = random.pick(&[0, 0, 0, 5, 50]);
    let (tens, units) = (random.index(10), random.index(10));
    let mut boxes = Vec::with_capacity(80);
    for digit in 0..10 {
        for chosen in [tens, units] {
            let four = if random.chance(wild) {
                [any_pair(random, ask.columns), any_pair(random, ask.ends.len() as u32)].concat()
            } else if digit == chosen {
                black_box(random, ask)
            } else {
                blank_box(random, ask)
            };
            boxes.extend(four);
        }
    }
    boxes
}

/// An edge: 0, the very last number, near the side of the page, or anywhere.
fn any_edge(random: &mut Random, side: u32) -> u32 {
    match random.below(6) {
        0 => 0,
        1 => u32::MAX,
        2 => side.saturating_sub(1),
        3 => side.saturating_add(random.below(2) as u32),
        4 => random.below(u64::from(side) + 2) as u32,
        _ => random.next() as u32,
    }
}

/// Two edges in order, mostly.
fn any_pair(random: &mut Random, side: u32) -> Vec<u32> {
    let (a, b) = (any_edge(random, side), any_edge(random, side));
    if random.chance(1) { vec![a.max(b), a.min(b)] } else { vec![a.min(b), a.max(b)] }
}

/// A row and one of its runs, black (the even ones) or white.
fn a_run(random: &mut Random, ask: &Ask, black: bool) -> Option<(u32, u32, u32)> {
    if ask.ends.is_empty() {
        return None;
    }
    let y = random.index(ask.ends.len());
    let start = if y == 0 { 0 } else { ask.ends[y - 1] as usize };
    let row = &ask.changes[start..ask.ends[y] as usize];
    let mut edges: Vec<u32> = if black { Vec::new() } else { vec![0] };
    edges.extend_from_slice(row);
    if edges.len() % 2 == 1 {
        edges.push(ask.columns);
    }
    let runs: Vec<&[u32]> = edges.chunks(2).filter(|run| run[0] < run[1]).collect();
    if runs.is_empty() {
        return None;
    }
    let run = runs[random.index(runs.len())];
    Some((y as u32, run[0], run[1]))
}

/// A box of one row over a black run, the whole of it or a part, and now and then more.
fn black_box(random: &mut Random, ask: &Ask) -> Vec<u32> {
    let Some((y, from, to)) = a_run(random, ask, true) else { return blank_box(random, ask) };
    let (left, right) = match random.below(4) {
        0 => (from, to),
        1 => (from, from + 1),
        2 => (to - 1, to),
        _ => (from, if to == ask.columns { u32::MAX } else { to }),
    };
    let bottom = if random.chance(10) { u32::MAX } else { y + 1 };
    vec![left, right, y, bottom]
}

/// A box without a black pixel: empty, right of the page, below it, or in a white run.
fn blank_box(random: &mut Random, ask: &Ask) -> Vec<u32> {
    let rows = ask.ends.len() as u32;
    match random.below(5) {
        0 => {
            let (edge, [top, bottom]) = (any_edge(random, ask.columns), ordered(random, rows));
            vec![edge, edge, top, bottom]
        }
        1 => {
            let (edge, [left, right]) = (any_edge(random, rows), ordered(random, ask.columns));
            vec![left, right, edge, edge]
        }
        2 => {
            let [top, bottom] = ordered(random, rows);
            vec![ask.columns, random.pick(&[ask.columns, u32::MAX]), top, bottom]
        }
        3 => {
            let [left, right] = ordered(random, ask.columns);
            vec![left, right, rows, random.pick(&[rows, rows + 1, u32::MAX])]
        }
        _ => match a_run(random, ask, false) {
            Some((y, from, to)) => vec![from, to, y, y + 1],
            None => vec![0, 0, 0, 0],
        },
    }
}

fn ordered(random: &mut Random, side: u32) -> [u32; 2] {
    let (a, b) = (any_edge(random, side), any_edge(random, side));
    [a.min(b), a.max(b)]
}

/// One thing out of order, now and then.
fn spoil(random: &mut Random, ask: &mut Ask) {
    let rows = ask.ends.len();
    match random.below(60) {
        0 => ask.least = 0,
        1 => ask.quota = random.pick(&[1_000_001, -1_000_001, i32::MAX, i32::MIN]),
        2 => {
            let at = 2 * random.index(40);
            ask.boxes.swap(at, at + 1);
        }
        3 => ask.boxes.truncate(random.index(80)),
        4 => ask.boxes.extend([0, 0, 0, 0]),
        5 => ask.marks.truncate(rows.saturating_sub(1)),
        6 if rows > 0 => ask.marks[random.index(rows)] = random.pick(&[3, 4, 255]),
        7 if rows > 1 => ask.ends[random.index(rows - 1)] += random.range(1, 3),
        8 if rows > 0 => ask.ends[rows - 1] = ask.changes.len() as u64 + random.pick(&[1, 1 << 32]),
        9 if !ask.changes.is_empty() => {
            let at = random.index(ask.changes.len());
            ask.changes[at] = random.pick(&[ask.columns, u32::MAX, 0]);
        }
        10 => ask.columns = random.pick(&[0, 1, ask.columns.saturating_sub(1), u32::MAX]),
        _ => {}
    }
}
