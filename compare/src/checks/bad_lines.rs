//! A13 on the crate. Of a Group 3 page with EOLs and three zeros of fill or more any lines arrive as other bits: of a 1D page every row whose line
//! arrived whole is read, and clean; of a 2D page a bad line costs at most the rows to the next 1D line. And of a 1D page with EOLs that is cut the
//! crate gives its own first rows, and tells the cut unless it fell between two lines. Ours must read each page as the crate does, in every way in
//! which pages are read.

use crate::bits::Bits;
use crate::call::{Ask, Layout};
use crate::case::{Case, Source};
use crate::codes::EOL;
use crate::layouts::{put_end, put_line};
use crate::random::Random;
use crate::rooms::page_case;
use crate::rows::{WIDTHS, random_rows};
use crate::settings::{Encoding, Settings};
use crate::truth::Outcome;
use crate::words::random_words;

pub struct BadLines {
    pub count: u64,
}

impl Source for BadLines {
    fn name(&self) -> String {
        "pages with bad lines".to_string()
    }

    fn count(&self) -> u64 {
        self.count
    }

    fn case(&self, _: u64, random: &mut Random) -> Case {
        // on a wider line a run would take millions of codes
        let columns = random.pick(&WIDTHS[..9]);
        let count = 1 + random.index(if columns > 2000 { 5 } else { 12 });
        let rows = random_rows(random, columns, count);
        match random.below(4) {
            0 | 1 => one_d(random, columns, &rows),
            2 => two_d(random, columns, &rows),
            _ => cut(random, columns, &rows),
        }
    }
}

fn settings(random: &mut Random, encoding: Encoding, columns: u32, rows: u32) -> Settings {
    Settings { encoding, columns, rows, end_of_block: true, end_of_line: random.bool(), aligned: random.bool(), strict: false }
}

/// Which lines are bad: one, or any.
fn chosen(random: &mut Random, count: usize) -> Vec<bool> {
    let one = random.index(count);
    let few = random.chance(50);
    (0..count).map(|index| if few { index == one } else { random.chance(30) }).collect()
}

fn one_d(random: &mut Random, columns: u32, rows: &[Vec<u32>]) -> Case {
    let bad = chosen(random, rows.len());
    let fill = random.pick(&[3, 3, 4, 12, 64]);
    let src = arrived(random, fill, columns, rows, &bad).into_bytes();
    let settings = settings(random, Encoding::Group3OneD, columns, rows.len() as u32);
    let outcome = Outcome::of_page(&settings, &src, 0);
    let spared = outcome.number == 0 && outcome.ends.len() == rows.len() && is_spared(&outcome, rows, &bad);
    page_case(Ask::page(settings, src), random).require(spared, || format!("a row is lost whose line arrived whole; bad lines: {bad:?}"))
}

/// Every row whose line arrived whole is there, and clean.
fn is_spared(outcome: &Outcome, rows: &[Vec<u32>], bad: &[bool]) -> bool {
    outcome
        .rows()
        .zip(&outcome.marks)
        .zip(rows.iter().zip(bad))
        .all(|((read, &mark), (row, &bad))| bad || (read == row.as_slice() && mark == 0))
}

/// The page as it arrives, and zeros or any bits to a byte.
fn arrived(random: &mut Random, fill: u32, columns: u32, rows: &[Vec<u32>], bad: &[bool]) -> Bits {
    let layout = Layout::OneD { eols: true, fill };
    let mut bits = Bits::default();
    for (row, &bad) in rows.iter().zip(bad) {
        put_end(&mut bits, layout, 1);
        if bad { bits.append(&stray(random)) } else { put_line(&mut bits, columns, None, row) }
    }
    put_end(&mut bits, layout, 6);
    let left = (8 - bits.len() % 8) % 8;
    if random.bool() {
        bits.random(random, left);
    }
    bits.align();
    bits
}

/// A 2D page: its lines 1D or 2D by any tag bits, the first under a white row.
fn two_d(random: &mut Random, columns: u32, rows: &[Vec<u32>]) -> Case {
    let bad = chosen(random, rows.len());
    let tags: Vec<bool> = rows.iter().map(|_| random.chance(40)).collect();
    let fill = random.pick(&[3, 3, 4, 12, 64]);
    let src = tagged(random, fill, columns, rows, &tags, &bad).into_bytes();
    let settings = settings(random, Encoding::Group3TwoD, columns, rows.len() as u32);
    let outcome = Outcome::of_page(&settings, &src, 0);
    let lost = lost_rows(&tags, &bad);
    let spared = outcome.number == 0 && outcome.ends.len() == rows.len() && is_spared(&outcome, rows, &lost);
    page_case(Ask::page(settings, src), random)
        .require(spared, || format!("a row is lost that no bad line reaches; 1D lines: {tags:?}, bad lines: {bad:?}"))
}

/// Which rows bad lines may cost: their own, and those to the next whole 1D line.
fn lost_rows(tags: &[bool], bad: &[bool]) -> Vec<bool> {
    let mut lost = false;
    let each = tags.iter().zip(bad).map(|(&is_1d, &bad)| {
        lost = bad || lost && !is_1d;
        lost
    });
    each.collect()
}

/// The 2D page as it arrives: fill, an EOL and a tag bit before each line.
fn tagged(random: &mut Random, fill: usize, columns: u32, rows: &[Vec<u32>], tags: &[bool], bad: &[bool]) -> Bits {
    let mut bits = Bits::default();
    let mut above: &[u32] = &[];
    for (index, row) in rows.iter().enumerate() {
        bits.zeros(fill);
        bits.code(EOL);
        if bad[index] {
            bits.append(&stray_tagged(random));
        } else {
            bits.bit(tags[index]);
            put_line(&mut bits, columns, (!tags[index]).then_some(above), row);
        }
        above = row;
    }
    bits.zeros(fill);
    put_end(&mut bits, Layout::TwoD { k: 1 }, 6);
    bits.align();
    bits
}

/// A tag bit and code bits: no run of eleven or more zeros before a one, and a one behind the tag bit.
fn stray_tagged(random: &mut Random) -> Bits {
    let some = stray(random);
    if (1..some.len()).any(|index| some.at(index)) {
        return some;
    }
    let mut bits = Bits::default();
    bits.bit(random.bool());
    bits.zeros(random.index(10));
    bits.bit(true);
    bits
}

/// A 1D page with EOLs, cut after any byte and read by any settings.
fn cut(random: &mut Random, columns: u32, rows: &[Vec<u32>]) -> Case {
    let fill = random.pick(&[0, 0, 1, 2, 3, 5, 12, 64]);
    let layout = Layout::OneD { eols: true, fill };
    let mut bits = Bits::default();
    let mut line_ends = Vec::new();
    for row in rows {
        put_end(&mut bits, layout, 1);
        put_line(&mut bits, columns, None, row);
        line_ends.push(bits.len());
    }
    put_end(&mut bits, layout, 6);
    let mut src = bits.into_bytes();
    src.truncate(cut_at(random, &line_ends, fill as usize, src.len()));
    let count = if random.bool() { rows.len() as u32 } else { 0 };
    let settings =
        Settings { end_of_block: random.chance(70), strict: random.bool(), ..settings(random, Encoding::Group3OneD, columns, count) };
    let outcome = Outcome::of_page(&settings, &src, 0);
    let told = is_told(&outcome, rows, &line_ends, fill as usize, 8 * src.len());
    page_case(Ask::page(settings, src), random)
        .require(told, || format!("a cut is not told, or a row is not the page's own; lines end at {line_ends:?}"))
}

/// Anywhere, or at the byte in which a line, or the EOL behind it, ends.
fn cut_at(random: &mut Random, line_ends: &[usize], fill: usize, most: usize) -> usize {
    let end = random.pick(line_ends);
    match random.below(3) {
        0 => end / 8,
        1 => (end + fill + EOL.len()) / 8,
        _ => random.index(most + 1),
    }
}

/// The page's own first rows are there, all whose lines are whole, and clean. Behind them is one row more, marked as recovered; or there is none, and the
/// answer is not 0, or these are all the rows, or the cut fell right behind a line or right behind its EOL.
fn is_told(outcome: &Outcome, rows: &[Vec<u32>], line_ends: &[usize], fill: usize, bits: usize) -> bool {
    let whole = line_ends.iter().filter(|&&end| end <= bits).count();
    let own = outcome
        .rows()
        .zip(rows)
        .zip(&outcome.marks)
        .take(whole)
        .filter(|((read, row), mark)| *read == row.as_slice() && **mark == 0)
        .count();
    if own != whole {
        return false;
    }
    let between = || line_ends[..whole].last().is_some_and(|end| bits == *end || bits == end + fill + EOL.len());
    match &outcome.marks[whole..] {
        [] => outcome.number != 0 || whole == rows.len() || between(),
        [mark] => *mark == 2,
        _ => false,
    }
}

/// Bits with a one and no run of eleven or more zeros before a one: any bits, ones between zeros up to the longest run, or words of fax data.
fn stray(random: &mut Random) -> Bits {
    let mut some = Bits::default();
    match random.below(3) {
        0 => {
            let count = random.index(60);
            some.random(random, count);
        }
        1 => (0..1 + random.index(6)).for_each(|_| {
            some.zeros(random.pick(&[0, 1, 7, 9, 10]));
            some.bit(true);
        }),
        _ => {
            let count = random.pick(&[1, 3, 8]);
            some.append(&random_words(random, count));
        }
    }
    without_eols(&some)
}

/// The same with a one in each place where an eleventh zero stands before a one, and a one in front where there is none.
fn without_eols(bits: &Bits) -> Bits {
    let last_one = (0..bits.len()).rev().find(|&index| bits.at(index));
    let mut out = Bits::default();
    if last_one.is_none() {
        out.bit(true);
    }
    let mut zeros = 0;
    for index in 0..bits.len() {
        let before_a_one = last_one.is_some_and(|last| index < last);
        let bit = bits.at(index) || zeros == 10 && before_a_one;
        zeros = if bit { 0 } else { zeros + 1 };
        out.bit(bit);
    }
    out
}
