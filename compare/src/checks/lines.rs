//! One line, from any bit, against any reference: the crate's own reading of a 2D line, and, where the
//! line can stand in a page, the crate's page.

use crate::bits::{Bits, bit_at};
use crate::call::Ask;
use crate::case::{Case, Source};
use crate::codes::{LONGEST, LONGEST_OWN};
use crate::damage::damage;
use crate::encoder::put_line_2d;
use crate::random::Random;
use crate::rooms::line_case;
use crate::rows::{WIDTHS, random_row};
use crate::settings::Settings;
use crate::truth::Outcome;
use crate::words::random_words;

pub struct Lines {
    pub count: u64,
}

impl Source for Lines {
    fn name(&self) -> String {
        "lines from any bit".to_string()
    }

    fn count(&self) -> u64 {
        self.count
    }

    fn case(&self, _: u64, random: &mut Random) -> Case {
        let columns = random.pick(&WIDTHS);
        let before = random_row(random, columns, &[]);
        let reference = random_row(random, columns, &before);
        match random.below(3) {
            0 => written_line(random, columns, reference),
            1 => line_in_page(random, columns, reference),
            _ => any_line(random, columns, reference),
        }
    }
}

fn longest(random: &mut Random) -> u32 {
    random.pick(&[LONGEST, LONGEST_OWN])
}

/// A line of the encoder with any bits before and behind it: read strictly, it must give its row and
/// take its bits.
fn written_line(random: &mut Random, columns: u32, reference: Vec<u32>) -> Case {
    let row = random_row(random, columns, &reference);
    let mut bits = Bits::default();
    let lead = random.index(70);
    bits.random(random, lead);
    put_line_2d(&mut bits, columns, &reference, &row, longest(random));
    let end = bits.len();
    let follow = random.index(20);
    bits.random(random, follow);
    let src = bits.into_bytes();
    let outcome = Outcome::of_line(columns, true, &src, 0, lead as u64, &reference);
    let whole = Outcome { bytes: end as u64, ends: vec![row.len() as u32], marks: vec![0], changes: row, ..Outcome::bare(0, 0) };
    line_case(Ask::read_line(columns, random.bool(), src, lead as u64, reference), random)
        .require(outcome == whole, || "the crate does not read back the line of the encoder".to_string())
}

/// A page of two lines, the first one the reference: the crate's page has the second line too.
fn line_in_page(random: &mut Random, columns: u32, reference: Vec<u32>) -> Case {
    let mut bits = Bits::default();
    put_line_2d(&mut bits, columns, &[], &reference, longest(random));
    let at = bits.len();
    put_any(&mut bits, random, columns, &reference);
    let (src, strict) = (bits.into_bytes(), random.bool());
    let agrees = page_agrees(columns, strict, &src, at, &reference);
    line_case(Ask::read_line(columns, strict, src, at as u64, reference), random)
        .require(agrees, || "the crate's page has another second line".to_string())
}

/// Whether the crate's page has the line as its second row, or fails as it does. A page that ends
/// before the line, or that reads EOLs there, says nothing about it.
fn page_agrees(columns: u32, strict: bool, src: &[u8], at: usize, reference: &[u32]) -> bool {
    if at / 8 >= src.len() || begins_with_eol(src, at) {
        return true;
    }
    let page = Outcome::of_page(&Settings { rows: 2, ..Settings::of_line(columns, strict) }, src, 0);
    let line = Outcome::of_line(columns, strict, src, 0, at as u64, reference);
    let loose = page.ends.last().map_or(0, |&end| end as usize);
    page.rows().next() == Some(reference)
        && if line.number == 0 {
            page.rows().nth(1) == Some(&line.changes)
        } else {
            page.ends.len() == 1 && page.number == line.number && page.changes[loose..] == line.changes
        }
}

fn begins_with_eol(src: &[u8], at: usize) -> bool {
    (at..8 * src.len()).take_while(|&index| !bit_at(src, index)).count() >= 11
}

/// Any data, any start, past the data too.
fn any_line(random: &mut Random, columns: u32, reference: Vec<u32>) -> Case {
    let mut bits = Bits::default();
    put_any(&mut bits, random, columns, &reference);
    let src = bits.into_bytes();
    let at = random.below(8 * src.len() as u64 + 3);
    let at = if random.chance(60) { 0 } else { at };
    line_case(Ask::read_line(columns, random.bool(), src, at, reference), random)
}

/// Words, random bits, or a damaged line.
fn put_any(bits: &mut Bits, random: &mut Random, columns: u32, reference: &[u32]) {
    match random.below(4) {
        0 => {
            let count = random.index(60);
            bits.random(random, count);
        }
        1 => {
            let row = random_row(random, columns, reference);
            let mut line = Bits::default();
            put_line_2d(&mut line, columns, reference, &row, longest(random));
            for byte in damage(random, line.into_bytes(), &[]) {
                bits.code(&format!("{byte:08b}"));
            }
        }
        _ => {
            let count = random.below(20);
            bits.append(&random_words(random, count));
        }
    }
}
