//! The Group 3 writers: the bits of their pages against the encoder's, and their refusals. What the encoder
//! writes is read back by the crate.

use crate::bits::Bits;
use crate::call::{Ask, Layout, Room};
use crate::case::{Case, Plan, Source};
use crate::checks::writers::{LONG, plans, refused};
use crate::layouts::{allowed, encoded};
use crate::random::Random;
use crate::rows::{WIDTHS, flattened, random_rows};
use crate::settings::{Encoding, Settings};
use crate::truth::Outcome;

pub struct Written {
    pub count: u64,
}

impl Source for Written {
    fn name(&self) -> String {
        "written Group 3 pages".to_string()
    }

    fn count(&self) -> u64 {
        self.count
    }

    fn case(&self, _: u64, random: &mut Random) -> Case {
        // on a wider line a run would take millions of codes
        let columns = random.pick(&WIDTHS[..9]);
        let count = random.index(if columns > 2000 { 5 } else { 12 });
        let rows = random_rows(random, columns, count);
        let layout = random_layout(random);
        page_case(random, layout, columns, &rows)
    }
}

fn random_layout(random: &mut Random) -> Layout {
    if random.chance(50) {
        return Layout::TwoD { k: random.pick(&[0, 1, 2, 2, 3, 4, 4, 5, 11, 65_535, 65_536, u32::MAX]) };
    }
    let fill = random.pick(&[0, 0, 1, 3, 12, 13, 14, 63, 64, 65, u32::MAX]);
    Layout::OneD { eols: random.chance(70), fill }
}

/// A page of rows, and of entries behind its last row end that are not its own; into more than enough
/// bytes, just enough, and too few.
pub fn page_case(random: &mut Random, layout: Layout, columns: u32, rows: &[Vec<u32>]) -> Case {
    let (mut changes, ends) = flattened(rows);
    if random.chance(30) {
        changes.extend([9, 3, u32::MAX]);
    }
    let ask = Ask::write_group3(layout, columns, changes, ends);
    if !allowed(layout) || rows.is_empty() {
        let number = if allowed(layout) { 8 } else { 10 };
        let plan = Plan::whole(Room::Bytes(random.index(200)), random.next() as u32, refused(number));
        return Case { ask, plans: vec![plan], complaint: None };
    }
    let page = encoded(Some(layout), columns, rows);
    let plans = plans(random, &page, 0, page.len() as u64 / 8);
    let complaint = misread(random, layout, columns, rows, &page);
    Case { ask, plans, complaint }
}

/// A3 and A10 on the crate: the page gives back its rows, all clean, and its length, with nothing but zeros behind it.
fn misread(random: &mut Random, layout: Layout, columns: u32, rows: &[Vec<u32>], page: &Bits) -> Option<String> {
    let mut src = page.clone().into_bytes();
    let (changes, ends) = flattened(rows);
    let settings = random_settings(random, layout, columns, rows.len() as u32);
    let bytes = src.len() as u64;
    src.resize(src.len() + random.index(3), 0);
    let read = Outcome::of_page(&settings, &src, 0);
    let whole = Outcome { bytes, changes, marks: vec![0; ends.len()], ends, units: read.units, ..Outcome::bare(0, 0) };
    let agrees = read == whole && Outcome::of_exact_page(&settings, &src, 0) == whole;
    (!agrees).then(|| format!("the crate does not read back the page: {settings}"))
}

/// Settings under which the page is promised to read back.
fn random_settings(random: &mut Random, layout: Layout, columns: u32, rows: u32) -> Settings {
    let (encoding, end_of_block, end_of_line) = match layout {
        Layout::OneD { eols, .. } => (Encoding::Group3OneD, eols, eols),
        Layout::TwoD { .. } => (Encoding::Group3TwoD, true, random.chance(50)),
    };
    let number = if end_of_block { random.pick(&[0, rows]) } else { rows };
    Settings { encoding, columns, rows: number, end_of_block, end_of_line, aligned: false, strict: random.chance(70) }
}

pub struct Limits;

/// A refusal: number, columns, zero bytes behind an output of four, the layout, changes and row ends.
type Refusal = (u32, u32, usize, Layout, &'static [u32], &'static [u32]);

const fn one_d(eols: bool, fill: u32) -> Layout {
    Layout::OneD { eols, fill }
}

const fn two_d(k: u32) -> Layout {
    Layout::TwoD { k }
}

const REFUSALS: [Refusal; 29] = [
    (6, 0, 0, one_d(true, 0), &[], &[0]),
    (6, 0, LONG, one_d(true, 65), &[3, 3], &[]),
    (6, u32::MAX, LONG, one_d(false, 65), &[3, 3], &[2]),
    (7, 8, LONG, one_d(true, 0), &[], &[0]),
    (7, 8, LONG, one_d(true, 65), &[3, 3], &[2]),
    (10, 8, 0, one_d(true, 65), &[], &[0]),
    (10, 8, 0, one_d(false, 65), &[], &[0]),
    (10, 8, 0, one_d(true, u32::MAX), &[3, 3], &[2]),
    (10, 8, 0, one_d(true, 65), &[], &[]),
    (8, 8, 0, one_d(true, 64), &[], &[]),
    (8, 8, 0, one_d(false, 0), &[], &[]),
    (8, 8, 0, one_d(true, 0), &[], &[1]),
    (8, 8, 0, one_d(true, 0), &[3, 5], &[2, 1]),
    (8, 8, 0, one_d(false, 0), &[3, 3], &[2]),
    (8, 8, 0, one_d(false, 0), &[3, 8], &[1, 2]),
    (9, 8, 0, one_d(true, 0), &[], &[0]),
    (9, 8, 0, one_d(true, 64), &[], &[0]),
    (9, 8, 0, one_d(false, 0), &[0, 1, 2, 3, 4, 5, 6, 7], &[8]),
    (6, 0, LONG, two_d(0), &[3, 3], &[]),
    (6, u32::MAX, LONG, two_d(65_536), &[3, 3], &[2]),
    (7, 8, LONG, two_d(0), &[3, 3], &[2]),
    (10, 8, 0, two_d(0), &[], &[0]),
    (10, 8, 0, two_d(65_536), &[3, 3], &[2]),
    (10, 8, 0, two_d(u32::MAX), &[], &[]),
    (8, 8, 0, two_d(1), &[], &[]),
    (8, 8, 0, two_d(65_535), &[], &[1]),
    (8, 8, 0, two_d(2), &[3, 5], &[2, 1]),
    (8, 8, 0, two_d(2), &[3, 8], &[1, 2]),
    (9, 8, 0, two_d(2), &[], &[0]),
];

impl Source for Limits {
    fn name(&self) -> String {
        "limits of the Group 3 writers".to_string()
    }

    fn count(&self) -> u64 {
        REFUSALS.len() as u64
    }

    fn case(&self, index: u64, random: &mut Random) -> Case {
        let (number, columns, tail, layout, changes, ends) = REFUSALS[index as usize];
        let mut ask = Ask::write_group3(layout, columns, changes.to_vec(), ends.to_vec());
        ask.tail = tail;
        let plans = vec![Plan::whole(Room::Bytes(4), random.next() as u32, refused(number))];
        Case { ask, plans, complaint: None }
    }

    fn batch(&self) -> u64 {
        4
    }
}
