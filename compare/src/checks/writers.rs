//! The writers: the bits of their lines and pages against the encoder's, what stays around them, and
//! their refusals. What the encoder writes is read back by the crate.

use crate::bits::Bits;
use crate::call::{Answer, Ask, BYTE_MARGIN, Room, pattern_byte};
use crate::case::{Case, Plan, Source};
use crate::checks::sheets;
use crate::codes::LONGEST;
use crate::encoder::put_line_2d;
use crate::layouts::encoded;
use crate::random::Random;
use crate::rows::{WIDTHS, flattened, random_row, random_rows};
use crate::settings::Settings;
use crate::truth::{LIMIT, Outcome, Wanted};

pub struct WrittenLines {
    pub count: u64,
}

impl Source for WrittenLines {
    fn name(&self) -> String {
        "written lines".to_string()
    }

    fn count(&self) -> u64 {
        self.count
    }

    /// The first lines are those of the sheets.
    fn case(&self, index: u64, random: &mut Random) -> Case {
        if let Some(&(columns, reference, row, code)) = sheets::LINES.get(index as usize) {
            let mut line = Bits::default();
            line.code(code);
            return line_case(random, columns, reference.to_vec(), row.to_vec(), &line);
        }
        let columns = random.pick(&WIDTHS);
        let before = random_row(random, columns, &[]);
        let reference = random_row(random, columns, &before);
        let row = random_row(random, columns, &reference);
        let mut line = Bits::default();
        put_line_2d(&mut line, columns, &reference, &row, LONGEST);
        line_case(random, columns, reference, row, &line)
    }
}

/// A line from some bit on, into more than enough bytes, just enough, and too few.
fn line_case(random: &mut Random, columns: u32, reference: Vec<u32>, row: Vec<u32>, line: &Bits) -> Case {
    let at = random.index(40);
    let read = Outcome::of_line(columns, true, &line.clone().into_bytes(), 0, 0, &reference);
    let plans = plans(random, line, at, (at + line.len()) as u64);
    let agrees = read.number == 0 && read.changes == row && read.bytes == line.len() as u64;
    let ask = Ask::write_line(columns, reference, row, at as u64);
    Case { ask, plans, complaint: None }.require(agrees, || "the crate does not read back the line".to_string())
}

/// Bits from bit `at` on, into more than enough bytes, just enough, and too few; `place` is what is answered where they fit.
pub(super) fn plans(random: &mut Random, bits: &Bits, at: usize, place: u64) -> Vec<Plan> {
    let exact = (at + bits.len()).div_ceil(8);
    let lengths = [exact + random.range(1, 5) as usize, exact, exact - 1, random.index(exact)];
    let plan = |length| {
        let fill = random.next() as u32;
        let wanted = if length < exact { refused(9) } else { written(bits, at, length, fill, place) };
        Plan::whole(Room::Bytes(length), fill, wanted)
    };
    lengths.map(plan).into()
}

/// What an output holds once bits were written from bit `at` on: the bits before them stay, the rest of
/// their last byte is zero, the bytes behind it stay.
fn written(bits: &Bits, at: usize, length: usize, fill: u32, place: u64) -> Wanted {
    let mut out: Vec<u8> = (0..length).map(|index| pattern_byte(fill, BYTE_MARGIN + index)).collect();
    bits.put_into(&mut out, at, (at + bits.len()).div_ceil(8) * 8);
    Wanted { out: Some(out), ..Wanted::untouched(Answer { bytes: place, ..Answer::default() }) }
}

pub(super) fn refused(number: u32) -> Wanted {
    Wanted::untouched(Answer::bare(number))
}

pub struct WrittenPages {
    pub count: u64,
}

impl Source for WrittenPages {
    fn name(&self) -> String {
        "written pages".to_string()
    }

    fn count(&self) -> u64 {
        self.count
    }

    fn case(&self, index: u64, random: &mut Random) -> Case {
        let columns = random.pick(&WIDTHS);
        // the first two pages are those of the sheets: of no rows, and of one white row
        let rows = match index {
            0 => Vec::new(),
            1 => vec![Vec::new()],
            _ => {
                let count = random.index(12);
                random_rows(random, columns, count)
            }
        };
        written_page(random, columns, &rows)
    }
}

/// A page of rows, and of entries behind its last row end that are not its own.
pub fn written_page(random: &mut Random, columns: u32, rows: &[Vec<u32>]) -> Case {
    let page = encoded(None, columns, rows);
    let complaint = misread(random, columns, rows, &page);
    let (mut changes, ends) = flattened(rows);
    if random.chance(30) {
        changes.extend([9, 3, u32::MAX]);
    }
    let plans = plans(random, &page, 0, page.len() as u64 / 8);
    Case { ask: Ask::write_page(columns, changes, ends), plans, complaint }
}

/// Demand 3 on the crate: the page gives back its rows and its length, whatever bytes follow, and cut
/// after any byte only its own first rows.
fn misread(random: &mut Random, columns: u32, rows: &[Vec<u32>], page: &Bits) -> Option<String> {
    let src = page.clone().into_bytes();
    let (changes, ends) = flattened(rows);
    let number = random.pick(&[0, rows.len() as u32]);
    let settings = Settings { end_of_block: true, rows: number, ..Settings::of_line(columns, true) };
    let count = random.index(5);
    let followed = [src.clone(), random.bytes(count)].concat();
    let read = Outcome::of_page(&settings, &followed, 0);
    let whole = Outcome { bytes: src.len() as u64, changes, marks: vec![0; ends.len()], ends, units: read.units, ..Outcome::bare(0, 0) };
    if read != whole {
        return Some("the crate does not read back the page".to_string());
    }
    let cut = Outcome::of_page(&settings, &src[..random.index(src.len())], 0);
    let own = cut.rows().zip(rows).all(|(row, own)| row == own) && cut.ends.len() <= rows.len();
    (!own).then(|| "the crate reads other rows from the page when it is cut".to_string())
}

pub struct WriterLimits;

/// A refusal: number, columns, zero bytes behind an output of four, start, and two lists.
type Refusal = (u32, u32, usize, u64, &'static [u32], &'static [u32]);

pub(super) const LONG: usize = LIMIT - 3;

const LINE_REFUSALS: [Refusal; 16] = [
    (6, 0, 0, 0, &[], &[]),
    (6, 0, LONG, 99, &[3, 3], &[4, 4]),
    (6, u32::MAX, 0, 0, &[], &[]),
    (6, u32::MAX, LONG, 99, &[3, 3], &[]),
    (7, 8, LONG, 0, &[], &[]),
    (7, 8, LONG, u64::MAX, &[8], &[8]),
    (8, 8, 0, 0, &[8], &[]),
    (8, 8, 0, 0, &[], &[8]),
    (8, 8, 0, 0, &[3, 3], &[]),
    (8, 8, 0, 0, &[], &[5, 4]),
    (8, 8, 0, 99, &[4, 3], &[]),
    (8, 1, 0, 0, &[1], &[0]),
    (9, 8, 0, 33, &[], &[]),
    (9, 8, 0, 32, &[], &[]),
    (9, 8, 0, u64::MAX, &[], &[]),
    (9, 8, 0, 31, &[], &[3, 5]),
];

/// The same for a page: changes and row ends.
const PAGE_REFUSALS: [Refusal; 15] = [
    (6, 0, 0, 0, &[], &[]),
    (6, 0, LONG, 0, &[3, 3], &[2]),
    (6, u32::MAX, 0, 0, &[], &[0]),
    (6, u32::MAX, LONG, 0, &[], &[1]),
    (7, 8, LONG, 0, &[], &[]),
    (7, 8, LONG, 0, &[3, 3], &[2]),
    (8, 8, 0, 0, &[], &[1]),
    (8, 8, 0, 0, &[3, 5], &[3]),
    (8, 8, 0, 0, &[3, 5], &[2, 1]),
    (8, 8, 0, 0, &[3, 5], &[1, 0, 2]),
    (8, 8, 0, 0, &[3, 3], &[2]),
    (8, 8, 0, 0, &[5, 3], &[0, 2]),
    (8, 8, 0, 0, &[3, 8], &[1, 2]),
    (8, 8, 0, 0, &[3, 5, 3, 5], &[2, 4, u32::MAX]),
    (9, 8, 0, 0, &[0, 1, 2, 3, 4, 5, 6, 7], &[8]),
];

impl Source for WriterLimits {
    fn name(&self) -> String {
        "limits of the writers".to_string()
    }

    fn count(&self) -> u64 {
        (LINE_REFUSALS.len() + PAGE_REFUSALS.len()) as u64
    }

    fn case(&self, index: u64, random: &mut Random) -> Case {
        let index = index as usize;
        let (refusal, line) = match LINE_REFUSALS.get(index) {
            Some(refusal) => (refusal, true),
            None => (&PAGE_REFUSALS[index - LINE_REFUSALS.len()], false),
        };
        let &(number, columns, tail, at, first, second) = refusal;
        let mut ask = if line {
            Ask::write_line(columns, first.to_vec(), second.to_vec(), at)
        } else {
            Ask::write_page(columns, first.to_vec(), second.to_vec())
        };
        ask.tail = tail;
        let plans = vec![Plan::whole(Room::Bytes(4), random.next() as u32, refused(number))];
        Case { ask, plans, complaint: None }
    }

    fn batch(&self) -> u64 {
        4
    }
}

/// A page of text, its rows written again: the bytes of the encoder that made it.
pub struct WrittenTexts(pub Vec<super::other_decoder::Text>);

impl Source for WrittenTexts {
    fn name(&self) -> String {
        "pages of text, written again".to_string()
    }

    fn count(&self) -> u64 {
        self.0.len() as u64
    }

    fn case(&self, index: u64, random: &mut Random) -> Case {
        let text = &self.0[index as usize];
        let outcome = Outcome::of_page(&text.settings, &text.src, 0);
        let rows: Vec<Vec<u32>> = outcome.rows().map(<[u32]>::to_vec).collect();
        let page = encoded(None, text.settings.columns, &rows).into_bytes();
        written_page(random, text.settings.columns, &rows)
            .require(page == text.src, || format!("{}: the page's own encoder wrote other bytes", text.name))
    }

    fn batch(&self) -> u64 {
        1
    }
}
