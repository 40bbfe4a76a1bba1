//! Pages with long fill, and what a reader of zeros could be slow on.

use super::page::{Named, Page};
use crate::bits::Bits;
use crate::codes::EOL;
use crate::settings::{Encoding, Settings};

const COLUMNS: u32 = 1728;
/// A white row of that width: a make-up code of 1728, and a run of 0.
const ROW: &str = "01001101100110101";

/// Bytes of fill in a page.
const SIZES: [(usize, &str); 3] = [(1 << 16, "64 KiB"), (1 << 20, "1 MiB"), (1 << 24, "16 MiB")];
/// Rows of a page whose every line has fill.
const ROWS: usize = 20_000;

pub fn pages() -> Vec<Named> {
    let strict = settings(true);
    let lenient = settings(false);
    let mut pages = Vec::new();
    for (bytes, size) in SIZES {
        pages.push((format!("{size} of fill before the EOLs of 4 rows"), Page::of(strict, filled(4, 8 * bytes / 4))));
    }
    for fill in [0, 64] {
        pages.push((format!("{ROWS} white rows, {fill} zeros of fill before each EOL"), Page::of(strict, filled(ROWS, fill))));
    }
    for (bytes, size) in SIZES {
        pages.push((format!("{size} of zeros that no one closes, strict"), Page::of(strict, vec![0; bytes])));
        pages.push((format!("{size} of zeros that no one closes, lenient"), Page::of(lenient, vec![0; bytes])));
        pages.push((format!("{size} of ten zeros and a one, lenient"), Page::of(lenient, tens(bytes))));
    }
    pages
}

fn settings(strict: bool) -> Settings {
    Settings { encoding: Encoding::Group3OneD, end_of_block: true, end_of_line: true, ..Settings::of_line(COLUMNS, strict) }
}

/// So many white rows, with zeros before the EOL of each, and an RTC.
fn filled(rows: usize, fill: usize) -> Vec<u8> {
    let mut bits = Bits::default();
    for _ in 0..rows {
        bits.zeros(fill);
        bits.code(EOL);
        bits.code(ROW);
    }
    (0..6).for_each(|_| bits.code(EOL));
    bits.into_bytes()
}

/// Ten zeros and a one, over and over.
fn tens(bytes: usize) -> Vec<u8> {
    let mut bits = Bits::default();
    for at in 0..8 * bytes {
        bits.bit(at % 11 == 10);
    }
    bits.into_bytes()
}
