//! Pages made by the encoder, with what real pages have and some that they should not have: fill,
//! missing and extra EOLs, ends of every kind, alignment.

use crate::bits::Bits;
use crate::codes::{EOL, LONGEST, LONGEST_OWN};
use crate::encoder::{put_line_1d, put_line_2d};
use crate::random::Random;
use crate::rows::{WIDTHS, random_rows};
use crate::settings::{Encoding, Settings};

/// A width at which a 1D line would take millions of codes.
const TOO_WIDE_FOR_1D: u32 = 1_000_000;

pub struct Page {
    pub settings: Settings,
    pub src: Vec<u8>,
}

/// A page and settings that fit it, mostly.
pub fn random_page(random: &mut Random, encoding: Encoding, strict: bool) -> Page {
    let columns = random_width(random, encoding);
    let count = random.below(if columns > 2000 { 5 } else { 12 }) as usize;
    let rows = random_rows(random, columns, count);
    let end_of_block = random.chance(70);
    let end_of_line = random.chance(60);
    let aligned = random.chance(30);
    let mut settings =
        Settings { encoding, columns, rows: random_row_number(random, rows.len()), end_of_block, end_of_line, aligned, strict };
    let bits = match encoding {
        Encoding::Group4 => group4(random, &settings, &rows),
        _ => group3(random, &settings, &rows),
    };
    if random.chance(20) {
        settings = other_settings(random, settings);
    }
    Page { settings, src: with_tail(random, bits) }
}

fn random_width(random: &mut Random, encoding: Encoding) -> u32 {
    loop {
        let width = random.pick(&WIDTHS);
        if width < TOO_WIDE_FOR_1D || encoding == Encoding::Group4 || random.chance(20) {
            return width;
        }
    }
}

/// None, the true number, or one beside it.
fn random_row_number(random: &mut Random, rows: usize) -> u32 {
    let rows = rows as u32;
    random.pick(&[0, 0, rows, rows, rows.saturating_sub(1), rows + 1])
}

/// Settings that need not fit the page.
fn other_settings(random: &mut Random, settings: Settings) -> Settings {
    Settings {
        columns: if random.chance(30) { random.pick(&WIDTHS) } else { settings.columns },
        end_of_block: random.bool(),
        end_of_line: random.bool(),
        aligned: random.bool(),
        encoding: if random.chance(30) { random.pick(&crate::settings::ENCODINGS) } else { settings.encoding },
        ..settings
    }
}

/// Whatever follows a page: nothing, zeros, or anything.
fn with_tail(random: &mut Random, bits: Bits) -> Vec<u8> {
    let mut bytes = bits.into_bytes();
    match random.below(6) {
        0 => bytes.extend(vec![0; random.index(4)]),
        1 => {
            let count = random.index(6);
            bytes.extend(random.bytes(count));
        }
        _ => {}
    }
    bytes
}

fn group4(random: &mut Random, settings: &Settings, rows: &[Vec<u32>]) -> Bits {
    let longest = random.pick(&[LONGEST, LONGEST_OWN]);
    let stray_eols = random.chance(10);
    let mut bits = Bits::default();
    let mut reference: &[u32] = &[];
    for row in rows {
        if stray_eols && random.chance(30) {
            put_eols(&mut bits, random, 1, "");
        }
        put_line_2d(&mut bits, settings.columns, reference, row, longest);
        if settings.aligned {
            bits.align();
        }
        reference = row;
    }
    let most = if settings.end_of_block { [2, 2, 2, 3] } else { [0, 0, 1, 2] };
    let count = random.pick(&most);
    put_eols(&mut bits, random, count, "");
    bits
}

fn group3(random: &mut Random, settings: &Settings, rows: &[Vec<u32>]) -> Bits {
    let sloppy = random.chance(30);
    let longest = random.pick(&[LONGEST, LONGEST_OWN]);
    // of every k lines the first is a 1D line
    let k = random.range(1, 4) as usize;
    let two_d = settings.encoding == Encoding::Group3TwoD;
    let mut bits = Bits::default();
    if random.chance(10) {
        put_eols(&mut bits, random, 2, "");
    }
    let mut reference: &[u32] = &[];
    for (index, row) in rows.iter().enumerate() {
        put_line_start(&mut bits, random, settings, sloppy);
        let one_d = !two_d || (index % k == 0 && settings.columns < TOO_WIDE_FOR_1D);
        if two_d {
            bits.bit(one_d);
        }
        if one_d && settings.columns < TOO_WIDE_FOR_1D {
            put_line_1d(&mut bits, settings.columns, row, longest);
        } else {
            put_line_2d(&mut bits, settings.columns, reference, row, longest);
        }
        reference = row;
    }
    put_end(&mut bits, random, settings, two_d);
    bits
}

/// What stands before a line: an EOL where the page has them, and alignment.
fn put_line_start(bits: &mut Bits, random: &mut Random, settings: &Settings, sloppy: bool) {
    if !settings.end_of_line {
        if settings.aligned {
            bits.align();
        }
        return;
    }
    if sloppy && random.chance(20) {
        return;
    }
    if settings.aligned && random.bool() {
        // the EOL ends on a byte
        while bits.len() % 8 != 4 {
            bits.bit(false);
        }
    } else if settings.aligned {
        bits.align();
    } else if random.chance(30) {
        bits.zeros(random.below(20) as usize);
    }
    bits.code(EOL);
    if sloppy && random.chance(10) {
        put_eols(bits, random, 1, "");
    }
}

/// The end of a Group 3 page: six EOLs, each with its tag in 2D, or another number of them, or nothing.
fn put_end(bits: &mut Bits, random: &mut Random, settings: &Settings, two_d: bool) {
    let counts = if settings.end_of_block { [6, 6, 6, 6, 5, 7, 8, 0] } else { [0, 0, 0, 1, 1, 2, 6, 7] };
    let count = random.pick(&counts);
    let tag = if two_d && random.chance(80) { "1" } else { "" };
    put_eols(bits, random, count, tag);
}

/// EOLs, each followed by its tag, with fill before the first of them now and then.
fn put_eols(bits: &mut Bits, random: &mut Random, count: usize, tag: &str) {
    if count > 0 && random.chance(15) {
        bits.zeros(random.below(30) as usize);
    }
    for _ in 0..count {
        bits.code(EOL);
        bits.code(tag);
    }
}
