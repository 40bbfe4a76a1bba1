//! Pages as documents 01 (T.6) and 02 (Group 3: A3, A10) have them written, by the encoder of this package.

use crate::bits::Bits;
use crate::call::Layout;
use crate::codes::{EOL, LONGEST};
use crate::encoder::{put_line_1d, put_line_2d};

/// Whether a page may be written with the caller's number.
pub fn allowed(layout: Layout) -> bool {
    match layout {
        Layout::OneD { fill, .. } => fill <= 64,
        Layout::TwoD { k } => (1..=65_535).contains(&k),
    }
}

/// A page of rows, of T.6 or of Group 3 in some layout, and zeros to a byte.
pub fn encoded(layout: Option<Layout>, columns: u32, rows: &[Vec<u32>]) -> Bits {
    let mut bits = match layout {
        None => group4(columns, rows),
        Some(layout) => {
            let mut bits = lines(layout, columns, rows);
            put_end(&mut bits, layout, 6);
            bits
        }
    };
    bits.align();
    bits
}

/// Lines from a white reference, and EOFB.
fn group4(columns: u32, rows: &[Vec<u32>]) -> Bits {
    let mut bits = Bits::default();
    let mut reference: &[u32] = &[];
    for row in rows {
        put_line_2d(&mut bits, columns, reference, row, LONGEST);
        reference = row;
    }
    bits.code(EOL);
    bits.code(EOL);
    bits
}

/// Group 3 lines, each with what stands before it.
pub fn lines(layout: Layout, columns: u32, rows: &[Vec<u32>]) -> Bits {
    let mut bits = Bits::default();
    for (index, row) in rows.iter().enumerate() {
        put_ahead(&mut bits, layout, is_1d(layout, index));
        put_line(&mut bits, columns, reference(layout, rows, index), row);
    }
    bits
}

/// Whether the line of this number is 1D: all are, or the first and each K-th after it.
pub fn is_1d(layout: Layout, index: usize) -> bool {
    match layout {
        Layout::OneD { .. } => true,
        Layout::TwoD { k } => index.is_multiple_of(k as usize),
    }
}

/// The row before this one, unless its line is 1D.
pub fn reference(layout: Layout, rows: &[Vec<u32>], index: usize) -> Option<&[u32]> {
    (!is_1d(layout, index)).then(|| rows[index - 1].as_slice())
}

/// What stands before a line: nothing, fill and an EOL, or an EOL and a tag bit.
pub fn put_ahead(bits: &mut Bits, layout: Layout, is_1d: bool) {
    match layout {
        Layout::OneD { .. } => put_end(bits, layout, 1),
        Layout::TwoD { .. } => {
            bits.code(EOL);
            bits.bit(is_1d);
        }
    }
}

/// A 2D line under a row, or a 1D line.
pub fn put_line(bits: &mut Bits, columns: u32, reference: Option<&[u32]>, row: &[u32]) {
    match reference {
        Some(above) => put_line_2d(bits, columns, above, row, LONGEST),
        None => put_line_1d(bits, columns, row, LONGEST),
    }
}

/// So many EOLs: with fill before the first alone, none where the page has none, or each with a one.
pub fn put_end(bits: &mut Bits, layout: Layout, count: usize) {
    match layout {
        Layout::OneD { eols: false, .. } => {}
        Layout::OneD { eols: true, fill } => {
            bits.zeros(fill as usize);
            (0..count).for_each(|_| bits.code(EOL));
        }
        Layout::TwoD { .. } => (0..count).for_each(|_| put_ahead(bits, layout, true)),
    }
}
