//! Packed pixels, as other decoders hand them out: rows painted, and rows read from them.

use super::fault::Fault;
use crate::library::{self, Answer, Page};
use alloc::vec;
use alloc::vec::Vec;

/// What a bit of one stands for.
#[derive(Copy, Clone, Debug, PartialEq, Eq)]
pub enum Ones {
    /// A one is black, as in PBM files.
    Black,
    /// A one is white, as in most TIFF files and in PDF images.
    White,
}

/// Paints rows into packed rows, each of `columns` bits filled up to a byte with white, the most significant bit of a byte leftmost. Each row has the
/// positions at which the color changes, ascending strictly below the columns.
///
/// By proof each bit is the color that the row has there, and [`from_bitmap`] gives the rows back.
///
/// ```
/// use hayro_ccitt::beyond::{Fault, Ones, from_bitmap, to_bitmap};
///
/// let rows = [vec![3, 5], vec![], vec![0, 9]];
/// let bits = to_bitmap(10, &rows, Ones::Black)?;
/// assert_eq!(bits, [0b0001_1000, 0, 0, 0, 0b1111_1111, 0b1000_0000]);
/// assert_eq!(from_bitmap(10, 3, &bits, 2, Ones::Black)?, rows);
///
/// assert_eq!(to_bitmap(10, [[5, 3]], Ones::Black), Err(Fault::NotARow));
/// # Ok::<(), Fault>(())
/// ```
pub fn to_bitmap<R: AsRef<[u32]>>(columns: u32, rows: impl IntoIterator<Item = R>, ones: Ones) -> Result<Vec<u8>, Fault> {
    let (mut changes, mut ends) = (Vec::new(), Vec::new());
    for row in rows {
        changes.extend_from_slice(row.as_ref());
        ends.push(changes.len() as u64);
    }
    let stride = columns.div_ceil(8) as usize;
    let size = stride.checked_mul(ends.len()).filter(|&size| size <= 1 << 32).ok_or(Fault::TooLong)?;
    let mut out = vec![0; size];
    let answer = library::paint(Page { columns, changes: &changes, ends: &ends }, ones == Ones::Black, stride as u64, &mut out);
    Fault::unless_done(&answer)?;
    Ok(out)
}

/// Reads so many packed rows, which begin `stride` bytes apart: of each the positions at which the color changes. What the bits behind the columns are
/// does not matter, nor what lies between two rows.
///
/// ```
/// use hayro_ccitt::beyond::{Fault, Ones, from_bitmap, write_page};
///
/// // two rows of ten pixels, each in a byte and a half and one more
/// let bits = [0b1110_0111, 0b1111_1111, 0xAA, 0b1111_1111, 0b1100_0000, 0xAA];
/// let rows = from_bitmap(10, 2, &bits, 3, Ones::White)?;
/// assert_eq!(rows, [vec![3, 5], vec![]]);
/// let page = write_page(10, &rows)?;
/// # assert!(!page.is_empty());
///
/// assert_eq!(from_bitmap(10, 2, &bits, 1, Ones::White), Err(Fault::Bitmap));
/// assert_eq!(from_bitmap(10, 3, &bits, 3, Ones::White), Err(Fault::Bitmap));
/// # Ok::<(), Fault>(())
/// ```
pub fn from_bitmap(columns: u32, rows: usize, bytes: &[u8], stride: usize, ones: Ones) -> Result<Vec<Vec<u32>>, Fault> {
    // no rows: the width, the length and the stride alone are tested
    told(library::unpaint(columns, 0, ones == Ones::Black, stride as u64, bytes, &mut [], &mut []))?;
    let size = columns.div_ceil(8) as usize;
    let mut changes = vec![0; 8 * size.min(bytes.len())];
    let mut read = Vec::new();
    for n in 0..rows {
        let start = stride.checked_mul(n).ok_or(Fault::Bitmap)?;
        let row = bytes.get(start..).and_then(|rest| rest.get(..size)).ok_or(Fault::Bitmap)?;
        let answer = told(library::unpaint(columns, 1, ones == Ones::Black, stride as u64, row, &mut changes, &mut [0]))?;
        read.push(changes[..answer.entries as usize].to_vec());
    }
    Ok(read)
}

/// A stride that is shorter than a row, or rows that pass the bytes, have a fault of their own here.
fn told(answer: Answer) -> Result<Answer, Fault> {
    match answer.number {
        Answer::BAD_NUMBER | Answer::NO_FIT => Err(Fault::Bitmap),
        _ => Fault::unless_done(&answer).map(|()| answer),
    }
}
