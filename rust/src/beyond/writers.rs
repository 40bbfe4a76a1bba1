//! The writers: of T.6 a page and a line, of T.4 (Group 3 1D and 2D) a page.

use super::fault::Fault;
use crate::library::{self, Answer, Layout, Page};
use alloc::vec;
use alloc::vec::Vec;

/// The most bytes of output that the library takes.
const LIMIT: usize = 1 << 32;

/// Writes a page by T.6 (Group 4), with EOFB at its end. Each row has the positions at which the color changes, ascending strictly below the columns.
///
/// By proof the page, read strictly as Group 4 with `end_of_block` and without alignment, gives back these rows and its length, whatever bytes follow it; cut
/// after any byte it gives only its own first rows.
///
/// ```
/// use hayro_ccitt::beyond::{Fault, Rows, write_page};
/// use hayro_ccitt::{DecodeSettings, EncodingMode};
///
/// let rows = [vec![3, 5], vec![], vec![0]];
/// let page = write_page(8, &rows)?;
///
/// let settings = DecodeSettings {
///     columns: 8,
///     rows: 0,
///     end_of_block: true,
///     end_of_line: false,
///     rows_are_byte_aligned: false,
///     encoding: EncodingMode::Group4,
///     strict: true,
/// };
/// let back: Result<Vec<_>, Fault> = Rows::new(&page, settings).map(|row| Ok(row?.changes)).collect();
/// assert_eq!(back?, rows);
///
/// assert_eq!(write_page(8, [[5, 3]]), Err(Fault::NotARow));
/// # Ok::<(), Fault>(())
/// ```
pub fn write_page<R: AsRef<[u32]>>(columns: u32, rows: impl IntoIterator<Item = R>) -> Result<Vec<u8>, Fault> {
    page(Layout::Group4, columns, rows)
}

/// Writes a page of 1D lines by T.4 (Group 3 1D). With `eols`, `fill` zeros (64 at most) and an EOL stand before each line, and behind the last line `fill`
/// zeros and six EOLs; without, the lines stand alone, and who reads them must be told how many there are. A page has at least one row.
///
/// By proof the page, read as Group 3 1D with `end_of_block` and `end_of_line` exactly where it has EOLs, with its number of rows (or, with EOLs, 0) and
/// without alignment, gives back these rows and its length, if nothing but zeros follows it. With EOLs and three or more zeros of fill, a line whose bits
/// became others (a one among them, and no eleven zeros before a one) costs its own row alone, where the page is read leniently, with its number of rows.
///
/// ```
/// use hayro_ccitt::beyond::{Fault, Rows, write_group3_1d};
/// use hayro_ccitt::{DecodeSettings, EncodingMode};
///
/// let rows = [vec![3, 5], vec![], vec![0]];
/// let page = write_group3_1d(8, &rows, true, 3)?;
///
/// let settings = DecodeSettings {
///     columns: 8,
///     rows: 3,
///     end_of_block: true,
///     end_of_line: true,
///     rows_are_byte_aligned: false,
///     encoding: EncodingMode::Group3_1D,
///     strict: true,
/// };
/// let back: Result<Vec<_>, Fault> = Rows::new(&page, settings).map(|row| Ok(row?.changes)).collect();
/// assert_eq!(back?, rows);
///
/// assert_eq!(write_group3_1d(8, &rows, true, 65), Err(Fault::Layout));
/// assert_eq!(write_group3_1d(8, &[[0; 0]; 0], true, 0), Err(Fault::NoRows));
/// # Ok::<(), Fault>(())
/// ```
pub fn write_group3_1d<R: AsRef<[u32]>>(columns: u32, rows: impl IntoIterator<Item = R>, eols: bool, fill: u32) -> Result<Vec<u8>, Fault> {
    page(Layout::OneD { eols, fill }, columns, rows)
}

/// Writes a page of 1D and 2D lines by T.4 (Group 3 2D): an EOL and a tag bit before each line, a 1D line first and after each 1D line at most `k` − 1 2D
/// lines, and behind the last line six times EOL and a one. `k` is from 1, where every line is 1D, to 65,535. A page has at least one row.
///
/// By proof the page, read as Group 3 2D with `end_of_block`, with its number of rows or 0 and without alignment, gives back these rows and its length, if
/// nothing but zeros follows it.
///
/// ```
/// use hayro_ccitt::beyond::{Fault, Rows, write_group3_2d};
/// use hayro_ccitt::{DecodeSettings, EncodingMode};
///
/// let rows = [vec![3, 5], vec![3, 5], vec![], vec![0]];
/// let page = write_group3_2d(8, &rows, 4)?;
///
/// let settings = DecodeSettings {
///     columns: 8,
///     rows: 0,
///     end_of_block: true,
///     end_of_line: true,
///     rows_are_byte_aligned: false,
///     encoding: EncodingMode::Group3_2D,
///     strict: true,
/// };
/// let back: Result<Vec<_>, Fault> = Rows::new(&page, settings).map(|row| Ok(row?.changes)).collect();
/// assert_eq!(back?, rows);
///
/// assert_eq!(write_group3_2d(8, &rows, 0), Err(Fault::Layout));
/// # Ok::<(), Fault>(())
/// ```
pub fn write_group3_2d<R: AsRef<[u32]>>(columns: u32, rows: impl IntoIterator<Item = R>, k: u32) -> Result<Vec<u8>, Fault> {
    page(Layout::TwoD { k }, columns, rows)
}

/// Writes a row as one T.6 line under a reference line, from bit `at` of `out` on, and says which bit is the next. What stands before it stays, and so do
/// bytes behind it; the unused bits of its last byte become 0. Where `out` is too short, it grows by as many bytes as are needed.
///
/// By proof the line, read strictly under the same reference, gives back the row and takes exactly its bits, whatever bits follow it.
///
/// ```
/// use hayro_ccitt::beyond::{Fault, read_line, write_line};
///
/// let mut out = Vec::new();
/// let first = write_line(8, &[], &[3, 5], &mut out, 0)?;
/// let end = write_line(8, &[3, 5], &[3, 5], &mut out, first)?;
/// assert_eq!((first, end, out.as_slice()), (10, 13, &[0b0011_0001, 0b1111_1000][..]));
/// assert_eq!(read_line(&out, first, 8, true, &[3, 5])?.changes, [3, 5]);
///
/// assert_eq!(write_line(8, &[], &[3, 5], &mut out, 17), Err(Fault::Start));
/// # Ok::<(), Fault>(())
/// ```
pub fn write_line(columns: u32, reference: &[u32], row: &[u32], out: &mut Vec<u8>, at: u64) -> Result<u64, Fault> {
    let before = out.len();
    let answer = write(out, at, row.len() + 16, |out| library::write_line(columns, reference, row, out, at));
    let kept = answer.as_ref().map_or(0, |answer| answer.bytes.div_ceil(8) as usize);
    out.truncate(before.max(kept));
    answer.map(|answer| answer.bytes)
}

fn page<R: AsRef<[u32]>>(layout: Layout, columns: u32, rows: impl IntoIterator<Item = R>) -> Result<Vec<u8>, Fault> {
    let (mut changes, mut ends) = (Vec::new(), Vec::new());
    for row in rows {
        changes.extend_from_slice(row.as_ref());
        ends.push(changes.len() as u64);
    }
    let some = changes.len() + ends.len() + 16;
    let mut out = vec![0; enough(columns, changes.len(), ends.len()).unwrap_or(some).min(LIMIT)];
    let page = Page { columns, changes: &changes, ends: &ends };
    let answer = write(&mut out, 0, some, |out| library::write_page(layout, page, out)).map_err(|fault| match fault {
        Fault::NotARow if ends.is_empty() => Fault::NoRows,
        fault => fault,
    })?;
    out.truncate(answer.bytes as usize);
    out.shrink_to_fit();
    Ok(out)
}

/// Bytes in which a page surely fits, so that the library does not count it first (writer/specs/Bounds.antt has the proved bound); none where they are more
/// than 16 MiB.
fn enough(columns: u32, changes: usize, rows: usize) -> Option<usize> {
    let row = 13 * (columns as usize / 64) + 106;
    let bits = changes.checked_mul(17)?.checked_add(rows.checked_mul(row)?)?.checked_add(136)?;
    Some(bits.div_ceil(8)).filter(|&bytes| bytes <= 1 << 24)
}

/// Has the library write from bit `at` on, with so many bytes more and then ever more of them, until the bits fit; where they do not, everything is as
/// it was.
fn write(out: &mut Vec<u8>, at: u64, mut more: usize, mut write: impl FnMut(&mut [u8]) -> Answer) -> Result<Answer, Fault> {
    loop {
        let answer = write(out);
        if answer.number != Answer::NO_FIT {
            return Fault::unless_done(&answer).map(|()| answer);
        }
        if at > 8 * out.len() as u64 {
            return Err(Fault::Start);
        }
        if out.len() == LIMIT {
            return Err(Fault::TooLong);
        }
        out.resize((out.len() + more).min(LIMIT), 0);
        more *= 2;
    }
}
