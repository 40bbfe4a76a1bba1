//! What the crate has not: marks, the place of a fault, exact reading, proper pages, rows one at a time, a page a little at a time, one line alone, writers,
//! packed pixels, the heads on a form, and the verdict on a faxed one.
//!
//! A program that is written for the crate needs nothing of this.

mod bitmap;
mod check;
mod fault;
mod form_fault;
mod heads;
mod line;
mod reason;
mod rows;
mod units;
mod verdict;
mod writers;

pub use crate::row::{Mark, Row};
pub use crate::settings::Settings;
pub use bitmap::{Ones, from_bitmap, to_bitmap};
pub use check::{Checked, check};
pub use fault::Fault;
pub use form_fault::{BoxColumn, BoxName, FormFault, Missing};
pub use heads::{Heads, TickBox, heads, read_heads};
pub use line::{Line, read_line};
pub use reason::Reason;
pub use rows::{OwnedRow, Rows};
pub use units::{Turn, Units};
pub use verdict::{Reading, Verdict, verdict};
pub use writers::{write_group3_1d, write_group3_2d, write_line, write_page};

use crate::page::Memory;
use crate::room::MOST;

/// Reads a page, and hands over each of its rows with its mark. The bytes that have been read in total, or why it was not read to its end, and where.
/// The rows before a fault have been handed over.
///
/// Its memory is that of a [`DecoderContext`](crate::DecoderContext).
///
/// ```
/// use hayro_ccitt::beyond::{Fault, Mark, Settings, read_page};
/// use hayro_ccitt::{DecodeError, DecodeSettings, EncodingMode};
///
/// let settings = DecodeSettings {
///     columns: 8,
///     rows: 2,
///     end_of_block: false,
///     end_of_line: false,
///     rows_are_byte_aligned: false,
///     encoding: EncodingMode::Group3_1D,
///     strict: false,
/// };
/// // an EOL, a damaged row, an EOL, a white row
/// let data = [0x00, 0x17, 0x80, 0x06, 0x60];
/// let mut rows = Vec::new();
/// assert_eq!(read_page(&data, settings, |row| rows.push((row.changes.to_vec(), row.mark))), Ok(5));
/// assert_eq!(rows, [(vec![2, 5], Mark::Recovered), (vec![], Mark::Clean)]);
///
/// // exactly, the damage is a fault, at the bit at which the failing code begins
/// let exactly = Settings { exact: true, ..settings.into() };
/// let fault = read_page(&data, exactly, |_| unreachable!("there is no row before it")).unwrap_err();
/// assert_eq!(fault, Fault::Code { error: DecodeError::InvalidCode, bit: 18 });
/// assert_eq!(fault.to_string(), "invalid CCITT code sequence at bit 18");
/// ```
pub fn read_page(data: &[u8], settings: impl Into<Settings>, push_row: impl FnMut(Row<'_>)) -> Result<usize, Fault> {
    let answer = Memory::default().read(data, &settings.into(), MOST, push_row);
    Fault::unless_done(&answer).map(|()| answer.bytes as usize)
}
