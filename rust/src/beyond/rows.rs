use super::fault::Fault;
use crate::by_row::ByRow;
use crate::library::Answer;
use crate::row::{Mark, Row};
use crate::settings::Settings;
use alloc::vec::Vec;
use core::iter::FusedIterator;

/// A page that is read a row at a time, as its rows are asked for, with two rows in memory.
///
/// It is an iterator over the rows. [`next_row`](Self::next_row) lends them instead, and so copies none. Reading a whole page by
/// [`decode`](crate::decode) or [`read_page`](super::read_page) is a little quicker.
///
/// ```
/// use hayro_ccitt::beyond::{Fault, Rows};
/// use hayro_ccitt::{DecodeError, DecodeSettings, EncodingMode};
///
/// let settings = DecodeSettings {
///     columns: 8,
///     rows: 0,
///     end_of_block: true,
///     end_of_line: false,
///     rows_are_byte_aligned: false,
///     encoding: EncodingMode::Group4,
///     strict: true,
/// };
/// // a row black from 3 up to 5, the same again, EOFB
/// let data = [0x31, 0xF8, 0x00, 0x80, 0x08];
/// for row in Rows::new(&data, settings) {
///     assert_eq!(row?.changes, [3, 5]);
/// }
///
/// // cut, it gives its first row, and then the fault
/// let mut rows = Rows::new(&data[..2], settings);
/// assert!(rows.next().unwrap().is_ok() && rows.next().unwrap().is_ok());
/// assert_eq!(rows.next(), Some(Err(Fault::Code { error: DecodeError::UnexpectedEof, bit: 13 })));
/// assert_eq!(rows.next(), None);
/// # Ok::<(), Fault>(())
/// ```
pub struct Rows<'a> {
    data: &'a [u8],
    settings: Settings,
    by_row: ByRow,
    end: Option<Result<usize, Fault>>,
    /// How many changes an unfinished row has.
    loose: u64,
    /// Whether the iterator has given the fault.
    told: bool,
}

/// A row that is kept.
#[derive(Clone, Debug, PartialEq, Eq)]
pub struct OwnedRow {
    /// The positions at which the color changes, as [`Decoder::push_row`](crate::Decoder::push_row) has them.
    pub changes: Vec<u32>,
    /// How it was read.
    pub mark: Mark,
}

impl<'a> From<&'a OwnedRow> for Row<'a> {
    /// Lends it.
    fn from(row: &'a OwnedRow) -> Self {
        Self { changes: &row.changes, mark: row.mark }
    }
}

impl<'a> Rows<'a> {
    /// Begins a page. Nothing is read yet.
    pub fn new(data: &'a [u8], settings: impl Into<Settings>) -> Self {
        Self { data, settings: settings.into(), by_row: ByRow::default(), end: None, loose: 0, told: false }
    }

    /// Reads the next row and lends it. `None` is the page's end, and a fault is its end too; both are given again.
    ///
    /// ```
    /// use hayro_ccitt::beyond::{Mark, Rows};
    /// use hayro_ccitt::{DecodeSettings, EncodingMode};
    ///
    /// let settings = DecodeSettings {
    ///     columns: 8,
    ///     rows: 1,
    ///     end_of_block: false,
    ///     end_of_line: false,
    ///     rows_are_byte_aligned: false,
    ///     encoding: EncodingMode::Group4,
    ///     strict: false,
    /// };
    /// // VR1 from a white row: one pixel more than there are
    /// let mut rows = Rows::new(&[0x60], settings);
    /// while let Some(row) = rows.next_row()? {
    ///     assert!(row.changes.is_empty() && row.mark == Mark::Cut);
    /// }
    /// assert_eq!(rows.bytes(), Some(1));
    /// # Ok::<(), hayro_ccitt::beyond::Fault>(())
    /// ```
    pub fn next_row(&mut self) -> Result<Option<Row<'_>>, Fault> {
        if let Some(end) = self.end {
            return end.map(|_| None);
        }
        let answer = self.by_row.read(self.data, &self.settings);
        if answer.number == Answer::MORE_TO_COME {
            return Ok(Some(Row { changes: self.by_row.row(), mark: Mark::of(answer.mark) }));
        }
        let end = Fault::unless_done(&answer).map(|()| answer.bytes as usize);
        (self.end, self.loose) = (Some(end), answer.loose);
        end.map(|_| None)
    }

    /// The bytes that have been read in total, once the page has ended without a fault.
    pub fn bytes(&self) -> Option<usize> {
        self.end?.ok()
    }

    /// What the row in which a fault struck has up to there, once it has. The crate does not hand it over, and nor does the iterator.
    pub fn unfinished(&self) -> &[u32] {
        self.by_row.loose(self.loose)
    }
}

impl Iterator for Rows<'_> {
    type Item = Result<OwnedRow, Fault>;

    /// The next row, or the fault that ends the page, which is given once.
    fn next(&mut self) -> Option<Self::Item> {
        if self.told {
            return None;
        }
        let row = self.next_row().map(|row| row.map(|row| OwnedRow { changes: row.changes.to_vec(), mark: row.mark })).transpose();
        self.told = !matches!(row, Some(Ok(_)));
        row
    }
}

impl FusedIterator for Rows<'_> {}
