use super::fault::Fault;
use super::read_page;
use crate::library::{self, Page};
use crate::row::Row;
use crate::settings::Settings;

/// A box of a form, by its edges in pixels, from 0 at the top left. The right and bottom edges are not included; a part outside the page is white.
#[derive(Copy, Clone, Debug, Default, PartialEq, Eq)]
pub struct TickBox {
    /// The first column.
    pub left: u32,
    /// The column behind the last, at least `left`.
    pub right: u32,
    /// The first row.
    pub top: u32,
    /// The row behind the last, at least `top`.
    pub bottom: u32,
}

/// What a form says.
#[derive(Copy, Clone, Debug, PartialEq, Eq)]
pub struct Heads {
    /// Ten times the ticked tens digit and the ticked units digit.
    pub heads: u32,
    /// The quota less the heads: below zero where a booking is over it.
    pub left: i32,
}

/// Reads a page and counts the heads on it as [`heads`] does, if it was read to its end and to its last byte, and has exactly as many `rows` as the form's
/// page. Else it is not counted: what was not read may have had a tick, and a page that is cut between two rows may end without a fault.
///
/// It tests the reading, as [`read_page`] has it, then what is left of the data ([`Fault::BytesBehind`]), then the rows ([`Fault::OtherRows`]), and then what
/// [`heads`] tests. The settings' own `rows` say where the reading stops, and may be 0. No more than `rows` rows are held beside the reading's memory.
///
/// In Group 4 and Group 3 2D a row that was mended above a box may have changed those under it; [`verdict`](super::verdict()) refuses such a page too.
///
/// ```
/// use hayro_ccitt::beyond::{Fault, Heads, TickBox, read_heads, write_group3_1d};
/// use hayro_ccitt::{DecodeError, DecodeSettings, EncodingMode};
///
/// // boxes of four by two pixels, tens from column 2 and units from column 10 on
/// let form: [[TickBox; 2]; 10] = std::array::from_fn(|digit| {
///     let top = 2 * digit as u32;
///     [2, 10].map(|left| TickBox { left, right: left + 4, top, bottom: top + 2 })
/// });
/// // tens 4, units 0
/// let mut rows = vec![vec![]; 20];
/// rows[8..10].fill(vec![3, 5]);
/// rows[0..2].fill(vec![10, 13]);
/// let page = write_group3_1d(16, &rows, true, 3)?;
///
/// let settings = DecodeSettings {
///     columns: 16,
///     rows: 0,
///     end_of_block: true,
///     end_of_line: true,
///     rows_are_byte_aligned: false,
///     encoding: EncodingMode::Group3_1D,
///     strict: true,
/// };
/// let count = |page, rows| read_heads(page, settings, rows, &form, 4, 39);
/// assert_eq!(count(&page, 20), Ok(Heads { heads: 40, left: -1 }));
///
/// // cut behind both ticks, it is not counted, nor where the form's page has another row
/// assert_eq!(count(&page[..39], 20), Err(Fault::Code { error: DecodeError::UnexpectedEof, bit: 308 }));
/// assert_eq!(count(&page, 21), Err(Fault::OtherRows { count: 20, rows: 21 }));
/// # Ok::<(), Fault>(())
/// ```
pub fn read_heads(
    data: &[u8],
    settings: impl Into<Settings>,
    rows: u32,
    form: &[[TickBox; 2]; 10],
    least: u64,
    quota: i32,
) -> Result<Heads, Fault> {
    let settings = settings.into();
    let (mut page, mut count) = (library::Rows::default(), 0);
    let bytes = read_page(data, settings, |row| {
        count += 1;
        if count <= u64::from(rows) {
            keep(&mut page, row);
        }
    })?;
    match (data.len() - bytes) as u64 {
        0 if count == u64::from(rows) => counted(settings.settings.columns, &page, form, least, quota),
        0 => Err(Fault::OtherRows { count, rows }),
        behind => Err(Fault::BytesBehind { count: behind }),
    }
}

/// Counts the heads on a form: for each digit from 0 to 9 a tens box and a units box, of which one of each is ticked. A box is ticked where at least `least`
/// of its pixels are black. The heads are then taken from a quota, from −1,000,000 to 1,000,000.
///
/// It takes the rows for a whole page: they do not tell that their page ended with a fault, and what is not among them counts as white. The data of a page
/// goes to [`read_heads`].
///
/// It tests the rows ([`Fault::NotARow`]), then the boxes, `least` and the quota ([`Fault::Form`]), then whether a box holds a pixel of a row that was not
/// read clean ([`Fault::Mended`]), and then the ticks ([`Fault::Ticks`]).
///
/// ```
/// use hayro_ccitt::beyond::{Fault, Heads, Mark, Row, TickBox, heads};
///
/// // a pixel for each digit, tens in row 0 and units in row 1
/// let form: [[TickBox; 2]; 10] = std::array::from_fn(|digit| {
///     let left = digit as u32;
///     [0, 1].map(|top| TickBox { left, right: left + 1, top, bottom: top + 1 })
/// });
/// let mut rows = [[4, 5], [0, 1]].each_ref().map(|changes| Row { changes, mark: Mark::Clean });
/// assert_eq!(heads(10, rows, &form, 1, 39), Ok(Heads { heads: 40, left: -1 }));
/// // no box has two black pixels
/// assert_eq!(heads(10, rows, &form, 2, 39), Err(Fault::Ticks));
/// rows[1].mark = Mark::Recovered;
/// assert_eq!(heads(10, rows, &form, 1, 39), Err(Fault::Mended));
/// ```
pub fn heads<'a, R: Into<Row<'a>>>(
    columns: u32,
    rows: impl IntoIterator<Item = R>,
    form: &[[TickBox; 2]; 10],
    least: u64,
    quota: i32,
) -> Result<Heads, Fault> {
    let mut page = library::Rows::default();
    rows.into_iter().for_each(|row| keep(&mut page, row.into()));
    counted(columns, &page, form, least, quota)
}

fn keep(page: &mut library::Rows, row: Row<'_>) {
    page.changes.extend_from_slice(row.changes);
    page.ends.push(page.changes.len() as u64);
    page.marks.push(row.mark.number());
}

fn counted(columns: u32, rows: &library::Rows, form: &[[TickBox; 2]; 10], least: u64, quota: i32) -> Result<Heads, Fault> {
    let page = Page { columns, changes: &rows.changes, ends: &rows.ends };
    let answer = library::heads(page, &rows.marks, &numbers(form), least, quota);
    match Fault::of(answer.number, 0) {
        None => Ok(Heads { heads: answer.heads, left: answer.left }),
        Some(fault) => Err(fault),
    }
}

/// For each digit its tens box and its units box, each as left, right, top and bottom.
fn numbers(form: &[[TickBox; 2]; 10]) -> [u32; 80] {
    let mut numbers = [0; 80];
    for (four, edges) in numbers.chunks_exact_mut(4).zip(form.iter().flatten()) {
        four.copy_from_slice(&[edges.left, edges.right, edges.top, edges.bottom]);
    }
    numbers
}
