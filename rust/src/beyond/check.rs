use super::fault::Fault;
use crate::library::{self, Answer};
use crate::room::Room;
use crate::settings::Settings;

/// What a careful reader asks of a page that was read to its end.
#[derive(Copy, Clone, Debug, PartialEq, Eq)]
pub struct Checked {
    /// The bytes that the page took.
    pub bytes: usize,
    /// Whether a lenient Group 3 reading gave up its end-of-line markers, because none was left in the data. From there on every row hangs on all of the
    /// data, whatever its mark.
    pub gave_up: bool,
    /// Whether the page is *proper*: the bytes that it took are, to the last bit, what a writer writes for its rows. So it says its rows twice; damage that
    /// leaves a page proper has made it, bit for bit, another page's writing (`ProperMeans`, `ProperOnce`).
    pub proper: bool,
    /// The first bit at which those bytes part from what would be written; of a proper page the bit behind them.
    pub parts: u64,
}

/// Reads a page and checks it: whether end-of-line markers were given up, whether it is proper, and where it parts from what a writer would write. Why it
/// was not read to its end, and where, if it was not.
///
/// The writer is that of the page's encoding: [`write_page`](super::write_page), [`write_group3_1d`](super::write_group3_1d) with the fill that is found
/// before the first end-of-line marker, or [`write_group3_2d`](super::write_group3_2d) with the K that is found in the tag bits.
///
/// All rows of the page are held in memory, as for a [`verdict`](super::verdict()).
///
/// # Panics
/// If there is no memory for the page's rows.
///
/// ```
/// use hayro_ccitt::beyond::{check, write_page};
/// use hayro_ccitt::{DecodeSettings, EncodingMode};
///
/// let settings = DecodeSettings {
///     columns: 8,
///     rows: 0,
///     end_of_block: true,
///     end_of_line: false,
///     rows_are_byte_aligned: false,
///     encoding: EncodingMode::Group4,
///     strict: true,
/// };
/// let page = write_page(8, [&[2, 5][..], &[2, 5], &[]])?;
/// let whole = check(&page, settings)?;
/// assert!(whole.proper && whole.bytes == page.len() && whole.parts == 8 * page.len() as u64);
///
/// // a white row as two runs, where a writer has one bit
/// let wordy = check(&[0x33, 0x0D, 0xC0, 0x04, 0x00, 0x40], settings)?;
/// assert!(!wordy.proper && wordy.parts == 0);
/// # Ok::<(), hayro_ccitt::beyond::Fault>(())
/// ```
pub fn check(data: &[u8], settings: impl Into<Settings>) -> Result<Checked, Fault> {
    let settings = settings.into();
    let mut room = Room::first(data);
    let mut rows = library::Rows::default();
    loop {
        let told = library::check(data, &settings, &mut rows, room);
        if room.grow(data, told.answer.number) {
            continue;
        }
        let number = told.answer.number;
        assert!(number != Answer::NO_ENTRY && number != Answer::NO_ROW_END, "there is no memory for the page's rows");
        return Fault::unless_done(&told.answer).map(|()| Checked {
            bytes: told.answer.bytes as usize,
            gave_up: told.gave_up,
            proper: told.proper,
            parts: told.parts,
        });
    }
}
