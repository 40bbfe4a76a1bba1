use crate::library::Answer;
use crate::page::Memory;
use crate::room::{MOST, Room};
use crate::settings::{DecodeSettings, Settings};

/// A reusable context for decoding CCITT images.
pub struct DecoderContext {
    /// The settings to apply during decoding.
    pub(crate) settings: DecodeSettings,
    /// How many changes and rows are held at a time.
    room: Room,
    /// The memory that rows are read into.
    memory: Memory,
}

impl DecoderContext {
    /// Creates a new decoder context using the provided decode settings.
    pub fn new(settings: DecodeSettings) -> Self {
        Self { settings, room: MOST, memory: Memory::default() }
    }

    /// Creates a context that holds at most so many changes and rows at a time, in addition to two lines. (The crate has no such function.)
    ///
    /// A context of [`new`](Self::new) takes 4 bytes for each change of a page and 9 for each row, and keeps them for the next page, up to 16.6 MiB. A page
    /// that has more is read all the same, and so is any page here; what is beyond the room is read more slowly, a row at a time.
    ///
    /// ```
    /// use hayro_ccitt::{DecodeSettings, Decoder, DecoderContext, EncodingMode, decode};
    ///
    /// struct Count(usize);
    ///
    /// impl Decoder for Count {
    ///     fn push_row(&mut self, _: &[u32]) {
    ///         self.0 += 1;
    ///     }
    /// }
    ///
    /// let settings = DecodeSettings {
    ///     columns: 8,
    ///     rows: 0,
    ///     end_of_block: false,
    ///     end_of_line: false,
    ///     rows_are_byte_aligned: false,
    ///     encoding: EncodingMode::Group4,
    ///     strict: true,
    /// };
    /// // a white row for each bit, none of them held
    /// let mut count = Count(0);
    /// assert_eq!(decode(&[0xFF; 100], &mut count, &mut DecoderContext::with_room(settings, 0, 0)), Ok(100));
    /// assert_eq!(count.0, 800);
    /// ```
    pub fn with_room(settings: DecodeSettings, changes: usize, rows: usize) -> Self {
        Self { room: Room { changes, rows }, ..Self::new(settings) }
    }

    /// Reads a page, and hands over the changes of each of its rows.
    pub(crate) fn read(&mut self, data: &[u8], mut push: impl FnMut(&[u32])) -> Answer {
        let settings = Settings::from(self.settings);
        self.memory.read(data, &settings, self.room, |row| push(row.changes))
    }
}
