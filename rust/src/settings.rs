//! How a page is read: the crate's settings, and those of `beyond`.

/// Settings to apply during decoding.
#[derive(Copy, Clone, Debug)]
pub struct DecodeSettings {
    /// How many columns the image has (i.e. its width).
    pub columns: u32,
    /// How many rows the image has (i.e. its height).
    ///
    /// In case `end_of_block` has been set to true, decoding will run until
    /// the given number of rows have been decoded, or the `end_of_block` marker
    /// has been encountered, whichever occurs first.
    ///
    /// If set to 0, decoding runs until the end-of-block marker or the end of the data.
    pub rows: u32,
    /// Whether the stream _MAY_ contain an end-of-block marker
    /// (It doesn't have to. In that case this is set to `true` but there are
    /// no end-of-block markers, the value of `rows` will still be used
    /// to determine when to stop decoding).
    pub end_of_block: bool,
    /// Whether the stream contains end-of-line markers.
    pub end_of_line: bool,
    /// Whether the data in the stream for each row is aligned to the byte
    /// boundary.
    pub rows_are_byte_aligned: bool,
    /// The encoding mode used by the image.
    pub encoding: EncodingMode,
    /// Whether to reject data that violates the specification, instead of
    /// decoding it as well as possible.
    pub strict: bool,
}

/// The encoding mode for CCITT fax decoding.
#[derive(Copy, Clone, Debug, PartialEq, Eq)]
pub enum EncodingMode {
    /// Group 4 (MMR).
    Group4,
    /// Group 3 1D (MH).
    Group3_1D,
    /// Group 3 2D (MR).
    Group3_2D,
}

/// How a page is read: the crate's settings, and two more.
#[derive(Copy, Clone, Debug)]
pub struct Settings {
    /// The crate's settings.
    pub settings: DecodeSettings,
    /// Stricter still than `strict`, which it implies: refuse codes that move nothing, and a page where rows are missing.
    ///
    /// Such codes are a vertical move to the position that it starts from, other than the line's first code moving to 0, and a horizontal code with two
    /// zero runs; they are [`InvalidCode`](crate::DecodeError::InvalidCode). A page that ends with fewer rows than `rows`, if that is not 0, is
    /// [`Fault::TooFewRows`](crate::beyond::Fault::TooFewRows); its rows are handed over all the same.
    pub exact: bool,
    /// Read runs bit by bit from the code tables, without the lookup: slower, and by proof everything that it gives is the same.
    pub plain: bool,
}

impl From<DecodeSettings> for Settings {
    /// As the crate reads: not exactly, and by the lookup.
    fn from(settings: DecodeSettings) -> Self {
        Self { settings, exact: false, plain: false }
    }
}
