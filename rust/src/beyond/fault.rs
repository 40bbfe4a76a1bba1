use crate::error::DecodeError;
use crate::library::Answer;
use core::fmt::{self, Display, Formatter};

/// Why something was not read, not written, or not counted.
#[derive(Copy, Clone, Debug, PartialEq, Eq)]
#[non_exhaustive]
pub enum Fault {
    /// A code is not one, or is not there.
    Code {
        /// What the crate says of it.
        error: DecodeError,
        /// The bit of the data at which the failing code begins, counted from 0, or the number of bits for the end of the data.
        bit: u64,
    },
    /// An exact page has fewer rows than it is to have.
    TooFewRows,
    /// 4,294,967,295 columns, or, for a line and for a writer, none.
    Columns,
    /// More than 4,294,967,296 bytes of data or of output.
    TooLong,
    /// A row or a reference that does not ascend strictly below the columns.
    NotARow,
    /// A Group 3 page of no rows, which is not to be written.
    NoRows,
    /// More than 64 zeros of fill, or a K of 0 or above 65,535.
    Layout,
    /// A line that is to begin behind the end of the output.
    Start,
    /// Packed rows whose stride is shorter than a row, or that pass their bytes.
    Bitmap,
    /// A form with edges out of order, a tick of no pixels, or a quota outside −1,000,000 to 1,000,000.
    Form,
    /// Not exactly one tick in a column of a form.
    Ticks,
    /// A box of a form holds a pixel of a row that was not read clean.
    Mended,
    /// Bytes are left behind the page of a form: a second page?
    BytesBehind {
        /// How many.
        count: u64,
    },
    /// The page of a form has other rows than it is to have.
    OtherRows {
        /// How many it has.
        count: u64,
        /// How many it is to have.
        rows: u32,
    },
}

impl Fault {
    /// The fault that an answer of the library tells, if it is one.
    pub(crate) fn unless_done(answer: &Answer) -> Result<(), Self> {
        Self::of(answer.number, answer.place).map_or(Ok(()), Err)
    }

    /// The fault of a number, with its place. Answers 4, 5, 9 and 15 are none: more room is then lent, or the next row read.
    pub(crate) fn of(number: u32, place: u64) -> Option<Self> {
        let code = |error| Self::Code { error, bit: place };
        Some(match number {
            Answer::COMPLETE => return None,
            Answer::INVALID_CODE => code(DecodeError::InvalidCode),
            Answer::UNEXPECTED_EOF => code(DecodeError::UnexpectedEof),
            Answer::OVERFLOW => code(DecodeError::Overflow),
            Answer::BAD_WIDTH => Self::Columns,
            Answer::TOO_LONG => Self::TooLong,
            Answer::BAD_ROWS => Self::NotARow,
            Answer::BAD_NUMBER => Self::Layout,
            Answer::BAD_FORM => Self::Form,
            Answer::NOT_ONE_TICK => Self::Ticks,
            Answer::MENDED_ROW => Self::Mended,
            Answer::TOO_FEW_ROWS => Self::TooFewRows,
            _ => unreachable!("the library answers {number}"),
        })
    }
}

impl Display for Fault {
    fn fmt(&self, f: &mut Formatter<'_>) -> fmt::Result {
        match self {
            Self::Code { error, bit } => write!(f, "{error} at bit {bit}"),
            Self::TooFewRows => write!(f, "fewer rows than the page is to have"),
            Self::Columns => write!(f, "a number of columns that is not supported"),
            Self::TooLong => write!(f, "more than 4294967296 bytes"),
            Self::NotARow => write!(f, "a row that does not ascend strictly below the columns"),
            Self::NoRows => write!(f, "a Group 3 page of no rows"),
            Self::Layout => write!(f, "more than 64 zeros of fill, or a K that is not from 1 to 65535"),
            Self::Start => write!(f, "a line that begins behind the end of the output"),
            Self::Bitmap => write!(f, "packed rows with a stride that is too short, or that pass their bytes"),
            Self::Form => write!(f, "a form whose edges, least count or quota are out of order"),
            Self::Ticks => write!(f, "not exactly one tick in a column of the form"),
            Self::Mended => write!(f, "a box of the form over a row that was not read clean"),
            Self::BytesBehind { count } => write!(f, "bytes behind the page: {count}; a second page?"),
            Self::OtherRows { count, rows } => write!(f, "the page has {count} rows, and the form's page has {rows}"),
        }
    }
}

impl core::error::Error for Fault {}
