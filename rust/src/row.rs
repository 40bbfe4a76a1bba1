//! A row as it is handed over, and how it was read.

/// How a row was read.
#[derive(Copy, Clone, Debug, PartialEq, Eq)]
pub enum Mark {
    /// As it was written.
    Clean,
    /// With more pixels than the page is wide, and cut to the width. Lenient reading alone does that.
    Cut,
    /// With a fault: it is white from there on. Lenient Group 3 reading alone does that, and goes on at the next end-of-line marker.
    Recovered,
}

impl Mark {
    /// Of the library's number.
    pub(crate) fn of(number: u32) -> Self {
        match number {
            0 => Self::Clean,
            1 => Self::Cut,
            _ => Self::Recovered,
        }
    }

    /// The library's number.
    pub(crate) fn number(self) -> u8 {
        match self {
            Self::Clean => 0,
            Self::Cut => 1,
            Self::Recovered => 2,
        }
    }
}

/// A row as it is handed over.
#[derive(Copy, Clone, Debug, PartialEq, Eq)]
pub struct Row<'a> {
    /// The positions at which the color changes, as [`Decoder::push_row`](crate::Decoder::push_row) has them.
    pub changes: &'a [u32],
    /// How it was read.
    pub mark: Mark,
}
