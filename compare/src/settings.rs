//! The settings of a page.

use std::fmt;

#[derive(Clone, Copy, Debug, PartialEq, Eq, PartialOrd, Ord)]
pub enum Encoding {
    Group4,
    Group3OneD,
    Group3TwoD,
}

impl Encoding {
    /// The library's number for it, which the driver and the replayed sample have too.
    pub fn number(self) -> u32 {
        match self {
            Encoding::Group4 => 0,
            Encoding::Group3OneD => 1,
            Encoding::Group3TwoD => 2,
        }
    }
}

pub const ENCODINGS: [Encoding; 3] = [Encoding::Group4, Encoding::Group3OneD, Encoding::Group3TwoD];

#[derive(Clone, Copy, Debug, PartialEq, Eq)]
pub struct Settings {
    pub encoding: Encoding,
    pub columns: u32,
    pub rows: u32,
    pub end_of_block: bool,
    pub end_of_line: bool,
    pub aligned: bool,
    pub strict: bool,
}

impl Settings {
    /// Of one line, or of a writer: only the width and strictness are read.
    pub fn of_line(columns: u32, strict: bool) -> Self {
        Settings { encoding: Encoding::Group4, columns, rows: 0, end_of_block: false, end_of_line: false, aligned: false, strict }
    }
}

impl fmt::Display for Settings {
    fn fmt(&self, f: &mut fmt::Formatter<'_>) -> fmt::Result {
        write!(f, "{:?}, columns {}, rows {}", self.encoding, self.columns, self.rows)?;
        for (set, name) in [
            (self.end_of_block, "end_of_block"),
            (self.end_of_line, "end_of_line"),
            (self.aligned, "rows_are_byte_aligned"),
            (self.strict, "strict"),
        ] {
            if set {
                write!(f, ", {name}")?;
            }
        }
        Ok(())
    }
}
