use crate::library::VerdictAnswer;
use core::fmt::{self, Display, Formatter};

/// A column of a form's boxes.
#[derive(Copy, Clone, Debug, PartialEq, Eq)]
pub enum BoxColumn {
    /// The boxes for the tens.
    Tens,
    /// The boxes for the units.
    Units,
}

impl BoxColumn {
    /// Of the library's number for it, or for one of its boxes.
    pub(crate) fn of(which: u32) -> Self {
        if which.is_multiple_of(2) { Self::Tens } else { Self::Units }
    }
}

impl Display for BoxColumn {
    fn fmt(&self, f: &mut Formatter<'_>) -> fmt::Result {
        f.write_str(match self {
            Self::Tens => "tens",
            Self::Units => "units",
        })
    }
}

/// A box of a form, by its column and its digit, as its line of the form file has them.
#[derive(Copy, Clone, Debug, PartialEq, Eq)]
pub struct BoxName {
    /// The column that it stands in.
    pub column: BoxColumn,
    /// What a tick in it says.
    pub digit: u32,
}

impl BoxName {
    /// Of the library's number for it.
    pub(crate) fn of(which: u32) -> Self {
        Self { column: BoxColumn::of(which), digit: which / 2 }
    }
}

impl Display for BoxName {
    fn fmt(&self, f: &mut Formatter<'_>) -> fmt::Result {
        write!(f, "{} {}", self.column, self.digit)
    }
}

/// What no line of a form file says, and one must.
#[derive(Copy, Clone, Debug, PartialEq, Eq)]
pub enum Missing {
    /// The page's columns and rows.
    Page,
    /// From how many black pixels on a box is ticked.
    Tick,
    /// Where a box is.
    Box(BoxName),
    /// A place, where the form has a shift and none to find it by.
    Place,
}

/// What is wrong with the text of a form file. Lines are counted from 1.
#[derive(Copy, Clone, Debug, PartialEq, Eq)]
#[non_exhaustive]
pub enum FormFault {
    /// A line is none of a form's (32).
    NoFormLine {
        /// The line.
        line: u32,
    },
    /// A line says what a line above it says (33).
    SaidTwice {
        /// The line.
        line: u32,
    },
    /// A line has numbers out of order (34).
    BadNumbers {
        /// The line.
        line: u32,
    },
    /// A box is in doubt from more black pixels on than it is ticked from (34, of no line).
    DoubtAboveTick,
    /// A line has one place more than the 256 that a form may have (35).
    TooManyPlaces {
        /// The line.
        line: u32,
    },
    /// A line is missing (36).
    MissingLine(Missing),
    /// The box or place of a line lies outside the page (37).
    OutsidePage {
        /// The line.
        line: u32,
    },
    /// The box of a line lies on another (38).
    Overlapping {
        /// The line.
        line: u32,
    },
    /// The text has more than 65,536 bytes (40).
    LongForm,
    /// The page may have one number of rows or another, no place tells that its rows have not slid, and the reading is not exact (41).
    UnfitForm {
        /// The fewest rows that the form says.
        least: u64,
        /// The most.
        most: u64,
    },
}

impl FormFault {
    /// The fault that a verdict tells, if it is one.
    pub(crate) fn of(answer: &VerdictAnswer) -> Option<Self> {
        let &VerdictAnswer { number, which, line, least, most, .. } = answer;
        Some(match number {
            VerdictAnswer::NO_FORM_LINE => Self::NoFormLine { line },
            VerdictAnswer::SAID_TWICE => Self::SaidTwice { line },
            VerdictAnswer::BAD_NUMBERS if line == 0 => Self::DoubtAboveTick,
            VerdictAnswer::BAD_NUMBERS => Self::BadNumbers { line },
            VerdictAnswer::TOO_MANY_PLACES => Self::TooManyPlaces { line },
            VerdictAnswer::MISSING_LINE => Self::MissingLine(match which {
                0..20 => Missing::Box(BoxName::of(which)),
                20 => Missing::Page,
                21 => Missing::Tick,
                _ => Missing::Place,
            }),
            VerdictAnswer::OUTSIDE_PAGE => Self::OutsidePage { line },
            VerdictAnswer::OVERLAPPING => Self::Overlapping { line },
            VerdictAnswer::LONG_FORM => Self::LongForm,
            VerdictAnswer::UNFIT_FORM => Self::UnfitForm { least, most },
            _ => return None,
        })
    }
}

/// In the words of the desk's lines (crates/ledger).
impl Display for FormFault {
    fn fmt(&self, f: &mut Formatter<'_>) -> fmt::Result {
        match self {
            Self::NoFormLine { line } => write!(f, "the form's line {line} is none of a form"),
            Self::SaidTwice { line } => write!(f, "the form's line {line} says what a line above it says"),
            Self::BadNumbers { line } => write!(f, "the form's line {line} has numbers out of order"),
            Self::DoubtAboveTick => write!(f, "the form's doubt is above its tick"),
            Self::TooManyPlaces { line } => write!(f, "the form's line {line} is one place too many"),
            Self::MissingLine(Missing::Page) => write!(f, "the form has no line that says its page"),
            Self::MissingLine(Missing::Tick) => write!(f, "the form has no line that says its tick"),
            Self::MissingLine(Missing::Place) => write!(f, "the form has a shift, and no black or white place to find it by"),
            Self::MissingLine(Missing::Box(name)) => write!(f, "the form has no box of {name}"),
            Self::OutsidePage { line } => write!(f, "the form's line {line} lies outside its page"),
            Self::Overlapping { line } => write!(f, "the form's line {line} overlaps another box"),
            Self::LongForm => write!(f, "a form has at most 65536 bytes"),
            Self::UnfitForm { least, most } => {
                write!(f, "the form has {least} to {most} rows and no black or white place: it serves exact reading alone")
            }
        }
    }
}
