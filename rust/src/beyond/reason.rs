use super::fault::Fault;
use super::form_fault::{BoxColumn, BoxName, FormFault};
use crate::library::{Answer, VerdictAnswer};
use crate::row::Mark;
use core::fmt::{self, Display, Formatter};

/// Why a page is not counted. Rows are counted from 1, and so are the form's lines.
#[derive(Copy, Clone, Debug, PartialEq, Eq)]
#[non_exhaustive]
pub enum Reason {
    /// What is wrong with the form (32 to 41): no page is counted by it.
    Form(FormFault),
    /// It was not read to its end (1, 2, 3, 6, 7, 14).
    Unread {
        /// Why not.
        fault: Fault,
        /// The row behind those that were read.
        row: u64,
    },
    /// There is no memory for its changes (4) or its rows (5).
    NoMemory,
    /// A column of the form has not one tick (12).
    NotOneTick {
        /// The first such column.
        column: BoxColumn,
        /// Its ticks.
        count: u64,
    },
    /// A box touches a row that was not read clean (13).
    MendedRow {
        /// The first such box.
        tick_box: BoxName,
        /// Its first such row.
        row: u64,
        /// How that was read.
        mark: Mark,
    },
    /// It was read with other columns than the form's (16).
    OtherColumns {
        /// Those that it was read with.
        columns: u64,
        /// The form's.
        form: u64,
    },
    /// Bytes are left behind the page (17): a second page?
    BytesBehind {
        /// How many.
        count: u64,
    },
    /// It has other rows than the form says (18).
    OtherRows {
        /// How many it has.
        count: u64,
        /// The fewest that the form says.
        least: u64,
        /// The most.
        most: u64,
    },
    /// A row that the form rests on was not read clean (19).
    UncleanRow {
        /// The first such row.
        row: u64,
        /// How it was read.
        mark: Mark,
    },
    /// A place that must be black is not (20).
    NotBlack {
        /// The form's line that says it.
        line: u32,
        /// Its black pixels.
        count: u64,
        /// How many it must have at least.
        least: u64,
    },
    /// A place that must be white is not (21).
    NotWhite {
        /// The form's line that says it.
        line: u32,
        /// Its black pixels.
        count: u64,
        /// How many it may have at most.
        most: u64,
    },
    /// A box has too many black pixels for none and too few for a tick (22).
    InDoubt {
        /// The first such box.
        tick_box: BoxName,
        /// Its black pixels.
        count: u64,
        /// From how many on the form has it in doubt.
        doubt: u64,
        /// From how many on it is ticked.
        tick: u64,
    },
    /// End-of-line marks were expected, and none was left before the page's end (23): its rows hang on all of its bytes.
    GaveUp,
    /// The form asks for proper pages, and the page's bits are not those that a writer writes for its rows (24).
    NotProper {
        /// The first bit at which they part.
        place: u64,
    },
    /// A form with a shift fits at two places of the page, and they read other heads (25).
    OtherTicks {
        /// The heads at the first.
        heads: u64,
        /// And at the other.
        other: u64,
    },
    /// A number that has no case here. It stands beside the reason.
    Other,
}

impl Reason {
    /// Of an answer that is not 0.
    pub(crate) fn of(answer: &VerdictAnswer) -> Self {
        let &VerdictAnswer { number, which, line, place, row, count, least, most, .. } = answer;
        match number {
            Answer::INVALID_CODE
            | Answer::UNEXPECTED_EOF
            | Answer::OVERFLOW
            | Answer::BAD_WIDTH
            | Answer::TOO_LONG
            | Answer::TOO_FEW_ROWS => Fault::of(number, place).map_or(Self::Other, |fault| Self::Unread { fault, row }),
            Answer::NO_ENTRY | Answer::NO_ROW_END => Self::NoMemory,
            Answer::NOT_ONE_TICK => Self::NotOneTick { column: BoxColumn::of(which), count },
            Answer::MENDED_ROW => Self::MendedRow { tick_box: BoxName::of(which), row, mark: Mark::of(count as u32) },
            VerdictAnswer::OTHER_COLUMNS => Self::OtherColumns { columns: count, form: least },
            VerdictAnswer::BYTES_BEHIND => Self::BytesBehind { count },
            VerdictAnswer::OTHER_ROWS => Self::OtherRows { count, least, most },
            VerdictAnswer::UNCLEAN_ROW => Self::UncleanRow { row, mark: Mark::of(count as u32) },
            VerdictAnswer::NOT_BLACK => Self::NotBlack { line, count, least },
            VerdictAnswer::NOT_WHITE => Self::NotWhite { line, count, most },
            VerdictAnswer::IN_DOUBT => Self::InDoubt { tick_box: BoxName::of(which), count, doubt: least, tick: most },
            VerdictAnswer::GAVE_UP => Self::GaveUp,
            VerdictAnswer::NOT_PROPER => Self::NotProper { place: count },
            VerdictAnswer::OTHER_TICKS => Self::OtherTicks { heads: least, other: most },
            _ => FormFault::of(answer).map_or(Self::Other, Self::Form),
        }
    }
}

/// In the words of the desk's lines (crates/ledger); a fault has its own.
impl Display for Reason {
    fn fmt(&self, f: &mut Formatter<'_>) -> fmt::Result {
        match self {
            Self::Form(fault) => write!(f, "{fault}"),
            Self::Unread { fault: fault @ Fault::Code { .. }, row } => write!(f, "{fault}, in row {row}"),
            Self::Unread { fault, .. } => write!(f, "{fault}"),
            Self::NoMemory => write!(f, "more changes of colour or rows than there is memory for"),
            Self::NotOneTick { column, count: 0 } => write!(f, "the {column} column has no tick"),
            Self::NotOneTick { column, count } => write!(f, "the {column} column has {count} ticks"),
            Self::MendedRow { tick_box, row, mark } => write!(f, "the box of {tick_box} touches row {row}, which was {}", read(*mark)),
            Self::OtherColumns { columns, form } => {
                write!(f, "the page is read {columns} columns wide, and the form's page is {form} wide")
            }
            Self::BytesBehind { count } => write!(f, "bytes behind the page: {count}; a second page?"),
            Self::OtherRows { count, least, most } if least == most => {
                write!(f, "the page has {count} rows, and the form's page has {least}")
            }
            Self::OtherRows { count, least, most } => write!(f, "the page has {count} rows, and the form's page has {least} to {most}"),
            Self::UncleanRow { row, mark } => write!(f, "row {row} was {}, and the form rests on it", read(*mark)),
            Self::NotBlack { line, count, least } => {
                write!(f, "the place of the form's line {line} has {count} black pixels, and must have {least} or more")
            }
            Self::NotWhite { line, count, most } => {
                write!(f, "the place of the form's line {line} has {count} black pixels, and may have {most} at most")
            }
            Self::InDoubt { tick_box, count, doubt, tick } => {
                write!(f, "the box of {tick_box} has {count} black pixels: in doubt from {doubt} on, ticked from {tick} on")
            }
            Self::GaveUp => write!(f, "the page's end-of-line marks stop before its end"),
            Self::NotProper { place } => {
                write!(f, "the page's bits are not those that a writer writes for its rows: they part at bit {place}")
            }
            Self::OtherTicks { heads, other } => {
                write!(f, "the form fits at two places of the page, and they read other heads: {heads} and {other}")
            }
            Self::Other => write!(f, "a number that has no words here"),
        }
    }
}

fn read(mark: Mark) -> &'static str {
    match mark {
        Mark::Clean => "read clean",
        Mark::Cut => "cut to the width",
        Mark::Recovered => "recovered",
    }
}

#[cfg(test)]
mod tests {
    use super::*;

    /// Whatever number a library answers, there is a reason, and it has words.
    #[test]
    fn no_number_panics() {
        for number in (1..100).chain([u32::MAX]) {
            for which in [0, 19, 20, 21, 22, u32::MAX] {
                let reason = Reason::of(&VerdictAnswer { number, which, count: u64::MAX, ..VerdictAnswer::default() });
                assert!(!alloc::format!("{reason}").is_empty());
                let has_none = matches!(number, 8..=11 | 15 | 26..=31 | 39 | 42..);
                assert_eq!(reason == Reason::Other, has_none, "{number}");
            }
        }
    }
}
