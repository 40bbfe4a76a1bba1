use super::reason::Reason;
use crate::library::{self, VerdictAnswer};
use crate::room::Room;
use crate::settings::Settings;

/// How a page is read for its verdict.
#[derive(Copy, Clone, Debug, Default, PartialEq, Eq)]
pub enum Reading {
    /// Group 3 with end-of-line markers leniently, since one bad line costs one row there and its mark tells it; all else exactly, since damage moves every
    /// row behind it.
    #[default]
    AsTheDesk = 0,
    /// As [`DecodeSettings`](crate::DecodeSettings) without `strict` has it.
    Leniently = 1,
    /// As with `strict`.
    Strictly = 2,
    /// As [`Settings`] with `exact` has it.
    Exactly = 3,
}

/// What comes of a faxed form.
#[derive(Copy, Clone, Debug, PartialEq, Eq)]
#[must_use]
pub enum Verdict {
    /// The page counts.
    Counted {
        /// Ten times the ticked tens digit and the ticked units digit.
        heads: u32,
    },
    /// The page does not count, and someone is to look at it.
    LookAt {
        /// Why, by the number that include/ccitt.h has for it; never 0.
        number: u32,
        /// Why, with what there is to say of it.
        reason: Reason,
    },
}

/// The verdict on a faxed form, from the text of a form file (examples/README.md says what its lines are) and the bytes of the page.
///
/// A page is counted where it was read to its end, as wide and with as many rows as the form says, to its last byte, with every row that the form rests on
/// clean, every place as it must be, no box in doubt, and one tick in each column, where end-of-line marks were not given up, and, if the form says `proper`,
/// its bytes are what a writer writes for its rows. That is proved of the library (`CountedMeans`). Everything else is to be
/// looked at, with the first reason in the order of include/ccitt.h; what is wrong with the form comes first, and no page is read by it.
///
/// Of the settings `columns` may be 0: they are the form's. `strict` and `exact` are not looked at: `reading` says what they would.
///
/// All rows of the page are held in memory, 4 bytes for each change and 9 for each row. There is room for 16.6 MiB of them at first, of which a page takes
/// what its rows have; where it has more the room grows. A page that there is no memory for is to be looked at.
///
/// ```
/// use hayro_ccitt::beyond::{Fault, FormFault, Reading, Reason, Verdict, verdict};
/// use hayro_ccitt::{DecodeError, DecodeSettings, EncodingMode};
///
/// let mut form = String::from("page 1728 400 # columns and rows\ntick 20\ndoubt 6\n");
/// for digit in 0..10 {
///     let (top, bottom) = (78 + 31 * digit, 98 + 31 * digit);
///     form += &format!("tens {digit} 202 224 {top} {bottom}\nunits {digit} 702 724 {top} {bottom}\n");
/// }
/// let settings = DecodeSettings {
///     columns: 0, // the form's
///     rows: 0,
///     end_of_block: true,
///     end_of_line: false,
///     rows_are_byte_aligned: false,
///     encoding: EncodingMode::Group4,
///     strict: true, // not looked at
/// };
/// let page = std::fs::read("../examples/forty.g4")?;
/// let on = |form: &str, page| verdict(form.as_bytes(), page, Reading::AsTheDesk, settings);
/// assert_eq!(on(&form, &page), Verdict::Counted { heads: 40 });
///
/// // cut, it is not counted
/// let Verdict::LookAt { number, reason } = on(&form, &page[..560]) else { panic!("it is cut") };
/// let fault = Fault::Code { error: DecodeError::UnexpectedEof, bit: 4480 };
/// assert_eq!((number, reason), (2, Reason::Unread { fault, row: 206 }));
/// assert_eq!(reason.to_string(), "unexpected end of input at bit 4480, in row 206");
///
/// // nor is any page by a form that says a thing twice
/// let Verdict::LookAt { reason, .. } = on(&(form + "tick 30"), &page) else { panic!("it is no form") };
/// assert_eq!(reason, Reason::Form(FormFault::SaidTwice { line: 24 }));
/// # Ok::<(), std::io::Error>(())
/// ```
pub fn verdict(form: &[u8], data: &[u8], reading: Reading, settings: impl Into<Settings>) -> Verdict {
    let answer = asked(form, data, reading, &settings.into());
    match answer.number {
        VerdictAnswer::COUNTED => Verdict::Counted { heads: answer.heads },
        number => Verdict::LookAt { number, reason: Reason::of(&answer) },
    }
}

/// The library's answer: 4 and 5 only where there is no memory. A page that has no room is read again with more.
fn asked(form: &[u8], data: &[u8], reading: Reading, settings: &Settings) -> VerdictAnswer {
    let mut room = Room::first(data);
    let mut rows = library::Rows::default();
    loop {
        let answer = library::verdict(form, data, reading as u32, settings, &mut rows, room);
        if !room.grow(data, answer.number) {
            return answer;
        }
    }
}
