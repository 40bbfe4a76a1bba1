use super::fault::Fault;
use crate::library::{self, Answer};
use crate::room::{MOST, changes_of, longer, rows_of};
use crate::row::{Mark, Row};
use crate::settings::Settings;
use alloc::vec;
use core::num::NonZeroU64;

/// A Group 4 page that is read a little at a time, so that no call takes long.
///
/// A unit is one mode code, one make-up code, one terminating code or one EOL, and a code that fails is one too. Each call takes the smaller of its number
/// and the units that the page has left, and may stop inside a row. Whatever the numbers are, rows, marks, bytes and faults are by proof those of
/// [`read_page`](super::read_page). The page is a Group 4 page, whatever the encoding of the settings says.
///
/// Two things are not bounded by a call's number: the zeros of fill before an EOL, and the copying of rows where they need more memory than there was room
/// for. A whole page takes less time by [`read_page`](super::read_page).
///
/// ```
/// use core::num::NonZeroU64;
/// use hayro_ccitt::beyond::{Mark, Turn, Units};
/// use hayro_ccitt::{DecodeSettings, EncodingMode};
///
/// let settings = DecodeSettings {
///     columns: 8,
///     rows: 0,
///     end_of_block: true,
///     end_of_line: false,
///     rows_are_byte_aligned: false,
///     encoding: EncodingMode::Group4,
///     strict: true,
/// };
/// // horizontal, 3 white, 2 black, V0; three times V0; two EOLs: nine units, four of them a call
/// let mut page = Units::new(&[0x31, 0xF8, 0x00, 0x80, 0x08], settings);
/// let four = NonZeroU64::new(4).unwrap();
/// assert_eq!(page.read(four), Turn { units: 4, more: true });
/// assert_eq!((page.rows().len(), page.end()), (1, None));
/// assert_eq!(page.read(four), Turn { units: 4, more: true });
/// assert_eq!(page.read(four), Turn { units: 1, more: false });
/// assert_eq!(page.end(), Some(Ok(5)));
/// assert!(page.rows().len() == 2 && page.rows().all(|row| row.changes == [3, 5] && row.mark == Mark::Clean));
/// ```
pub struct Units<'a> {
    data: &'a [u8],
    settings: Settings,
    /// The library's sixteen numbers.
    state: [u64; 16],
    /// Its vectors have as many entries as there is room for.
    store: library::Rows,
    /// How many of them are kept rows and their changes, and how many changes an unfinished row has.
    kept: (usize, usize, usize),
    end: Option<Result<usize, Fault>>,
}

/// What a call did.
#[derive(Copy, Clone, Debug, PartialEq, Eq)]
pub struct Turn {
    /// The units that it took: as many as it was to take, unless the page ended with fewer. None where the page had ended before.
    pub units: u64,
    /// Whether the page has units left.
    pub more: bool,
}

impl<'a> Units<'a> {
    /// Begins a page. Nothing is read yet. There is room for any page of so many bytes, `rows` and `columns`, up to 16.6 MiB, of which a page takes what its
    /// rows have; where it has more the room grows.
    pub fn new(data: &'a [u8], settings: impl Into<Settings>) -> Self {
        Self::with_room(data, settings, MOST.changes, MOST.rows)
    }

    /// Begins a page with room for so many changes and rows at first, or for as many as it may have, if that is less.
    pub fn with_room(data: &'a [u8], settings: impl Into<Settings>, changes: usize, rows: usize) -> Self {
        let settings = settings.into();
        let (changes, rows) = (changes.min(changes_of(data, &settings)), rows.min(rows_of(data, &settings)));
        let store = library::Rows { changes: vec![0; changes], ends: vec![0; rows], marks: vec![0; rows] };
        Self { data, settings, state: [0; 16], store, kept: (0, 0, 0), end: None }
    }

    /// Takes the next units, at most `n`. A page of no units ends with the first call; after the end nothing is done.
    pub fn read(&mut self, n: NonZeroU64) -> Turn {
        if self.end.is_some() {
            return Turn { units: 0, more: false };
        }
        let library::UnitAnswer { answer, units } = self.take(n.get());
        self.kept = (answer.rows as usize, answer.entries as usize, answer.loose as usize);
        let more = answer.number == Answer::MORE_TO_COME;
        self.end = (!more).then(|| Fault::unless_done(&answer).map(|()| answer.bytes as usize));
        Turn { units, more }
    }

    /// One call; 4 and 5 are never answered. Units that need more room are taken again, from the state before them: what was read before lies where it lay.
    fn take(&mut self, n: u64) -> library::UnitAnswer {
        loop {
            let before = self.state;
            let turn = library::read_units(self.data, &self.settings, &mut self.store, &mut self.state, n);
            if !self.grown(&turn.answer) {
                return turn;
            }
            self.state = before;
        }
    }

    /// Makes more room, if an answer asks for it.
    fn grown(&mut self, answer: &Answer) -> bool {
        match answer.number {
            Answer::NO_ENTRY => longer(&mut self.store.changes),
            Answer::NO_ROW_END => {
                longer(&mut self.store.ends);
                longer(&mut self.store.marks);
            }
            _ => return false,
        }
        true
    }

    /// How the page ended, once it has: the bytes that have been read in total, or why it was not read to its end, and where.
    pub fn end(&self) -> Option<Result<usize, Fault>> {
        self.end
    }

    /// The rows that are complete so far.
    pub fn rows(&self) -> impl ExactSizeIterator<Item = Row<'_>> {
        let (changes, ends, marks) = (&self.store.changes, &self.store.ends, &self.store.marks);
        (0..self.kept.0).map(move |row| {
            let start = row.checked_sub(1).map_or(0, |above| ends[above]);
            Row { changes: &changes[start as usize..ends[row] as usize], mark: Mark::of(marks[row].into()) }
        })
    }

    /// What the row that is being read has so far: after a fault, what it has up to there.
    pub fn unfinished(&self) -> &[u32] {
        let (_, entries, loose) = self.kept;
        &self.store.changes[entries..entries + loose]
    }
}
