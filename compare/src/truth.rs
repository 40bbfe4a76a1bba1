//! What the answer must be: what the crate gives, under document 01's rules of the row store.

use crate::call::{Answer, Room, with_zeros};
use crate::copies::{number_of, settings_of};
use crate::settings::Settings;
use std::iter::once;

/// Limit 7, in bytes.
pub const LIMIT: usize = 4_294_967_296;

/// What a reader does with room enough.
#[derive(Clone, Debug, PartialEq, Eq)]
pub struct Outcome {
    pub number: u32,
    /// The bit at which the failing code began.
    pub place: u64,
    pub bytes: u64,
    /// The changes of every row, those of the unfinished row behind them.
    pub changes: Vec<u32>,
    /// Where each whole row ends among them.
    pub ends: Vec<u32>,
    /// And its mark: 0 clean, 1 cut, 2 recovered.
    pub marks: Vec<u8>,
    /// The first code that an exact reading refuses (A12).
    pub idle: Option<Idle>,
    /// The units that were read (A9), as the copy counts them.
    pub units: u64,
}

/// An idle code: the bit of its mode code, and what was read before it.
#[derive(Clone, Copy, Debug, PartialEq, Eq)]
pub struct Idle {
    pub place: u64,
    pub rows: usize,
    /// The changes of its own row alone.
    pub changes: usize,
    /// The units up to it, its own among them.
    pub units: u64,
}

impl Idle {
    pub fn of_open_crate((bit, rows, changes, units): (usize, u32, usize, u64)) -> Self {
        Idle { place: bit as u64, rows: rows as usize, changes, units }
    }
}

/// What must come back from one call: the answer, and what the lent arrays begin with. Everything
/// behind that keeps its value.
#[derive(Clone, Debug, PartialEq, Eq)]
pub struct Wanted {
    pub answer: Answer,
    pub changes: Vec<u32>,
    pub ends: Vec<u32>,
    pub marks: Vec<u8>,
    /// A writer's whole output, if it is not to stay as it was.
    pub out: Option<Vec<u8>>,
}

impl Wanted {
    /// An answer that leaves everything as it was.
    pub fn untouched(answer: Answer) -> Self {
        Wanted { answer, changes: Vec::new(), ends: Vec::new(), marks: Vec::new(), out: None }
    }
}

impl Outcome {
    /// An answer that leaves everything as it was.
    pub fn bare(number: u32, place: u64) -> Self {
        Outcome { number, place, bytes: 0, changes: Vec::new(), ends: Vec::new(), marks: Vec::new(), idle: None, units: 0 }
    }

    /// A page: tests 6 and 7, then what the crate gives.
    pub fn of_page(settings: &Settings, src: &[u8], tail: usize) -> Self {
        if settings.columns == u32::MAX {
            return Self::bare(6, 0);
        }
        if src.len() + tail > LIMIT {
            return Self::bare(7, 0);
        }
        if tail == 0 {
            return Self::of_crate(settings, src);
        }
        Self::of_crate(settings, &with_zeros(0, src, tail))
    }

    /// A page read exactly.
    pub fn of_exact_page(settings: &Settings, src: &[u8], tail: usize) -> Self {
        Self::of_page(&Settings { strict: true, ..*settings }, src, tail).exactly(settings)
    }

    /// What an exact reading gives, from the strict one, which it implies: the first idle code answers 1, and a page that is
    /// done with fewer rows than it is to have 14. Columns 0 still answers 0.
    pub fn exactly(self, settings: &Settings) -> Self {
        if let Some(idle) = self.idle {
            let base = if idle.rows == 0 { 0 } else { self.ends[idle.rows - 1] as usize };
            return Outcome {
                changes: self.changes[..base + idle.changes].to_vec(),
                ends: self.ends[..idle.rows].to_vec(),
                marks: self.marks[..idle.rows].to_vec(),
                units: idle.units,
                ..Self::bare(1, idle.place)
            };
        }
        if self.number == 0 && settings.columns != 0 && self.ends.len() < settings.rows as usize {
            return Outcome { number: 14, bytes: 0, ..self };
        }
        self
    }

    fn of_crate(settings: &Settings, src: &[u8]) -> Self {
        let mut sink = Sink::default();
        let mut context = hayro_ccitt::DecoderContext::new(settings_of!(hayro_ccitt, settings));
        let (number, bytes) =
            hayro_ccitt::decode(src, &mut sink, &mut context).map_or_else(|error| (number_of!(hayro_ccitt, error), 0), |bytes| (0, bytes));
        Self::of_open_crate(settings, src, number, bytes, sink)
    }

    /// The crate hands out no unfinished row and no place, marks no row and tells no idle code, so the copy that does is asked again. It must
    /// agree with the crate in everything else.
    fn of_open_crate(settings: &Settings, src: &[u8], number: u32, bytes: usize, sink: Sink) -> Self {
        let mut again = Sink::default();
        let mut context = hayro_ccitt_open::DecoderContext::new(settings_of!(hayro_ccitt_open, settings));
        hayro_ccitt_open::place::take_units();
        let told = hayro_ccitt_open::decode(src, &mut again, &mut context)
            .map_or_else(|error| (number_of!(hayro_ccitt_open, error), 0), |bytes| (0, bytes));
        assert!(told == (number, bytes) && again == sink, "the opened copy is not the crate");
        let mut changes = sink.changes;
        let mut place = 0;
        if number != 0 {
            changes.extend_from_slice(context.unfinished());
            place = hayro_ccitt_open::place::last() as u64;
        }
        let idle = context.idle().map(Idle::of_open_crate);
        let units = hayro_ccitt_open::place::take_units();
        Outcome { number, place, bytes: bytes as u64, changes, ends: sink.ends, marks: context.marks().to_vec(), idle, units }
    }

    /// One line: tests 6, 7 and 8, a start past the data, then what the crate's reading of a line gives.
    /// A line read whole is one row, and the bit after it stands for the bytes.
    pub fn of_line(columns: u32, strict: bool, src: &[u8], tail: usize, at: u64, reference: &[u32]) -> Self {
        if columns == 0 || columns == u32::MAX {
            return Self::bare(6, 0);
        }
        if src.len() + tail > LIMIT {
            return Self::bare(7, 0);
        }
        if !ascends_below(reference, columns) {
            return Self::bare(8, 0);
        }
        let end = 8 * (src.len() + tail) as u64;
        if at > end {
            return Self::bare(2, end);
        }
        if tail > 0 {
            return Self::of_line(columns, strict, &with_zeros(0, src, tail), 0, at, reference);
        }
        let mut context = hayro_ccitt_open::DecoderContext::new(settings_of!(hayro_ccitt_open, Settings::of_line(columns, strict)));
        let result = context.read_line(src, at as usize, reference);
        let (changes, idle) = (context.unfinished().to_vec(), context.idle().map(Idle::of_open_crate));
        match result {
            Ok(bit) => {
                let (ends, marks) = (vec![changes.len() as u32], vec![context.mark()]);
                Outcome { number: 0, place: 0, bytes: bit as u64, changes, ends, marks, idle, units: 0 }
            }
            Err(error) => {
                Outcome { changes, idle, ..Self::bare(number_of!(hayro_ccitt_open, error), hayro_ccitt_open::place::last() as u64) }
            }
        }
    }

    /// What a page gives within the room that is lent. Changes are recorded one after the other and
    /// never taken back, so the first one without an entry, or the first row without a place for its end and its mark, decides.
    pub fn page_within(&self, room: Room) -> Wanted {
        let Room::Rows { changes, ends, marks } = room else { unreachable!("a reader is lent rows") };
        let mut base = 0;
        for (row, end) in self.ends.iter().map(|&end| end as usize).enumerate() {
            if end > changes {
                return self.stopped(4, row, base, changes);
            }
            if row == ends.min(marks) {
                return self.stopped(5, row, base, end);
            }
            base = end;
        }
        if self.changes.len() > changes {
            return self.stopped(4, self.ends.len(), base, changes);
        }
        self.stopped(self.number, self.ends.len(), base, self.changes.len())
    }

    /// What a page gives that is read a row at a time into two arrays of so many entries, in turn (A1): the first row, or unfinished row, that
    /// has more changes than the array it goes to is 4. There is no 5.
    pub fn by_rows(&self, (first, second): (usize, usize)) -> Wanted {
        let mut base = 0;
        let last = self.changes.len();
        for (row, end) in self.ends.iter().map(|&end| end as usize).chain(once(last)).enumerate() {
            let room = if row % 2 == 0 { first } else { second };
            if end - base > room {
                return self.stopped(4, row, base, base + room);
            }
            if row < self.ends.len() {
                base = end;
            }
        }
        self.stopped(self.number, self.ends.len(), base, last)
    }

    /// The longest row that each of two arrays holds in turn, the unfinished one among them.
    pub fn longest(&self) -> (usize, usize) {
        let loose = &self.changes[self.ends.last().map_or(0, |&end| end as usize)..];
        let lengths: Vec<usize> = self.rows().chain(once(loose)).map(<[u32]>::len).collect();
        let longest = |from: usize| lengths.iter().skip(from).step_by(2).copied().max().unwrap_or(0);
        (longest(0), longest(1))
    }

    /// A line has no row ends and its mark in the answer, so it can't run out of places.
    pub fn line_within(&self, room: Room) -> Wanted {
        let Room::Rows { changes, .. } = room else { unreachable!("a reader is lent rows") };
        let mut wanted = self.page_within(Room::Rows { changes, ends: 1, marks: 1 });
        wanted.answer.mark = wanted.marks.first().copied().map_or(0, u32::from);
        wanted.ends.clear();
        wanted.marks.clear();
        wanted
    }

    /// The answer after so many rows, with the entries up to `written` in the array. Only 1, 2 and 3, which are the crate's own, have a place.
    fn stopped(&self, number: u32, rows: usize, entries: usize, written: usize) -> Wanted {
        Wanted {
            answer: Answer {
                number,
                mark: 0,
                rows: rows as u64,
                entries: entries as u64,
                loose: (written - entries) as u64,
                bytes: if number == 0 { self.bytes } else { 0 },
                place: if number == self.number { self.place } else { 0 },
            },
            changes: self.changes[..written].to_vec(),
            ends: self.ends[..rows].to_vec(),
            marks: self.marks[..rows].to_vec(),
            out: None,
        }
    }

    /// The whole rows, one by one.
    pub fn rows(&self) -> impl Iterator<Item = &[u32]> {
        let starts = once(0).chain(self.ends.iter().map(|&end| end as usize));
        starts.zip(&self.ends).map(|(start, &end)| &self.changes[start..end as usize])
    }
}

/// What a state is answered that no call left (A1, A9): 8, behind 6 and 7.
#[cfg(any(feature = "linked", test))]
pub fn refusal_of_a_state(settings: &Settings, src: &[u8]) -> u32 {
    if settings.columns == u32::MAX {
        6
    } else if src.len() > LIMIT {
        7
    } else {
        8
    }
}

/// Whether a list ascends strictly and stays below the width.
pub fn ascends_below(list: &[u32], width: u32) -> bool {
    list.windows(2).all(|two| two[0] < two[1]) && list.last().is_none_or(|&last| last < width)
}

/// The crate's rows, one after the other.
#[derive(Default, PartialEq, Eq)]
pub struct Sink {
    pub changes: Vec<u32>,
    pub ends: Vec<u32>,
}

impl Sink {
    pub fn push(&mut self, row: &[u32]) {
        self.changes.extend_from_slice(row);
        self.ends.push(self.changes.len() as u32);
    }
}

impl hayro_ccitt::Decoder for Sink {
    fn push_row(&mut self, changes: &[u32]) {
        self.push(changes);
    }
}

impl hayro_ccitt_open::Decoder for Sink {
    fn push_row(&mut self, changes: &[u32]) {
        self.push(changes);
    }
}
