//! Room for what is read: how much is lent at most, how much a page can need, and how it grows.

use crate::library::Answer;
use crate::settings::Settings;
use alloc::vec::Vec;

/// The most entries and rows that the page form is lent: 16 MiB and 576 KiB, of which a page takes what its rows have.
pub(crate) const MOST: Room = Room { changes: 1 << 22, rows: 1 << 16 };

/// How many changes and rows are held at a time.
#[derive(Clone, Copy, Debug)]
pub(crate) struct Room {
    pub(crate) changes: usize,
    pub(crate) rows: usize,
}

impl Room {
    /// Room for any page of so many bytes, whatever its settings: one change and one row for each bit and one more are proved to be enough (`EntryForEachBit`,
    /// `RoomEnough`).
    pub(crate) fn for_any(data: &[u8]) -> Self {
        Self { changes: bits_and_one(data), rows: bits_and_one(data) }
    }

    /// What is lent at first to a function that looks at all rows at once.
    pub(crate) fn first(data: &[u8]) -> Self {
        let most = Self::for_any(data);
        Self { changes: most.changes.min(MOST.changes), rows: most.rows.min(MOST.rows) }
    }

    /// Whether there is more for a page that had no room, up to what any page of so many bytes can take: then it is twice as much. A reading takes as
    /// long as what it fills, so that all of them together take a few times as long as the last.
    pub(crate) fn grow(&mut self, data: &[u8], number: u32) -> bool {
        let most = Self::for_any(data);
        match number {
            Answer::NO_ENTRY if self.changes < most.changes => self.changes = most.changes.min(2 * self.changes),
            Answer::NO_ROW_END if self.rows < most.rows => self.rows = most.rows.min(2 * self.rows),
            _ => return false,
        }
        true
    }
}

/// A page has at most one change for each bit and one more, which is proved, and at most `columns` in each of its rows.
pub(crate) fn changes_of(data: &[u8], settings: &Settings) -> usize {
    let page = match settings.settings.rows {
        0 => usize::MAX,
        rows => (settings.settings.columns as usize).saturating_mul(rows as usize),
    };
    bits_and_one(data).min(page)
}

/// It has at most one row for each bit and one more, which is proved, and no more than it is to have.
pub(crate) fn rows_of(data: &[u8], settings: &Settings) -> usize {
    match settings.settings.rows {
        0 => bits_and_one(data),
        rows => bits_and_one(data).min(rows as usize),
    }
}

fn bits_and_one(data: &[u8]) -> usize {
    data.len().saturating_mul(8).saturating_add(1)
}

/// The most entries that a line is lent before it needs them: 256 KiB.
pub(crate) const WIDE: usize = 1 << 16;

/// So many entries at least. What it held stays where it was.
pub(crate) fn at_least<T: Clone + Default>(list: &mut Vec<T>, count: usize) {
    if list.len() < count {
        list.resize(count, T::default());
    }
}

/// The entries that a list has at least once it has grown.
const SOME: usize = 16;

/// Twice as many entries. What it held stays where it was.
pub(crate) fn longer<T: Clone + Default>(list: &mut Vec<T>) {
    list.resize((2 * list.len()).max(SOME), T::default());
}
