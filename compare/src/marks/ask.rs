//! Who reads the copies: the library, or who stands in for it; and other decoders beside it.

use super::pages::Written;
use crate::call::Layout;
use crate::settings::Settings;

/// What came of a reading: the answer's number, how many bytes it took, and the rows with their marks. It is lent from copy to copy.
pub struct Store {
    pub number: u32,
    pub bytes: usize,
    pub rows: usize,
    pub changes: Vec<u32>,
    pub ends: Vec<u64>,
    pub marks: Vec<u8>,
}

impl Store {
    /// With room for so many rows of full width.
    pub fn for_rows(rows: usize, width: usize) -> Self {
        Store { number: 0, bytes: 0, rows: 0, changes: vec![0; rows * width], ends: vec![0; rows], marks: vec![0; rows] }
    }

    pub fn row(&self, index: usize) -> &[u32] {
        let begin = if index == 0 { 0 } else { self.ends[index - 1] };
        &self.changes[begin as usize..self.ends[index] as usize]
    }

    pub fn all(&self) -> Vec<&[u32]> {
        (0..self.rows).map(|index| self.row(index)).collect()
    }
}

/// The library, or who stands in for it.
pub trait Library: Sync {
    fn read(&self, settings: &Settings, exact: bool, src: &[u8], store: &mut Store);

    /// The bytes of a page with the rows of the store; none where they are refused.
    fn written(&self, layout: Option<Layout>, columns: u32, store: &Store) -> Option<Vec<u8>>;
}

/// A row as another decoder gave it, and whether it said a word about it.
pub struct OtherRow {
    pub packed: Vec<u8>,
    pub told: bool,
}

/// Another decoder, for rows of so many columns.
pub trait Other: Sync {
    fn name(&self) -> &'static str;

    /// Of so many copies it is asked about one.
    fn every(&self) -> u64;

    /// None where it does not read such pages.
    fn read(&self, written: Written, columns: u32, rows: usize, src: &[u8]) -> Option<Vec<OtherRow>>;
}
