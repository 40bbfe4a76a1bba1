//! A page whose reading is timed.

use crate::settings::Settings;
use crate::truth::Outcome;

/// A page, and what it is called where it is timed by itself.
pub type Named = (String, Page);

/// A page, and the answer and rows that both must give.
pub struct Page {
    pub settings: Settings,
    pub src: Vec<u8>,
    pub number: u32,
    pub rows: usize,
    pub entries: usize,
}

impl Page {
    pub fn of(settings: Settings, src: Vec<u8>) -> Self {
        let outcome = Outcome::of_page(&settings, &src, 0);
        Page { settings, src, number: outcome.number, rows: outcome.ends.len(), entries: outcome.changes.len() }
    }

    pub fn is_whole(&self, rows: usize) -> bool {
        self.number == 0 && self.rows == rows
    }
}
