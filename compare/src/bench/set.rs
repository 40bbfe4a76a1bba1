//! The set that reading is timed on (02, A8): drawn pages, written by our own writers.

use super::page::{Named, Page};
use crate::call::Layout;
use crate::canvas::WIDTH;
use crate::drawn::{Drawn, HEIGHT};
use crate::linked;
use crate::settings::{Encoding, Settings};

/// More than any of the pages needs.
const ROOM: usize = 1 << 22;
/// The K of the Group 3 2D pages: T.4 4.2.1.1 has 4 for the finer resolution.
const K: u32 = 4;

/// Drawn pages as one encoding has them.
pub fn written(drawn: &[Drawn], encoding: Encoding, strict: bool) -> Vec<Named> {
    drawn.iter().map(|(name, rows)| (format!("{name}, {encoding:?}"), page(rows, encoding, strict))).collect()
}

fn page(rows: &[Vec<u32>], encoding: Encoding, strict: bool) -> Page {
    let columns = WIDTH as u32;
    let changes = rows.concat();
    let ends: Vec<u64> = rows
        .iter()
        .scan(0, |end, row| {
            *end += row.len() as u64;
            Some(*end)
        })
        .collect();
    let mut out = vec![0; ROOM];
    let layout = match encoding {
        Encoding::Group4 => None,
        Encoding::Group3OneD => Some(Layout::OneD { eols: true, fill: 0 }),
        Encoding::Group3TwoD => Some(Layout::TwoD { k: K }),
    };
    let answer = linked::write_page(layout, columns, &changes, &ends, &mut out);
    assert_eq!(answer.number, 0, "the page is written");
    out.truncate(answer.bytes as usize);
    let settings =
        Settings { encoding, end_of_block: true, end_of_line: encoding != Encoding::Group4, ..Settings::of_line(columns, strict) };
    let page = Page::of(settings, out);
    assert!(page.is_whole(HEIGHT), "the crate reads the page back");
    page
}
