//! Pages as packed pixels: painting against reading, and both together against libtiff's reading, where that is at hand.

use super::page::{Named, Page};
use super::timing::report;
#[cfg(feature = "libtiff")]
use crate::linked::libtiff::{self, Scheme};
use crate::linked::{self, bitmap};
use crate::pixels::packed;
#[cfg(feature = "libtiff")]
use crate::settings::Encoding;
use crate::truth::Outcome;
use std::time::{Duration, Instant};

/// What a page is read and painted into.
struct Room {
    changes: Vec<u32>,
    ends: Vec<u64>,
    marks: Vec<u8>,
    out: Vec<u8>,
    #[cfg(feature = "libtiff")]
    libtiff: libtiff::Room,
}

impl Room {
    /// With room for one row more than the page has: only where a row surely fits is it read swiftly.
    fn of(page: &Page) -> Self {
        let columns = page.settings.columns;
        Room {
            changes: vec![0; page.entries + columns as usize],
            ends: vec![0; page.rows],
            marks: vec![0; page.rows],
            out: vec![0; page.rows * columns.div_ceil(8) as usize],
            #[cfg(feature = "libtiff")]
            libtiff: libtiff::Room::of(columns, page.rows as u32, page.src.len()),
        }
    }
}

/// Each page that is answered with 0, by its name.
pub fn run(pages: &[Named]) {
    println!("packed pixels: painting against reading, then reading and painting against libtiff's reading");
    for (name, page) in pages.iter().filter(|(_, page)| page.number == 0) {
        let mut room = Room::of(page);
        let whole = Outcome::of_page(&page.settings, &page.src, 0);
        let pixels = packed(page.settings.columns, whole.rows());
        time_reading(page, &mut room);
        report(
            &format!("{name}, painted"),
            &mut room,
            |room| time_painting(page, &pixels, room),
            "reading",
            |room| time_reading(page, room),
        );
        #[cfg(feature = "libtiff")]
        against_libtiff(name, page, &pixels, &mut room);
    }
}

/// A page that libtiff reads otherwise is told, and not timed.
#[cfg(feature = "libtiff")]
fn against_libtiff(name: &str, page: &Page, pixels: &[u8], room: &mut Room) {
    time_libtiff(page, room);
    if room.libtiff.packed != pixels {
        println!("{name}: libtiff reads other pixels");
        return;
    }
    let ours = |room: &mut Room| time_reading(page, room) + time_painting(page, pixels, room);
    report(&format!("{name}, read and painted"), room, ours, "libtiff", |room| time_libtiff(page, room));
}

fn time_reading(page: &Page, room: &mut Room) -> Duration {
    let began = Instant::now();
    let answer = linked::page(&page.settings, false, false, &page.src, &mut room.changes, &mut room.ends, &mut room.marks);
    let took = began.elapsed();
    assert!(answer.number == page.number && answer.rows as usize == page.rows, "ours answers as the crate does");
    took
}

fn time_painting(page: &Page, pixels: &[u8], room: &mut Room) -> Duration {
    let began = Instant::now();
    let answer = bitmap::paint(page.settings.columns, &room.changes, &room.ends, &mut room.out);
    let took = began.elapsed();
    assert!(answer.number == 0 && room.out == pixels, "the page is painted");
    took
}

#[cfg(feature = "libtiff")]
fn time_libtiff(page: &Page, room: &mut Room) -> Duration {
    let scheme = match page.settings.encoding {
        Encoding::Group4 => Scheme::Group4,
        Encoding::Group3OneD => Scheme::Group3OneD,
        Encoding::Group3TwoD => Scheme::Group3TwoD,
    };
    let began = Instant::now();
    libtiff::read_into(scheme, page.settings.columns, &page.src, &mut room.libtiff);
    began.elapsed()
}
