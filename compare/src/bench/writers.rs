//! The page writers, on the rows of the Group 4 pages: against a plain writer, and against libtiff's where that is at hand.

use super::plain_writer::{self, Codes};
use super::timing::report;
use crate::call::Layout;
use crate::checks::other_decoder::Text;
use crate::linked;
#[cfg(feature = "libtiff")]
use crate::linked::libtiff::{self, Scheme};
#[cfg(feature = "libtiff")]
use crate::pixels::packed;
use crate::settings::{Encoding, Settings};
use crate::truth::Outcome;
use std::time::{Duration, Instant};

/// How a page of so many rows is read back, with its end or without: of Group 4, or of Group 3 with EOLs.
fn settings(layout: Option<Layout>, columns: u32, rows: u32, end_of_block: bool) -> Settings {
    let encoding = match layout {
        None => Encoding::Group4,
        Some(Layout::OneD { .. }) => Encoding::Group3OneD,
        Some(Layout::TwoD { .. }) => Encoding::Group3TwoD,
    };
    Settings { encoding, columns, rows, end_of_block, end_of_line: layout.is_some(), aligned: false, strict: true }
}

/// A page as each writer takes it: changes and row ends, and packed rows.
struct Page {
    columns: u32,
    rows: Outcome,
    ends: Vec<u64>,
    #[cfg(feature = "libtiff")]
    packed: Vec<u8>,
}

impl Page {
    fn of(text: &Text) -> Self {
        let rows = Outcome::of_page(&text.settings, &text.src, 0);
        Page {
            columns: text.settings.columns,
            #[cfg(feature = "libtiff")]
            packed: packed(text.settings.columns, rows.rows()),
            ends: rows.ends.iter().copied().map(u64::from).collect(),
            rows,
        }
    }

    /// The bytes of its bitmap, which are more than any writer needs for a page of text.
    fn bitmap(&self) -> usize {
        self.columns.div_ceil(8) as usize * self.ends.len()
    }

    /// Whether a strip holds the page's rows: otherwise the two writers did not do the same work.
    fn is_read_from(&self, layout: Option<Layout>, strip: &[u8], end_of_block: bool) -> bool {
        let read = Outcome::of_page(&settings(layout, self.columns, self.ends.len() as u32, end_of_block), strip, 0);
        read.number == 0 && read.changes == self.rows.changes && read.ends == self.rows.ends
    }
}

pub fn run(texts: &[Text]) {
    let pages: Vec<Page> = texts.iter().filter(|text| text.settings.encoding == Encoding::Group4).map(Page::of).collect();
    let mut out = vec![0; pages.iter().map(Page::bitmap).max().unwrap_or(0)];
    against_plain(&pages, &mut out);
    #[cfg(feature = "libtiff")]
    against_libtiff(&pages, &mut out);
    #[cfg(not(feature = "libtiff"))]
    println!("writing against libtiff: not timed; that needs a C compiler and libtiff (Debian: libtiff-dev)");
}

/// In the room of the bitmap, where a page surely fits, and in no more room than it needs, where it is counted first.
fn against_plain(pages: &[Page], out: &mut Vec<u8>) {
    let codes = Codes::new();
    let sizes: Vec<usize> = pages.iter().map(|page| plainly(&codes, page).len()).collect();
    println!("writing, likewise, against a plain writer, which tests nothing");
    let theirs = |_: &mut Vec<u8>| pages.iter().map(|page| time_plain(&codes, page)).sum();
    let roomy = |out: &mut Vec<u8>| pages.iter().map(|page| time_ours(page, None, &mut out[..page.bitmap()])).sum();
    report(&format!("{} pages, written as Group 4", pages.len()), out, roomy, "a plain writer", theirs);
    let exact = |out: &mut Vec<u8>| pages.iter().zip(&sizes).map(|(page, size)| time_ours(page, None, &mut out[..*size])).sum();
    report(&format!("{} pages, written as Group 4 into no more room than they need", pages.len()), out, exact, "a plain writer", theirs);
}

fn plainly(codes: &Codes, page: &Page) -> Vec<u8> {
    let mut out = Vec::with_capacity(page.bitmap());
    plain_writer::write_page(codes, page.columns, &page.rows.changes, &page.ends, &mut out);
    out
}

fn time_plain(codes: &Codes, page: &Page) -> Duration {
    let mut out = Vec::with_capacity(page.bitmap());
    let began = Instant::now();
    plain_writer::write_page(codes, page.columns, &page.rows.changes, &page.ends, &mut out);
    let took = began.elapsed();
    assert!(page.is_read_from(None, &out, true), "the plain writer's page is read back");
    took
}

#[cfg(feature = "libtiff")]
fn against_libtiff(pages: &[Page], out: &mut Vec<u8>) {
    println!(
        "writing, likewise: ours is given changes and row ends, libtiff packed rows, made before the clock starts; \
         libtiff's time is from open to close in memory"
    );
    // with EOLs and no fill, or with K = 2, as libtiff writes it
    let kinds = [
        ("Group 4", None, Scheme::Group4),
        ("Group 3 1D", Some(Layout::OneD { eols: true, fill: 0 }), Scheme::Group3OneD),
        ("Group 3 2D", Some(Layout::TwoD { k: 2 }), Scheme::Group3TwoD),
    ];
    for (name, layout, scheme) in kinds {
        let ours = |out: &mut Vec<u8>| pages.iter().map(|page| time_ours(page, layout, out)).sum();
        let theirs = |out: &mut Vec<u8>| pages.iter().map(|page| time_libtiff(page, layout, scheme, out)).sum();
        report(&format!("{} pages, written as {name}", pages.len()), out, ours, "libtiff", theirs);
    }
}

fn time_ours(page: &Page, layout: Option<Layout>, out: &mut [u8]) -> Duration {
    out.fill(0);
    let began = Instant::now();
    let answer = linked::write_page(layout, page.columns, &page.rows.changes, &page.ends, out);
    let took = began.elapsed();
    assert!(answer.number == 0 && page.is_read_from(layout, &out[..answer.bytes as usize], true), "our page is read back");
    took
}

#[cfg(feature = "libtiff")]
fn time_libtiff(page: &Page, layout: Option<Layout>, scheme: Scheme, out: &mut [u8]) -> Duration {
    out.fill(0);
    let began = Instant::now();
    let strip = libtiff::write_page(scheme, page.columns, page.rows.ends.len() as u32, &page.packed, out);
    let took = began.elapsed();
    // it leaves out the EOLs at the end of a Group 3 page
    let ended = layout.is_none();
    assert!(strip.is_some_and(|strip| page.is_read_from(layout, &out[strip], ended)), "libtiff's page is read back");
    took
}
