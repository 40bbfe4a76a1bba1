//! The pages whose copies are damaged: strips of the pages that reading is timed on, in each layout.

use crate::bits::Bits;
use crate::call::Layout;
use crate::canvas::WIDTH;
use crate::codes::EOL;
use crate::drawn;
use crate::layouts::{self, encoded};
use crate::pixels::packed;
use crate::settings::{Encoding, Settings};

/// So many rows of a drawn page make a strip: a whole page of 2,200 rows would take a million copies to hours.
pub const ROWS: usize = 100;
/// From which row on, page by page: where there is something to read.
const TOPS: [usize; 6] = [100, 100, 600, 1090, 1050, 1050];
/// T.4 4.2.1.1 has 4 for the finer resolution.
const K: u32 = 4;

/// How a page is written.
#[derive(Clone, Copy, Debug, PartialEq, Eq)]
pub enum Written {
    /// By the library's writers.
    By(Option<Layout>),
    /// Group 3 2D with so many zeros of fill before each EOL, which no writer of the library writes.
    Filled2D(usize),
}

pub const LAYOUTS: [(&str, Written); 5] = [
    ("Group 4", Written::By(None)),
    ("Group 3 1D", Written::By(Some(Layout::OneD { eols: true, fill: 0 }))),
    ("Group 3 1D, fill 3", Written::By(Some(Layout::OneD { eols: true, fill: 3 }))),
    ("Group 3 2D, K 4", Written::By(Some(Layout::TwoD { k: K }))),
    ("Group 3 2D, K 4, fill 3", Written::Filled2D(3)),
];

/// A strip's rows, as changes and as pixels, and its bytes in each layout.
pub struct Page {
    pub rows: Vec<Vec<u32>>,
    pub packed: Vec<u8>,
    pub bytes: Vec<Vec<u8>>,
}

pub fn pages() -> Vec<Page> {
    drawn::pages().into_iter().zip(TOPS).map(|((_, rows), top)| Page::of(rows[top..top + ROWS].to_vec())).collect()
}

impl Page {
    fn of(rows: Vec<Vec<u32>>) -> Self {
        let bytes = LAYOUTS.iter().map(|&(_, written)| in_layout(written, &rows)).collect();
        Page { packed: packed(WIDTH as u32, &rows), rows, bytes }
    }
}

fn in_layout(written: Written, rows: &[Vec<u32>]) -> Vec<u8> {
    match written {
        Written::By(layout) => encoded(layout, WIDTH as u32, rows).into_bytes(),
        Written::Filled2D(fill) => filled_2d(fill, rows).into_bytes(),
    }
}

/// The 2D page with fill before each EOL, and before the first of the six alone.
fn filled_2d(fill: usize, rows: &[Vec<u32>]) -> Bits {
    let layout = Layout::TwoD { k: K };
    let mut bits = Bits::default();
    for (index, row) in rows.iter().enumerate() {
        bits.zeros(fill);
        layouts::put_ahead(&mut bits, layout, layouts::is_1d(layout, index));
        layouts::put_line(&mut bits, WIDTH as u32, layouts::reference(layout, rows, index), row);
    }
    bits.zeros(fill);
    layouts::put_end(&mut bits, layout, 6);
    bits.align();
    bits
}

/// With the true number of rows and what the writers' pages have.
pub fn settings(written: Written) -> Settings {
    let encoding = match written {
        Written::By(None) => Encoding::Group4,
        Written::By(Some(Layout::OneD { .. })) => Encoding::Group3OneD,
        Written::By(Some(Layout::TwoD { .. })) | Written::Filled2D(_) => Encoding::Group3TwoD,
    };
    let end_of_line = encoding != Encoding::Group4;
    Settings { encoding, end_of_block: true, end_of_line, rows: ROWS as u32, ..Settings::of_line(WIDTH as u32, false) }
}

/// The writer that is found in the bits of a page (rules: specs/Proper.antt, `writerIn`); none where it is one that is refused.
pub fn found(encoding: Encoding, columns: u32, src: &[u8], rows: &[&[u32]]) -> Option<Option<Layout>> {
    let layout = match encoding {
        Encoding::Group4 => return Some(None),
        Encoding::Group3OneD => {
            let zeros = (0..8 * src.len()).find(|&at| crate::bits::bit_at(src, at))?;
            if zeros < 11 { Layout::OneD { eols: false, fill: 0 } } else { Layout::OneD { eols: true, fill: zeros as u32 - 11 } }
        }
        Encoding::Group3TwoD => Layout::TwoD { k: k_of(&tags(columns, src, rows)) },
    };
    layouts::allowed(layout).then_some(Some(layout))
}

/// The tag bits of the lines of these rows, each behind an EOL of twelve bits.
fn tags(columns: u32, src: &[u8], rows: &[&[u32]]) -> Vec<bool> {
    let mut at = EOL.len();
    let mut above: &[u32] = &[];
    let mut tags = Vec::new();
    for row in rows {
        let tag = at < 8 * src.len() && crate::bits::bit_at(src, at);
        let mut line = Bits::default();
        layouts::put_line(&mut line, columns, (!tag).then_some(above), row);
        at += 1 + line.len() + EOL.len();
        above = row;
        tags.push(tag);
    }
    tags
}

/// K counts the first line and the 2D lines behind it.
fn k_of(tags: &[bool]) -> u32 {
    1 + tags.iter().skip(1).take_while(|&&tag| !tag).count() as u32
}
