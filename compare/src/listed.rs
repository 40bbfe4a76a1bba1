//! Lists of written pages that are the same in every run, so that what other decoders read from them
//! can be recorded.

use crate::call::Layout;
use crate::case::Case;
use crate::checks::group3_writers::page_case;
use crate::checks::writers::written_page;
use crate::layouts::{encoded, lines};
use crate::random::Random;
use crate::rows::{WIDTHS, random_rows};
use std::io;
use std::path::Path;

/// How many pages a list has.
pub const COUNT: usize = 120;
/// A seed of the lists' own: that of a run does not change it.
const SEED: u64 = 120;
/// Wider rows are too many pixels for a decoder that gives pixels.
const WIDEST: u32 = 10_000;
const MOST_ROWS: u64 = 12;

/// A list, by the writer of its pages.
#[derive(Clone, Copy, Debug, PartialEq, Eq)]
pub enum List {
    Group4,
    /// A3's pages with EOLs: no other decoder at hand reads those without, unless each row begins a byte.
    Group3OneD,
    Group3TwoD,
}

pub const LISTS: [List; 3] = [List::Group4, List::Group3OneD, List::Group3TwoD];

impl List {
    /// Part of each page's seed.
    fn name(self) -> &'static str {
        match self {
            List::Group4 => "listed pages",
            List::Group3OneD => "listed Group 3 1D pages",
            List::Group3TwoD => "listed Group 3 2D pages",
        }
    }

    fn ending(self) -> &'static str {
        match self {
            List::Group4 => "g4",
            List::Group3OneD => "g31",
            List::Group3TwoD => "g32",
        }
    }

    /// Who read the pages, in the order of the recorded words.
    pub fn readers(self) -> &'static [&'static str] {
        match self {
            List::Group4 | List::Group3TwoD => &["libtiff"],
            List::Group3OneD => &["libtiff", "netpbm"],
        }
    }

    fn layout(self, random: &mut Random) -> Option<Layout> {
        match self {
            List::Group4 => None,
            List::Group3OneD => Some(Layout::OneD { eols: true, fill: random.pick(&[0, 1, 3, 12, 13, 64]) }),
            List::Group3TwoD => Some(Layout::TwoD { k: random.pick(&[1, 2, 2, 3, 4, 7, 65_535]) }),
        }
    }
}

pub struct ListedPage {
    list: List,
    number: usize,
    pub columns: u32,
    pub rows: Vec<Vec<u32>>,
    /// Of a Group 3 page.
    layout: Option<Layout>,
}

impl ListedPage {
    pub fn of(list: List, number: usize) -> Self {
        let widths: Vec<u32> = WIDTHS.into_iter().filter(|&width| width <= WIDEST).collect();
        let columns = widths[number % widths.len()];
        let mut random = Random::of(SEED, list.name(), number as u64);
        let count = random.range(1, MOST_ROWS) as usize;
        let rows = random_rows(&mut random, columns, count);
        ListedPage { list, number, columns, rows, layout: list.layout(&mut random) }
    }

    pub fn bytes(&self) -> Vec<u8> {
        encoded(self.layout, self.columns, &self.rows).into_bytes()
    }

    /// What libtiff's encoder is to write for the rows: the page; of Group 3 without fill, with K = 2, and without
    /// its end, which is no part of a TIFF file's strip.
    pub fn by_libtiff(&self) -> Vec<u8> {
        match self.layout {
            None => self.bytes(),
            Some(layout) => lines(layout.as_libtiff(), self.columns, &self.rows).into_bytes(),
        }
    }

    pub fn case(&self, random: &mut Random) -> Case {
        match self.layout {
            None => written_page(random, self.columns, &self.rows),
            Some(layout) => page_case(random, layout, self.columns, &self.rows),
        }
    }

    /// Number, columns and rows. `recorded/record` takes its words from it.
    pub fn file_name(&self) -> String {
        format!("{:03}-{}x{}.{}", self.number, self.columns, self.rows.len(), self.list.ending())
    }
}

/// Writes every page into a folder, which is made if it is not there.
pub fn write(folder: &str) -> io::Result<()> {
    std::fs::create_dir_all(folder)?;
    for list in LISTS {
        for page in (0..COUNT).map(|number| ListedPage::of(list, number)) {
            std::fs::write(Path::new(folder).join(page.file_name()), page.bytes())?;
        }
    }
    println!("{} pages in {folder}", LISTS.len() * COUNT);
    Ok(())
}

#[cfg(test)]
mod tests {
    use super::{COUNT, List, ListedPage};
    use crate::codes::{Colour, LONGEST, LONGEST_OWN};
    use crate::encoder::{Step, steps};

    /// The runs of a colour that the pages have a code for.
    fn runs(wanted: Colour) -> Vec<u32> {
        let mut runs = Vec::new();
        for page in (0..COUNT).map(|number| ListedPage::of(List::Group4, number)) {
            let references = std::iter::once(&[][..]).chain(page.rows.iter().map(Vec::as_slice));
            for (reference, row) in references.zip(&page.rows) {
                for step in steps(page.columns, reference, row) {
                    let Step::Horizontal(colour, first, second) = step else { continue };
                    runs.push(if colour == wanted { first } else { second });
                }
            }
        }
        runs
    }

    /// Runs above 1728 and above 2560, and runs for which the writer repeats its longest make-up code.
    #[test]
    fn both_colours_have_long_runs() {
        for colour in [Colour::White, Colour::Black] {
            let runs = runs(colour);
            for (low, high) in [(LONGEST_OWN + 1, LONGEST), (LONGEST + 1, 2 * LONGEST - 1), (2 * LONGEST, u32::MAX)] {
                assert!(runs.iter().any(|&run| (low..=high).contains(&run)), "no {colour:?} run from {low} to {high}");
            }
        }
    }
}
