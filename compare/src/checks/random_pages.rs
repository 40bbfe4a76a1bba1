//! Random pages: short ones of every length, words that occur in fax data, encoded pages, damaged ones.

use crate::call::Ask;
use crate::case::{Case, Source};
use crate::damage::damage;
use crate::pages::{Page, random_page};
use crate::random::Random;
use crate::rooms::page_case;
use crate::rows::WIDTHS;
use crate::settings::{ENCODINGS, Settings};
use crate::words::random_words;

#[derive(Clone, Copy, Debug, PartialEq, Eq)]
pub enum Kind {
    Short,
    Words,
    Encoded,
    Damaged,
}

/// The lengths of short pages: 0 to this.
const LONGEST_SHORT: u64 = 40;

pub struct RandomPages {
    pub kind: Kind,
    pub count: u64,
}

impl RandomPages {
    pub fn page(&self, index: u64, random: &mut Random) -> Page {
        match self.kind {
            Kind::Short => Page { src: random.bytes((index % (LONGEST_SHORT + 1)) as usize), settings: random_settings(random) },
            Kind::Words => {
                let count = random.pick(&[1, 3, 8, 20, 60]);
                Page { src: random_words(random, count).into_bytes(), settings: random_settings(random) }
            }
            Kind::Encoded => encoded(random),
            Kind::Damaged => {
                let (page, other) = (encoded(random), encoded(random));
                Page { src: damage(random, page.src, &other.src), ..page }
            }
        }
    }
}

fn encoded(random: &mut Random) -> Page {
    let (encoding, strict) = (random.pick(&ENCODINGS), random.bool());
    random_page(random, encoding, strict)
}

fn random_settings(random: &mut Random) -> Settings {
    Settings {
        encoding: random.pick(&ENCODINGS),
        columns: random.pick(&WIDTHS),
        rows: random.pick(&[0, 0, 0, 1, 2, 3, 7, u32::MAX]),
        end_of_block: random.bool(),
        end_of_line: random.bool(),
        aligned: random.bool(),
        strict: random.bool(),
    }
}

impl Source for RandomPages {
    fn name(&self) -> String {
        let what = match self.kind {
            Kind::Short => "random pages of 0 to 40 bytes",
            Kind::Words => "random words of fax data",
            Kind::Encoded => "encoded pages",
            Kind::Damaged => "damaged, cut and spliced pages",
        };
        what.to_string()
    }

    fn count(&self) -> u64 {
        self.count
    }

    fn case(&self, index: u64, random: &mut Random) -> Case {
        let page = self.page(index, random);
        page_case(Ask::page(page.settings, page.src), random)
    }
}
