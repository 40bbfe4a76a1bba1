//! The limits of the page form and of reading one line: 6, 7, 8, columns 0, and their order.

use crate::call::Ask;
use crate::case::{Case, Source};
use crate::random::Random;
use crate::rooms::{line_case, page_case};
use crate::settings::{ENCODINGS, Settings};
use crate::truth::LIMIT;

pub struct PageLimits;

/// Columns, and how many bytes the data has, in every order of the tests that may fail.
const PAGES: [(u32, usize); 9] =
    [(u32::MAX, 4), (u32::MAX, 0), (u32::MAX, LIMIT + 1), (0, 4), (0, 0), (0, LIMIT), (0, LIMIT + 1), (8, LIMIT), (8, LIMIT + 1)];

impl Source for PageLimits {
    fn name(&self) -> String {
        "limits of a page".to_string()
    }

    fn count(&self) -> u64 {
        (PAGES.len() * ENCODINGS.len() * 2) as u64
    }

    fn case(&self, index: u64, random: &mut Random) -> Case {
        let (page, kind) = (index as usize / 6, index as usize % 6);
        let (columns, length) = PAGES[page];
        let settings = Settings { encoding: ENCODINGS[kind / 2], rows: 1, ..Settings::of_line(columns, kind % 2 == 1) };
        // one row in any encoding (a white run of 8, or V0), and a one behind it, so that no reader
        // goes through the zeros that follow in search of an EOL
        let src = match settings.encoding {
            crate::settings::Encoding::Group4 => vec![0b1100_0000; 4],
            crate::settings::Encoding::Group3OneD => vec![0b1001_1100; 4],
            crate::settings::Encoding::Group3TwoD => vec![0b0110_0000; 4],
        };
        let mut ask = Ask::page(settings, src);
        ask.src.truncate(length);
        ask.tail = length - ask.src.len();
        page_case(ask, random)
    }

    fn batch(&self) -> u64 {
        4
    }
}

pub struct LineLimits;

/// Columns, length, start, reference.
const LINES: [(u32, usize, u64, &[u32]); 24] = [
    (0, 4, 0, &[]),
    (0, LIMIT + 1, 0, &[3, 3]),
    (u32::MAX, 4, 0, &[]),
    (u32::MAX, LIMIT + 1, 99, &[5, 4]),
    (8, LIMIT + 1, 0, &[]),
    (8, LIMIT + 1, u64::MAX, &[8]),
    (8, LIMIT, 0, &[3]),
    (8, LIMIT, 8 * LIMIT as u64 - 6, &[]),
    (8, LIMIT, 8 * LIMIT as u64, &[]),
    (8, LIMIT, 8 * LIMIT as u64 + 1, &[]),
    (8, 4, 0, &[8]),
    (8, 4, 0, &[3, 3]),
    (8, 4, 0, &[4, 3]),
    (8, 4, 33, &[3, 9]),
    (8, 4, 0, &[0, 1, 2, 3, 4, 5, 6, 7]),
    (8, 4, 0, &[0, 1, 2, 3, 4, 5, 6, 7, 8]),
    (1, 4, 0, &[0]),
    (1, 4, 0, &[1]),
    (8, 4, 32, &[3]),
    (8, 4, 33, &[3]),
    (8, 4, u64::MAX, &[3]),
    (8, 0, 0, &[]),
    (8, 0, 1, &[]),
    (u32::MAX - 1, 4, 0, &[u32::MAX - 2]),
];

impl Source for LineLimits {
    fn name(&self) -> String {
        "limits of one line".to_string()
    }

    fn count(&self) -> u64 {
        (LINES.len() * 2) as u64
    }

    fn case(&self, index: u64, random: &mut Random) -> Case {
        let (columns, length, at, reference) = LINES[index as usize / 2];
        let src = vec![255; length.min(4)];
        let mut ask = Ask::read_line(columns, index % 2 == 1, src, at, reference.to_vec());
        ask.tail = length - ask.src.len();
        line_case(ask, random)
    }

    fn batch(&self) -> u64 {
        4
    }
}
