//! Every page of 0, 1 and 2 bytes, under every flag.

use crate::call::Ask;
use crate::case::{Case, Source};
use crate::random::Random;
use crate::rooms::lookup_page_case;
use crate::settings::{Encoding, Settings};

const COLUMNS: [u32; 4] = [1, 2, 3, 8];
/// 1 + 256 + 65,536.
const INPUTS: u64 = 65_793;

pub struct Exhaustive {
    pub encoding: Encoding,
    /// The row numbers that are tried.
    pub rows: &'static [u32],
}

impl Exhaustive {
    /// Group 4 does not read `end_of_line`.
    fn flags(&self) -> u64 {
        if self.encoding == Encoding::Group4 { 8 } else { 16 }
    }
}

impl Source for Exhaustive {
    fn name(&self) -> String {
        format!("every page of up to 2 bytes, {:?}", self.encoding)
    }

    fn count(&self) -> u64 {
        INPUTS * self.flags() * (COLUMNS.len() * self.rows.len()) as u64
    }

    fn case(&self, index: u64, random: &mut Random) -> Case {
        let (settings, data) = (index / INPUTS, index % INPUTS);
        let (flags, size) = (settings % self.flags(), settings / self.flags());
        let settings = Settings {
            encoding: self.encoding,
            columns: COLUMNS[size as usize % COLUMNS.len()],
            rows: self.rows[size as usize / COLUMNS.len()],
            end_of_block: flags & 1 != 0,
            aligned: flags & 2 != 0,
            strict: flags & 4 != 0,
            end_of_line: flags & 8 != 0,
        };
        let case = lookup_page_case(Ask::page(settings, input(data)), random);
        if is_plain(&settings) || random.below(16) == 0 { case.plainly(random) } else { case }
    }

    fn batch(&self) -> u64 {
        2048
    }
}

/// The plain engine takes as long as all else here. It reads every page under every flag at the width and for the rows that let it go
/// furthest, and of the others one in sixteen.
fn is_plain(settings: &Settings) -> bool {
    settings.columns == 8 && settings.rows == 0
}

fn input(number: u64) -> Vec<u8> {
    match number {
        0 => Vec::new(),
        1..=256 => vec![(number - 1) as u8],
        _ => ((number - 257) as u16).to_be_bytes().to_vec(),
    }
}
