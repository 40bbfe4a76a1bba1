//! Every run from 0 to 2560 in both colours, by the code that another encoder writes for it.

use crate::bits::Bits;
use crate::call::Ask;
use crate::case::{Case, Source};
use crate::codes::{Colour, LONGEST, terminating, whole};
use crate::random::Random;
use crate::rooms::page_case;
use crate::settings::{Encoding, Settings};
use crate::truth::Outcome;

/// A strict Group 3 1D page of one row, whose first run in its colour has the recorded code. The crate
/// must read the run that was recorded, and ours what the crate reads.
pub struct Codes;

impl Source for Codes {
    fn name(&self) -> String {
        "the codes of another encoder".to_string()
    }

    fn count(&self) -> u64 {
        2 * (u64::from(LONGEST) + 1)
    }

    fn case(&self, index: u64, random: &mut Random) -> Case {
        let colour = if index.is_multiple_of(2) { Colour::White } else { Colour::Black };
        let (settings, src, row) = page(colour, (index / 2) as u32);
        let outcome = Outcome::of_page(&settings, &src, 0);
        page_case(Ask::page(settings, src), random)
            .require(outcome.number == 0 && outcome.changes == row, || "the crate does not read this run".to_string())
    }
}

/// A line of the run and one pixel more on each side that needs one. Returns its row too.
fn page(colour: Colour, run: u32) -> (Settings, Vec<u8>, Vec<u32>) {
    let mut bits = Bits::default();
    let row = match colour {
        // the run, one black pixel
        Colour::White => {
            bits.code(whole(Colour::White, run));
            bits.code(terminating(Colour::Black, 1));
            vec![run]
        }
        // one white pixel, the run, one white pixel
        Colour::Black => {
            bits.code(terminating(Colour::White, 1));
            bits.code(whole(Colour::Black, run));
            bits.code(terminating(Colour::White, 1));
            if run == 0 { Vec::new() } else { vec![1, 1 + run] }
        }
    };
    let columns = if colour == Colour::White { run + 1 } else { run + 2 };
    let settings = Settings { encoding: Encoding::Group3OneD, rows: 1, ..Settings::of_line(columns, true) };
    (settings, bits.into_bytes(), row)
}
