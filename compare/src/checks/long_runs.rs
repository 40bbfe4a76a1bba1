//! Runs of thousands of millions of pixels: where a sum passes 32 bits, and where it just does not.

use crate::bits::Bits;
use crate::call::Ask;
use crate::case::{Case, Source};
use crate::codes::{Colour, LONGEST, make_up, terminating};
use crate::encoder::put_run;
use crate::random::Random;
use crate::rooms::lookup_page_case;
use crate::settings::{Encoding, Settings};

/// Make-up codes of 2560 that sum to just below 4,294,967,295.
const FULL: u32 = u32::MAX / LONGEST;

/// Each line has one run that sums to nearly, exactly, or more than 4,294,967,295.
pub struct LongRuns;

/// What stands behind the make-up codes of 2560.
enum Rest {
    Run(u32),
    MakeUp(u32),
    Nothing,
}

const RESTS: [Rest; 6] = [
    // 4,294,967,294: the widest line, whole
    Rest::Run(u32::MAX - 1 - FULL * LONGEST),
    // 4,294,967,295: too many pixels, and no overflow
    Rest::Run(u32::MAX - FULL * LONGEST),
    // 4,294,967,296: overflow, at the terminating code and at a make-up code
    Rest::Run(u32::MAX - FULL * LONGEST + 1),
    Rest::MakeUp(1536),
    Rest::MakeUp(2560),
    Rest::Nothing,
];

impl Source for LongRuns {
    fn name(&self) -> String {
        "runs of thousands of millions".to_string()
    }

    /// Each rest as a white run of a 1D line and as a black one in horizontal mode, strict and lenient.
    fn count(&self) -> u64 {
        RESTS.len() as u64 * 4
    }

    fn case(&self, index: u64, random: &mut Random) -> Case {
        let (rest, two_d, strict) = (&RESTS[(index / 4) as usize], index & 1 != 0, index & 2 != 0);
        let colour = if two_d { Colour::Black } else { Colour::White };
        let mut bits = Bits::default();
        if two_d {
            bits.code("001");
            bits.code(terminating(Colour::White, 0));
        }
        put_sum(&mut bits, colour, rest);
        bits.code("1111111111");
        let settings = Settings {
            encoding: if two_d { Encoding::Group4 } else { Encoding::Group3OneD },
            rows: 1,
            ..Settings::of_line(u32::MAX - 1, strict)
        };
        let case = lookup_page_case(Ask::page(settings, bits.into_bytes()), random);
        if is_plain(index) { case.plainly(random) } else { case }
    }

    fn batch(&self) -> u64 {
        1
    }
}

/// The plain engine takes seconds for one of these, and behind the emulator minutes, so that it is not asked there. It reads the three sums at
/// the limit: 4,294,967,295 in black, and one more, at the terminating code in white and at a make-up code in black.
fn is_plain(index: u64) -> bool {
    cfg!(any(feature = "linked", test)) && matches!(index, 5 | 10 | 13)
}

fn put_sum(bits: &mut Bits, colour: Colour, rest: &Rest) {
    for _ in 0..FULL {
        bits.code(make_up(colour, LONGEST));
    }
    match *rest {
        Rest::Run(run) => put_run(bits, colour, run, LONGEST),
        Rest::MakeUp(run) => bits.code(make_up(colour, run)),
        Rest::Nothing => {}
    }
}
