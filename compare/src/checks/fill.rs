//! Fill of every length from 0 to 200 bits, from every bit of a word on, with its one in the data's last byte (and
//! so, for each length, as its last bit too), cut off with its byte, or followed by more: where zeros are counted by
//! the word, each border is met, a bit before it and a bit after.

use crate::bits::Bits;
use crate::call::Ask;
use crate::case::{Case, Source};
use crate::codes::EOL;
use crate::random::Random;
use crate::rooms::quick_page_case;
use crate::settings::{ENCODINGS, Settings};

const LONGEST: u64 = 200;
const WORD: u64 = 64;

/// What stands before the fill.
#[derive(Clone, Copy)]
enum Before {
    /// Ones, which are no code: a lenient reader searches from there.
    Ones,
    /// An EOL with fill of its own, and a white row.
    Row,
}

/// Where the data ends.
#[derive(Clone, Copy)]
enum End {
    /// With the byte of the one that closes the fill.
    AtOne,
    /// A byte before.
    Before,
    /// Behind zeros that no one closes, up to past the next word.
    Zeros,
    /// Behind a row and two EOLs.
    More,
}

const BEFORE: [Before; 2] = [Before::Ones, Before::Row];
const ENDS: [End; 4] = [End::AtOne, End::Before, End::Zeros, End::More];
/// What is asked of each fill: every encoding, what stands before it and where the data ends, strict and lenient.
const KINDS: usize = ENCODINGS.len() * BEFORE.len() * ENDS.len() * 2;

pub struct Fill;

impl Source for Fill {
    fn name(&self) -> String {
        "fill of every length from every bit".to_string()
    }

    fn count(&self) -> u64 {
        (LONGEST + 1) * WORD * KINDS as u64
    }

    fn case(&self, index: u64, random: &mut Random) -> Case {
        let (kind, place) = (index as usize % KINDS, index / KINDS as u64);
        let (fill, from) = ((place / WORD) as usize, (place % WORD) as usize);
        let settings = Settings {
            encoding: ENCODINGS[kind / 16],
            columns: 8,
            rows: 0,
            end_of_block: true,
            end_of_line: true,
            aligned: false,
            strict: kind % 2 == 1,
        };
        quick_page_case(Ask::page(settings, page(BEFORE[kind / 8 % 2], from, fill, ENDS[kind / 2 % 4])), random)
    }
}

fn page(before: Before, from: usize, fill: usize, end: End) -> Vec<u8> {
    let mut bits = Bits::default();
    match before {
        Before::Ones => (0..from).for_each(|_| bits.bit(true)),
        Before::Row => {
            bits.zeros(from);
            bits.code(EOL);
            row(&mut bits);
        }
    }
    bits.zeros(fill);
    bits.bit(true);
    match end {
        End::AtOne | End::Before => {}
        End::Zeros => bits.zeros(WORD as usize + 8),
        End::More => {
            row(&mut bits);
            bits.code(EOL);
            bits.code(EOL);
        }
    }
    let mut bytes = bits.into_bytes();
    if matches!(end, End::Before) {
        bytes.pop();
    }
    bytes
}

/// A white run of 8. In 2D its first bit is a tag, in Group 4 a row, and what follows is damage.
fn row(bits: &mut Bits) {
    bits.code("10011");
}
