//! Words that occur in fax data, strung together at random.

use crate::bits::Bits;
use crate::codes::{Colour, EOL, make_up, terminating};
use crate::random::Random;

const MODES: [&str; 9] = ["1", "011", "010", "001", "0001", "000011", "000010", "0000011", "0000010"];

/// So many words.
pub fn random_words(random: &mut Random, count: u64) -> Bits {
    let mut bits = Bits::default();
    for _ in 0..count {
        put_word(&mut bits, random);
    }
    bits
}

fn put_word(bits: &mut Bits, random: &mut Random) {
    match random.below(20) {
        0..=6 => bits.code(random.pick(&MODES)),
        7..=11 => put_run_code(bits, random),
        12 => put_eols(bits, random),
        13 => {
            bits.zeros(random.below(14) as usize);
        }
        14 => {
            let count = random.below(24) as usize;
            bits.random(random, count);
        }
        15 => bits.align(),
        16 => bits.code("11111111"),
        17 => {
            // a code, one bit of it wrong
            let mut word = Bits::default();
            put_run_code(&mut word, random);
            let wrong = random.index(word.len());
            for index in 0..word.len() {
                bits.bit(word.at(index) != (index == wrong));
            }
        }
        18 => {
            // horizontal mode, whole
            let colour = random_colour(random);
            bits.code("001");
            put_run_of(bits, random, colour);
            put_run_of(bits, random, colour.other());
        }
        _ => bits.code(EOL),
    }
}

fn put_eols(bits: &mut Bits, random: &mut Random) {
    let tag = random.pick(&["", "", "1", "0"]);
    bits.zeros(random.pick(&[0, 0, 0, 1, 4, 9, 40]));
    for _ in 0..random.range(1, 8) {
        bits.code(EOL);
        bits.code(tag);
    }
}

fn random_colour(random: &mut Random) -> Colour {
    random.pick(&[Colour::White, Colour::Black])
}

/// One code of either colour.
fn put_run_code(bits: &mut Bits, random: &mut Random) {
    let colour = random_colour(random);
    if random.chance(25) {
        bits.code(make_up(colour, 64 * random.range(1, 40) as u32));
    } else {
        bits.code(terminating(colour, random.below(64) as u32));
    }
}

/// A run with its make-up codes, mostly a short one.
fn put_run_of(bits: &mut Bits, random: &mut Random, colour: Colour) {
    while random.chance(20) {
        bits.code(make_up(colour, 64 * random.range(1, 40) as u32));
    }
    let most = random.pick(&[3, 8, 64]);
    bits.code(terminating(colour, random.below(most) as u32));
}
