//! A string of bits, written from the most significant end of each byte.

use crate::random::Random;

#[derive(Clone, Default, PartialEq, Eq, Debug)]
pub struct Bits {
    bytes: Vec<u8>,
    length: usize,
}

impl Bits {
    pub fn len(&self) -> usize {
        self.length
    }

    pub fn bit(&mut self, bit: bool) {
        if self.length.is_multiple_of(8) {
            self.bytes.push(0);
        }
        if bit {
            self.bytes[self.length / 8] |= 128 >> (self.length % 8);
        }
        self.length += 1;
    }

    /// Bits as a string of 0 and 1.
    pub fn code(&mut self, code: &str) {
        for letter in code.bytes() {
            self.bit(letter == b'1');
        }
    }

    pub fn zeros(&mut self, count: usize) {
        for _ in 0..count {
            self.bit(false);
        }
    }

    pub fn random(&mut self, random: &mut Random, count: usize) {
        for _ in 0..count {
            self.bit(random.bool());
        }
    }

    /// Zeros up to a byte.
    pub fn align(&mut self) {
        self.length = 8 * self.bytes.len();
    }

    pub fn at(&self, index: usize) -> bool {
        bit_at(&self.bytes, index)
    }

    pub fn append(&mut self, other: &Bits) {
        for index in 0..other.len() {
            self.bit(other.at(index));
        }
    }

    /// Puts the bits over those of `out` from bit `at` on, and zeros behind them up to bit `end`.
    pub fn put_into(&self, out: &mut [u8], at: usize, end: usize) {
        for index in at..end {
            let mask = 128 >> (index % 8);
            let set = index - at < self.length && self.at(index - at);
            out[index / 8] = if set { out[index / 8] | mask } else { out[index / 8] & !mask };
        }
    }

    /// The bytes, the last one filled with zeros.
    pub fn into_bytes(self) -> Vec<u8> {
        self.bytes
    }
}

pub fn bit_at(bytes: &[u8], index: usize) -> bool {
    bytes[index / 8] >> (7 - index % 8) & 1 == 1
}

pub fn flip_bit(bytes: &mut [u8], index: usize) {
    bytes[index / 8] ^= 128 >> (index % 8);
}

pub fn hex(bytes: &[u8]) -> String {
    bytes.iter().map(|byte| format!("{byte:02x}")).collect()
}
