//! Damage to a page: what a bad telephone line does to it.

use crate::bits::flip_bit;
use crate::random::Random;

/// Damages a page in one to three places. `other` is a page to splice with.
pub fn damage(random: &mut Random, src: Vec<u8>, other: &[u8]) -> Vec<u8> {
    let mut src = src;
    for _ in 0..random.range(1, 3) {
        src = damage_once(random, src, other);
    }
    src
}

fn damage_once(random: &mut Random, mut src: Vec<u8>, other: &[u8]) -> Vec<u8> {
    if src.is_empty() {
        return random.bytes(1);
    }
    let at = random.index(src.len());
    match random.below(8) {
        0..=2 => flip_bit(&mut src, 8 * at + random.index(8)),
        3 => {
            src.drain(at..(at + random.range(1, 3) as usize).min(src.len()));
        }
        4 => {
            let count = random.range(1, 3) as usize;
            src.splice(at..at, random.bytes(count));
        }
        5 => src.truncate(at),
        6 => {
            let end = (at + random.range(1, 6) as usize).min(src.len());
            src[at..end].fill(if random.bool() { 0 } else { 255 });
        }
        _ => {
            src.truncate(at);
            src.extend_from_slice(&other[random.index(other.len() + 1)..]);
        }
    }
    src
}
