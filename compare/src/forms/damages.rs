//! What happens to a form on its way: to its bytes, or to its picture before it is encoded.

use super::filled::{Filled, Tick};
use super::lying::Move;
use super::sheet::PITCH;
use crate::bits::flip_bit;
use crate::random::Random;

#[derive(Clone, Copy, Debug, PartialEq, Eq)]
pub enum Damage {
    None,
    Bytes(ToBytes),
    Picture(ToPicture),
    /// Another form behind it in the same file.
    TwoPages,
}

#[derive(Clone, Copy, Debug, PartialEq, Eq)]
pub enum ToBytes {
    Bit,
    Byte,
    Scattered,
    Lost,
    PutIn,
    Zeros,
    Cut,
}

#[derive(Clone, Copy, Debug, PartialEq, Eq)]
pub enum ToPicture {
    RowLost,
    RowDoubled,
    /// One row lost and one doubled: as many rows as before.
    RowsMoved,
    /// White rows on top, as many as one box lies below another.
    OnTop,
    /// The same, and as many cut off below: as many rows as before.
    Shifted,
    SecondTick,
    NoTick,
}

pub const DAMAGES: [(Damage, &str); 16] = [
    (Damage::None, "none"),
    (Damage::Bytes(ToBytes::Bit), "one bit flipped"),
    (Damage::Bytes(ToBytes::Byte), "one byte changed"),
    (Damage::Bytes(ToBytes::Scattered), "1 to 16 bytes changed"),
    (Damage::Bytes(ToBytes::Lost), "1 to 16 bytes lost"),
    (Damage::Bytes(ToBytes::PutIn), "1 to 16 bytes put in"),
    (Damage::Bytes(ToBytes::Zeros), "1 to 32 bytes to zeros"),
    (Damage::Bytes(ToBytes::Cut), "cut behind a byte"),
    (Damage::Picture(ToPicture::RowLost), "a row lost"),
    (Damage::Picture(ToPicture::RowDoubled), "a row doubled"),
    (Damage::Picture(ToPicture::RowsMoved), "a row lost, one doubled"),
    (Damage::Picture(ToPicture::OnTop), "31 white rows on top"),
    (Damage::Picture(ToPicture::Shifted), "the same, cut to the rows before"),
    (Damage::Picture(ToPicture::SecondTick), "a second tick"),
    (Damage::Picture(ToPicture::NoTick), "no tick"),
    (Damage::TwoPages, "two pages in one file"),
];

/// Damages the bytes of a page. The damage may be none where a byte is what it is changed to.
pub fn damaged(random: &mut Random, damage: ToBytes, src: &[u8]) -> Vec<u8> {
    let mut src = src.to_vec();
    let at = random.index(src.len());
    let few = random.range(1, 16) as usize;
    match damage {
        ToBytes::Bit => flip_bit(&mut src, 8 * at + random.index(8)),
        ToBytes::Byte => src[at] ^= random.range(1, 255) as u8,
        ToBytes::Scattered => {
            for _ in 0..few {
                let place = random.index(src.len());
                src[place] ^= random.range(1, 255) as u8;
            }
        }
        ToBytes::Lost => drop(src.drain(at..(at + few).min(src.len()))),
        ToBytes::PutIn => drop(src.splice(at..at, random.bytes(few))),
        ToBytes::Zeros => {
            let end = (at + random.range(1, 32) as usize).min(src.len());
            src[at..end].fill(0);
        }
        ToBytes::Cut => src.truncate(at),
    }
    src
}

/// The rows of a damaged picture, and the heads that it may be counted with: none, where its ticks say none. The form lies where it lies.
pub fn pictured(random: &mut Random, damage: ToPicture, form: &Filled, lies: Move) -> (Vec<Vec<u32>>, Option<u32>) {
    match damage {
        ToPicture::SecondTick => (lies.rows(&with_second_tick(random, form)), None),
        ToPicture::NoTick => {
            let columns = random.pick(&[[false, true], [true, false], [false, false]]);
            (lies.rows(&form.rows_with(columns, None)), None)
        }
        _ => (moved(random, damage, lies.rows(&form.rows())), Some(form.heads)),
    }
}

fn with_second_tick(random: &mut Random, form: &Filled) -> Vec<Vec<u32>> {
    let column = random.index(2);
    let other = (form.digit(column) + random.range(1, 9) as usize) % 10;
    form.rows_with([true, true], Some((column, Tick::random(random, other))))
}

fn moved(random: &mut Random, damage: ToPicture, mut rows: Vec<Vec<u32>>) -> Vec<Vec<u32>> {
    let count = rows.len();
    if let ToPicture::RowLost | ToPicture::RowsMoved = damage {
        rows.remove(random.index(rows.len()));
    }
    if let ToPicture::RowDoubled | ToPicture::RowsMoved = damage {
        let at = random.index(rows.len());
        rows.insert(at, rows[at].clone());
    }
    if let ToPicture::OnTop | ToPicture::Shifted = damage {
        rows.splice(0..0, vec![Vec::new(); PITCH]);
    }
    if damage == ToPicture::Shifted {
        rows.truncate(count);
    }
    rows
}
