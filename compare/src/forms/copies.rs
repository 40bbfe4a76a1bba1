//! The copies of a form: in each layout, whole and damaged.

use super::damages::{DAMAGES, Damage, damaged, pictured};
use super::filled::Filled;
use super::lying::Lying;
use crate::call::Layout;
use crate::canvas::WIDTH;
use crate::layouts::encoded;
use crate::random::Random;
use crate::settings::{Encoding, Settings};

/// How forms are written.
pub const LAYOUTS: [(&str, Option<Layout>); 4] = [
    ("Group 4", None),
    ("Group 3 1D", Some(Layout::OneD { eols: true, fill: 0 })),
    ("Group 3 1D, fill 3", Some(Layout::OneD { eols: true, fill: 3 })),
    ("Group 3 2D, K 4", Some(Layout::TwoD { k: 4 })),
];

/// How many copies have their bytes damaged in one way; every other damage has one copy.
const TIMES: usize = 8;

/// A copy: its layout and its damage by their places in the lists, which one of its kind it is, and the heads that it may be counted with.
pub struct FormCopy {
    pub layout: usize,
    pub damage: usize,
    pub nth: usize,
    pub may: Option<u32>,
    pub bytes: Vec<u8>,
}

/// How many copies a form has.
pub fn count() -> u64 {
    let times = |damage: &Damage| if let Damage::Bytes(_) = damage { TIMES } else { 1 };
    (LAYOUTS.len() * DAMAGES.iter().map(|(damage, _)| times(damage)).sum::<usize>()) as u64
}

/// As the writers write them, and as the tool reads a file with the ending of its encoding.
pub fn settings_of(layout: Option<Layout>) -> Settings {
    let encoding = match layout {
        None => Encoding::Group4,
        Some(Layout::OneD { .. }) => Encoding::Group3OneD,
        Some(Layout::TwoD { .. }) => Encoding::Group3TwoD,
    };
    Settings { encoding, end_of_block: true, end_of_line: layout.is_some(), ..Settings::of_line(WIDTH as u32, false) }
}

/// All copies of the form of a number. Each is made of the seed, that number, where the form lies and what it is alone.
pub fn copies_of(seed: u64, form: u64, lying: Lying) -> Vec<FormCopy> {
    let filled = Filled::random(&mut Random::of(seed, "form", form), (form % 100) as u32);
    let lies = lying.drawn(form, &mut Random::of(seed, "where a form lies", form));
    let whole = lies.rows(&filled.rows());
    let (pages, seconds) = (in_layouts(&whole), in_layouts(&lies.rows(&second_page(seed, form))));
    let mut copies = Vec::new();
    for (damage, &(kind, name)) in DAMAGES.iter().enumerate() {
        let draw = |place: usize| Random::of(seed, name, form * count() + place as u64);
        let mut put = |may, made: Vec<Vec<u8>>| {
            for (place, bytes) in made.into_iter().enumerate() {
                copies.push(FormCopy { layout: place % LAYOUTS.len(), damage, nth: place / LAYOUTS.len(), may, bytes });
            }
        };
        match kind {
            Damage::None => put(Some(filled.heads), pages.clone()),
            Damage::Bytes(damage) => {
                let copy = |place: usize| damaged(&mut draw(place), damage, &pages[place % LAYOUTS.len()]);
                put(Some(filled.heads), (0..TIMES * LAYOUTS.len()).map(copy).collect());
            }
            Damage::Picture(damage) => {
                let (rows, may) = pictured(&mut draw(0), damage, &filled, lies);
                put(may, in_layouts(&rows));
            }
            Damage::TwoPages => put(None, pages.iter().zip(&seconds).map(|(page, second)| [&page[..], second].concat()).collect()),
        }
    }
    copies
}

/// Rows in each layout.
fn in_layouts(rows: &[Vec<u32>]) -> Vec<Vec<u8>> {
    LAYOUTS.iter().map(|&(_, layout)| encoded(layout, WIDTH as u32, rows).into_bytes()).collect()
}

fn second_page(seed: u64, form: u64) -> Vec<Vec<u32>> {
    let mut random = Random::of(seed, "second page", form);
    let heads = random.below(100) as u32;
    Filled::random(&mut random, heads).rows()
}
