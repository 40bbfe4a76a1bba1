//! A T.6 page writer as one writes it without proofs: it tests nothing, counts nothing first, and takes as much memory as it needs.

use crate::codes::{Colour, make_up, terminating};

/// A code's bits, and how many.
type Code = (u32, u32);

/// The codes of both colours: of runs below 64, and of multiples of 64 up to 2560.
pub struct Codes {
    terminating: [[Code; 64]; 2],
    make_up: [[Code; 41]; 2],
}

impl Codes {
    pub fn new() -> Self {
        let colours = [Colour::White, Colour::Black];
        Codes {
            terminating: colours.map(|colour| std::array::from_fn(|run| code(terminating(colour, run as u32)))),
            make_up: colours
                .map(|colour| std::array::from_fn(|run| if run == 0 { (0, 0) } else { code(make_up(colour, 64 * run as u32)) })),
        }
    }
}

fn code(bits: &str) -> Code {
    (u32::from_str_radix(bits, 2).expect("a code is recorded in bits"), bits.len() as u32)
}

struct Bits<'a> {
    out: &'a mut Vec<u8>,
    held: u64,
    count: u32,
}

impl Bits<'_> {
    fn put(&mut self, (bits, size): Code) {
        self.held = self.held << size | u64::from(bits);
        self.count += size;
        while self.count >= 8 {
            self.count -= 8;
            self.out.push((self.held >> self.count) as u8);
        }
    }

    fn put_run(&mut self, codes: &Codes, black: usize, run: u32) {
        let mut left = run;
        while left >= 2560 {
            self.put(codes.make_up[black][40]);
            left -= 2560;
        }
        if left >= 64 {
            self.put(codes.make_up[black][left as usize / 64]);
        }
        self.put(codes.terminating[black][left as usize % 64]);
    }
}

/// VL3 to VR3.
const VERTICAL: [Code; 7] = [(2, 7), (2, 6), (2, 3), (1, 1), (3, 3), (3, 6), (3, 7)];

fn put_line(bits: &mut Bits, codes: &Codes, width: u32, reference: &[u32], row: &[u32]) {
    let at = |changes: &[u32], place: usize| changes.get(place).copied().unwrap_or(width);
    let (mut position, mut black, mut place, mut seen) = (0, 0, 0, 0);
    let mut least = 0;
    while position < width {
        while seen < reference.len() && reference[seen] < least {
            seen += 1;
        }
        let b1_place = seen + usize::from(seen % 2 != black);
        let (b1, b2, a1) = (at(reference, b1_place), at(reference, b1_place + 1), at(row, place));
        let offset = i64::from(a1) - i64::from(b1);
        if b2 < a1 {
            bits.put((1, 4));
            position = b2;
        } else if (-3..=3).contains(&offset) {
            bits.put(VERTICAL[(offset + 3) as usize]);
            (position, black, place) = (a1, 1 - black, place + 1);
        } else {
            let a2 = at(row, place + 1);
            bits.put((1, 3));
            bits.put_run(codes, black, a1 - position);
            bits.put_run(codes, 1 - black, a2 - a1);
            (position, place) = (a2, place + 2);
        }
        least = position + 1;
    }
}

/// The page's bytes, behind what `out` has.
pub fn write_page(codes: &Codes, width: u32, changes: &[u32], ends: &[u64], out: &mut Vec<u8>) {
    let mut bits = Bits { out, held: 0, count: 0 };
    let (mut reference, mut base): (&[u32], usize) = (&[], 0);
    for &end in ends {
        let row = &changes[base..end as usize];
        put_line(&mut bits, codes, width, reference, row);
        (reference, base) = (row, end as usize);
    }
    bits.put((1, 12));
    bits.put((1, 12));
    let rest = (8 - bits.count) % 8;
    bits.put((0, rest));
}
