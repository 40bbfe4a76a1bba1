//! The booking form of examples/, as it is printed and as a form file has it.

use crate::canvas::{Canvas, WIDTH};
use std::fmt::Write as _;

pub const ROWS: usize = 400;
/// A box is ticked from so many black pixels on, and in doubt from so many on.
pub const TICK: u64 = 20;
const DOUBT: u64 = 6;

/// The insides of the boxes: their size, their left edges for tens and units, the top of the first, and how far one lies below another.
pub const WIDE: usize = 22;
pub const HIGH: usize = 20;
const LEFTS: [usize; 2] = [202, 702];
const TOP: usize = 78;
pub const PITCH: usize = 31;
/// How thick a frame is, how many black pixels its upper side has at least above an inside, its left side beside one, and how many the
/// gap below a box has at most.
const FRAME: usize = 2;
const FRAME_LEAST: u64 = 40;
const SIDE_LEAST: u64 = 36;
const GAP_MOST: u64 = 2;
/// By how many pixels a frame may lie aside where that is allowed.
const SLACK: usize = 3;

/// The left and the top edge of a box's inside.
pub fn corner(column: usize, digit: usize) -> (usize, usize) {
    (LEFTS[column], TOP + PITCH * digit)
}

/// The boxes as `ccitt_heads` takes them: digit by digit, tens before units.
pub fn boxes() -> Vec<u32> {
    let edges = |digit, column| {
        let (left, top) = corner(column, digit);
        [left, left + WIDE, top, top + HIGH].map(|edge| edge as u32)
    };
    (0..10).flat_map(|digit| [edges(digit, 0), edges(digit, 1)].concat()).collect()
}

/// How far a form may lie from its place, to either side and up or down: a sheet that was fed in by hand, and one under a sender's line.
/// A page may have as many rows more as its form may lie lower.
pub type Shift = [usize; 2];
pub const NEAR: Shift = [4, 6];
pub const ASIDE: Shift = [8, 12];
pub const FAR: Shift = [32, 48];

/// The desk's form file for a form that lies at its place.
pub fn text() -> String {
    text_with(&format!("page {WIDTH} {ROWS}"))
}

/// And for one that is looked for. The upper frames say how high it lies; the left sides of four frames say how far aside.
pub fn text_with_shift([across, down]: Shift) -> String {
    let mut out = text_with(&format!("page {WIDTH} {ROWS} {}\nshift {across} {down}", ROWS + down));
    for (column, digit) in [(0, 0), (0, 9), (1, 0), (1, 9)] {
        let (left, top) = corner(column, digit);
        let _ = writeln!(out, "black {} {left} {top} {} {SIDE_LEAST}", left - FRAME, top + HIGH);
    }
    out
}

/// And for one that may be turned a little too: only the middle of each box is looked at, and a frame's sides may lie up to SLACK
/// pixels beside their places.
pub fn text_with_slack([across, down]: Shift) -> String {
    let mut out = format!("page {WIDTH} {ROWS} {}\nshift {across} {down}\ntick 14\ndoubt 5\n", ROWS + down);
    for (column, name) in ["tens", "units"].into_iter().enumerate() {
        for digit in 0..10 {
            let (left, top) = corner(column, digit);
            let (right, bottom) = (left + WIDE, top + HIGH);
            let (inner_left, inner_right) = (left + SLACK, right - SLACK);
            let _ = writeln!(out, "{name} {digit} {inner_left} {inner_right} {} {}", top + SLACK, bottom - SLACK);
            let _ = writeln!(out, "black {inner_left} {inner_right} {} {} 28", top - FRAME - SLACK, top + SLACK);
            let _ = writeln!(out, "black {} {} {} {} 24", left - FRAME - SLACK, left + SLACK, top + SLACK, bottom - SLACK);
        }
    }
    out
}

/// The boxes, the page, the marks, and of each box the upper frame and the gap below it.
fn text_with(page: &str) -> String {
    let mut out = String::new();
    for (column, name) in ["tens", "units"].into_iter().enumerate() {
        for digit in 0..10 {
            let (left, top) = corner(column, digit);
            let _ = writeln!(out, "{name} {digit} {left} {} {top} {}", left + WIDE, top + HIGH);
        }
    }
    let _ = writeln!(out, "{page}\ntick {TICK}\ndoubt {DOUBT}");
    for (digit, column) in (0..10).flat_map(|digit| [(digit, 0), (digit, 1)]) {
        let (left, top) = corner(column, digit);
        let (right, below) = (left + WIDE, top + HIGH + FRAME);
        let _ = writeln!(out, "black {left} {right} {} {top} {FRAME_LEAST}", top - FRAME);
        let _ = writeln!(out, "white {left} {right} {below} {} {GAP_MOST}", top + PITCH - FRAME);
    }
    out
}

/// The form as it is printed: a title, the columns' names, and before each box its digit.
pub fn printed() -> Canvas {
    let mut page = Canvas::white(ROWS);
    print(&mut page, "BOOKING", (120, 12), 4);
    print(&mut page, "TENS", (200, 52), 2);
    print(&mut page, "UNITS", (700, 52), 2);
    for (digit, column) in (0..10).flat_map(|digit| [(digit, 0), (digit, 1)]) {
        let (left, top) = corner(column, digit);
        page.frame(left - FRAME, top - FRAME, WIDE + 2 * FRAME, HIGH + 2 * FRAME, FRAME);
        print(&mut page, &digit.to_string(), (left - 42, top + 3), 2);
    }
    page
}

/// A sender's line, as machines put one above the page: so many rows, with letters where there is room for them.
pub fn header(rows: usize) -> Vec<Vec<u32>> {
    let mut page = Canvas::white(rows);
    if rows >= 16 {
        print(&mut page, "BOOKINGTENS0123456789", (80, 1), 2);
    }
    page.rows()
}

/// Puts letters from a place on, each dot of them so many pixels wide.
fn print(page: &mut Canvas, words: &str, (left, top): (usize, usize), dot: usize) {
    for (place, letter) in words.bytes().enumerate() {
        let (_, rows) = FONT.iter().find(|(known, _)| *known == letter).expect("the font has the form's letters");
        for (down, row) in rows.iter().enumerate() {
            for across in (0..5).filter(|across| row >> (4 - across) & 1 == 1) {
                page.fill(left + (6 * place + across) * dot, top + down * dot, dot, dot);
            }
        }
    }
}

/// The letters of the form, five dots wide and seven high.
const FONT: [(u8, [u8; 7]); 20] = [
    (b'0', [0b01110, 0b10001, 0b10011, 0b10101, 0b11001, 0b10001, 0b01110]),
    (b'1', [0b00100, 0b01100, 0b00100, 0b00100, 0b00100, 0b00100, 0b01110]),
    (b'2', [0b01110, 0b10001, 0b00001, 0b00110, 0b01000, 0b10000, 0b11111]),
    (b'3', [0b11110, 0b00001, 0b00001, 0b01110, 0b00001, 0b00001, 0b11110]),
    (b'4', [0b00010, 0b00110, 0b01010, 0b10010, 0b11111, 0b00010, 0b00010]),
    (b'5', [0b11111, 0b10000, 0b11110, 0b00001, 0b00001, 0b10001, 0b01110]),
    (b'6', [0b00110, 0b01000, 0b10000, 0b11110, 0b10001, 0b10001, 0b01110]),
    (b'7', [0b11111, 0b00001, 0b00010, 0b00100, 0b01000, 0b01000, 0b01000]),
    (b'8', [0b01110, 0b10001, 0b10001, 0b01110, 0b10001, 0b10001, 0b01110]),
    (b'9', [0b01110, 0b10001, 0b10001, 0b01111, 0b00001, 0b00010, 0b01100]),
    (b'B', [0b11110, 0b10001, 0b10001, 0b11110, 0b10001, 0b10001, 0b11110]),
    (b'E', [0b11111, 0b10000, 0b10000, 0b11110, 0b10000, 0b10000, 0b11111]),
    (b'G', [0b01110, 0b10001, 0b10000, 0b10111, 0b10001, 0b10001, 0b01111]),
    (b'I', [0b01110, 0b00100, 0b00100, 0b00100, 0b00100, 0b00100, 0b01110]),
    (b'K', [0b10001, 0b10010, 0b10100, 0b11000, 0b10100, 0b10010, 0b10001]),
    (b'N', [0b10001, 0b11001, 0b10101, 0b10011, 0b10001, 0b10001, 0b10001]),
    (b'O', [0b01110, 0b10001, 0b10001, 0b10001, 0b10001, 0b10001, 0b01110]),
    (b'S', [0b01111, 0b10000, 0b10000, 0b01110, 0b00001, 0b00001, 0b11110]),
    (b'T', [0b11111, 0b00100, 0b00100, 0b00100, 0b00100, 0b00100, 0b00100]),
    (b'U', [0b10001, 0b10001, 0b10001, 0b10001, 0b10001, 0b10001, 0b01110]),
];
