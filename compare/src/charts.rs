//! Pages of the kinds that ITU's eight test charts have, drawn by a seed: the charts themselves are not ours to copy.

use crate::canvas::{Canvas, WIDTH};
use crate::drawn::{Drawn, HEIGHT, Letter, Type, alphabet, random, words};
use crate::random::Random;
use std::f64::consts::PI;

pub fn pages() -> Vec<Drawn> {
    vec![
        ("chart 1, a letter", letter().rows()),
        ("chart 2, a circuit by hand", circuit().rows()),
        ("chart 3, an invoice", invoice().rows()),
        ("chart 4, dense text", dense().rows()),
        ("chart 5, two columns and figures", columns().rows()),
        ("chart 6, a graph", graph().rows()),
        ("chart 7, dense signs", signs().rows()),
        ("chart 8, a memo by hand", memo().rows()),
    ]
}

/// Lines of words between two margins, from a height on.
fn lines(page: &mut Canvas, random: &mut Random, kind: &Type, (left, right): (usize, usize), top: usize, count: usize) {
    let letters = alphabet();
    for line in 0..count {
        words(page, random, &letters, kind, (left, top + line * kind.pitch), right);
    }
}

/// A head, an address, three paragraphs and a name.
fn letter() -> Canvas {
    let mut page = Canvas::white(HEIGHT);
    let mut random = random("letter");
    let kind = Type { size: 20, pitch: 42 };
    lines(&mut page, &mut random, &Type { size: 40, pitch: 60 }, (500, 1300), 120, 1);
    lines(&mut page, &mut random, &kind, (200, 620), 330, 4);
    for (top, count) in [(640, 5), (900, 4), (1110, 6)] {
        lines(&mut page, &mut random, &kind, (200, WIDTH - 200), top, count);
    }
    lines(&mut page, &mut random, &kind, (200, 600), 1500, 1);
    page
}

/// Wires that turn at right angles, parts with frames, and a few labels, none of them quite straight.
fn circuit() -> Canvas {
    let mut page = Canvas::white(HEIGHT);
    let mut random = random("circuit");
    for _ in 0..26 {
        let mut place = |most: usize| random.range(150, most as u64 - 150) as f64;
        let (from, to) = ((place(WIDTH), place(HEIGHT)), (place(WIDTH), place(HEIGHT)));
        let corner = (to.0 + 3.0, from.1 + 2.0);
        page.stroke(from, corner, 4.0);
        page.stroke(corner, to, 4.0);
    }
    for _ in 0..18 {
        let (x, y) = (random.range(150, 1450) as usize, random.range(150, 1950) as usize);
        page.frame(x, y, 120, 70, 4);
        lines(&mut page, &mut random, &Type { size: 22, pitch: 30 }, (x, x + 320), y + 84, 1);
    }
    page
}

/// A head, a table of ruled fields with words in most of them, and a sum.
fn invoice() -> Canvas {
    let mut page = Canvas::white(HEIGHT);
    let mut random = random("invoice");
    lines(&mut page, &mut random, &Type { size: 34, pitch: 60 }, (140, 1000), 110, 2);
    lines(&mut page, &mut random, &Type { size: 16, pitch: 30 }, (140, 700), 300, 6);
    for row in 0..24 {
        let y = 560 + row * 54;
        page.fill(140, y, WIDTH - 280, 2);
        for (left, right) in [(150, 420), (440, 1000), (1020, 1280), (1300, 1580)] {
            if random.chance(80) {
                lines(&mut page, &mut random, &Type { size: 16, pitch: 30 }, (left, right), y + 20, 1);
            }
        }
    }
    for x in [140, 430, 1010, 1290, WIDTH - 142] {
        page.fill(x, 560, 2, 24 * 54);
    }
    page
}

fn dense() -> Canvas {
    let mut page = Canvas::white(HEIGHT);
    let mut random = random("dense");
    lines(&mut page, &mut random, &Type { size: 12, pitch: 20 }, (90, WIDTH - 90), 80, 102);
    page
}

/// Two columns of text, with a figure in each.
fn columns() -> Canvas {
    let mut page = Canvas::white(HEIGHT);
    let mut random = random("columns");
    for (left, right) in [(110, 830), (900, 1620)] {
        lines(&mut page, &mut random, &Type { size: 15, pitch: 27 }, (left, right), 110, 26);
        page.frame(left, 880, 700, 460, 3);
        curve(&mut page, (left as f64 + 20.0, 1110.0), 660.0, 180.0, 3.0, &mut random);
        lines(&mut page, &mut random, &Type { size: 15, pitch: 27 }, (left, right), 1400, 26);
    }
    page
}

/// A curve of two waves about a height, in short strokes.
fn curve(page: &mut Canvas, (left, middle): (f64, f64), wide: f64, high: f64, pen: f64, random: &mut Random) {
    let (slow, quick) = (random.range(1, 3) as f64, random.range(4, 9) as f64);
    let point = |part: usize| {
        let along = part as f64 / 120.0;
        (left + wide * along, middle - high * (0.7 * (slow * PI * along).sin() + 0.3 * (quick * PI * along).sin()))
    };
    (0..120).for_each(|part| page.stroke(point(part), point(part + 1), pen));
}

/// Axes, a fine grid, and five curves.
fn graph() -> Canvas {
    let mut page = Canvas::white(HEIGHT);
    let mut random = random("graph");
    page.fill(200, 200, 5, 1700);
    page.fill(200, 1900, 1350, 5);
    for line in 1..17 {
        page.fill(200, 1900 - line * 100, 1350, 1);
    }
    for _ in 0..5 {
        let middle = random.range(700, 1500) as f64;
        curve(&mut page, (205.0, middle), 1340.0, 400.0, 5.0, &mut random);
    }
    lines(&mut page, &mut random, &Type { size: 20, pitch: 34 }, (420, 1400), 1960, 3);
    page
}

/// Signs of six strokes each, in rows without gaps between words.
fn signs() -> Canvas {
    let mut page = Canvas::white(HEIGHT);
    let mut random = random("signs");
    let signs: Vec<Letter> = (0..60)
        .map(|_| {
            let mut part = || random.range(0, 10) as f64 / 10.0;
            Letter((0..6).map(|_| if part() < 0.5 { [0.0, part(), 2.0, part()] } else { [2.0 * part(), 0.0, 2.0 * part(), 1.0] }).collect())
        })
        .collect();
    for line in 0..52 {
        for sign in 0..48 {
            signs[random.index(signs.len())].draw(&mut page, 120 + sign * 31, 100 + line * 38, 26);
        }
    }
    page
}

/// Lines as a hand writes them, and a headline in white on black.
fn memo() -> Canvas {
    let mut page = Canvas::white(HEIGHT);
    let mut random = random("memo");
    lines(&mut page, &mut random, &Type { size: 60, pitch: 90 }, (180, 1560), 190, 1);
    page.invert(120, 140, WIDTH - 240, 170);
    for line in 0..18 {
        let (mut x, y) = (160.0, 460.0 + 88.0 * line as f64);
        while x < WIDTH as f64 - 300.0 {
            let wide = random.range(60, 220) as f64;
            curve(&mut page, (x, y), wide, random.range(14, 30) as f64, 6.0, &mut random);
            x += wide + 40.0;
        }
    }
    page
}
