//! The pages of the set that reading is timed on (02, A8), drawn by a seed, so that anyone makes them again.

use crate::canvas::{Canvas, WIDTH};
use crate::random::Random;

pub const HEIGHT: usize = 2200;

const SEED: u64 = 8;

/// A page's name, and its rows.
pub type Drawn = (&'static str, Vec<Vec<u32>>);

/// What offices fax: text, forms, dense pages and sparse ones.
pub fn pages() -> Vec<Drawn> {
    vec![
        ("text", text(Type { size: 22, pitch: 40 }, 50).rows()),
        ("small text", text(Type { size: 14, pitch: 24 }, 86).rows()),
        ("a short letter", text(Type { size: 22, pitch: 40 }, 14).rows()),
        ("a form", form().rows()),
        ("a photograph in dots", dots(6).rows()),
        ("a drawing", drawing().rows()),
    ]
}

/// What no office faxes, and a reader may be slow on.
#[cfg(feature = "linked")]
pub fn odd_pages() -> Vec<Drawn> {
    let mut random = random("noise");
    let mut runs = random_runs();
    vec![
        ("blank", Canvas::white(HEIGHT).rows()),
        ("ruled", Canvas::of(HEIGHT, |x, _| x % 8 == 0).rows()),
        ("dots in every other pixel", Canvas::of(HEIGHT, |x, y| (x + y) % 2 == 0).rows()),
        ("noise", Canvas::of(HEIGHT, |_, _| random.bool()).rows()),
        ("runs of 64 to 163", (0..HEIGHT).map(|_| runs()).collect()),
    ]
}

pub fn random(name: &str) -> Random {
    Random::of(SEED, name, 0)
}

/// How high a letter stands, and how far one line of text lies below another.
pub struct Type {
    pub size: usize,
    pub pitch: usize,
}

/// Lines of words between margins.
fn text(kind: Type, lines: usize) -> Canvas {
    let mut page = Canvas::white(HEIGHT);
    let mut random = random("text");
    let letters = alphabet();
    for line in 0..lines {
        words(&mut page, &mut random, &letters, &kind, (140, 100 + line * kind.pitch), WIDTH - 140);
    }
    page
}

/// Words of two to nine letters from a place on, as far as there is room.
pub fn words(page: &mut Canvas, random: &mut Random, letters: &[Letter], kind: &Type, (left, top): (usize, usize), right: usize) {
    let step = kind.size * 7 / 10;
    let mut x = left;
    while x + 9 * step < right {
        for _ in 0..random.range(2, 9) {
            letters[random.index(letters.len())].draw(page, x, top, kind.size);
            x += step;
        }
        x += step;
    }
}

/// A letter: strokes between points of a box of one by one.
pub struct Letter(pub Vec<[f64; 4]>);

impl Letter {
    pub fn draw(&self, page: &mut Canvas, x: usize, y: usize, size: usize) {
        let high = size as f64;
        let (wide, pen) = (high * 0.5, high / 7.0);
        let place = |across: f64, down: f64| (x as f64 + across * wide, y as f64 + down * high);
        for &[a, b, c, d] in &self.0 {
            page.stroke(place(a, b), place(c, d), pen);
        }
    }
}

/// Twenty-six shapes: an upright, a bow of short strokes, or a slanted pair, joined at random.
pub fn alphabet() -> Vec<Letter> {
    let mut random = random("alphabet");
    (0..26)
        .map(|_| {
            let mut strokes = Vec::new();
            if random.chance(70) {
                strokes.push([0.0, 0.0, 0.0, 1.0]);
            }
            match random.below(3) {
                0 => strokes.extend(bow(random.range(2, 8) as f64 / 10.0)),
                1 => strokes.extend([[0.0, 1.0, 0.5, 0.1], [0.5, 0.1, 1.0, 1.0]]),
                _ => strokes.extend([[0.0, 0.5, 1.0, 0.5], [1.0, 0.2, 1.0, 1.0]]),
            }
            Letter(strokes)
        })
        .collect()
}

/// Half of an ellipse about a height, in eight strokes.
fn bow(middle: f64) -> Vec<[f64; 4]> {
    let high = middle.min(1.0 - middle) + 0.2;
    let point = |part: usize| {
        let angle = std::f64::consts::PI * (part as f64 / 8.0 - 0.5);
        (angle.cos(), (middle + high * angle.sin()).clamp(0.0, 1.0))
    };
    (0..8).map(|part| [point(part).0, point(part).1, point(part + 1).0, point(part + 1).1]).collect()
}

/// A booking form: a head, fields with labels, and ten rows of two boxes, two of them ticked.
fn form() -> Canvas {
    let mut page = Canvas::white(HEIGHT);
    let mut random = random("form");
    let letters = alphabet();
    words(&mut page, &mut random, &letters, &Type { size: 36, pitch: 60 }, (140, 90), WIDTH - 140);
    for field in 0..9 {
        let y = 240 + field * 90;
        words(&mut page, &mut random, &letters, &Type { size: 18, pitch: 30 }, (140, y), 520);
        page.fill(540, y + 30, 1040, 2);
    }
    for digit in 0..10 {
        let y = 1100 + digit * 96;
        for x in [500, 1000] {
            page.frame(x, y, 80, 72, 3);
        }
    }
    for (x, y) in [(500, 1100 + 4 * 96), (1000, 1100)] {
        page.stroke((x as f64 + 10.0, y as f64 + 36.0), (x as f64 + 32.0, y as f64 + 62.0), 6.0);
        page.stroke((x as f64 + 32.0, y as f64 + 62.0), (x as f64 + 72.0, y as f64 + 8.0), 6.0);
    }
    page
}

/// Round dots on a grid, whose size falls off from the middle of the page.
fn dots(grid: usize) -> Canvas {
    Canvas::of(HEIGHT, |x, y| {
        let off = |at: usize| (at % grid) as f64 - (grid as f64 - 1.0) / 2.0;
        let from = |at: usize, all: usize| at as f64 / all as f64 - 0.5;
        let dark = 1.0 - 1.6 * from(x, WIDTH).hypot(from(y, HEIGHT));
        off(x).hypot(off(y)) < dark * grid as f64 / 1.8
    })
}

/// Rings, and lines in every direction.
fn drawing() -> Canvas {
    let mut page = Canvas::white(HEIGHT);
    let mut random = random("drawing");
    for _ in 0..40 {
        let mut point = || (random.range(100, WIDTH as u64 - 100) as f64, random.range(100, HEIGHT as u64 - 100) as f64);
        page.stroke(point(), point(), 4.0);
    }
    for ring in 1..8 {
        let point = |part: usize| {
            let angle = part as f64 * std::f64::consts::PI / 90.0;
            (864.0 + 90.0 * ring as f64 * angle.cos(), 1100.0 + 90.0 * ring as f64 * angle.sin())
        };
        (0..180).for_each(|part| page.stroke(point(part), point(part + 1), 3.0));
    }
    page
}

/// Rows of runs that each take a make-up code.
#[cfg(feature = "linked")]
fn random_runs() -> impl FnMut() -> Vec<u32> {
    let mut random = random("runs");
    move || {
        let mut row = Vec::new();
        let mut at = random.range(64, 163);
        while at < WIDTH as u64 {
            row.push(at as u32);
            at += random.range(64, 163);
        }
        row
    }
}
