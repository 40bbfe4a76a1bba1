//! How far a form may be turned or stretched and still be found, drawn with other pens, and with noise on the page: a measure, and no
//! promise. What is not found is to be looked at; none may be counted with other heads.

use super::ask::{Ask, Desk, Told};
use super::copies::settings_of;
use super::filled::Filled;
use super::sheet::{FAR, ROWS, TICK, boxes, text_with_shift, text_with_slack};
use crate::canvas::{Canvas, WIDTH};
use crate::layouts::encoded;
use crate::random::Random;

/// What a page goes through: degrees, percent, the pen of its ticks in pixels, and of a million pixels how many are turned over.
#[derive(Clone, Copy, Debug)]
struct Skew {
    turn: f64,
    stretch: f64,
    pen: usize,
    noise: u64,
}

const AS_DRAWN: Skew = Skew { turn: 0.0, stretch: 0.0, pen: 2, noise: 0 };
const TURNS: [f64; 10] = [0.02, 0.05, 0.1, 0.15, 0.2, 0.3, 0.5, 1.0, 1.5, 2.0];
const STRETCHES: [f64; 10] = [-2.0, -1.0, -0.5, -0.25, -0.1, 0.1, 0.25, 0.5, 1.0, 2.0];
const PENS: [usize; 4] = [1, 2, 3, 5];
const NOISES: [u64; 5] = [100, 300, 1_000, 3_000, 10_000];

/// So many forms for each line of the table, by a form file that asks for every pixel and by one that leaves some slack. True if none
/// was counted wrong, and all were counted that are as they were drawn.
pub fn run(desk: &dyn Desk, seed: u64, forms: u64) -> bool {
    println!("seed {seed}: {forms} forms a line; counted right / to be looked at / counted wrong");
    println!("| Pages | By the form as it is printed | With slack |\n|---|---|---|");
    let texts = [text_with_shift(FAR), text_with_slack(FAR)];
    let mut none_wrong = true;
    let mut line = |name: String, skew: Skew| {
        let counts = texts.each_ref().map(|text| of_skew(desk, seed, forms, text, skew));
        let [strict, slack] = counts.map(|[right, looked, wrong]| format!("{right} / {looked} / {wrong}"));
        println!("| {name} | {strict} | {slack} |");
        none_wrong &= counts.iter().all(|&[_, _, wrong]| wrong == 0);
        counts.iter().all(|&[right, _, _]| right == forms)
    };
    let whole = line("as drawn".to_string(), AS_DRAWN);
    for turn in TURNS {
        line(format!("turned by {turn} degrees"), Skew { turn, ..AS_DRAWN });
    }
    for stretch in STRETCHES {
        line(format!("stretched by {stretch} %"), Skew { stretch, ..AS_DRAWN });
    }
    for pen in PENS {
        line(format!("ticks {pen} pixels thick"), Skew { pen, ..AS_DRAWN });
    }
    for noise in NOISES {
        line(format!("{noise} of 1,000,000 pixels turned over"), Skew { noise, ..AS_DRAWN });
    }
    whole && none_wrong
}

fn of_skew(desk: &dyn Desk, seed: u64, forms: u64, text: &str, skew: Skew) -> [u64; 3] {
    let boxes = boxes();
    let mut counts = [0; 3];
    for form in 0..forms {
        let heads = (form % 100) as u32;
        let mut random = Random::of(seed, "skewed form", form);
        let page = Filled::random(&mut random, heads).drawn_by(skew.pen);
        let src = encoded(None, WIDTH as u32, &skewed(&page, skew, &mut random).rows()).into_bytes();
        let ask = Ask { text, boxes: &boxes, tick: TICK, settings: settings_of(None), src: &src };
        let [judged] = &desk.judge(&[ask])[..] else { panic!("one is asked for") };
        counts[match judged.desk[0] {
            told if told == (Told { number: 0, heads }) => 0,
            Told { number: 0, .. } => 2,
            _ => 1,
        }] += 1;
    }
    counts
}

/// Turned around the middle of the page and stretched from there, each pixel taken from the nearest one that was drawn.
fn skewed(page: &Canvas, skew: Skew, random: &mut Random) -> Canvas {
    let (sin, cos) = skew.turn.to_radians().sin_cos();
    let size = 1.0 + skew.stretch / 100.0;
    let middle = (WIDTH as f64 / 2.0, ROWS as f64 / 2.0);
    Canvas::of(ROWS, |x, y| {
        let (right, down) = ((x as f64 + 0.5 - middle.0) / size, (y as f64 + 0.5 - middle.1) / size);
        let from = (middle.0 + right * cos + down * sin, middle.1 + down * cos - right * sin);
        let turned = skew.noise > 0 && random.below(1_000_000) < skew.noise;
        page.is_black(from.0.floor() as i64, from.1.floor() as i64) != turned
    })
}
