//! A stand-in for the library, for testing the measure: the crate reads, the tests are written anew, and a fault can be put into
//! them; each must be caught.

use super::ask::{Ask, Desk, Judged, OLD_READINGS, Told};
use crate::faults::faults;
use crate::heads::ask::Ask as Store;
use crate::heads::plain::{Edges, black_in, plain, split};
use crate::settings::{Encoding, Settings};
use crate::truth::Outcome;

faults! {
    pub
    OldTests, AnyBytes, SecondTickPassed, NoTickIsZero, DigitsSwapped, CountsNothing, CountsWhatFails, WholeInDoubt, LooksNowhere,
}

pub struct Standin(pub Fault);

impl Desk for Standin {
    fn judge(&self, asks: &[Ask]) -> Vec<Judged> {
        let old = |ask: &Ask, how| by_old_tests(ask, &read(ask, how));
        let desk = |ask: &Ask, how| if self.0 == Fault::OldTests { old(ask, how) } else { self.verdict(ask, how) };
        asks.iter()
            .map(|ask| Judged { desk: [0, 1, 2, 3].map(|how| desk(ask, how)), old: OLD_READINGS.map(|(how, _)| old(ask, how)) })
            .collect()
    }
}

fn number(number: u32) -> Told {
    Told { number, heads: 0 }
}

/// As the desk reads, leniently, strictly and exactly.
fn read(ask: &Ask, how: usize) -> Outcome {
    let exact = how == 3 || how == 0 && ask.settings.encoding == Encoding::Group4;
    let settings = Settings { strict: how == 2, ..ask.settings };
    if exact { Outcome::of_exact_page(&settings, ask.src, 0) } else { Outcome::of_page(&settings, ask.src, 0) }
}

fn store(ask: &Ask, page: &Outcome) -> Store {
    Store {
        columns: ask.settings.columns,
        changes: page.changes.clone(),
        ends: page.ends.iter().copied().map(u64::from).collect(),
        marks: page.marks.clone(),
        boxes: ask.boxes.to_vec(),
        least: ask.tick,
        quota: 0,
    }
}

fn by_old_tests(ask: &Ask, page: &Outcome) -> Told {
    if page.number != 0 {
        return number(page.number);
    }
    let answer = plain(&store(ask, page));
    Told { number: answer.number, heads: answer.heads }
}

/// The words of a form's lines, and the numbers behind each.
fn lines(text: &str) -> impl Iterator<Item = (&str, Vec<u32>)> {
    text.lines().map(|line| {
        let mut words = line.split(' ');
        let word = words.next().expect("a line has a word");
        (word, words.map(|word| word.parse().expect("a form has numbers")).collect())
    })
}

/// The numbers of the line that begins with a word.
fn numbers_of(text: &str, wanted: &str) -> Option<Vec<u32>> {
    lines(text).find(|(word, _)| *word == wanted).map(|(_, numbers)| numbers)
}

/// A form file and its boxes, moved to the right and down.
struct Moved {
    text: String,
    boxes: Vec<u32>,
}

/// None where an edge would lie left of the page or above it.
fn moved(ask: &Ask, [across, down]: [i64; 2]) -> Option<Moved> {
    let edges = |four: &[u32]| -> Option<Vec<u32>> {
        [across, across, down, down].iter().zip(four).map(|(by, &edge)| u32::try_from(i64::from(edge) + by).ok()).collect()
    };
    let mut text = String::new();
    for (word, mut numbers) in lines(ask.text) {
        if let "black" | "white" = word {
            let place = edges(&numbers[..4])?;
            numbers.splice(..4, place);
        }
        let numbers: Vec<String> = numbers.iter().map(u32::to_string).collect();
        text.push_str(&format!("{word} {}\n", numbers.join(" ")));
    }
    let boxes: Option<Vec<Vec<u32>>> = ask.boxes.chunks(4).map(edges).collect();
    Some(Moved { text, boxes: boxes?.concat() })
}

/// The places of a form file: whether a place must be black, its edges, and how many pixels.
fn places_of(text: &str) -> Vec<(bool, Vec<u32>)> {
    lines(text).filter(|(word, _)| ["black", "white"].contains(word)).map(|(word, numbers)| (word == "black", numbers)).collect()
}

/// A page on which a form is looked for.
struct Sheet<'a> {
    columns: u32,
    rows: Vec<&'a [u32]>,
    places: Vec<(bool, Vec<u32>)>,
}

impl Sheet<'_> {
    /// A box that is moved, where it then lies inside the page.
    fn at(&self, four: &[u32], [across, down]: [i64; 2]) -> Option<Edges> {
        let [left, right] = [four[0], four[1]].map(|edge| i64::from(edge) + across);
        let [top, bottom] = [four[2], four[3]].map(|edge| i64::from(edge) + down);
        let inside = left >= 0 && top >= 0 && right <= i64::from(self.columns) && bottom <= self.rows.len() as i64;
        inside.then(|| Edges::of(&[left, right, top, bottom].map(|edge| edge as u32)))
    }

    /// Each place, moved, lies inside the page and is as it must be.
    fn fits(&self, by: [i64; 2]) -> bool {
        self.places.iter().all(|(black, numbers)| {
            let asked = u64::from(numbers[4]);
            let count = self.at(numbers, by).map(|place| black_in(self.columns, &self.rows, &place));
            count.is_some_and(|count| if *black { count >= asked } else { count <= asked })
        })
    }
}

impl Standin {
    /// The tests in their order (docs/DECISIONS.md, 92).
    fn verdict(&self, ask: &Ask, how: usize) -> Told {
        let page = read(ask, how);
        let rows = &numbers_of(ask.text, "page").expect("a form has a page")[1..];
        if page.number != 0 {
            return if self.0 == Fault::CountsWhatFails { number(0) } else { number(page.number) };
        }
        if page.bytes != ask.src.len() as u64 && self.0 != Fault::AnyBytes {
            return number(17);
        }
        if !(rows[0]..=rows[rows.len() - 1]).contains(&(page.ends.len() as u32)) {
            return number(18);
        }
        match numbers_of(ask.text, "shift") {
            Some(reach) if self.0 != Fault::LooksNowhere => self.looked_for(ask, &page, &reach),
            _ => self.at_its_place(ask, &page),
        }
    }

    /// At each place within reach at which the form fits the same heads must be told.
    fn looked_for(&self, ask: &Ask, page: &Outcome, reach: &[u32]) -> Told {
        let store = store(ask, page);
        let sheet = Sheet { columns: store.columns, rows: split(&store).expect("the crate's rows are some"), places: places_of(ask.text) };
        let [across, down] = [reach[0], reach[1]].map(i64::from);
        let within = (-down..=down).flat_map(|y| (-across..=across).map(move |x| [x, y]));
        let fitting = within.filter(|&by| sheet.fits(by) && ask.boxes.chunks(4).all(|four| sheet.at(four, by).is_some()));
        let mut told = fitting.filter_map(|by| moved(ask, by)).map(|moved| {
            let (text, boxes) = (&moved.text[..], &moved.boxes[..]);
            self.at_its_place(&Ask { text, boxes, ..*ask }, page)
        });
        let Some(first) = told.next() else { return number(20) };
        if first.number != 0 {
            return first;
        }
        match told.find(|&other| other != first) {
            None => first,
            Some(other) if other.number == 0 => number(25),
            Some(other) => other,
        }
    }

    fn at_its_place(&self, ask: &Ask, page: &Outcome) -> Told {
        let told = by_old_tests(ask, page);
        if told.number == 13 {
            return told;
        }
        if rests_on(ask).any(|row| page.marks[row] != 0) {
            return number(19);
        }
        self.on_pixels(ask, page, told)
    }

    fn on_pixels(&self, ask: &Ask, page: &Outcome, told: Told) -> Told {
        let store = store(ask, page);
        let rows = split(&store).expect("the crate's rows are some");
        let black = |edges: &[u32]| black_in(store.columns, &rows, &Edges::of(edges));
        let broken = lines(ask.text).find(|(word, numbers)| match *word {
            "black" => black(numbers) < u64::from(numbers[4]),
            "white" => black(numbers) > u64::from(numbers[4]),
            _ => false,
        });
        if let Some((word, _)) = broken {
            return number(if word == "black" { 20 } else { 21 });
        }
        let doubt = numbers_of(ask.text, "doubt").map_or(ask.tick, |numbers| u64::from(numbers[0]));
        let counts: Vec<u64> = ask.boxes.chunks(4).map(black).collect();
        if counts.iter().any(|count| (doubt..ask.tick).contains(count)) || self.0 == Fault::WholeInDoubt {
            return number(22);
        }
        self.spoiled(told, [0, 1].map(|column| (0..10).find(|digit| counts[2 * digit + column] >= ask.tick)))
    }

    /// What is told of ticks that are clear; the first tick of each column stands beside it.
    fn spoiled(&self, told: Told, first: [Option<usize>; 2]) -> Told {
        let counted = |tens: usize, units: usize| Told { number: 0, heads: (10 * tens + units) as u32 };
        match (self.0, first) {
            (Fault::SecondTickPassed, [Some(tens), Some(units)]) => counted(tens, units),
            (Fault::NoTickIsZero, [tens, units]) => counted(tens.unwrap_or(0), units.unwrap_or(0)),
            (Fault::DigitsSwapped, [Some(tens), Some(units)]) if told.number == 0 => counted(units, tens),
            (Fault::CountsNothing, _) => number(12),
            _ => told,
        }
    }
}

/// The rows that must be clean: all down to the lowest place, or in 1D those of the places alone.
fn rests_on(ask: &Ask) -> impl Iterator<Item = usize> {
    let places = lines(ask.text).filter(|(word, _)| ["black", "white"].contains(word)).map(|(_, numbers)| numbers);
    let above = ask.settings.encoding != Encoding::Group3OneD;
    places.flat_map(move |numbers| if above { 0..numbers[3] as usize } else { numbers[2] as usize..numbers[3] as usize })
}
