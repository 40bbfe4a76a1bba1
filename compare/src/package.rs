//! The Rust package over the library (`rust/`), called as its users call it, on the inputs of every check. What it hands over is held to what the
//! crate gave for them: through the crate's own interface rows by callback, byte count and error, and through `beyond` marks, places and the rest.

#[cfg(feature = "linked")]
pub mod called;
#[cfg(feature = "linked")]
pub mod heads;
#[cfg(test)]
mod standin;

use crate::bits::hex;
use crate::call::{Answer, Ask, BYTE_MARGIN, Form, Layout, Room, Steps, pattern_byte};
use crate::case::{Case, Plan, Source};
use crate::random::Random;
use crate::settings::{Encoding, Settings};
use crate::tally::Tally;
use crate::truth::Wanted;
use std::num::NonZeroU64;

/// How a page is asked of it.
#[derive(Clone, Copy, Debug)]
pub enum Way {
    /// By `decode`, from a context that holds so many changes and rows, or as many as one does by itself; and again from the same context.
    Callback { room: Option<(usize, usize)>, again: bool },
    /// By `beyond::read_page`.
    Marked { exact: bool, plain: bool },
    /// By `beyond::Rows`, which gives rows to keep, or lends them.
    Rows { exact: bool, plain: bool, lent: bool },
    /// By `beyond::Units`, so many units a call, with room for so many changes and rows at first; a Group 4 page alone. The page has so many units, where
    /// that is known.
    Units { exact: bool, plain: bool, most: NonZeroU64, room: Option<(usize, usize)>, total: Option<u64> },
}

/// The package. What it hands over is told in the words of the library's answers; a writer is given what its output holds before.
pub trait Package {
    fn page(&mut self, way: Way, settings: &Settings, src: &[u8]) -> Wanted;
    fn line(&mut self, ask: &Ask, src: &[u8]) -> Wanted;
    fn write_line(&mut self, ask: &Ask, out: Vec<u8>) -> Wanted;
    /// A T.6 page, or a Group 3 page of some layout.
    fn write_page(&mut self, layout: Option<Layout>, columns: u32, rows: &[&[u32]]) -> Wanted;
}

/// A check of more inputs has one in four of them asked of the package.
const MANY: u64 = 1_000_000;

/// Asks the package about a batch of a check and compares.
pub fn compare(package: &mut dyn Package, source: &dyn Source, seed: u64, start: u64, cases: &[Case], tally: &mut Tally) {
    let name = format!("{}, by the package", source.name());
    for (index, case) in (start..).zip(cases) {
        let mut random = Random::of(seed, &name, index);
        if source.count() > MANY && random.below(4) > 0 {
            continue;
        }
        for (asked, wanted, given) in ask(package, case, &mut random) {
            tally.calls += 1;
            tally.by_package += 1;
            if given != wanted {
                let s = &case.ask.settings;
                let data = hex(&case.ask.src);
                tally.differs(case.ask.src.len(), || {
                    format!(
                        "  input {index}, by the package, {asked}: {s}\n  data: {data}\n  it must give {wanted:?}\n  it gives {given:?}"
                    )
                });
            }
        }
    }
}

/// What is asked, what it must give, and what it gives.
type Asked = (String, Wanted, Wanted);

fn ask(package: &mut dyn Package, case: &Case, random: &mut Random) -> Vec<Asked> {
    let ask = &case.ask;
    // the package never lacks room, so what it must give stands where the library had enough
    let plans: Vec<&Plan> =
        case.plans.iter().filter(|plan| plan.steps == Steps::Whole && ![4, 5, 9].contains(&plan.wanted.answer.number)).collect();
    if plans.is_empty() {
        return Vec::new();
    }
    let plan = plans[random.index(plans.len())];
    match ask.form {
        Form::Page(_) => {
            let src = ask.data();
            let published = plans.iter().find(|plan| !plan.exact).map(|plan| by_callback(package, ask, &src, plan, random));
            let other = by_other_ways(package, case, &src, plan, random);
            published.into_iter().chain([other]).collect()
        }
        Form::ReadLine => vec![("one line".to_string(), without_loose(plan.wanted.clone()), package.line(ask, &ask.data()))],
        Form::WriteLine if ask.tail == 0 => vec![line_written(package, ask, plan, random)],
        Form::WritePage if ask.tail == 0 => page_written(package, ask, None, plan).into_iter().collect(),
        Form::WriteGroup3(layout) if ask.tail == 0 => page_written(package, ask, Some(layout), plan).into_iter().collect(),
        _ => Vec::new(),
    }
}

fn by_callback(package: &mut dyn Package, ask: &Ask, src: &[u8], plan: &Plan, random: &mut Random) -> Asked {
    let (changes, rows) = (plan.wanted.changes.len() + 2, plan.wanted.ends.len() + 2);
    let room = random.bool().then(|| (random.index(changes), random.index(rows)));
    let way = Way::Callback { room, again: random.below(4) == 0 };
    (format!("{way:?}"), as_published(&ask.settings, &plan.wanted), package.page(way, &ask.settings, src))
}

fn by_other_ways(package: &mut dyn Package, case: &Case, src: &[u8], plan: &Plan, random: &mut Random) -> Asked {
    let Plan { exact, plain, .. } = *plan;
    let settings = &case.ask.settings;
    let ways = if settings.encoding == Encoding::Group4 { 4 } else { 3 };
    let (way, wanted) = match random.below(ways) {
        0 => (Way::Marked { exact, plain }, without_loose(plan.wanted.clone())),
        3 => (by_unit(case, src, plan, random), plan.wanted.clone()),
        lent => (Way::Rows { exact, plain, lent: lent == 1 }, plan.wanted.clone()),
    };
    (format!("{way:?}"), wanted, package.page(way, settings, src))
}

/// One unit a call, a few or many, but of a long page no fewer than 1 / 64 of its bytes; from any room.
fn by_unit(case: &Case, src: &[u8], plan: &Plan, random: &mut Random) -> Way {
    let few = [0, 4, 300][random.index(3)];
    let most = NonZeroU64::MIN.saturating_add(src.len() as u64 / 64 + random.below(few + 1));
    let (changes, rows) = (plan.wanted.changes.len() + 2, plan.wanted.ends.len() + 2);
    let room = random.bool().then(|| (random.index(changes), random.index(rows)));
    let total = case.plans.iter().find_map(|other| match other.steps {
        Steps::Units(total) if other.exact == plan.exact => total,
        _ => None,
    });
    Way::Units { exact: plan.exact, plain: plan.plain, most, room, total }
}

/// What the crate's interface shows: whole rows, and no mark and no place. Columns 0 are answered before all else, and what is beyond the limits is 3.
fn as_published(settings: &Settings, wanted: &Wanted) -> Wanted {
    let number = match wanted.answer.number {
        7 if settings.columns == 0 => 0,
        6 | 7 => 3,
        number => number,
    };
    let answer = Answer { number, place: 0, ..wanted.answer };
    without_loose(Wanted { answer, marks: Vec::new(), ..wanted.clone() })
}

/// Without the unfinished row.
fn without_loose(mut wanted: Wanted) -> Wanted {
    wanted.answer.loose = 0;
    wanted.changes.truncate(wanted.answer.entries as usize);
    wanted
}

/// Into an output that ends with the byte of the line's first bit, with the line, or behind it: it grows as far as the line goes.
fn line_written(package: &mut dyn Package, ask: &Ask, plan: &Plan, random: &mut Random) -> Asked {
    let Room::Bytes(room) = plan.room else { unreachable!("a writer is lent bytes") };
    let first = (ask.at.div_ceil(8) as usize).min(room);
    let length = first + random.index(room - first + 1);
    let before: Vec<u8> = (0..length).map(|index| pattern_byte(plan.fill, BYTE_MARGIN + index)).collect();
    let mut wanted = plan.wanted.clone();
    let end = wanted.answer.bytes.div_ceil(8) as usize;
    let out = wanted.out.get_or_insert_with(|| before.clone());
    out.truncate(length.max(end));
    (format!("a line into {length} bytes"), wanted, package.write_line(ask, before))
}

/// The package takes rows, so that there are no row ends to refuse.
fn page_written(package: &mut dyn Package, ask: &Ask, layout: Option<Layout>, plan: &Plan) -> Option<Asked> {
    let starts = std::iter::once(0).chain(ask.second.iter().copied());
    let rows: Option<Vec<&[u32]>> = starts.zip(&ask.second).map(|(start, &end)| ask.first.get(start as usize..end as usize)).collect();
    let given = package.write_page(layout, ask.settings.columns, &rows?);
    let mut wanted = plan.wanted.clone();
    if let Some(out) = &mut wanted.out {
        out.truncate(wanted.answer.bytes as usize);
    }
    Some((format!("a page to be written: {:?}", ask.form), wanted, given))
}
