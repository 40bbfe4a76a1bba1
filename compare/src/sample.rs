//! A sample of the crate's answers, which a program replays without Rust (crates/test_replay): what was asked
//! goes into a file `stdin`, what the crate answered into a file `stdout`.

use crate::call::{Ask, Form, Room, Steps};
use crate::case::{Case, Plan, Source};
use crate::checks::limits::{LineLimits, PageLimits};
use crate::checks::lines::Lines;
use crate::checks::random_pages::{Kind, RandomPages};
use crate::checks::sheets::Sheets;
use crate::random::Random;
use std::collections::BTreeMap;
use std::fmt::Write as _;
use std::io;
use std::path::Path;

/// So many cases of each kind: of each source, form, strictness (lenient, strict or exact) and answer.
const EACH: usize = 4;
/// So many by the plain engine.
const EACH_PLAIN: usize = 1;
/// Inputs tried for each source.
const TRIED: u64 = 40_000;
/// What the arrays of the program that replays have room for; what needs more is left out.
const LONGEST: usize = 128;
const MOST_CHANGES: usize = 256;
const MOST_ENDS: usize = 64;
const LONGEST_REFERENCE: usize = 32;
const MOST_ASKED: usize = 131_072;

pub fn write(folder: &str, seed: u64) -> io::Result<()> {
    let list: Vec<(Ask, Plan)> = sources().iter().flat_map(|source| chosen(source.as_ref(), seed)).collect();
    let mut asked = format!("{}\n", list.len());
    let mut answered = String::new();
    for (ask, plan) in &list {
        put_question(&mut asked, ask, plan);
        put_answer(&mut answered, plan);
    }
    assert!(asked.len() <= MOST_ASKED, "the program that replays reads so much");
    std::fs::write(Path::new(folder).join("stdin"), asked)?;
    std::fs::write(Path::new(folder).join("stdout"), answered)?;
    println!("seed {seed}: {} cases in {folder}", list.len());
    Ok(())
}

fn sources() -> Vec<Box<dyn Source>> {
    let random = |kind| Box::new(RandomPages { kind, count: TRIED }) as Box<dyn Source>;
    vec![
        Box::new(Sheets),
        Box::new(PageLimits),
        Box::new(LineLimits),
        random(Kind::Short),
        random(Kind::Words),
        random(Kind::Encoded),
        random(Kind::Damaged),
        Box::new(Lines { count: TRIED }),
    ]
}

/// The first cases of each kind that a random source gives, and all of the others; by the plain engine the first ones alone. Data above limit 7 is
/// left out with all that is too long.
fn chosen(source: &dyn Source, seed: u64) -> Vec<(Ask, Plan)> {
    let mut taken: BTreeMap<(bool, u32, u32, u32), usize> = BTreeMap::new();
    let mut list = Vec::new();
    let each = if source.count() < TRIED { usize::MAX } else { EACH };
    for index in 0..source.count() {
        let Case { ask, plans, .. } = source.case(index, &mut Random::of(seed, &source.name(), index));
        for plan in plans.into_iter().filter(|plan| plan.steps == Steps::Whole && is_small(&ask, plan)) {
            let strictness = if plan.exact { 2 } else { u32::from(ask.settings.strict) };
            let kind = (plan.plain, form_number(ask.form), strictness, plan.wanted.answer.number);
            let count = taken.entry(kind).or_default();
            if *count < if plan.plain { EACH_PLAIN } else { each } {
                *count += 1;
                list.push((ask.clone(), plan));
            }
        }
    }
    list
}

fn is_small(ask: &Ask, plan: &Plan) -> bool {
    let (changes, ends) = rooms(plan);
    has_marks(plan)
        && ask.src.len() + ask.tail <= LONGEST
        && changes <= MOST_CHANGES
        && ends <= MOST_ENDS
        && ask.first.len() <= LONGEST_REFERENCE
}

fn rooms(plan: &Plan) -> (usize, usize) {
    let Room::Rows { changes, ends, .. } = plan.room else { unreachable!("readers only") };
    (changes, ends)
}

/// The program lends as many marks as row ends.
fn has_marks(plan: &Plan) -> bool {
    matches!(plan.room, Room::Rows { ends, marks, .. } if ends == marks)
}

/// One line of decimal numbers: fifteen, the reference, the data. The fifteen are the form (0 Group 4,
/// 1 Group 3 1D, 2 Group 3 2D, 3 one line), columns, rows, end_of_block, end_of_line, aligned, strict, exact, plain,
/// the upper and the lower half of a line's first bit, the rooms for changes and for row ends, and the lengths
/// of the reference and of the data.
fn put_question(out: &mut String, ask: &Ask, plan: &Plan) {
    let s = &ask.settings;
    let (changes, ends) = rooms(plan);
    let flags = [s.end_of_block, s.end_of_line, s.aligned, s.strict, plan.exact, plan.plain].map(u64::from);
    let mut numbers = vec![u64::from(form_number(ask.form)), s.columns.into(), s.rows.into()];
    numbers.extend(flags);
    numbers.extend([ask.at >> 32, ask.at % (1 << 32)]);
    numbers.extend([changes, ends, ask.first.len(), ask.src.len() + ask.tail].map(|length| length as u64));
    numbers.extend(ask.first.iter().map(|&change| u64::from(change)));
    numbers.extend(ask.src.iter().map(|&byte| u64::from(byte)));
    numbers.extend(vec![0; ask.tail]);
    let words: Vec<String> = numbers.iter().map(u64::to_string).collect();
    let _ = writeln!(out, "{}", words.join(" "));
}

/// One line: number, mark, rows, entries, loose, bytes, place; then every entry of the changes, of the row ends and of
/// the marks that were lent, `-` for one that was left alone.
fn put_answer(out: &mut String, plan: &Plan) {
    let a = &plan.wanted.answer;
    let (changes, ends) = rooms(plan);
    let _ = writeln!(
        out,
        "{} {} {} {} {} {} {} :{} :{} :{}",
        a.number,
        a.mark,
        a.rows,
        a.entries,
        a.loose,
        a.bytes,
        a.place,
        entries(&plan.wanted.changes, changes),
        entries(&plan.wanted.ends, ends),
        entries(&plan.wanted.marks.iter().copied().map(u32::from).collect::<Vec<_>>(), ends)
    );
}

fn entries(words: &[u32], room: usize) -> String {
    let written = words.iter().map(|word| format!(" {word}"));
    written.chain(std::iter::repeat_n(" -".to_string(), room - words.len())).collect()
}

fn form_number(form: Form) -> u32 {
    match form {
        Form::Page(encoding) => encoding.number(),
        Form::ReadLine => 3,
        Form::WriteLine | Form::WritePage | Form::WriteGroup3(_) => unreachable!("readers only"),
    }
}
