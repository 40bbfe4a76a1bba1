//! Runs one check: makes its inputs, asks the library, and compares everything that comes back.

use crate::bits::hex;
use crate::call::{Answer, Ask, BYTE_MARGIN, Call, Form, Replies, Reply, Room, Steps, pattern, pattern_byte};
use crate::case::{Case, Plan, Source};
use crate::ours::Ours;
use crate::random::Random;
use crate::tally::Tally;
use crate::truth::Wanted;
use std::fmt::Write as _;
use std::sync::Mutex;
use std::sync::atomic::{AtomicU64, Ordering};

/// Runs a check, each worker taking the next batch of inputs until there are none left.
pub fn run(source: &dyn Source, seed: u64, workers: &mut [Box<dyn Ours>]) -> Tally {
    let next = AtomicU64::new(0);
    let total = Mutex::new(Tally::default());
    std::thread::scope(|scope| {
        for ours in workers.iter_mut() {
            scope.spawn(|| {
                let tally = work(source, seed, ours.as_mut(), &next);
                total.lock().expect("no worker panics while it adds").add(tally);
            });
        }
    });
    total.into_inner().expect("no worker panics while it adds")
}

fn work(source: &dyn Source, seed: u64, ours: &mut dyn Ours, next: &AtomicU64) -> Tally {
    let mut tally = Tally::default();
    let name = source.name();
    loop {
        let start = next.fetch_add(source.batch(), Ordering::Relaxed);
        let end = (start + source.batch()).min(source.count());
        if start >= end {
            return tally;
        }
        let cases: Vec<Case> = (start..end).map(|index| source.case(index, &mut Random::of(seed, &name, index))).collect();
        compare(ours, start, &cases, &mut tally);
        #[cfg(feature = "linked")]
        crate::package::compare(&mut crate::package::called::Called, source, seed, start, &cases, &mut tally);
    }
}

/// Asks the library about a batch and compares. A batch without an answer is asked again input by input,
/// so that the one that has none is found.
fn compare(ours: &mut dyn Ours, start: u64, cases: &[Case], tally: &mut Tally) {
    let calls: Vec<Call> = cases.iter().flat_map(|case| case.plans.iter().map(|plan| call_of(&case.ask, plan))).collect();
    match ours.answer(&calls) {
        Ok(replies) => {
            assert_eq!(replies.len(), calls.len(), "every call is answered");
            compare_replies(start, cases, &replies, tally);
        }
        Err(error) => match cases {
            [case] => tally.differs(size_of_ask(&case.ask), || describe(start, &case.ask, &case.plans[0], &format!("no answer: {error}"))),
            _ => {
                for (index, case) in cases.iter().enumerate() {
                    compare(ours, start + index as u64, std::slice::from_ref(case), tally);
                }
                return;
            }
        },
    }
    tally.inputs += cases.len() as u64;
    tally.calls += calls.len() as u64;
}

fn call_of<'a>(ask: &'a Ask, plan: &Plan) -> Call<'a> {
    Call { ask, exact: plan.exact, plain: plan.plain, steps: plan.steps, room: plan.room, fill: plan.fill }
}

fn compare_replies(start: u64, cases: &[Case], replies: &Replies, tally: &mut Tally) {
    let mut call = 0;
    for (index, case) in cases.iter().enumerate() {
        let mut difference = case.complaint.clone().map(|text| (&case.plans[0], text));
        for plan in &case.plans {
            if difference.is_none() {
                difference = difference_of(plan, &replies.get(call)).map(|text| (plan, text));
            }
            call += 1;
        }
        if let Some((plan, text)) = difference {
            tally.differs(size_of_ask(&case.ask), || describe(start + index as u64, &case.ask, plan, &text));
        }
    }
}

/// Compares the answer, and every lent entry with what it must be: what is written, and the pattern
/// everywhere else.
fn difference_of(plan: &Plan, reply: &Reply) -> Option<String> {
    #[cfg(any(feature = "linked", test))]
    if let Some(complaint) = crate::complaint::Complaint::of(&reply.answer) {
        return Some(complaint.to_string());
    }
    if reply.answer != plan.wanted.answer {
        return Some(format!("it answers {}", show(&reply.answer)));
    }
    assert_eq!((reply.words.len(), reply.bytes.len()), (plan.room.words(), plan.room.bytes()), "as much comes back as was lent");
    if let Some(at) = (0..reply.words.len()).find(|&at| reply.words[at] != wanted_word(plan, at)) {
        return Some(format!("{} is {}, not {}", name_word(plan.room, at), reply.words[at], wanted_word(plan, at)));
    }
    let at = (0..reply.bytes.len()).find(|&at| reply.bytes[at] != wanted_byte(plan, at))?;
    let name = if matches!(plan.room, Room::Rows { .. }) { "mark" } else { "output byte" };
    Some(format!("{name} {} is {:02x}, not {:02x}", at as i64 - BYTE_MARGIN as i64, reply.bytes[at], wanted_byte(plan, at)))
}

fn wanted_word(plan: &Plan, at: usize) -> u32 {
    let (changes, ends) = plan.room.places();
    let written = written(&plan.wanted.changes, changes.start, at).or_else(|| written(&plan.wanted.ends, ends.start, at));
    written.unwrap_or_else(|| pattern(plan.fill, at))
}

fn wanted_byte(plan: &Plan, at: usize) -> u8 {
    let all = plan.wanted.out.as_ref().unwrap_or(&plan.wanted.marks);
    written(all, BYTE_MARGIN, at).unwrap_or_else(|| pattern_byte(plan.fill, at))
}

/// What is written at a place, if a list that starts at `start` reaches it.
fn written<T: Copy>(list: &[T], start: usize, at: usize) -> Option<T> {
    list.get(at.checked_sub(start)?).copied()
}

fn name_word(room: Room, at: usize) -> String {
    let (changes, ends) = room.places();
    if changes.contains(&at) {
        format!("change {}", at - changes.start)
    } else if ends.contains(&at) {
        format!("row end {}", at - ends.start)
    } else {
        format!("word {at}, beside the lent arrays,")
    }
}

fn size_of_ask(ask: &Ask) -> usize {
    ask.src.len() + 4 * (ask.first.len() + ask.second.len())
}

fn describe(index: u64, ask: &Ask, plan: &Plan, text: &str) -> String {
    let exact = if plan.exact { ", exact" } else { "" };
    let plain = if plan.plain { ", by the plain engine" } else { "" };
    let mut out = format!("  input {index}: {:?}, {}{exact}{plain}\n", ask.form, ask.settings);
    let _ =
        writeln!(out, "  data ({} zero bytes, {} bytes, {} zero bytes behind them): {}", ask.lead, ask.src.len(), ask.tail, hex(&ask.src));
    if !matches!(ask.form, Form::Page(_)) {
        let _ = writeln!(out, "  at bit {}, lists {:?} and {:?}", ask.at, ask.first, ask.second);
    }
    let _ = writeln!(out, "  lent: {:?}, filled by {:08x}", plan.room, plan.fill);
    let _ = match plan.steps {
        Steps::Whole => Ok(()),
        Steps::Rows(first, second) => {
            writeln!(out, "  a row at a time, into arrays of {first} and {second} entries; its rows gathered there")
        }
        Steps::Units(Some(units)) => writeln!(out, "  a few units at a time, {units} in all"),
        Steps::Units(None) => writeln!(out, "  a few units at a time"),
    };
    let Wanted { answer, changes, ends, marks, .. } = &plan.wanted;
    let _ = writeln!(out, "  it must answer {}, changes {changes:?}, ends {ends:?}, marks {marks:?}", show(answer));
    if let Some(written) = &plan.wanted.out {
        let _ = writeln!(out, "  and write {}", hex(written));
    }
    let _ = write!(out, "  {text}");
    out
}

fn show(a: &Answer) -> String {
    format!(
        "{}, mark {}, rows {}, entries {}, loose {}, bytes {}, place {}",
        a.number, a.mark, a.rows, a.entries, a.loose, a.bytes, a.place
    )
}
