//! Which rooms are lent for a reader's input: more than enough, just enough, one entry short, one row
//! end short, one mark short, or anything less. Pages are read exactly (A12), by the plain engine (A14), a row at a time (A1) and a few units at a time (A9) besides.

use crate::call::{Ask, Room, Steps};
use crate::case::{Case, Plan};
use crate::random::Random;
use crate::settings::Encoding;
use crate::truth::{Outcome, Wanted};

/// A page, with room to spare and with each of the rooms that decide; exactly, with room to spare and with one of them; and in one of
/// these ways by the plain engine; a row at a time, and exactly so; and a few units at a time likewise, where it is a page of Group 4.
pub fn page_case(ask: Ask, random: &mut Random) -> Case {
    let outcome = Outcome::of_page(&ask.settings, &ask.src, ask.tail);
    let mut plans = planned(rooms(&outcome, random), random, |room| outcome.page_within(room));
    let inexact = outcome.clone();
    let outcome = exactly(&ask, outcome);
    let mut rooms = rooms(&outcome, random);
    let another = rooms.swap_remove(1 + random.index(rooms.len() - 1));
    rooms.truncate(1);
    rooms.push(another);
    plans.extend(exact_plans(rooms, random, &outcome));
    let mut case = Case { ask, plans, complaint: None }.plainly(random);
    case.plans.extend(by_row(&inexact, false, random));
    case.plans.extend(by_row(&outcome, true, random));
    case.plans.extend(by_unit(&case.ask, &inexact, false, random));
    case.plans.extend(by_unit(&case.ask, &outcome, true, random));
    case
}

/// A row at a time, by either engine, into line arrays that are long enough, just so, one entry short, or of any lengths. Where the library is not
/// linked in, it is not asked.
fn by_row(outcome: &Outcome, exact: bool, random: &mut Random) -> Option<Plan> {
    let (first, second) = outcome.longest();
    let lines = match random.below(6) {
        0 => (first + 2, second + 1),
        1 if first > 0 => (first - 1, second),
        2 if second > 0 => (first, second - 1),
        3 => (random.index(first + 1), random.index(second + 1)),
        _ => (first, second),
    };
    let (changes, ends) = (outcome.changes.len() + 3, outcome.ends.len() + 2);
    let room = Room::Rows { changes, ends, marks: ends };
    let (plain, fill) = (random.bool(), random.next() as u32);
    cfg!(any(feature = "linked", test)).then(|| Plan {
        exact,
        plain,
        steps: Steps::Rows(lines.0, lines.1),
        room,
        fill,
        wanted: outcome.by_rows(lines),
    })
}

/// A few units at a time, by either engine, in one of the rooms: a page of Group 4 alone. Where the room cuts it short, its units are not known.
fn by_unit(ask: &Ask, outcome: &Outcome, exact: bool, random: &mut Random) -> Option<Plan> {
    let mut rooms = rooms(outcome, random);
    let room = rooms.swap_remove(random.index(rooms.len()));
    let wanted = outcome.page_within(room);
    let units = (wanted.answer.number == outcome.number).then_some(outcome.units);
    let (plain, fill) = (random.bool(), random.next() as u32);
    let asked = cfg!(any(feature = "linked", test)) && ask.settings.encoding == Encoding::Group4;
    asked.then_some(Plan { exact, plain, steps: Steps::Units(units), room, fill, wanted })
}

/// Room to spare, and each of the rooms that decide.
fn rooms(outcome: &Outcome, random: &mut Random) -> Vec<Room> {
    let (changes, ends) = (outcome.changes.len(), outcome.ends.len());
    let mut rooms = vec![Room::Rows { changes: changes + 3, ends: ends + 3, marks: ends + 2 }, Room::Rows { changes, ends, marks: ends }];
    if changes > 0 {
        rooms.push(Room::Rows { changes: changes - 1, ends, marks: ends });
    }
    if ends > 0 {
        rooms.push(Room::Rows { changes, ends: ends - 1, marks: ends });
        rooms.push(Room::Rows { changes, ends, marks: ends - 1 });
    }
    if changes + ends > 2 {
        rooms.push(random_room(random, changes, ends));
    }
    rooms
}

/// What the same page gives when it is read exactly: of a strict page the reading is at hand.
fn exactly(ask: &Ask, outcome: Outcome) -> Outcome {
    if ask.settings.strict { outcome.exactly(&ask.settings) } else { Outcome::of_exact_page(&ask.settings, &ask.src, ask.tail) }
}

pub fn exact_plans(rooms: Vec<Room>, random: &mut Random, outcome: &Outcome) -> impl Iterator<Item = Plan> {
    planned(rooms, random, |room| outcome.page_within(room)).into_iter().map(|plan| Plan { exact: true, ..plan })
}

/// A page with fewer rooms, for checks that have very many pages: room to spare or just enough, and for
/// one page in eight one entry, one row end or one mark short. Each strict page is read exactly too, and
/// one lenient page in 32: an exact reading does not look at strictness. In one of these ways it is read by the plain engine, and one page in four
/// a row at a time and, in Group 4, a few units at a time, exactly or not.
pub fn quick_page_case(ask: Ask, random: &mut Random) -> Case {
    let mut case = lookup_page_case(ask, random).plainly(random);
    if random.below(4) == 0 {
        let exact = random.bool();
        let outcome = if exact { Outcome::of_exact_page } else { Outcome::of_page }(&case.ask.settings, &case.ask.src, case.ask.tail);
        case.plans.extend(by_row(&outcome, exact, random));
        case.plans.extend(by_unit(&case.ask, &outcome, exact, random));
    }
    case
}

/// The same, by the lookup alone.
pub fn lookup_page_case(ask: Ask, random: &mut Random) -> Case {
    let outcome = Outcome::of_page(&ask.settings, &ask.src, ask.tail);
    let mut plans = planned(quick_rooms(&outcome, random), random, |room| outcome.page_within(room));
    if ask.settings.strict || random.below(32) == 0 {
        let outcome = exactly(&ask, outcome);
        plans.extend(exact_plans(quick_rooms(&outcome, random), random, &outcome));
    }
    Case { ask, plans, complaint: None }
}

fn quick_rooms(outcome: &Outcome, random: &mut Random) -> Vec<Room> {
    let (changes, ends) = (outcome.changes.len(), outcome.ends.len());
    let spare = random.index(2);
    let mut rooms = vec![Room::Rows { changes: changes + spare, ends: ends + spare, marks: ends + spare }];
    match random.below(24) {
        0 if changes > 0 => rooms.push(Room::Rows { changes: changes - 1, ends, marks: ends }),
        1 if ends > 0 => rooms.push(Room::Rows { changes, ends: ends - 1, marks: ends }),
        2 if ends > 0 => rooms.push(Room::Rows { changes, ends, marks: ends - 1 }),
        _ => {}
    }
    rooms
}

/// One line, with room to spare, with just enough, and one entry short.
pub fn line_case(ask: Ask, random: &mut Random) -> Case {
    let s = ask.settings;
    let outcome = Outcome::of_line(s.columns, s.strict, &ask.src, ask.tail, ask.at, &ask.first);
    let changes = outcome.changes.len();
    let mut rooms = vec![line_room(changes + 3), line_room(changes)];
    if changes > 0 {
        rooms.push(line_room(changes - 1));
        rooms.push(line_room(random.index(changes)));
    }
    let plans = planned(rooms, random, |room| outcome.line_within(room));
    Case { ask, plans, complaint: None }
}

fn random_room(random: &mut Random, changes: usize, ends: usize) -> Room {
    Room::Rows { changes: random.index(changes + 1), ends: random.index(ends + 1), marks: random.index(ends + 1) }
}

/// A line is lent no row ends and no marks.
pub fn line_room(changes: usize) -> Room {
    Room::Rows { changes, ends: 0, marks: 0 }
}

fn planned(rooms: Vec<Room>, random: &mut Random, wanted: impl Fn(Room) -> Wanted) -> Vec<Plan> {
    rooms.into_iter().map(|room| Plan::whole(room, random.next() as u32, wanted(room))).collect()
}
