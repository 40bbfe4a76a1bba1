//! A page far behind: its first EOL has so much fill that every row lies beyond the old limit 7 of 268,435,456 bytes, at a bit that
//! 32 bits do not count.

use crate::call::{Ask, Room};
use crate::case::{Case, Plan, Source};
use crate::layouts::encoded;
use crate::random::Random;
use crate::rows::random_rows;
use crate::settings::Settings;
use crate::truth::Outcome;

/// The zeros of the first EOL, in bytes; seven more stand before its one.
const FILL: usize = 1 << 29;
const COLUMNS: u32 = 1728;

pub struct Far;

impl Source for Far {
    fn name(&self) -> String {
        "a page beyond 4,294,967,296 bits".to_string()
    }

    fn count(&self) -> u64 {
        1
    }

    /// Asked with room to spare alone: each call goes through all of the fill.
    fn case(&self, _: u64, random: &mut Random) -> Case {
        let rows = random_rows(random, COLUMNS, 12);
        let settings = Settings { end_of_block: true, ..Settings::of_line(COLUMNS, true) };
        let mut ask = Ask::page(settings, [vec![1], encoded(None, COLUMNS, &rows).into_bytes()].concat());
        ask.lead = FILL;
        let outcome = Outcome::of_page(&settings, &ask.data(), 0);
        let agrees = outcome.number == 0 && outcome.idle.is_none() && outcome.rows().eq(rows.iter().map(Vec::as_slice));
        let room = Room::Rows { changes: outcome.changes.len() + 3, ends: rows.len() + 3, marks: rows.len() + 3 };
        let plan = |(exact, plain)| Plan { exact, plain, ..Plan::whole(room, random.next() as u32, outcome.page_within(room)) };
        Case { ask, plans: [(false, false), (true, false), (false, true)].map(plan).into(), complaint: None }
            .require(agrees, || "the crate does not read the rows back".to_string())
    }

    fn batch(&self) -> u64 {
        1
    }
}
