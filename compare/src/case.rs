//! The inputs of a check: what is asked, and what must come back.

use crate::call::{Ask, Room, Steps};
use crate::random::Random;
use crate::truth::Wanted;

/// One input: what is asked, and for each room that is lent what must come back.
pub struct Case {
    pub ask: Ask,
    pub plans: Vec<Plan>,
    /// What is wrong before the library is asked: the crate itself is not what a check says it is.
    pub complaint: Option<String>,
}

impl Case {
    /// Asks the page by the plain engine too, in one of the ways in which the lookup is asked.
    pub fn plainly(mut self, random: &mut Random) -> Self {
        let plan = self.plans[random.index(self.plans.len())].clone();
        self.plans.push(Plan { plain: true, ..plan });
        self
    }

    /// Complains unless something holds.
    pub fn require(mut self, holds: bool, complaint: impl FnOnce() -> String) -> Self {
        if !holds && self.complaint.is_none() {
            self.complaint = Some(complaint());
        }
        self
    }
}

#[derive(Clone)]
pub struct Plan {
    /// Whether the page is to be read exactly (A12), whatever its settings say of strictness.
    pub exact: bool,
    /// Whether runs are to be read by the plain engine (A14). What must come back is the same.
    pub plain: bool,
    /// Whether the page is to be read in one call, a row at a time (A1) or a few units at a time (A9).
    pub steps: Steps,
    pub room: Room,
    pub fill: u32,
    pub wanted: Wanted,
}

impl Plan {
    /// One call, not exactly, and by the lookup.
    pub fn whole(room: Room, fill: u32, wanted: Wanted) -> Self {
        Plan { exact: false, plain: false, steps: Steps::Whole, room, fill, wanted }
    }
}

/// Where the inputs of a check come from. An input is settled by its number and the run's seed.
pub trait Source: Sync {
    /// What the check is called; part of every input's seed.
    fn name(&self) -> String;

    fn count(&self) -> u64;

    fn case(&self, index: u64, random: &mut Random) -> Case;

    /// How many inputs are asked at a time.
    fn batch(&self) -> u64 {
        256
    }
}
