//! What is wrong with a call of the row form or of the unit form, in place of an answer.

use crate::call::Answer;

#[derive(Clone, Copy, Debug)]
pub enum Complaint {
    WrongArray,
    TooManyRows,
    WrongUnits,
    WrongTotal,
    WritesBeside,
    WrongCounts,
    RefusalChanges,
    NotRepeated,
    NotTen,
    ForgedTaken,
    OddRefused,
    Endless,
}

const COMPLAINTS: [(Complaint, &str); 12] = [
    (Complaint::WrongArray, "a row is not in the array whose turn it is"),
    (Complaint::TooManyRows, "it gives more rows, or more changes, than the page has"),
    (Complaint::WrongUnits, "a call takes more units than it may, or fewer and goes on"),
    (Complaint::WrongTotal, "its units are not those of the page, or not those that one call takes, or it ends otherwise"),
    (Complaint::WritesBeside, "a call writes into rows that were kept, or beside what it has read"),
    (Complaint::WrongCounts, "an answer or a state has other counts than what was read so far"),
    (Complaint::RefusalChanges, "a refusal changes the state or an array"),
    (Complaint::NotRepeated, "a call after the end does not repeat it, takes units, or writes"),
    (Complaint::NotTen, "a call of no units is not refused before all else, or something is changed"),
    (Complaint::ForgedTaken, "a state that no call left, or another encoding, is not refused, or something is changed"),
    (Complaint::OddRefused, "a state that passes the tests is refused"),
    (Complaint::Endless, "it does not end"),
];

/// Above every number of the list.
const FIRST: u32 = 1_000_000;

impl Complaint {
    pub fn answer(self) -> Answer {
        Answer::bare(FIRST + self as u32)
    }

    /// What an answer complains of, if it does.
    pub fn of(answer: &Answer) -> Option<&'static str> {
        let index = answer.number.checked_sub(FIRST)?;
        COMPLAINTS.get(index as usize).map(|&(_, text)| text)
    }
}
