//! What came of the copies: counted right, to be looked at, counted wrong.

use super::ask::{Judged, OLD_READINGS, READINGS, Told};
use super::copies::{FormCopy, LAYOUTS};
use super::damages::DAMAGES;

/// A verdict has a number below this.
pub const NUMBERS: usize = 64;

/// How many copies were answered with each number.
pub type ByNumber = [u64; NUMBERS];

/// Where a number is counted; one above the list is counted with the last.
fn slot(number: u32) -> usize {
    (number as usize).min(NUMBERS - 1)
}

/// What came of one kind of copies.
#[derive(Clone, Copy, PartialEq, Eq, Debug)]
pub struct Cell {
    pub right: u64,
    pub wrong: u64,
    pub looked: ByNumber,
}

impl Cell {
    pub const EMPTY: Cell = Cell { right: 0, wrong: 0, looked: [0; NUMBERS] };

    /// The heads that a copy may be counted with are right, all others are wrong.
    fn add_one(&mut self, may: Option<u32>, told: Told) {
        match told.number {
            0 if may == Some(told.heads) => self.right += 1,
            0 => self.wrong += 1,
            number => self.looked[slot(number)] += 1,
        }
    }

    pub fn add(&mut self, other: &Cell) {
        self.right += other.right;
        self.wrong += other.wrong;
        add_all(&mut self.looked, &other.looked);
    }

    pub fn looked_at(&self) -> u64 {
        self.looked.iter().sum()
    }

    pub fn copies(&self) -> u64 {
        self.right + self.wrong + self.looked_at()
    }
}

/// By layout and damage: by the desk's tests in each reading, and by the old ones in theirs.
#[derive(Clone)]
pub struct Counts {
    pub desk: Vec<[Cell; READINGS.len()]>,
    pub old: Vec<[Cell; OLD_READINGS.len()]>,
    /// Of the copies that the old tests counted wrong in either reading, the desk's numbers as the desk reads, and in that reading.
    pub gained: Vec<[[ByNumber; 2]; OLD_READINGS.len()]>,
}

/// Where a layout and a damage stand.
pub fn place(layout: usize, damage: usize) -> usize {
    layout * DAMAGES.len() + damage
}

impl Default for Counts {
    fn default() -> Self {
        let cells = LAYOUTS.len() * DAMAGES.len();
        Counts {
            desk: vec![[Cell::EMPTY; READINGS.len()]; cells],
            old: vec![[Cell::EMPTY; OLD_READINGS.len()]; cells],
            gained: vec![[[[0; NUMBERS]; 2]; OLD_READINGS.len()]; cells],
        }
    }
}

impl Counts {
    /// One copy. True if the desk counted it wrong in any reading.
    pub fn add_one(&mut self, copy: &FormCopy, judged: &Judged) -> bool {
        let at = place(copy.layout, copy.damage);
        for (cell, &told) in self.desk[at].iter_mut().zip(&judged.desk) {
            cell.add_one(copy.may, told);
        }
        for (reading, &told) in judged.old.iter().enumerate() {
            self.old[at][reading].add_one(copy.may, told);
            if is_wrong(copy.may, told) {
                let [desk, same] = &mut self.gained[at][reading];
                desk[slot(judged.desk[0].number)] += 1;
                same[slot(judged.desk[OLD_READINGS[reading].0].number)] += 1;
            }
        }
        judged.desk.iter().any(|&told| is_wrong(copy.may, told))
    }

    pub fn add(&mut self, other: &Counts) {
        self.desk.iter_mut().flatten().zip(other.desk.iter().flatten()).for_each(|(one, more)| one.add(more));
        self.old.iter_mut().flatten().zip(other.old.iter().flatten()).for_each(|(one, more)| one.add(more));
        let numbers = other.gained.iter().flatten().flatten();
        self.gained.iter_mut().flatten().flatten().zip(numbers).for_each(|(one, more)| add_all(one, more));
    }

    /// How often the desk counted wrong, over all readings.
    pub fn wrong(&self) -> u64 {
        self.desk.iter().flatten().map(|cell| cell.wrong).sum()
    }

    /// Whether the forms that were not damaged were all counted: a desk that counts nothing counts nothing wrong either.
    pub fn counts_whole_forms(&self) -> bool {
        (0..LAYOUTS.len()).all(|layout| self.desk[place(layout, 0)].iter().all(|cell| cell.right > 0 && cell.right == cell.copies()))
    }
}

pub fn is_wrong(may: Option<u32>, told: Told) -> bool {
    told.number == 0 && may != Some(told.heads)
}

fn add_all(numbers: &mut ByNumber, more: &ByNumber) {
    numbers.iter_mut().zip(more).for_each(|(number, more)| *number += more);
}
