//! What came of the copies, by rows and by pages.

/// Rows, each lined up with the one that was sent by its number. A row that is right counts as right whatever its mark is.
#[derive(Clone, Copy, Debug, Default, PartialEq, Eq)]
pub struct Rows {
    pub right: u64,
    pub marked: u64,
    pub clean: u64,
    /// Of these, those of copies that are complete but for their marks: nothing at all tells them.
    pub unseen: u64,
    /// Not given at all.
    pub lost: u64,
}

impl Rows {
    pub fn put(&mut self, right: bool, marked: bool) {
        *(match (right, marked) {
            (true, _) => &mut self.right,
            (false, true) => &mut self.marked,
            (false, false) => &mut self.clean,
        }) += 1;
    }
}

/// What came of one kind of copies in one reading.
#[derive(Clone, Copy, Debug, Default, PartialEq, Eq)]
pub struct Cell {
    pub copies: u64,
    pub rows: Rows,
    /// Read to the last byte with as many rows as were sent, and nothing said against any.
    pub passed: u64,
    /// Of these, those with a row that is not the one that was sent.
    pub wrong: u64,
}

impl Cell {
    pub fn put(&mut self, rows: Rows, passed: bool) {
        self.copies += 1;
        self.rows.right += rows.right;
        self.rows.marked += rows.marked;
        self.rows.clean += rows.clean;
        self.rows.unseen += rows.unseen;
        self.rows.lost += rows.lost;
        self.passed += u64::from(passed);
        self.wrong += u64::from(passed && rows.marked + rows.clean + rows.lost > 0);
    }

    pub fn add(&mut self, other: &Cell) {
        self.copies += other.copies;
        self.rows.right += other.rows.right;
        self.rows.marked += other.rows.marked;
        self.rows.clean += other.rows.clean;
        self.rows.unseen += other.rows.unseen;
        self.rows.lost += other.rows.lost;
        self.passed += other.passed;
        self.wrong += other.wrong;
    }
}

/// What must never be seen: each is a thing that is proved, or that a whole page shows.
#[derive(Clone, Copy, Debug, Default, PartialEq, Eq)]
pub struct Never {
    /// A page that is not damaged and does not pass, or has a wrong row.
    pub whole_fails: u64,
    /// Proper, with the rows that were sent, and other bytes (rules: proofs/Proper.antt: the rows and the writer settle the bytes).
    pub proper_twin: u64,
    /// Passed exactly and not strictly, or strictly and not leniently.
    pub not_nested: u64,
}

impl Never {
    pub fn add(&mut self, other: &Never) {
        self.whole_fails += other.whole_fails;
        self.proper_twin += other.proper_twin;
        self.not_nested += other.not_nested;
    }

    pub fn seen(&self) -> bool {
        *self != Never::default()
    }
}
