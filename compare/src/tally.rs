//! What was asked, and what differs.

/// What a check found.
#[derive(Default)]
pub struct Tally {
    pub inputs: u64,
    pub calls: u64,
    /// How many of the calls were the Rust package's.
    pub by_package: u64,
    pub differing: u64,
    /// The smallest input that differs: its size and its description.
    pub smallest: Option<(usize, String)>,
}

impl Tally {
    pub fn passed(&self) -> bool {
        self.differing == 0 && self.inputs > 0
    }

    /// What was asked.
    pub fn asked(&self) -> String {
        let by_package = if cfg!(feature = "linked") { format!(", {} of them by the package", self.by_package) } else { String::new() };
        format!("{} inputs, {} calls{by_package}", self.inputs, self.calls)
    }

    pub fn differs(&mut self, size: usize, text: impl FnOnce() -> String) {
        self.differing += 1;
        if self.smallest.as_ref().is_none_or(|&(smallest, _)| size < smallest) {
            self.smallest = Some((size, text()));
        }
    }

    pub fn add(&mut self, other: Tally) {
        self.inputs += other.inputs;
        self.calls += other.calls;
        self.by_package += other.by_package;
        self.differing += other.differing;
        if let Some((size, text)) = other.smallest
            && self.smallest.as_ref().is_none_or(|&(smallest, _)| size < smallest)
        {
            self.smallest = Some((size, text));
        }
    }
}
