
// Added for the comparison: the bit at which the failing code began, and how many units were read (A9). The marks that open/*.sed puts into the crate set them; nothing else is changed.
extern crate std;

/// Where the crate's own reader stood before the code that it read last.
pub mod place {
    use core::cell::Cell;

    std::thread_local! {
        static BIT: Cell<usize> = const { Cell::new(0) };
        static UNITS: Cell<u64> = const { Cell::new(0) };
    }

    pub(crate) fn mark(bit: usize) {
        BIT.set(bit);
    }

    pub(crate) fn unit() {
        UNITS.set(UNITS.get() + 1);
    }

    /// The units that were read since this was last asked: mode codes, codes of runs, and EOLs.
    pub fn take_units() -> u64 {
        UNITS.replace(0)
    }

    pub(crate) fn units() -> u64 {
        UNITS.get()
    }

    /// The bit at which the code began that failed last.
    pub fn last() -> usize {
        BIT.get()
    }
}
