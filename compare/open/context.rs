
// Added for the comparison: what the crate keeps to itself.
impl DecoderContext {
    /// The changes of the row that was not finished.
    pub fn unfinished(&self) -> &[u32] {
        &self.coding_changes
    }

    /// The mark of the row that was not finished: 1 where a count was shortened in it.
    pub fn mark(&self) -> u8 {
        self.mark
    }

    /// The marks of the rows handed over: 1 where a count was shortened, 2 where `recover` ran, else 0.
    pub fn marks(&self) -> &[u8] {
        &self.marks
    }

    /// The first idle code (A12): the bit of its mode code, the rows before it, the changes of its row before it, and the units up to it, its own among them.
    pub fn idle(&self) -> Option<(usize, u32, usize, u64)> {
        self.idle
    }

    fn note_idle(&mut self, bit: usize) {
        self.idle.get_or_insert((bit, self.decoded_rows, self.coding_changes.len(), crate::place::units()));
    }

    /// Read one 2D line from the given bit on, and return the bit after it. Its changes are then
    /// those of `unfinished`.
    pub fn read_line(&mut self, data: &[u8], at: usize, reference: &[u32]) -> Result<usize> {
        self.reset();
        self.ref_changes.extend_from_slice(reference);
        self.update_b();
        let mut reader = BitReader::new(data);
        reader.consume(at)?;
        decode_2d_line(self, &mut reader)?;
        Ok(reader.bit_offset())
    }
}
