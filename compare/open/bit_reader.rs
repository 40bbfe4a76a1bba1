
// Added for the comparison: the place of the reader. Nothing above is changed.
impl BitReader<'_> {
    pub(crate) fn bit_offset(&self) -> usize {
        self.bit_offset
    }
}
