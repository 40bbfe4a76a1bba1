# a run that fails is placed at its first code, not at the one at fault
s/^            crate::place::mark(self.bit_offset());$//
s/let mut total: u32 = 0;/crate::place::mark(self.bit_offset()); &/
