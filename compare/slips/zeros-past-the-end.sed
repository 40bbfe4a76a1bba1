# a code whose last bits come from the zeros past the end is accepted
s/self.consume((entry >> 12) as usize)?;/let _ = self.consume((entry >> 12) as usize);/
