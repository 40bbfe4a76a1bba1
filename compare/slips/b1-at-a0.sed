# b1 may lie at a0
s/self.a0().map_or(0, |a| a + 1)/self.a0().unwrap_or(0)/
