# the line's first code is idle where it moves to 0
s/a1 == a0 \&\& (begun || a1 != 0)/a1 == a0/
