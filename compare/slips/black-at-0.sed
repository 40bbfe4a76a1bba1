# a later code that stays at 0 is not idle
s/a1 == a0 \&\& (begun || a1 != 0)/a1 == a0 \&\& a1 != 0/
