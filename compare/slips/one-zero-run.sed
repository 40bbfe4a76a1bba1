# one zero run is as idle as two
s/a0a1 == 0 \&\& a1a2 == 0/a0a1 == 0 || a1a2 == 0/
