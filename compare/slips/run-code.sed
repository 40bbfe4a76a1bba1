# a white code of 45 and one of 46 are exchanged
s/^    (45, 8, /    (46, 8, /;t;s/^    (46, 8, /    (45, 8, /
