# the next EOL is searched from where the error struck
s/^    \*reader = line_start;$/    let _ = (reader, line_start);/
