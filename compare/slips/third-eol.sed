# a third EOL is read after EOFB
s/reader.read_eols(2)/reader.read_eol_if_available()/
