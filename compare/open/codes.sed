# A mode code, and each code of a run, begins where the reader stands; each is a unit (A9), and so is an EOL that is read.
/fn decode_mode(/a\        crate::place::mark(self.bit_offset());\
        crate::place::unit();
/let entry = lookup\[/i\            crate::place::mark(self.bit_offset());\
            crate::place::unit();
/^            count += 1;$/i\            crate::place::unit();
