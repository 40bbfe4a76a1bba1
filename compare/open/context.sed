# Too many pixels of a run are at its first code's fault; those of any other mode stay at the mode code.
/= reader\.decode_run(ctx\.color)?;/{
i\        let first = reader.bit_offset();
a\        crate::place::mark(first);
}
# where a count is shortened: the row is cut, unless it is recovered already
s/^        let count = count.min(remaining);$/        if count > remaining \&\& self.mark == 0 {\
            self.mark = 1;\
        }\
\
&/
# a row's mark goes with the row
s/^        decoder.push_row(&self.coding_changes);$/&\
        self.marks.push(self.mark);\
        self.mark = 0;/
# the mark of the row so far, those of the rows before it, and the first idle code
s/^    pub(crate) has_eols: bool,$/&\
    pub(crate) mark: u8,\
    pub(crate) marks: Vec<u8>,\
    pub(crate) idle: Option<(usize, u32, usize, u64)>,/
s/^            has_eols: false,$/&\
            mark: 0,\
            marks: Vec::new(),\
            idle: None,/
s/^        self.has_eols = false;$/&\
        self.mark = 0;\
        self.marks.clear();\
        self.idle = None;/
# A12: a 2D line notes the mode code of its first idle code: a vertical move that stays, other than the line's first code at 0, and two runs of nothing.
/fn decode_2d_line(/,/^}/{
s/^    while .*/    let mut begun = false;\
\
&/
s/^        let mode = .*/        let bit = reader.bit_offset();\
&/
s/^                ctx.push_pixels(a1.checked_sub(a0).*/&\
\
                if a1 == a0 \&\& (begun || a1 != 0) {\
                    ctx.note_idle(bit);\
                }\
/
s/^                ctx.push_pixels(a1a2)?;$/&\
\
                if a0a1 == 0 \&\& a1a2 == 0 {\
                    ctx.note_idle(bit);\
                }\
/
s/^        }$/&\
\
        begun = true;/
}
