# an idle code is placed behind its mode code
s/ctx.note_idle(bit)/ctx.note_idle(reader.bit_offset())/
