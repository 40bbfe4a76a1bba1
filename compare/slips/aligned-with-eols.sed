# alignment is done although there are EOLs
s/rows_are_byte_aligned \&\& !ctx.has_eols/rows_are_byte_aligned/
