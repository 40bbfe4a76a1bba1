# A tag bit, and an EOL that is missing, are looked for where the reader stands.
/let result = reader\.read_bit()/i\        crate::place::mark(reader.bit_offset());
/return Err(DecodeError::InvalidCode);/i\            crate::place::mark(reader.bit_offset());
# where `recover` runs
s/^    ctx.push_pixels(ctx.line_width - ctx.pixels_decoded)$/    ctx.mark = 2;\
&/
