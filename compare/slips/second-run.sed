# the second run is not read when the first fills the line
s/let a1a2 = reader.decode_run(ctx.color)?;/let a1a2 = if ctx.at_eol() { 0 } else { reader.decode_run(ctx.color)? };/
