# a recovered row is emptied
s/^    ctx.push_pixels(ctx.line_width - ctx.pixels_decoded)$/    ctx.emptied();\
    Ok(())/
s/^    \/\/\/ Creates a new decoder context.*/    pub(crate) fn emptied(\&mut self) {\
        self.coding_changes.clear();\
    }\
\
&/
