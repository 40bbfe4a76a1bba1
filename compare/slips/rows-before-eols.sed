# EOLs before the end by rows are not read
s/let eol_count = if ctx.settings.end_of_block {/let eol_count = if ctx.settings.rows != 0 \&\& ctx.decoded_rows == ctx.settings.rows { 0 } else if ctx.settings.end_of_block {/
