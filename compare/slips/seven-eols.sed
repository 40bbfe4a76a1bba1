# seven EOLs are no RTC
s/ctx.settings.end_of_block \&\& eol_count >= 6/ctx.settings.end_of_block \&\& eol_count == 6/
