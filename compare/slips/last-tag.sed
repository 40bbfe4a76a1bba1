# the last tag bit of an RTC stays unread
s/if eol_count >= 6 {$/if eol_count >= 99 {/
