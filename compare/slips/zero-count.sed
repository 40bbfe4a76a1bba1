# a zero count is recorded
s/^        if count > 0 {$/        if count > 0 || self.pixels_decoded > 0 \&\& remaining > 0 {/
