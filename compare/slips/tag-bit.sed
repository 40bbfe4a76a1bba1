# recovery returns behind the tag bit
s/^        let result = reader.read_bit().and_then(|tag_bit| {$/        let tag = reader.read_bit();\
        let line_start = if tag.is_ok() { reader.clone() } else { line_start };\
        let result = tag.and_then(|tag_bit| {/
