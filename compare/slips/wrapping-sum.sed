# a sum of runs wraps
s/total = total.checked_add(len as u32).ok_or(DecodeError::Overflow)?;/total = total.wrapping_add(len as u32);/
