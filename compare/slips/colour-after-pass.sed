# the colour flips after pass
s|// No color change happens in pass mode.|ctx.color = ctx.color.opposite();|
