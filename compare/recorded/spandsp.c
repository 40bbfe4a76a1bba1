// A page as spandsp sends it: spandsp FILE.tif CODING TO, CODING 1 (T.4 1D), 2 (T.4 2D) or 3 (T.6). For recorded/encoders.
#include <spandsp.h>
#include <stdio.h>
#include <stdlib.h>

// spandsp sends the lowest bit of a byte first; a file here has the highest first.
static uint8_t turned(uint8_t byte) {
    uint8_t out = 0;
    for (int bit = 0; bit < 8; bit++) out |= (byte >> bit & 1) << (7 - bit);
    return out;
}

int main(int words, char **word) {
    if (words != 4) return 2;
    t4_tx_state_t *page = t4_tx_init(NULL, word[1], -1, -1);
    FILE *out = fopen(word[3], "wb");
    if (!page || !out) return 1;
    t4_tx_set_tx_encoding(page, atoi(word[2]));
    t4_tx_set_min_bits_per_row(page, 0);
    if (t4_tx_start_page(page)) return 1;
    uint8_t bytes[256];
    for (int size; (size = t4_tx_get_chunk(page, bytes, sizeof bytes)) > 0;)
        for (int i = 0; i < size; i++) putc(turned(bytes[i]), out);
    t4_tx_free(page);
    return fclose(out);
}
