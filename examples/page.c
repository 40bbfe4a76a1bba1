/* A Group 4 page as a picture (PBM), from C.

       cc -I include examples/page.c target/staticlib/libexports.a -o target/page
       target/page examples/forty.g4 1728 > forty.pbm */
#include "ccitt.h"

#include <stdio.h>
#include <stdlib.h>

/* Data is at most so long here, and so much room is always enough for it. A picture has at most so many bytes. */
enum { LONGEST = 1 << 16, ENTRIES = CCITT_ENTRIES(LONGEST), ROWS = CCITT_ROWS(LONGEST), PIXELS = 1 << 24 };

static uint8_t data[LONGEST + 1], marks[ROWS], pixels[PIXELS];
static uint32_t changes[ENTRIES];
static uint64_t ends[ROWS];

static int fail(const char *what, ccitt_answer a) {
    fprintf(stderr, "page: %s: answer %u at bit %llu, behind %llu rows\n", what, (unsigned)a.number,
            (unsigned long long)a.place, (unsigned long long)a.rows);
    return 1;
}

int main(int count, char **words) {
    FILE *file = count == 3 ? fopen(words[1], "rb") : NULL;
    size_t length = file ? fread(data, 1, sizeof data, file) : 0;
    if (!file || ferror(file) || length > LONGEST) {
        fprintf(stderr, "page FILE COLUMNS: a Group 4 page of at most %d bytes as a picture\n", LONGEST);
        return 2;
    }
    ccitt_settings how = {.encoding = CCITT_GROUP4, .columns = (uint32_t)strtoul(words[2], NULL, 10)};
    how.end_of_block = how.strict = true;
    ccitt_room room = {changes, ENTRIES, ends, ROWS, marks, ROWS};
    ccitt_answer read = ccitt_decode(data, length, how, room);
    if (read.number != CCITT_COMPLETE) return fail("the page was not read to its end", read);

    ccitt_bitmap bitmap = {pixels, PIXELS, CCITT_STRIDE(how.columns), true};
    ccitt_answer painted = ccitt_to_bitmap(ccitt_kept(how.columns, room, read), bitmap);
    if (painted.number != CCITT_COMPLETE) return fail("the picture was not painted", painted);

    printf("P4\n%lu %llu\n", (unsigned long)how.columns, (unsigned long long)read.rows);
    bool whole = fwrite(pixels, 1, (size_t)painted.bytes, stdout) == painted.bytes && fflush(stdout) == 0;
    return whole ? 0 : 2;
}
