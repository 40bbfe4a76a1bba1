/* Calls every function of ccitt.h on a Group 4 page (page.c has what a program needs to show one). Reads it a row at a
   time, showing one of its rows; whole; and a little at a time. Writes the line of that row and the page in each of the
   encodings, reads them again, paints it and reads its pixels, counts the heads on it, and asks for the verdict on it,
   where it is one of the booking forms of this folder.

       cc -I include examples/calls.c target/staticlib/libexports.a -o target/calls
       target/calls examples/forty.g4 1728 213 */
#include "ccitt.h"

#include <stdio.h>
#include <stdlib.h>
#include <string.h>

/* Data is at most so long here. */
enum { LONGEST = 1 << 16 };

/* The rows of a booking form's page (README.md). */
enum { FORM_ROWS = 400 };

/* A page, as a decoder leaves it: what it answered, and room that is always enough. */
struct page {
    ccitt_answer answer;
    uint32_t changes[CCITT_ENTRIES(LONGEST)];
    uint64_t ends[CCITT_ROWS(LONGEST)];
    uint8_t marks[CCITT_ROWS(LONGEST)];
};

static uint8_t data[LONGEST], written[LONGEST];
static uint32_t first[CCITT_ENTRIES(LONGEST)], second[CCITT_ENTRIES(LONGEST)];
static struct page page, again;

static ccitt_room room_of(struct page *p) {
    ccitt_room room = {p->changes, CCITT_ENTRIES(LONGEST), p->ends, CCITT_ROWS(LONGEST), p->marks, CCITT_ROWS(LONGEST)};
    return room;
}

static void show(const ccitt_answer *a) {
    if (a->number == CCITT_COMPLETE)
        printf("done: %llu rows, %llu changes, %llu bytes\n", (unsigned long long)a->rows,
               (unsigned long long)a->entries, (unsigned long long)a->bytes);
    else
        printf("answer %u at bit %llu, behind %llu rows\n", (unsigned)a->number, (unsigned long long)a->place,
               (unsigned long long)a->rows);
}

/* A row at a time: each lies in one of two arrays, under the one before in the other. */
static ccitt_answer by_row(size_t length, ccitt_settings how, uint64_t shown) {
    ccitt_row_state state = {{0}};
    ccitt_answer a;
    while ((a = ccitt_next_row(data, length, how, &state, first, CCITT_ENTRIES(LONGEST), second,
                               CCITT_ENTRIES(LONGEST)))
               .number == CCITT_MORE_TO_COME) {
        const uint32_t *row = CCITT_ROW(state.numbers, first, second);
        if (a.rows != shown) continue;
        printf("row %llu, mark %u:", (unsigned long long)a.rows, (unsigned)a.mark);
        for (uint64_t i = 0; i < CCITT_ROW_LENGTH(state.numbers); i++) printf(" %lu", (unsigned long)row[i]);
        printf("\n");
    }
    return a;
}

/* The rows that were read again: those of the page? */
static const char *which_rows(void) {
    size_t changes = (size_t)page.answer.entries * sizeof *page.changes;
    size_t ends = (size_t)page.answer.rows * sizeof *page.ends;
    bool same = again.answer.rows == page.answer.rows && memcmp(again.changes, page.changes, changes) == 0 &&
                memcmp(again.ends, page.ends, ends) == 0;
    return same ? "the same rows" : "other rows";
}

/* A little at a time: at most 256 codes or EOLs a call. */
static void by_unit(size_t length, ccitt_settings how) {
    ccitt_unit_state state = {{0}};
    uint64_t units = 0;
    ccitt_unit_answer u;
    do {
        u = ccitt_next_units(data, length, how, room_of(&again), &state, 256);
        units += u.units;
    } while (u.answer.number == CCITT_MORE_TO_COME);
    again.answer = u.answer;
    printf("in %llu units: answer %u, %s\n", (unsigned long long)units, (unsigned)u.answer.number, which_rows());
}

/* The page, checked: the same answer, and whether its bytes are a writer's. */
static void check(size_t length, ccitt_settings how) {
    ccitt_checked c = ccitt_check(data, length, how, room_of(&again));
    again.answer = c.answer;
    printf("checked: answer %u, %s, %s, up to bit %llu\n", (unsigned)c.answer.number, which_rows(),
           c.proper ? "proper" : "not proper", (unsigned long long)c.parts);
}

/* Where row n begins; the first is row 0. */
static size_t start(uint64_t n) { return n ? (size_t)page.ends[n - 1] : 0; }

/* One row alone: its line under the row above. */
static void one_line(uint32_t columns, uint64_t shown) {
    if (shown < 2 || page.answer.rows < shown) return;
    const uint32_t *above = page.changes + start(shown - 2), *row = page.changes + start(shown - 1);
    size_t above_len = (size_t)(row - above), row_len = start(shown) - start(shown - 1);
    ccitt_answer w = ccitt_encode_line(columns, above, above_len, row, row_len, written, LONGEST, 0);
    ccitt_answer r = ccitt_decode_line(written, (size_t)(w.bytes + 7) / 8, 0, columns, true, above, above_len, first,
                                       CCITT_ENTRIES(LONGEST));
    bool same = r.number == CCITT_COMPLETE && r.bytes == w.bytes && r.entries == row_len &&
                memcmp(first, row, row_len * sizeof *row) == 0;
    printf("its line: answer %u, %llu bits, read again as %s\n", (unsigned)w.number, (unsigned long long)w.bytes,
           same ? "the same row" : "another");
}

/* The page in a layout, and what was written, read again: all of it? */
static void write_again(const char *name, ccitt_layout layout, ccitt_settings how) {
    ccitt_answer a = ccitt_encode(ccitt_kept(how.columns, room_of(&page), page.answer), layout, written, LONGEST);
    how.encoding = layout.encoding;
    how.end_of_line = layout.encoding != CCITT_GROUP4;
    how.exact = true;
    again.answer = ccitt_decode(written, (size_t)a.bytes, how, room_of(&again));
    bool whole = again.answer.number == CCITT_COMPLETE && again.answer.bytes == a.bytes;
    printf("written in %s: answer %u, %llu bytes, read again as %s\n", name, (unsigned)a.number,
           (unsigned long long)a.bytes, whole ? which_rows() : "another page");
}

/* As packed pixels, where black is 1, and read again from them. */
static void paint(uint32_t columns) {
    static uint8_t pixels[1 << 20];
    ccitt_bitmap bitmap = {pixels, sizeof pixels, CCITT_STRIDE(columns), true};
    ccitt_answer a = ccitt_to_bitmap(ccitt_kept(columns, room_of(&page), page.answer), bitmap);
    unsigned long black = 0;
    for (uint64_t i = 0; i < 8 * a.bytes; i++) black += pixels[i / 8] >> (7 - i % 8) & 1;
    again.answer = ccitt_from_bitmap(bitmap, columns, page.answer.rows, room_of(&again));
    printf("painted: answer %u, %llu bytes, %lu pixels black, read again as %s\n", (unsigned)a.number,
           (unsigned long long)a.bytes, black, which_rows());
}

/* The edges of the boxes of a booking form (README.md): left and top; each is 22 pixels wide and 20 high. */
static uint32_t left_of(uint32_t column) { return column ? 702 : 202; }
static uint32_t top_of(uint32_t digit) { return 78 + 31 * digit; }

/* From a quota of 39; a tick blackens 20 pixels of a box or more. A page that was not read to its end, or has other
   rows than the form's, is not counted: ccitt_count_heads sees its kept rows alone, and takes what is not there for
   white. */
static void count_heads(uint32_t columns) {
    if (page.answer.number != CCITT_COMPLETE || page.answer.rows != FORM_ROWS) {
        printf("heads: not counted: answer %u, %llu rows, and the form's page has %d\n", (unsigned)page.answer.number,
               (unsigned long long)page.answer.rows, FORM_ROWS);
        return;
    }
    ccitt_boxes boxes;
    for (uint32_t digit = 0; digit < 10; digit++)
        for (uint32_t column = 0; column < 2; column++) {
            uint32_t left = left_of(column), top = top_of(digit);
            uint32_t edges[4] = {left, left + 22, top, top + 20};
            memcpy(boxes.edges[digit][column], edges, sizeof edges);
        }
    ccitt_heads_answer h = ccitt_count_heads(ccitt_kept(columns, room_of(&page), page.answer), &boxes, 20, 39);
    if (h.number == CCITT_COMPLETE)
        printf("heads: %lu, %ld left\n", (unsigned long)h.heads, (long)h.left);
    else
        printf("heads: answer %u\n", (unsigned)h.number);
}

/* The verdict on the page as the desk reads it, by a form file's text with the same boxes. */
static void judge(size_t length, ccitt_settings how) {
    char form[2048];
    size_t n = (size_t)sprintf(form, "page 1728 %d\ntick 20\ndoubt 6\n", FORM_ROWS);
    for (uint32_t digit = 0; digit < 10; digit++)
        for (uint32_t column = 0; column < 2; column++) {
            unsigned left = left_of(column), top = top_of(digit);
            n += (size_t)sprintf(form + n, "%s %u %u %u %u %u\n", column ? "units" : "tens", (unsigned)digit, left,
                                 left + 22, top, top + 20);
        }
    how.columns = 0;
    ccitt_verdict_answer v =
        ccitt_judge((const uint8_t *)form, n, data, length, CCITT_AS_THE_DESK, how, room_of(&again));
    if (v.number == CCITT_COUNTED)
        printf("verdict: counted, %lu heads\n", (unsigned long)v.heads);
    else
        printf("verdict: %u, row %llu\n", (unsigned)v.number, (unsigned long long)v.row);
}

int main(int count, char **words) {
    FILE *file = count == 4 ? fopen(words[1], "rb") : NULL;
    if (!file) {
        fprintf(stderr, "calls FILE COLUMNS ROW: reads a Group 4 page, strictly, and shows a row of it\n");
        return 2;
    }
    size_t length = fread(data, 1, LONGEST, file);
    fclose(file);
    uint32_t columns = (uint32_t)strtoul(words[2], NULL, 10);
    ccitt_settings how = {.encoding = CCITT_GROUP4, .columns = columns, .end_of_block = true, .strict = true};
    ccitt_layout group4 = {.encoding = CCITT_GROUP4};
    ccitt_layout filled = {.encoding = CCITT_GROUP3_1D, .eols = true, .fill = 3}; /* three zeros before each EOL */
    ccitt_layout mixed = {.encoding = CCITT_GROUP3_2D, .k = 4}; /* three 2D lines after each 1D line */

    uint64_t shown = strtoull(words[3], NULL, 10);
    ccitt_answer a = by_row(length, how, shown);
    show(&a);
    page.answer = ccitt_decode(data, length, how, room_of(&page));
    if (memcmp(&page.answer, &a, sizeof a) != 0) printf("the page form says otherwise\n");
    by_unit(length, how);
    check(length, how);
    one_line(columns, shown);
    write_again("Group 4", group4, how);
    write_again("Group 3 1D", filled, how);
    write_again("Group 3 2D", mixed, how);
    paint(columns);
    count_heads(columns);
    judge(length, how);

    ccitt_settings none = how;
    none.encoding = 7;
    printf("an encoding that is none: answer %u\n", (unsigned)ccitt_decode(data, length, none, room_of(&again)).number);
    return 0;
}
