/* The fax decoder, the T.6 and T.4 writers, bitmaps, the heads on a form and the verdict on a faxed form, for C and C++.
   Link libexports.a: `./library` proves and builds target/staticlib/libexports.a for x86-64, `./native` compiles
   it for the processor at hand.

   A caller uses the functions of the last part, from ccitt_decode on: each takes what it reads and writes with names,
   and returns its answer. Every function tests for itself, takes any bytes, settings and arrays, and answers a number
   of the list below. A pointer points at as many entries as the length beside it says, and what is lent to be written
   overlaps nothing else that is lent. Nothing is kept from call to call, nothing is on the heap. A whole page
   takes some 40 KiB of stack, a row, a line or some units less than 4. */
#ifndef CCITT_H
#define CCITT_H

#include <stdbool.h>
#include <stddef.h>
#include <stdint.h>

/* This interface; of two libraries the one with the greater number has what the other has. */
#define CCITT_VERSION "0.5.0"
#define CCITT_VERSION_NUMBER 500

#ifdef __cplusplus
extern "C" {
#endif

/* ---- Numbers */

/* The numbers of an answer. Refusals, 6 to 13, leave every array as it was; they are tested in the order 6, 7, 10, 8,
   9, by the unit form 10 before them all, and for the heads 8, 11, 13, 12. */
enum {
    CCITT_COMPLETE = 0,
    CCITT_INVALID_CODE = 1,
    CCITT_UNEXPECTED_EOF = 2, /* the data ends first */
    CCITT_OVERFLOW = 3,       /* a run above 4294967295 pixels, or a move off the line */
    CCITT_NO_ENTRY = 4,       /* no entry is left for a change */
    CCITT_NO_ROW_END = 5,     /* no place is left for a row's end with its mark */
    CCITT_BAD_WIDTH = 6,      /* columns 4294967295; for one line or a writer also 0 */
    CCITT_TOO_LONG = 7,       /* data or output above 4294967296 bytes */
    CCITT_BAD_ROWS = 8,       /* a row or reference that does not ascend strictly below the columns, row ends that fall
                                 or pass the array, a Group 3 page of no rows to write, a state that no call left; for
                                 the heads also a row without a mark */
    CCITT_NO_FIT = 9,         /* the bits do not fit the output */
    CCITT_BAD_NUMBER = 10,    /* fill above 64, a K of 0 or above 65535, or no units to take */
    CCITT_BAD_FORM = 11,      /* an edge pair out of order, a least of 0, a quota outside -1000000 to 1000000, or not
                                 eighty numbers for the boxes */
    CCITT_NOT_ONE_TICK = 12,  /* not exactly one tick in a column */
    CCITT_MENDED_ROW = 13,    /* a box holds a pixel of a row that was not read clean */
    CCITT_TOO_FEW_ROWS = 14,  /* an exact page that ends with fewer rows than it is to have */
    CCITT_MORE_TO_COME = 15   /* a row, or the units that were asked for, were read, and there may be more */
};

/* A row's mark. */
enum {
    CCITT_CLEAN = 0,
    CCITT_CUT = 1,      /* cut to the width: a lenient count was shortened in it */
    CCITT_RECOVERED = 2 /* a damaged line, white from the fault on */
};

/* The encodings. */
enum { CCITT_GROUP4 = 0, CCITT_GROUP3_1D = 1, CCITT_GROUP3_2D = 2 };

/* How much room is always enough: with so many entries for the changes a page of so many bytes is never answered with
   4, and with so many row ends and marks never with 5 (proved: EntryForEachBit, RoomEnough). */
#define CCITT_ENTRIES(bytes) (8 * (size_t)(bytes) + 1)
#define CCITT_ROWS(bytes) (8 * (size_t)(bytes) + 1)

/* ---- Answers */

/* number:  one of the list above.
   mark:    for a form that gives one row its mark; else 0.
   rows:    rows kept. Row n's changes lie in `changes` from ends[n - 1] (0 for the first) to ends[n].
   entries: entries in kept rows.
   loose:   entries behind them that belong to an unfinished row.
   bytes:   after 0 the bytes consumed or written; for one line the bit after it; else 0.
   place:   after 1, 2 and 3 the bit of the data at which the failing code began, counted from 0, or 8 x bytes for the
            end of the data; else 0.
   After 6 to 10 every array is as it was; otherwise every entry behind the last one named keeps its value. */
typedef struct {
    uint32_t number;
    uint32_t mark;
    uint64_t rows;
    uint64_t entries;
    uint64_t loose;
    uint64_t bytes;
    uint64_t place;
} ccitt_answer;

/* What a careful reader asks of a page that was read.
   answer:  of the page, as above; so are the arrays.
   parts:   the first bit of the data, from 0, at which the bytes that the page took part from what a writer of the
            encoding writes for its rows; of a proper page the bit behind its bytes. 0 where the page is not read to its
            end.
   gave_up: a lenient Group 3 reading gave up its end-of-line marks, because none was left in the data: from there on
            every row hangs on all of the data, clean or not.
   proper:  the bytes that the page took are, to the last bit, what ccitt_encode writes for its rows in some layout of
            the encoding. So the page says its rows twice; damage that leaves it proper has made it, bit for bit,
            another page's writing. */
typedef struct {
    ccitt_answer answer;
    uint64_t parts;
    bool gave_up;
    bool proper;
} ccitt_checked;

/* units: how many units a call took. */
typedef struct {
    ccitt_answer answer;
    uint64_t units;
} ccitt_unit_answer;

/* number: 0, 8, 11, 12 or 13 of the list above.
   heads:  after 0 ten times the ticked tens digit and the ticked units digit; else 0.
   left:   after 0 the quota less the heads, which may be below zero; else 0. */
typedef struct {
    uint32_t number;
    uint32_t heads;
    int32_t left;
} ccitt_heads_answer;

/* The numbers of a verdict on a faxed form. Up to 15 they are those of the list above: the reading's own answer, 10 for
   an encoding that is none, and 11, 13 and 12 as for the heads. They are tested in the order 32 to 40, 41, the
   reading's, 16, 17, 23, 18, 24, 11, 13, 19, 20 and 21, 22, 12, 25. */
enum {
    CCITT_COUNTED = 0,
    CCITT_OTHER_COLUMNS = 16, /* the page is read with other columns than the form's */
    CCITT_BYTES_BEHIND = 17,  /* bytes are left behind the page: a second page? */
    CCITT_OTHER_ROWS = 18,    /* the page has other rows than the form says */
    CCITT_UNCLEAN_ROW = 19,   /* a row that the form rests on was not read clean */
    CCITT_NOT_BLACK = 20,     /* a place that must be black is not */
    CCITT_NOT_WHITE = 21,     /* a place that must be white is not */
    CCITT_IN_DOUBT = 22,      /* a box with too many black pixels for none and too few for a tick */
    CCITT_GAVE_UP = 23,       /* end-of-line marks were expected, and none was left before the page's end */
    CCITT_NOT_PROPER = 24,    /* the form asks for proper pages, and the page's bits part from a writer's at bit `count` */
    CCITT_OTHER_TICKS = 25,   /* the form has a shift, and fits at two places, which read `least` and `most` heads */
    /* of the form file's text */
    CCITT_NO_FORM_LINE = 32,      /* a line that is none of a form's */
    CCITT_SAID_TWICE = 33,        /* a line that says what a line above it says */
    CCITT_BAD_NUMBERS = 34,       /* numbers out of order; without a line, a doubt above the tick */
    CCITT_TOO_MANY_PLACES = 35,   /* a place more than 256, or than there is room for */
    CCITT_MISSING_LINE = 36,      /* which: a box, 20 for the page, 21 for the tick, 22 for a place to find it by */
    CCITT_OUTSIDE_PAGE = 37,      /* a box or place outside the page */
    CCITT_OVERLAPPING = 38,       /* a box on another */
    CCITT_NO_ROOM_FOR_BOXES = 39, /* boxes_len is not 80 */
    CCITT_LONG_FORM = 40,         /* a text above 65536 bytes */
    CCITT_UNFIT_FORM = 41         /* a range of rows and no places, and the reading is not exact */
};

/* How a page is read for its verdict. CCITT_AS_THE_DESK: Group 3 with end-of-line marks leniently, all else exactly.
   Any other number: exactly. */
enum { CCITT_AS_THE_DESK = 0, CCITT_LENIENTLY = 1, CCITT_STRICTLY = 2, CCITT_EXACTLY = 3 };

/* number: one of the list above.
   heads:  after 0 the heads; else 0.
   which:  the box that it is about, 2 x digit, and 1 more for units; for 12 the column, 0 tens and 1 units.
   line:   the line of the form file that it is about, from 1; else 0.
   rows, bytes, place: of the reading, as in an answer.
   row:    the row that it is about, from 1; else 0.
   count, least, most: what was counted, and what it should have been. */
typedef struct {
    uint32_t number;
    uint32_t heads;
    uint32_t which;
    uint32_t line;
    uint64_t rows;
    uint64_t bytes;
    uint64_t place;
    uint64_t row;
    uint64_t count;
    uint64_t least;
    uint64_t most;
} ccitt_verdict_answer;

/* ---- What is lent */

/* How a page is read.
   encoding:     CCITT_GROUP4, CCITT_GROUP3_1D or CCITT_GROUP3_2D.
   columns:      the width in pixels.
   rows:         stop after so many rows; 0: at the end of block or of the data.
   end_of_block: the data may have an end-of-block mark.
   end_of_line:  the data has end-of-line marks; of Group 3 alone.
   rows_are_byte_aligned: each row starts at a byte.
   strict:       refuse what breaks the standard, instead of reading on.
   exact:        stricter still, so that it implies strict: refuse codes that move nothing, and answer 14 where rows are
                 missing. Such codes are a vertical move to the position that it starts from, other than the line's first
                 code moving to 0, and a horizontal code with two zero runs; they answer 1, at their mode code. Rows are
                 missing where a page ends with fewer than `rows`, if that is not 0; it keeps those that it has.
   plain:        read runs bit by bit from the code tables, without the lookup: slower, and every answer and every entry
                 is the same. */
typedef struct {
    uint32_t encoding;
    uint32_t columns;
    uint32_t rows;
    bool end_of_block;
    bool end_of_line;
    bool rows_are_byte_aligned;
    bool strict;
    bool exact;
    bool plain;
} ccitt_settings;

/* Where a page is read to: marks[n] is the mark of row n, beside its end. */
typedef struct {
    uint32_t *changes;
    size_t changes_len;
    uint64_t *ends;
    size_t ends_len;
    uint8_t *marks;
    size_t marks_len;
} ccitt_room;

/* Rows of so many columns, as a page that was read has them; ccitt_kept makes them of a room and its answer. */
typedef struct {
    uint32_t columns;
    const uint32_t *changes;
    size_t changes_len;
    const uint64_t *ends;
    size_t ends_len;
    const uint8_t *marks;
    size_t marks_len;
} ccitt_rows;

/* What the lines of a page to be written are, and what stands between them. eols, fill: of Group 3 1D. With eols:
   `fill` zeros and an EOL before each line, and behind the last line `fill` zeros and six EOLs. Without: the lines
   alone, and a reader must be told how many rows there are. k: of Group 3 2D: an EOL and a tag bit before each line, a
   1D line first, after each 1D line at most k - 1 2D lines, and behind the last line six times EOL and a one. */
typedef struct {
    uint32_t encoding;
    bool eols;
    uint32_t fill;
    uint32_t k;
} ccitt_layout;

/* Packed rows: pixel i of row r is bit 7 - i % 8 of byte r x stride + i / 8, so that the most significant bit stands for
   the leftmost pixel. stride: the bytes from one row to the next, CCITT_STRIDE(columns) or more. */
#define CCITT_STRIDE(columns) (((size_t)(columns) + 7) / 8)

typedef struct {
    uint8_t *bytes;
    size_t bytes_len;
    uint64_t stride;
    bool black_is_one; /* else white is */
} ccitt_bitmap;

/* The boxes of a form: for each digit from 0 to 9 its tens box and its units box, each as left, right, top and bottom
   in pixels, right and bottom not included. */
typedef struct {
    uint32_t edges[10][2][4];
} ccitt_boxes;

/* The states of the two forms in steps: all 0 before a page's first call, and then left as they were left. */
#define CCITT_ROW_STATE 10
#define CCITT_UNIT_STATE 16

typedef struct {
    uint64_t numbers[CCITT_ROW_STATE];
} ccitt_row_state;

typedef struct {
    uint64_t numbers[CCITT_UNIT_STATE];
} ccitt_unit_state;

/* ---- What the library has */

/* Its functions, as they are linked: each with its answer behind a pointer before the other arguments, so that every
   processor calls them alike. The functions of the next part call them, and say what they do. */
void ccitt_decode_group4(ccitt_answer *answer, const uint8_t *src, size_t src_len, uint32_t columns, uint32_t rows,
    bool end_of_block, bool rows_are_byte_aligned, bool strict, bool exact, bool plain, uint32_t *changes,
    size_t changes_len, uint64_t *ends, size_t ends_len, uint8_t *marks, size_t marks_len);
void ccitt_decode_group3_1d(ccitt_answer *answer, const uint8_t *src, size_t src_len, uint32_t columns, uint32_t rows,
    bool end_of_block, bool end_of_line, bool rows_are_byte_aligned, bool strict, bool exact, bool plain,
    uint32_t *changes, size_t changes_len, uint64_t *ends, size_t ends_len, uint8_t *marks, size_t marks_len);
void ccitt_decode_group3_2d(ccitt_answer *answer, const uint8_t *src, size_t src_len, uint32_t columns, uint32_t rows,
    bool end_of_block, bool end_of_line, bool rows_are_byte_aligned, bool strict, bool exact, bool plain,
    uint32_t *changes, size_t changes_len, uint64_t *ends, size_t ends_len, uint8_t *marks, size_t marks_len);
void ccitt_check_group4(ccitt_checked *answer, const uint8_t *src, size_t src_len, uint32_t columns, uint32_t rows,
    bool end_of_block, bool rows_are_byte_aligned, bool strict, bool exact, bool plain, uint32_t *changes,
    size_t changes_len, uint64_t *ends, size_t ends_len, uint8_t *marks, size_t marks_len);
void ccitt_check_group3_1d(ccitt_checked *answer, const uint8_t *src, size_t src_len, uint32_t columns, uint32_t rows,
    bool end_of_block, bool end_of_line, bool rows_are_byte_aligned, bool strict, bool exact, bool plain,
    uint32_t *changes, size_t changes_len, uint64_t *ends, size_t ends_len, uint8_t *marks, size_t marks_len);
void ccitt_check_group3_2d(ccitt_checked *answer, const uint8_t *src, size_t src_len, uint32_t columns, uint32_t rows,
    bool end_of_block, bool end_of_line, bool rows_are_byte_aligned, bool strict, bool exact, bool plain,
    uint32_t *changes, size_t changes_len, uint64_t *ends, size_t ends_len, uint8_t *marks, size_t marks_len);
void ccitt_read_line(ccitt_answer *answer, const uint8_t *src, size_t src_len, uint64_t at, uint32_t columns,
    bool strict, const uint32_t *reference, size_t reference_len, uint32_t *changes, size_t changes_len);
void ccitt_read_row(ccitt_answer *answer, const uint8_t *src, size_t src_len, uint32_t columns, uint32_t rows,
    bool end_of_block, bool end_of_line, bool rows_are_byte_aligned, uint32_t encoding, bool strict, bool exact,
    bool plain, uint64_t *state, size_t state_len, uint32_t *first, size_t first_len, uint32_t *second,
    size_t second_len);
void ccitt_read_units(ccitt_unit_answer *answer, const uint8_t *src, size_t src_len, uint32_t columns, uint32_t rows,
    bool end_of_block, bool rows_are_byte_aligned, bool strict, bool exact, bool plain, uint32_t *changes,
    size_t changes_len, uint64_t *ends, size_t ends_len, uint8_t *marks, size_t marks_len, uint64_t *state,
    size_t state_len, uint64_t n);
void ccitt_write_line(ccitt_answer *answer, uint32_t columns, const uint32_t *reference, size_t reference_len,
    const uint32_t *row, size_t row_len, uint8_t *out, size_t out_len, uint64_t at);
void ccitt_write_page(ccitt_answer *answer, uint32_t columns, const uint32_t *changes, size_t changes_len,
    const uint64_t *ends, size_t ends_len, uint8_t *out, size_t out_len);
void ccitt_write_group3_1d(ccitt_answer *answer, uint32_t columns, const uint32_t *changes, size_t changes_len,
    const uint64_t *ends, size_t ends_len, bool eols, uint32_t fill, uint8_t *out, size_t out_len);
void ccitt_write_group3_2d(ccitt_answer *answer, uint32_t columns, const uint32_t *changes, size_t changes_len,
    const uint64_t *ends, size_t ends_len, uint32_t k, uint8_t *out, size_t out_len);
void ccitt_paint(ccitt_answer *answer, uint32_t columns, const uint32_t *changes, size_t changes_len,
    const uint64_t *ends, size_t ends_len, bool black_is_one, uint64_t stride, uint8_t *out, size_t out_len);
void ccitt_unpaint(ccitt_answer *answer, uint32_t columns, uint64_t rows, bool black_is_one, uint64_t stride,
    const uint8_t *src, size_t src_len, uint32_t *changes, size_t changes_len, uint64_t *ends, size_t ends_len);
void ccitt_verdict(ccitt_verdict_answer *answer, const uint8_t *form, size_t form_len, const uint8_t *src,
    size_t src_len, uint32_t how, uint32_t encoding, uint32_t columns, uint32_t rows, bool end_of_block,
    bool end_of_line, bool rows_are_byte_aligned, bool plain, uint32_t *boxes, size_t boxes_len, uint32_t *places,
    size_t places_len, uint32_t *changes, size_t changes_len, uint64_t *ends, size_t ends_len, uint8_t *marks,
    size_t marks_len);
/* Three numbers are small enough to be returned in registers, and are on both processors. */
ccitt_heads_answer ccitt_heads(uint32_t columns, const uint32_t *changes, size_t changes_len, const uint64_t *ends,
    size_t ends_len, const uint8_t *marks, size_t marks_len, const uint32_t *boxes, size_t boxes_len, uint64_t least,
    int32_t quota);

/* The library was compiled for these sizes and places; a compiler that lays them out otherwise stops here. */
#ifdef __cplusplus
#define CCITT_ASSERT(name, test) static_assert(test, #name)
#else
#define CCITT_ASSERT(name, test) typedef char ccitt_assert_##name[(test) ? 1 : -1]
#endif
#define CCITT_SIZE(type, size) CCITT_ASSERT(type##_size, sizeof(ccitt_##type) == size)
#define CCITT_AT(type, field, place) CCITT_ASSERT(type##_##field, offsetof(ccitt_##type, field) == place)
CCITT_ASSERT(lengths, sizeof(size_t) == 8 && sizeof(bool) == 1);
CCITT_SIZE(answer, 48);
CCITT_AT(answer, number, 0);
CCITT_AT(answer, mark, 4);
CCITT_AT(answer, rows, 8);
CCITT_AT(answer, entries, 16);
CCITT_AT(answer, loose, 24);
CCITT_AT(answer, bytes, 32);
CCITT_AT(answer, place, 40);
CCITT_SIZE(checked, 64);
CCITT_AT(checked, answer, 0);
CCITT_AT(checked, parts, 48);
CCITT_AT(checked, gave_up, 56);
CCITT_AT(checked, proper, 57);
CCITT_SIZE(unit_answer, 56);
CCITT_AT(unit_answer, answer, 0);
CCITT_AT(unit_answer, units, 48);
CCITT_SIZE(heads_answer, 12);
CCITT_AT(heads_answer, number, 0);
CCITT_AT(heads_answer, heads, 4);
CCITT_AT(heads_answer, left, 8);
CCITT_SIZE(verdict_answer, 72);
CCITT_AT(verdict_answer, number, 0);
CCITT_AT(verdict_answer, heads, 4);
CCITT_AT(verdict_answer, which, 8);
CCITT_AT(verdict_answer, line, 12);
CCITT_AT(verdict_answer, rows, 16);
CCITT_AT(verdict_answer, bytes, 24);
CCITT_AT(verdict_answer, place, 32);
CCITT_AT(verdict_answer, row, 40);
CCITT_AT(verdict_answer, count, 48);
CCITT_AT(verdict_answer, least, 56);
CCITT_AT(verdict_answer, most, 64);
CCITT_SIZE(boxes, 320);
#undef CCITT_AT
#undef CCITT_SIZE
#undef CCITT_ASSERT

/* ---- What a caller calls */

/* A refusal: nothing was read, and nothing written. */
static inline ccitt_answer ccitt_refused(uint32_t number) {
    ccitt_answer answer;
    answer.number = number;
    answer.mark = 0;
    answer.rows = answer.entries = answer.loose = answer.bytes = answer.place = 0;
    return answer;
}

/* The rows that a page was answered with. */
static inline ccitt_rows ccitt_kept(uint32_t columns, ccitt_room room, ccitt_answer answer) {
    ccitt_rows rows;
    rows.columns = columns;
    rows.changes = room.changes;
    rows.changes_len = (size_t)answer.entries;
    rows.ends = room.ends;
    rows.ends_len = (size_t)answer.rows;
    rows.marks = room.marks;
    rows.marks_len = (size_t)answer.rows;
    return rows;
}

/* A page. An encoding that is none is answered with 10, and nothing is read. */
static inline ccitt_answer ccitt_decode(const uint8_t *src, size_t src_len, ccitt_settings s, ccitt_room to) {
    ccitt_answer answer;
    switch (s.encoding) {
    case CCITT_GROUP4:
        ccitt_decode_group4(&answer, src, src_len, s.columns, s.rows, s.end_of_block, s.rows_are_byte_aligned, s.strict,
            s.exact, s.plain, to.changes, to.changes_len, to.ends, to.ends_len, to.marks, to.marks_len);
        return answer;
    case CCITT_GROUP3_1D:
        ccitt_decode_group3_1d(&answer, src, src_len, s.columns, s.rows, s.end_of_block, s.end_of_line,
            s.rows_are_byte_aligned, s.strict, s.exact, s.plain, to.changes, to.changes_len, to.ends, to.ends_len,
            to.marks, to.marks_len);
        return answer;
    case CCITT_GROUP3_2D:
        ccitt_decode_group3_2d(&answer, src, src_len, s.columns, s.rows, s.end_of_block, s.end_of_line,
            s.rows_are_byte_aligned, s.strict, s.exact, s.plain, to.changes, to.changes_len, to.ends, to.ends_len,
            to.marks, to.marks_len);
        return answer;
    default:
        return ccitt_refused(CCITT_BAD_NUMBER);
    }
}

/* A page, and what a careful reader asks of it. */
static inline ccitt_checked ccitt_check(const uint8_t *src, size_t src_len, ccitt_settings s, ccitt_room to) {
    ccitt_checked checked;
    switch (s.encoding) {
    case CCITT_GROUP4:
        ccitt_check_group4(&checked, src, src_len, s.columns, s.rows, s.end_of_block, s.rows_are_byte_aligned, s.strict,
            s.exact, s.plain, to.changes, to.changes_len, to.ends, to.ends_len, to.marks, to.marks_len);
        return checked;
    case CCITT_GROUP3_1D:
        ccitt_check_group3_1d(&checked, src, src_len, s.columns, s.rows, s.end_of_block, s.end_of_line,
            s.rows_are_byte_aligned, s.strict, s.exact, s.plain, to.changes, to.changes_len, to.ends, to.ends_len,
            to.marks, to.marks_len);
        return checked;
    case CCITT_GROUP3_2D:
        ccitt_check_group3_2d(&checked, src, src_len, s.columns, s.rows, s.end_of_block, s.end_of_line,
            s.rows_are_byte_aligned, s.strict, s.exact, s.plain, to.changes, to.changes_len, to.ends, to.ends_len,
            to.marks, to.marks_len);
        return checked;
    default:
        checked.answer = ccitt_refused(CCITT_BAD_NUMBER);
        checked.parts = 0;
        checked.gave_up = checked.proper = false;
        return checked;
    }
}

/* One 2D line that begins at bit `at`, under a reference. */
static inline ccitt_answer ccitt_decode_line(const uint8_t *src, size_t src_len, uint64_t at, uint32_t columns,
    bool strict, const uint32_t *reference, size_t reference_len, uint32_t *changes, size_t changes_len) {
    ccitt_answer answer;
    ccitt_read_line(&answer, src, src_len, at, columns, strict, reference, reference_len, changes, changes_len);
    return answer;
}

/* A page a row at a time: one row a call, into one of two line arrays, without a store for the page. Lend the same two
   arrays and the same state at each call, and leave them as they were left; before the page's first call the state's
   numbers are all 0. Arrays of as many entries as the page is wide hold any row, and only with them rows are read
   swiftly.
   number: 15 a row was read, and there may be more: CCITT_ROW(state.numbers, first, second) points at its changes,
           CCITT_ROW_LENGTH(state.numbers) says how many they are, mark is its mark, and rows and entries count what was
           given so far. 0 to 4 and 14 are the page's end: 0 to 3 and 14 as of a page, 4 where the row has more changes
           than the array it goes to holds. The entries of an unfinished row, if any, are the first `loose` of
           CCITT_LOOSE(state.numbers, first, second). n rows take n + 1 calls. A call after the end answers the same
           again and writes nothing, whatever else it is lent. 6 and 7 as of a page; 8 a state that no call left
           (another length, or numbers that no state has; a bit past the data, a count past its array or past 8 x bytes
           + 1), a reference that does not ascend strictly below the columns, or another encoding. These do not end the
           page and change nothing.
   The last four numbers of state are the page's end: 0, 0, 0 and 0 while it goes on; behind it one more than its
   number, then the place (0 but for 1, 2 and 3), the bytes (0 but for 0) and the loose entries (0 for 0 and 14). An end
   with any other numbers is no state, and 8. */
#define CCITT_ROW(state, first, second) ((state)[0] == 1 ? (first) : (second))
#define CCITT_ROW_LENGTH(state) ((state)[1])
#define CCITT_LOOSE(state, first, second) ((state)[0] == 1 ? (second) : (first))

static inline ccitt_answer ccitt_next_row(const uint8_t *src, size_t src_len, ccitt_settings s, ccitt_row_state *state,
    uint32_t *first, size_t first_len, uint32_t *second, size_t second_len) {
    ccitt_answer answer;
    ccitt_read_row(&answer, src, src_len, s.columns, s.rows, s.end_of_block, s.end_of_line, s.rows_are_byte_aligned,
        s.encoding, s.strict, s.exact, s.plain, state->numbers, CCITT_ROW_STATE, first, first_len, second, second_len);
    return answer;
}

/* A Group 4 page a little at a time: at most n units a call, n at least 1. A unit is one mode code, one make-up code,
   one terminating code or one EOL, and a code that fails is one too. Lend the page's three arrays and the same state at
   each call, and leave them as they were left; before the page's first call the state's numbers are all 0. Any other
   encoding is 10.
   units:  how many were taken: the smaller of n and those that the page has left. 0 after a refusal, and after the
           page's end.
   number: 15 there are more: rows, entries and loose count what was read so far. Any other is the page's end, and
           answer and arrays are what ccitt_decode gives, whatever the n of each call. U units take U / n calls, rounded
           up, or one call if there are none. A call after the end answers the same again and writes nothing, whatever
           else it is lent. 10 n is 0, before all else; 6 and 7 as of a page; 8 a state that no call left (another
           length, or numbers that no state has; a bit past the data, a position past the columns, a count past its
           array or past 8 x bytes + 1), or a last row or an unfinished one that does not ascend strictly below the
           columns or the position. These do not end the page and change nothing. Of the row ends, 8 looks at the last
           two alone, between which the last row lies: to go over all of them at each call would stall the caller. So
           earlier ends that fall or pass the array are not found.
   The last four numbers of state are 0 while the page goes on; behind its end they are one more than its number, its
   entries, its bytes (0 but for 0) and its place (0 but for 1, 2 and 3), state[3] and state[6] are its rows and loose
   entries (no loose entries for 0 and 14), and all others are 0. An end with any other numbers is no state, and 8. */
static inline ccitt_unit_answer ccitt_next_units(const uint8_t *src, size_t src_len, ccitt_settings s, ccitt_room to,
    ccitt_unit_state *state, uint64_t n) {
    ccitt_unit_answer answer;
    if (s.encoding != CCITT_GROUP4) {
        answer.answer = ccitt_refused(CCITT_BAD_NUMBER);
        answer.units = 0;
        return answer;
    }
    ccitt_read_units(&answer, src, src_len, s.columns, s.rows, s.end_of_block, s.rows_are_byte_aligned, s.strict,
        s.exact, s.plain, to.changes, to.changes_len, to.ends, to.ends_len, to.marks, to.marks_len, state->numbers,
        CCITT_UNIT_STATE, n);
    return answer;
}

/* Writes a row as one T.6 line under a reference, from bit `at` of out on. The bits before it and the bytes behind it
   stay; the unused bits of its last byte become 0. */
static inline ccitt_answer ccitt_encode_line(uint32_t columns, const uint32_t *reference, size_t reference_len,
    const uint32_t *row, size_t row_len, uint8_t *out, size_t out_len, uint64_t at) {
    ccitt_answer answer;
    ccitt_write_line(&answer, columns, reference, reference_len, row, row_len, out, out_len, at);
    return answer;
}

/* Writes one page from byte 0 of out on: as many rows as there are row ends. A T.6 page ends with EOFB. An encoding
   that is none is 10. */
static inline ccitt_answer ccitt_encode(ccitt_rows rows, ccitt_layout layout, uint8_t *out, size_t out_len) {
    ccitt_answer answer;
    switch (layout.encoding) {
    case CCITT_GROUP4:
        ccitt_write_page(&answer, rows.columns, rows.changes, rows.changes_len, rows.ends, rows.ends_len, out, out_len);
        return answer;
    case CCITT_GROUP3_1D:
        ccitt_write_group3_1d(&answer, rows.columns, rows.changes, rows.changes_len, rows.ends, rows.ends_len,
            layout.eols, layout.fill, out, out_len);
        return answer;
    case CCITT_GROUP3_2D:
        ccitt_write_group3_2d(&answer, rows.columns, rows.changes, rows.changes_len, rows.ends, rows.ends_len, layout.k,
            out, out_len);
        return answer;
    default:
        return ccitt_refused(CCITT_BAD_NUMBER);
    }
}

/* Paints rows into packed rows, from byte 0 on. What is behind the columns in a row's last byte becomes white, and the
   bytes between it and the next row stay. After 0 `bytes` is the byte behind the last row; a refusal paints nothing.
   6, 7 as of a page; 10 a stride that is shorter than a row; 9 rows that pass the bitmap; 8 rows that are none. */
static inline ccitt_answer ccitt_to_bitmap(ccitt_rows rows, ccitt_bitmap to) {
    ccitt_answer answer;
    ccitt_paint(&answer, rows.columns, rows.changes, rows.changes_len, rows.ends, rows.ends_len, to.black_is_one,
        to.stride, to.bytes, to.bytes_len);
    return answer;
}

/* Reads so many packed rows into a room, whose marks stay as they are. What the bits behind the columns are does not
   matter. After 0 rows and entries are told, and `bytes` is the byte behind the last row. A refusal stores nothing: 6,
   7, 10 and 9 as above, 5 fewer row ends than rows, 4 fewer entries than changes. */
static inline ccitt_answer ccitt_from_bitmap(ccitt_bitmap from, uint32_t columns, uint64_t rows, ccitt_room to) {
    ccitt_answer answer;
    ccitt_unpaint(&answer, columns, rows, from.black_is_one, from.stride, from.bytes, from.bytes_len, to.changes,
        to.changes_len, to.ends, to.ends_len);
    return answer;
}

/* The heads on a form: rows with their marks, as a decoder left them. A part of a box outside the page is white. A box
   is ticked where at least `least` of its pixels are black. The kept rows alone are seen: ask only where the page was
   answered with 0 and has as many rows as the form's. */
static inline ccitt_heads_answer ccitt_count_heads(ccitt_rows rows, const ccitt_boxes *boxes, uint64_t least,
    int32_t quota) {
    return ccitt_heads(rows.columns, rows.changes, rows.changes_len, rows.ends, rows.ends_len, rows.marks,
        rows.marks_len, &boxes->edges[0][0][0], 80, least, quota);
}

/* The verdict on a faxed form: the text of a form file (examples/README.md) and the bytes of the page in. A page is
   counted where it was read to its end, as wide and with as many rows as the form says, to its last byte, with every
   row that the form rests on clean, every place as it must be, no box in doubt, and one tick in each column; by a form
   with a shift so wherever it fits within that shift, with the same heads. Of the settings `strict` and `exact` are
   left aside, since `how` says them; columns 0 are the form's. The page is read into `to`, where the form is sound; a
   form's places, up to 256, and its boxes take 8 KiB more of stack, and as much again where it has a shift. */
static inline ccitt_verdict_answer ccitt_judge(const uint8_t *form, size_t form_len, const uint8_t *src, size_t src_len,
    uint32_t how, ccitt_settings s, ccitt_room to) {
    ccitt_verdict_answer answer;
    uint32_t boxes[80], places[7 * 256];
    ccitt_verdict(&answer, form, form_len, src, src_len, how, s.encoding, s.columns, s.rows, s.end_of_block,
        s.end_of_line, s.rows_are_byte_aligned, s.plain, boxes, 80, places, 7 * 256, to.changes, to.changes_len,
        to.ends, to.ends_len, to.marks, to.marks_len);
    return answer;
}

#ifdef __cplusplus
}
#endif

#endif
