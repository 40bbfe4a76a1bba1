// The library behind pipes, for a machine that cannot link it: reads batches of calls from standard
// input, makes them, and writes the replies to standard output. src/piped.rs is the other end and
// says how they are laid out. It is compiled without headers, so what it uses is declared here.

typedef unsigned char u8;
typedef unsigned int u32;
typedef unsigned long u64;

long read(int file, void *to, u64 size);
long write(int file, const void *from, u64 size);
void *malloc(u64 size);
void *calloc(u64 count, u64 size);
void free(void *memory);
void exit(int status);

struct Answer {
    u32 number, mark;
    u64 rows, entries, loose, bytes, place;
};

struct Answer ccitt_decode_group4(const u8 *src, u64 src_len, u32 columns, u32 rows, _Bool end_of_block, _Bool rows_are_byte_aligned, _Bool strict, _Bool exact, _Bool plain,
    u32 *changes, u64 changes_len, u64 *ends, u64 ends_len, u8 *marks, u64 marks_len);
struct Answer ccitt_decode_group3_1d(const u8 *src, u64 src_len, u32 columns, u32 rows, _Bool end_of_block, _Bool end_of_line, _Bool rows_are_byte_aligned, _Bool strict, _Bool exact, _Bool plain,
    u32 *changes, u64 changes_len, u64 *ends, u64 ends_len, u8 *marks, u64 marks_len);
struct Answer ccitt_decode_group3_2d(const u8 *src, u64 src_len, u32 columns, u32 rows, _Bool end_of_block, _Bool end_of_line, _Bool rows_are_byte_aligned, _Bool strict, _Bool exact, _Bool plain,
    u32 *changes, u64 changes_len, u64 *ends, u64 ends_len, u8 *marks, u64 marks_len);
struct Answer ccitt_read_line(const u8 *src, u64 src_len, u64 at, u32 columns, _Bool strict,
    const u32 *reference, u64 reference_len, u32 *changes, u64 changes_len);
struct Answer ccitt_write_line(u32 columns, const u32 *reference, u64 reference_len, const u32 *row, u64 row_len, u8 *out, u64 out_len, u64 at);
struct Answer ccitt_write_page(u32 columns, const u32 *changes, u64 changes_len, const u64 *ends, u64 ends_len, u8 *out, u64 out_len);
struct Answer ccitt_write_group3_1d(u32 columns, const u32 *changes, u64 changes_len, const u64 *ends, u64 ends_len, _Bool eols, u32 fill, u8 *out, u64 out_len);
struct Answer ccitt_write_group3_2d(u32 columns, const u32 *changes, u64 changes_len, const u64 *ends, u64 ends_len, u32 k, u8 *out, u64 out_len);

enum { MARGIN = 2, BYTE_MARGIN = 8 };

// One call as it stands in a batch; the data and the two lists follow it. `out` counts the marks of a reader, and a writer's bytes. A Group 3
// writer has the caller's number in `rows`, and whether there are EOLs in the second flag.
struct Call {
    u32 form, flags, columns, rows;
    u64 at, tail;
    u32 src_len, first_len, second_len, changes, ends, out, fill, lead;
};

struct Batch {
    u64 size, reply, calls;
};

static u64 padded(u64 size) { return (size + 7) / 8 * 8; }

static void copy(u8 *to, const u8 *from, u64 size) {
    for (u64 i = 0; i < size; i++) to[i] = from[i];
}

// Reads so many bytes; the end of the input before the first of them is the end of the run.
static void read_all(void *to, u64 size) {
    u64 have = 0;
    while (have < size) {
        long got = read(0, (u8 *)to + have, size - have);
        if (got <= 0) exit(got == 0 && have == 0 ? 0 : 1);
        have += (u64)got;
    }
}

static void write_all(const void *from, u64 size) {
    u64 done = 0;
    while (done < size) {
        long got = write(1, (const u8 *)from + done, size - done);
        if (got <= 0) exit(1);
        done += (u64)got;
    }
}

static void *memory(u64 size) {
    void *got = malloc(size ? size : 1);
    if (!got) exit(1);
    return got;
}

static void *zeroed(u64 size) {
    void *got = calloc(size, 1);
    if (!got) exit(1);
    return got;
}

static u32 pattern(u32 fill, u64 index) { return ((u32)index + 1) * 0x9E3779B1u ^ fill; }

static struct Answer read_from(const struct Call *c, const u8 *src, u64 src_len, const u32 *first, u32 *changes, u64 *ends, u8 *marks) {
    _Bool eob = c->flags & 1, eol = c->flags >> 1 & 1, aligned = c->flags >> 2 & 1, strict = c->flags >> 3 & 1, exact = c->flags >> 4 & 1, plain = c->flags >> 5 & 1;
    switch (c->form) {
    case 0: return ccitt_decode_group4(src, src_len, c->columns, c->rows, eob, aligned, strict, exact, plain, changes, c->changes, ends, c->ends, marks, c->out);
    case 1: return ccitt_decode_group3_1d(src, src_len, c->columns, c->rows, eob, eol, aligned, strict, exact, plain, changes, c->changes, ends, c->ends, marks, c->out);
    case 2: return ccitt_decode_group3_2d(src, src_len, c->columns, c->rows, eob, eol, aligned, strict, exact, plain, changes, c->changes, ends, c->ends, marks, c->out);
    default: return ccitt_read_line(src, src_len, c->at, c->columns, strict, first, c->first_len, changes, c->changes);
    }
}

// Row ends have 64 bits, and the words that are compared 32. What an end holds before the call: its high half shows a write of
// the low half alone. After it, an end that was not written is the word as it was, and one of more than 32 bits another word.
static u64 widened(u32 word) { return (u64)~word << 32 | word; }

static u32 narrowed(u32 before, u64 end) { return end == widened(before) ? before : end >> 32 ? ~before : (u32)end; }

// Lead and tail are zeroed memory, which costs nothing until it is looked at.
static struct Answer read_around(const struct Call *c, const u8 *src, const u32 *first, u32 *changes, u64 *ends, u8 *marks) {
    if (!c->lead && !c->tail) return read_from(c, src, c->src_len, first, changes, ends, marks);
    u64 size = c->tail + c->src_len + c->lead;
    u8 *all = zeroed(size);
    copy(all + c->lead, src, c->src_len);
    struct Answer answer = read_from(c, all, size, first, changes, ends, marks);
    free(all);
    return answer;
}

// A reader's call.
static struct Answer do_read(const struct Call *c, const u8 *src, const u32 *first, u32 *words, u8 *bytes) {
    u32 *changes = words + MARGIN, *back = changes + c->changes;
    u64 count = (u64)c->ends + 2 * MARGIN, *wide = memory(8 * count);
    for (u64 i = 0; i < count; i++) wide[i] = widened(back[i]);
    struct Answer answer = read_around(c, src, first, changes, wide + MARGIN, bytes + BYTE_MARGIN);
    for (u64 i = 0; i < count; i++) back[i] = narrowed(back[i], wide[i]);
    free(wide);
    return answer;
}

static struct Answer write_to(const struct Call *c, const u32 *first, const u32 *second, u8 *out, u64 out_len) {
    if (c->form == 4) return ccitt_write_line(c->columns, first, c->first_len, second, c->second_len, out, out_len, c->at);
    u64 *ends = memory(8ul * c->second_len);
    for (u64 i = 0; i < c->second_len; i++) ends[i] = second[i];
    struct Answer answer;
    switch (c->form) {
    case 5: answer = ccitt_write_page(c->columns, first, c->first_len, ends, c->second_len, out, out_len); break;
    case 6: answer = ccitt_write_group3_1d(c->columns, first, c->first_len, ends, c->second_len, c->flags >> 1 & 1, c->rows, out, out_len); break;
    default: answer = ccitt_write_group3_2d(c->columns, first, c->first_len, ends, c->second_len, c->rows, out, out_len);
    }
    free(ends);
    return answer;
}

// A writer's call. A write into the tail shows as one into the margin.
static struct Answer do_write(const struct Call *c, const u32 *first, const u32 *second, u8 *bytes) {
    u8 *out = bytes + BYTE_MARGIN;
    if (!c->tail) return write_to(c, first, second, out, c->out);
    u8 *all = zeroed(c->out + c->tail), dirty = 0;
    copy(all, out, c->out);
    struct Answer answer = write_to(c, first, second, all, c->out + c->tail);
    copy(out, all, c->out);
    for (u64 i = 0; i < c->tail; i++) dirty |= all[c->out + i];
    if (dirty) bytes[0] ^= 255;
    free(all);
    return answer;
}

// Makes one call and moves both places on.
static void one(const u8 **from, u8 **to) {
    const struct Call *c = (const struct Call *)*from;
    const u8 *src = *from + sizeof *c;
    const u32 *first = (const u32 *)(src + padded(c->src_len));
    const u32 *second = (const u32 *)((const u8 *)first + padded(4ul * c->first_len));
    *from = (const u8 *)second + padded(4ul * c->second_len);

    struct Answer *answer = (struct Answer *)*to;
    u32 *words = (u32 *)(*to + sizeof *answer);
    u64 word_count = c->form < 4 ? (u64)c->changes + c->ends + 3 * MARGIN : 0, byte_count = (u64)c->out + 2 * BYTE_MARGIN;
    u8 *bytes = (u8 *)words + padded(4 * word_count);
    for (u64 i = 0; i < word_count; i++) words[i] = pattern(c->fill, i);
    for (u64 i = 0; i < byte_count; i++) bytes[i] = (u8)(pattern(c->fill, i) >> 24);
    *answer = c->form < 4 ? do_read(c, src, first, words, bytes) : do_write(c, first, second, bytes);
    *to = bytes + padded(byte_count);
}

int main(void) {
    u32 hello = 0x34544343;
    write_all(&hello, sizeof hello);
    for (;;) {
        struct Batch batch;
        read_all(&batch, sizeof batch);
        u8 *request = memory(batch.size), *reply = zeroed(batch.reply ? batch.reply : 1);
        read_all(request, batch.size);
        const u8 *from = request;
        u8 *to = reply;
        for (u64 i = 0; i < batch.calls; i++) one(&from, &to);
        write_all(reply, batch.reply);
        free(request);
        free(reply);
    }
}
