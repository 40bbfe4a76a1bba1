// libtiff's Group 4 and Group 3 writers with their file in memory, for the bench of the writers, and its readers, for the
// measure of the marks. src/linked/libtiff.rs calls it.

#include <stdarg.h>
#include <stdint.h>
#include <stdio.h>
#include <string.h>
#include <tiffio.h>

struct File {
    uint8_t *bytes;
    size_t room, length, place;
};

static tmsize_t write_file(thandle_t handle, void *from, tmsize_t size) {
    struct File *file = handle;
    if ((size_t)size > file->room - file->place) return -1;
    memcpy(file->bytes + file->place, from, size);
    file->place += size;
    if (file->length < file->place) file->length = file->place;
    return size;
}

static toff_t seek_file(thandle_t handle, toff_t offset, int from) {
    struct File *file = handle;
    toff_t place = offset + (from == SEEK_CUR ? file->place : from == SEEK_END ? file->length : 0);
    if (place > file->room) return (toff_t)-1;
    return file->place = place;
}

static toff_t size_of_file(thandle_t handle) { return ((struct File *)handle)->length; }

// A file of one page is never read while it is written.
static tmsize_t read_nothing(thandle_t handle, void *to, tmsize_t size) {
    (void)handle, (void)to, (void)size;
    return -1;
}

static int close_nothing(thandle_t handle) {
    (void)handle;
    return 0;
}

struct Strip {
    size_t at, length;
};

// 4: Group 4; 1: Group 3, 1D lines, an EOL before each; 2: Group 3, 1D and 2D lines in turn, an EOL and a tag bit before each
static int set_scheme(TIFF *tiff, uint32_t scheme) {
    if (scheme == 4) return TIFFSetField(tiff, TIFFTAG_COMPRESSION, COMPRESSION_CCITTFAX4);
    return TIFFSetField(tiff, TIFFTAG_COMPRESSION, COMPRESSION_CCITTFAX3) &&
           TIFFSetField(tiff, TIFFTAG_GROUP3OPTIONS, scheme == 2 ? GROUP3OPT_2DENCODING : 0);
}

static int write_strip(TIFF *tiff, uint32_t scheme, uint32_t columns, uint32_t rows, const uint8_t *packed, size_t packed_len) {
    // a strip to write is not const in libtiff, which leaves it as it is
    return TIFFSetField(tiff, TIFFTAG_IMAGEWIDTH, columns) && TIFFSetField(tiff, TIFFTAG_IMAGELENGTH, rows) &&
           TIFFSetField(tiff, TIFFTAG_ROWSPERSTRIP, rows) && set_scheme(tiff, scheme) &&
           TIFFSetField(tiff, TIFFTAG_PHOTOMETRIC, PHOTOMETRIC_MINISWHITE) &&
           TIFFWriteEncodedStrip(tiff, 0, (void *)packed, packed_len) == (tmsize_t)packed_len;
}

// Writes packed rows as a TIFF file. Returns where its one strip lies, of length 0 if the file is not whole.
struct Strip libtiff_write_page(uint32_t scheme, uint32_t columns, uint32_t rows, const uint8_t *packed, size_t packed_len, uint8_t *out, size_t out_len) {
    struct File file = {out, out_len, 0, 0};
    struct Strip strip = {0, 0};
    TIFF *tiff = TIFFClientOpen("memory", "w", &file, read_nothing, write_file, seek_file, close_nothing, size_of_file, NULL, NULL);
    if (!tiff) return strip;
    if (write_strip(tiff, scheme, columns, rows, packed, packed_len)) {
        strip.at = TIFFGetStrileOffset(tiff, 0);
        strip.length = TIFFGetStrileByteCount(tiff, 0);
    }
    TIFFClose(tiff);
    // closing puts the directory behind the strip, and does not say whether there was room for it
    if (file.length <= strip.at + strip.length) strip.length = 0;
    return strip;
}

// ---- Reading

// A file is a head, a directory and one strip.
enum { ENTRIES = 9, HEAD = 8 + 2 + 12 * ENTRIES + 4 };

static tmsize_t read_file(thandle_t handle, void *to, tmsize_t size) {
    struct File *file = handle;
    if ((size_t)size > file->length - file->place) size = file->length - file->place;
    memcpy(to, file->bytes + file->place, size);
    file->place += size;
    return size;
}

static tmsize_t write_nothing(thandle_t handle, void *from, tmsize_t size) {
    (void)handle, (void)from, (void)size;
    return -1;
}

static void put_number(uint8_t *at, uint32_t number, int bytes) {
    for (int i = 0; i < bytes; i++) at[i] = number >> 8 * i;
}

static uint8_t *put_entry(uint8_t *at, uint16_t tag, uint32_t value) {
    put_number(at, tag, 2);
    put_number(at + 2, TIFF_LONG, 2);
    put_number(at + 4, 1, 4);
    put_number(at + 8, value, 4);
    return at + 12;
}

static void put_head(uint8_t *at, uint32_t scheme, uint32_t columns, uint32_t rows, uint32_t length) {
    memcpy(at, "II*\0", 4);
    put_number(at + 4, 8, 4);
    put_number(at + 8, ENTRIES, 2);
    at = put_entry(at + 10, TIFFTAG_IMAGEWIDTH, columns);
    at = put_entry(at, TIFFTAG_IMAGELENGTH, rows);
    at = put_entry(at, TIFFTAG_BITSPERSAMPLE, 1);
    at = put_entry(at, TIFFTAG_COMPRESSION, scheme == 4 ? COMPRESSION_CCITTFAX4 : COMPRESSION_CCITTFAX3);
    at = put_entry(at, TIFFTAG_PHOTOMETRIC, PHOTOMETRIC_MINISWHITE);
    at = put_entry(at, TIFFTAG_STRIPOFFSETS, HEAD);
    at = put_entry(at, TIFFTAG_ROWSPERSTRIP, rows);
    at = put_entry(at, TIFFTAG_STRIPBYTECOUNTS, length);
    at = put_entry(at, scheme == 4 ? TIFFTAG_GROUP4OPTIONS : TIFFTAG_GROUP3OPTIONS, scheme == 2 ? GROUP3OPT_2DENCODING : 0);
    put_number(at, 0, 4);
}

// Whether a word was said since it was last asked, in each thread.
static _Thread_local int said;

static void say(const char *module, const char *format, va_list words) {
    (void)module, (void)format, (void)words;
    said = 1;
}

// Reads the rows of a strip into packed rows, as many as it gives, and beside each whether a word was said of it. `file` has
// room for the strip and what stands before it.
uint32_t libtiff_read_page(uint32_t scheme, uint32_t columns, uint32_t rows, const uint8_t *strip, size_t length, uint8_t *file, uint8_t *packed, uint8_t *told) {
    TIFFSetErrorHandler(say);
    TIFFSetWarningHandler(say);
    put_head(file, scheme, columns, rows, length);
    memcpy(file + HEAD, strip, length);
    struct File lent = {file, HEAD + length, HEAD + length, 0};
    TIFF *tiff = TIFFClientOpen("memory", "rm", &lent, read_file, write_nothing, seek_file, close_nothing, size_of_file, NULL, NULL);
    if (!tiff) return 0;
    uint32_t row = 0;
    for (; row < rows; row++) {
        said = 0;
        if (TIFFReadScanline(tiff, packed + (size_t)row * ((columns + 7) / 8), row, 0) < 0) break;
        told[row] = said;
    }
    TIFFClose(tiff);
    return row;
}

size_t libtiff_head(void) { return HEAD; }
