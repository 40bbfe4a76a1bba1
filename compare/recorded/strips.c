// The fax data of a TIFF file, strip by strip, the first bit of each byte on top, for recorded/encoders:
// strips FILE TO writes TO.STRIP.COLUMNS.ROWS.g4 (or .g31, .g32).
#include <stdio.h>
#include <stdlib.h>
#include <tiffio.h>

static const char *ending(TIFF *tiff) {
    uint16_t compression = 0;
    uint32_t options = 0;
    TIFFGetField(tiff, TIFFTAG_COMPRESSION, &compression);
    if (compression == COMPRESSION_CCITTFAX4) return "g4";
    TIFFGetField(tiff, TIFFTAG_GROUP3OPTIONS, &options);
    return options & GROUP3OPT_2DENCODING ? "g32" : "g31";
}

static int put_strip(TIFF *tiff, const char *to, uint32_t strip, uint32_t columns, uint32_t rows, uint16_t order) {
    tmsize_t size = TIFFRawStripSize(tiff, strip);
    uint8_t *bytes = malloc(size);
    char name[4096];
    snprintf(name, sizeof name, "%s.%u.%u.%u.%s", to, strip, columns, rows, ending(tiff));
    FILE *out = fopen(name, "wb");
    if (!bytes || !out || TIFFReadRawStrip(tiff, strip, bytes, size) != size) return 1;
    if (order == FILLORDER_LSB2MSB) TIFFReverseBits(bytes, size);
    int short_write = fwrite(bytes, 1, size, out) != (size_t)size;
    free(bytes);
    return fclose(out) || short_write;
}

int main(int words, char **word) {
    if (words != 3) return 2;
    TIFF *tiff = TIFFOpen(word[1], "r");
    if (!tiff) return 1;
    uint32_t columns = 0, rows = 0, each = 0;
    uint16_t order = FILLORDER_MSB2LSB;
    TIFFGetField(tiff, TIFFTAG_IMAGEWIDTH, &columns);
    TIFFGetField(tiff, TIFFTAG_IMAGELENGTH, &rows);
    TIFFGetFieldDefaulted(tiff, TIFFTAG_ROWSPERSTRIP, &each);
    TIFFGetFieldDefaulted(tiff, TIFFTAG_FILLORDER, &order);
    for (uint32_t strip = 0; strip < TIFFNumberOfStrips(tiff); strip++) {
        uint32_t left = rows - strip * each;
        if (put_strip(tiff, word[2], strip, columns, left < each ? left : each, order)) return 1;
    }
    TIFFClose(tiff);
    return 0;
}
