/* Checks a LAS file, lists its parts and shows its first points, scaled. */
#include <inttypes.h>
#include <stdio.h>
#include <stdlib.h>
#include <string.h>

#include "inscjarol.h"

/* The bytes of a file and, in len, how many; NULL where it can't be read. */
static uint8_t *bytes_of(const char *path, size_t *len) {
    FILE *in = fopen(path, "rb");
    if (in == NULL || fseek(in, 0, SEEK_END) != 0) {
        return NULL;
    }
    *len = (size_t)ftell(in);
    rewind(in);
    uint8_t *bytes = malloc(*len + 1); /* one more: the library takes no NULL, of an empty file neither */
    return bytes != NULL && fread(bytes, 1, *len, in) == *len ? bytes : NULL;
}

/* The double that a number of the header stands for. */
static double real(uint64_t bits) {
    double value;
    memcpy(&value, &bits, sizeof value);
    return value;
}

int main(int argc, char **argv) {
    size_t len = 0;
    uint8_t *file = argc == 2 ? bytes_of(argv[1], &len) : NULL;
    if (file == NULL) {
        fprintf(stderr, "usage: example FILE\n");
        return 2;
    }

    /* The file check, and then the parts in their order. */
    static const char *const kinds[] = {"header", "vlr", "gap", "points", "evlr", "waveform"};
    uint64_t row[3], cursor[LAS_CURSOR_NUMBERS], part[LAS_ENTRY_NUMBERS];
    las_cursor_start(file, len, UINT64_MAX, cursor, row);
    if (row[LAS_ROW_NUMBER] != LAS_OK) {
        printf("refused %" PRIu64 " %" PRIu64 " %" PRIu64 "\n", row[LAS_ROW_NUMBER], row[LAS_ROW_VALUE], row[LAS_ROW_RECORD]);
        return 1;
    }
    while (las_cursor_next(file, len, cursor, part)) {
        /* A later version may know more kinds. */
        const char *kind = part[LAS_ENTRY_KIND] < sizeof kinds / sizeof *kinds ? kinds[part[LAS_ENTRY_KIND]] : "other";
        printf("%s %" PRIu64 " %" PRIu64 "\n", kind, part[LAS_ENTRY_START], part[LAS_ENTRY_LENGTH]);
    }

    /* The first three points, by the header's scale and offset. */
    uint64_t header[LAS_HEADER_NUMBERS], place[LAS_PLACE_NUMBERS], point[LAS_POINT_NUMBERS];
    uint8_t guid[LAS_HEADER_GUID_BYTES], system[LAS_HEADER_SYSTEM_BYTES], software[LAS_HEADER_SOFTWARE_BYTES];
    las_header_read(file, len, row, header, guid, system, software);
    las_file_walker(file, len, UINT64_MAX, place);
    for (int shown = 0; shown < 3; shown++) {
        las_file_next(file, len, place, row, point);
        if (row[LAS_ROW_NUMBER] == LAS_REFUSED_INDEX) {
            break; /* there are no more */
        }
        for (int axis = 0; axis < 3; axis++) {
            int32_t n = (int32_t)point[LAS_POINT_X + axis];
            printf("%.2f ", n * real(header[LAS_HEADER_X_SCALE + axis]) + real(header[LAS_HEADER_X_OFFSET + axis]));
        }
        printf("class %d\n", las_flags_class((uint32_t)point[LAS_POINT_FLAGS]));
    }
    return 0;
}
