/* Repeats the list of columns in c/replay_column: of each line of questions it makes a file, asks for a stretch of one of its columns, and
 * prints a line of answers. oracle/src/replay_column.rs makes the list, and says what stands in a line. */
#include <inttypes.h>
#include <math.h>
#include <stdio.h>
#include <stdlib.h>
#include <string.h>

#include "inscjarol.h"
#include "replay_frame.h"

/* The numbers of a question, behind those of its file. */
enum { POINT = FRAME, PLACE, BITS, SIZE, ALLOWANCE, COLUMN, FIRST, COUNT, ROOM, NUMBERS };

/* The columns. */
enum { X, Y, Z, TIME, TIME_BITS, RED, GREEN, BLUE, NIR };

/* No file of the list is longer, and no destination has more entries. */
enum { MOST = 4096, MOST_ENTRIES = 64 };

/* What the bytes of an entry are before a call, and how many entries there are past the room. */
enum { BEFORE = 0xA5, SPARE = 2 };

static uint8_t file[MOST];

/* A destination for any column. */
static union {
    int32_t coordinates[MOST_ENTRIES + SPARE];
    double times[MOST_ENTRIES + SPARE];
    uint64_t bits[MOST_ENTRIES + SPARE];
    uint16_t colours[MOST_ENTRIES + SPARE];
    uint8_t bytes[(MOST_ENTRIES + SPARE) * 8];
} dst;

/* Makes the file. */
static void make(const uint64_t q[NUMBERS]) {
    make_frame(file, q[SIZE], q);
    if (q[POINT] > 0) {
        put(file, q[SIZE], q[OFFSET] + (q[POINT] - 1) * q[LENGTH] + q[PLACE], 8, q[BITS]);
    }
}

/* Asks for the stretch; the bytes of an entry. */
static uint64_t ask(const uint64_t q[NUMBERS], uint64_t row[3]) {
    const size_t size = q[SIZE], room = q[ROOM];
    const uint64_t allowance = q[ALLOWANCE], first = q[FIRST], count = q[COUNT];
    switch (q[COLUMN]) {
    case X:
        las_column_x(file, size, allowance, first, count, dst.coordinates, room, row);
        return 4;
    case Y:
        las_column_y(file, size, allowance, first, count, dst.coordinates, room, row);
        return 4;
    case Z:
        las_column_z(file, size, allowance, first, count, dst.coordinates, room, row);
        return 4;
    case TIME:
        las_column_time(file, size, allowance, first, count, dst.times, room, row);
        return 8;
    case TIME_BITS:
        las_column_time_bits(file, size, allowance, first, count, dst.bits, room, row);
        return 8;
    case RED:
        las_column_red(file, size, allowance, first, count, dst.colours, room, row);
        return 2;
    case GREEN:
        las_column_green(file, size, allowance, first, count, dst.colours, room, row);
        return 2;
    case BLUE:
        las_column_blue(file, size, allowance, first, count, dst.colours, room, row);
        return 2;
    default:
        las_column_nir(file, size, allowance, first, count, dst.colours, room, row);
        return 2;
    }
}

/* Makes every time that is not a number the same: which it is, is not promised. */
static void one_nan(void) {
    for (size_t k = 0; k < MOST_ENTRIES + SPARE; k++) {
        if (isnan(dst.times[k])) {
            dst.bits[k] = UINT64_C(0x7FF8000000000000);
        }
    }
}

int main(void) {
    uint64_t q[NUMBERS], row[3];
    size_t read = 0;
    while (scanf("%" SCNu64, &q[read]) == 1) {
        if (++read < NUMBERS) {
            continue;
        }
        read = 0;
        if (q[SIZE] > MOST || q[ROOM] > MOST_ENTRIES) {
            return EXIT_FAILURE;
        }
        make(q);
        memset(dst.bytes, BEFORE, sizeof dst.bytes);
        const uint64_t width = ask(q, row);
        if (q[COLUMN] == TIME) {
            one_nan();
        }
        printf("%" PRIu64 " %" PRIu64 " %" PRIu64 " ", row[LAS_ROW_NUMBER], row[LAS_ROW_VALUE], row[LAS_ROW_RECORD]);
        printf("%" PRIu64 "\n", summed(NO_BYTES, dst.bytes, (q[ROOM] + SPARE) * width));
    }
    return EXIT_SUCCESS;
}
