/* Repeats the list of sheets in c/replay_sheet: of each line of questions it makes a sheet and two files, adds the one and then the other,
 * and prints a line of answers. oracle/src/replay_sheet.rs makes the list, and says what stands in a line. */
#include <inttypes.h>
#include <stdio.h>
#include <stdlib.h>
#include <string.h>

#include "inscjarol.h"
#include "replay_frame.h"

/* The numbers of a question, behind those of its file. */
enum { SIZE = FRAME, ALLOWANCE, POINT, COORDINATE, FLAGS, HAS, BOUND, AT, NUMBER, NUMBERS };

/* No file of the list is longer. */
enum { MOST = 4096 };

/* How far the second file's bytes are from the first one's. */
#define SECOND (UINT64_C(1) << 32)

static uint8_t file[MOST];
static uint64_t sheet[LAS_SHEET_NUMBERS];

/* Makes a file. */
static void make(const uint64_t q[NUMBERS]) {
    make_frame(file, q[SIZE], q);
    if (q[POINT] >= 1 && q[POINT] <= points_of(q)) {
        const uint64_t at = q[OFFSET] + (q[POINT] - 1) * q[LENGTH];
        for (uint64_t axis = 0; axis < 3; axis++) {
            put(file, q[SIZE], at + 4 * axis, 4, q[COORDINATE]);
        }
        put(file, q[SIZE], at + 14, 3, q[FLAGS]);
    }
}

/* Makes the sheet before the first file. */
static void make_sheet(const uint64_t q[NUMBERS]) {
    memset(sheet, 0, sizeof sheet);
    sheet[LAS_SHEET_HAS_BOUNDS] = q[HAS];
    for (size_t k = LAS_SHEET_MIN_X; k <= LAS_SHEET_MAX_Z; k++) {
        sheet[k] = q[BOUND];
    }
    sheet[q[AT]] = q[NUMBER];
}

/* A sum over the bytes of the sheet's numbers, the lowest first. */
static uint64_t sum_of_sheet(void) {
    uint64_t sum = NO_BYTES;
    for (size_t k = 0; k < LAS_SHEET_NUMBERS; k++) {
        uint8_t bytes[8];
        put(bytes, 8, 0, 8, sheet[k]);
        sum = summed(sum, bytes, 8);
    }
    return sum;
}

/* Makes a file, adds it, and prints what came of it. */
static void add(const uint64_t q[NUMBERS], const char *end) {
    uint64_t row[3];
    make(q);
    las_sheet_add(file, q[SIZE], q[ALLOWANCE], sheet, row);
    printf("%" PRIu64 " %" PRIu64 " %" PRIu64 " %" PRIu64 "%s", row[LAS_ROW_NUMBER], row[LAS_ROW_VALUE], row[LAS_ROW_RECORD],
           sum_of_sheet(), end);
}

int main(void) {
    uint64_t q[NUMBERS];
    size_t read = 0;
    while (scanf("%" SCNu64, &q[read]) == 1) {
        if (++read < NUMBERS) {
            continue;
        }
        read = 0;
        if (q[SIZE] > MOST || q[AT] >= LAS_SHEET_NUMBERS) {
            return EXIT_FAILURE;
        }
        make_sheet(q);
        add(q, " ");
        q[SEED] += SECOND;
        add(q, "\n");
    }
    return EXIT_SUCCESS;
}
