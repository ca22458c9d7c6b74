/* Repeats the list of classes in c/replay_reclassify: of each line of questions it makes a file, asks which byte gives one of its points a
 * class, sets it and, where it was set, sets it back, and prints a line of answers. oracle/src/replay_reclassify.rs makes the list, and
 * says what stands in a line. */
#include <inttypes.h>
#include <stdio.h>
#include <stdlib.h>

#include "inscjarol.h"
#include "replay_frame.h"

/* The numbers of a question, behind those of its file. */
enum { FLAGS = FRAME, SIZE, ALLOWANCE, POINT, CLASS, NUMBERS };

/* No file of the list is longer. */
enum { MOST = 4096 };

/* What a change holds before a call. */
enum { BEFORE = 0xA5 };

static uint8_t file[MOST];

/* Makes the file. */
static void make(const uint64_t q[NUMBERS]) {
    make_frame(file, q[SIZE], q);
    if (q[POINT] >= 1 && q[POINT] <= points_of(q)) {
        put(file, q[SIZE], q[OFFSET] + (q[POINT] - 1) * q[LENGTH] + 14, 3, q[FLAGS]);
    }
}

static void print_row(const uint64_t row[3]) {
    printf("%" PRIu64 " %" PRIu64 " %" PRIu64 " ", row[LAS_ROW_NUMBER], row[LAS_ROW_VALUE], row[LAS_ROW_RECORD]);
}

int main(void) {
    uint64_t q[NUMBERS], row[3];
    size_t read = 0;
    while (scanf("%" SCNu64, &q[read]) == 1) {
        if (++read < NUMBERS) {
            continue;
        }
        read = 0;
        if (q[SIZE] > MOST) {
            return EXIT_FAILURE;
        }
        make(q);
        uint64_t change[LAS_CHANGE_NUMBERS] = {BEFORE, BEFORE};
        las_reclassify_ask(file, q[SIZE], q[ALLOWANCE], q[POINT], (uint8_t)q[CLASS], change, row);
        print_row(row);
        printf("%" PRIu64 " %" PRIu64 " ", change[LAS_CHANGE_AT], change[LAS_CHANGE_BYTE]);
        las_reclassify(file, q[SIZE], q[ALLOWANCE], q[POINT], (uint8_t)q[CLASS], row);
        print_row(row);
        printf("%" PRIu64, summed(NO_BYTES, file, q[SIZE]));
        if (row[LAS_ROW_NUMBER] == LAS_OK) {
            las_reclassify(file, q[SIZE], q[ALLOWANCE], q[POINT], (uint8_t)row[LAS_ROW_VALUE], row);
            printf(" ");
            print_row(row);
            printf("%" PRIu64, summed(NO_BYTES, file, q[SIZE]));
        }
        printf("\n");
    }
    return EXIT_SUCCESS;
}
