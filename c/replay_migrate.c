/* Repeats the list of whole files in c/replay_migrate: of each line of questions it makes a file, asks whether it goes to the other
 * version, writes it there and, where it went, brings it back, and prints a line of answers. oracle/src/replay_migrate.rs makes the list,
 * and says what stands in a line. */
#include <inttypes.h>
#include <stdio.h>
#include <stdlib.h>
#include <string.h>

#include "inscjarol.h"
#include "replay.h"

/* The numbers of a question. */
enum {
    SEED,
    WAY,
    MINOR,
    HEADER_SIZE,
    VLRS,
    OFFSET,
    FORMAT,
    LENGTH,
    LEGACY,
    LARGE,
    WHICH,
    COUNTED,
    WAVEFORM,
    EVLR_START,
    EVLRS,
    POINT,
    PLACE,
    BITS,
    SIZE,
    ALLOWANCE,
    ROOM,
    NUMBERS
};

/* No file of the list is longer, in either version. */
enum { MOST = 131072 };

/* What a destination holds before a call. */
enum { BEFORE = 0xA5 };

static uint8_t file[MOST], gone[MOST], back[MOST];

/* Makes the file. */
static void make(const uint64_t q[NUMBERS]) {
    uint64_t seed = q[SEED], size = q[SIZE], count = q[LEGACY];
    for (uint64_t i = 0; i < size; i++) {
        file[i] = next_byte(&seed);
    }
    put(file, size, 0, 4, 0x4653414C);
    put(file, size, 24, 1, 1);
    put(file, size, 25, 1, q[MINOR]);
    put(file, size, 94, 2, q[HEADER_SIZE]);
    put(file, size, 96, 4, q[OFFSET]);
    put(file, size, 100, 4, q[VLRS]);
    put(file, size, 104, 1, q[FORMAT]);
    put(file, size, 105, 2, q[LENGTH]);
    put(file, size, 107, 4, q[LEGACY]);
    for (uint64_t k = 1; k <= 5; k++) {
        put(file, size, 107 + 4 * k, 4, k);
    }
    if (q[MINOR] == 4) {
        put(file, size, 227, 8, q[WAVEFORM]);
        put(file, size, 235, 8, q[EVLR_START]);
        put(file, size, 243, 4, q[EVLRS]);
        put(file, size, 247, 8, q[LARGE]);
        for (uint64_t k = 1; k <= 15; k++) {
            put(file, size, 247 + 8 * k, 8, k <= 5 ? 10 + k : 0);
        }
        count = count != 0 ? count : q[LARGE];
    }
    if (q[WHICH] > 5) {
        put(file, size, 247 + 8 * (q[WHICH] - 5), 8, q[COUNTED]);
    } else if (q[WHICH] > 0) {
        put(file, size, 107 + 4 * q[WHICH], 4, q[COUNTED]);
    }
    for (uint64_t k = 0; k < q[VLRS]; k++) {
        put(file, size, q[HEADER_SIZE] + 54 * k + 20, 2, 0);
    }
    for (uint64_t k = 0; k < count; k++) {
        const uint64_t at = q[OFFSET] + k * q[LENGTH];
        if (q[MINOR] == 4) {
            put(file, size, at + 14, 3, 0x020011);
            put(file, size, at + 18, 2, 0);
        } else {
            put(file, size, at + 14, 3, 0x000209);
        }
    }
    if (q[POINT] > 0) {
        put(file, size, q[OFFSET] + (q[POINT] - 1) * q[LENGTH] + q[PLACE], 2, q[BITS]);
    }
    if (q[EVLR_START] > 0 && q[EVLRS] > 0) {
        put(file, size, q[EVLR_START] + 20, 8, 0);
    }
}

static void print_row(const uint64_t row[3]) {
    printf("%" PRIu64 " %" PRIu64 " %" PRIu64 " ", row[LAS_ROW_NUMBER], row[LAS_ROW_VALUE], row[LAS_ROW_RECORD]);
}

int main(void) {
    uint64_t q[NUMBERS], row[3];
    size_t read = 0;
    while (scanf("%" SCNu64, &q[read]) == 1) {
        if (++read < NUMBERS) {
            continue;
        }
        read = 0;
        if (q[SIZE] > MOST || q[ROOM] > MOST) {
            return EXIT_FAILURE;
        }
        make(q);
        memset(gone, BEFORE, q[ROOM]);
        memset(back, BEFORE, q[SIZE]);

        (q[WAY] == 0 ? las_file_ask_new : las_file_ask_old)(file, q[SIZE], q[ALLOWANCE], row);
        print_row(row);
        (q[WAY] == 0 ? las_file_to_new : las_file_to_old)(file, q[SIZE], q[ALLOWANCE], gone, q[ROOM], row);
        print_row(row);
        printf("%" PRIu64, summed(NO_BYTES, gone, q[ROOM]));
        if (row[LAS_ROW_NUMBER] == LAS_OK) {
            const uint64_t bytes = row[LAS_ROW_VALUE];
            (q[WAY] == 0 ? las_file_to_old : las_file_to_new)(gone, bytes, q[ALLOWANCE], back, q[SIZE], row);
            printf(" ");
            print_row(row);
            printf("%" PRIu64, summed(NO_BYTES, back, q[SIZE]));
        }
        printf("\n");
    }
    return EXIT_SUCCESS;
}
