/* Repeats the list of appends in c/replay: of each line of questions it makes a file and records, appends them, whole and store by
 * store, and prints a line of answers. oracle/src/replay_append.rs makes the list, and says what stands in a line. */
#include <inttypes.h>
#include <stdbool.h>
#include <stdio.h>
#include <stdlib.h>
#include <string.h>

#include "inscjarol.h"
#include "replay.h"

/* The numbers of a question. */
enum {
    SEED,
    MINOR,
    HEADER_SIZE,
    VLRS,
    OFFSET,
    FORMAT,
    LENGTH,
    COUNT,
    WHICH,
    COUNTED,
    SIZE,
    ALLOWANCE,
    LENT,
    N,
    BELIEVED,
    LAST,
    NUMBERS
};

/* No file or run of records of the list is longer. */
enum { MOST = 32768 };

static uint8_t file[MOST], stored[MOST], records[MOST];

/* Makes file, records and bounds. */
static void make(const uint64_t q[NUMBERS], uint64_t bounds[6]) {
    uint64_t seed = q[SEED], size = q[SIZE];
    for (uint64_t i = 0; i < size; i++) {
        file[i] = next_byte(&seed);
    }
    for (uint64_t i = 0; i < q[LENT]; i++) {
        records[i] = next_byte(&seed);
    }
    for (int i = 0; i < 6; i++) {
        bounds[i] = 0;
        for (int k = 0; k < 8; k++) {
            bounds[i] |= (uint64_t)next_byte(&seed) << 8 * k;
        }
    }
    put(file, size, 0, 4, 0x4653414C);
    put(file, size, 24, 1, 1);
    put(file, size, 25, 1, q[MINOR]);
    put(file, size, 94, 2, q[HEADER_SIZE]);
    put(file, size, 96, 4, q[OFFSET]);
    put(file, size, 100, 4, q[VLRS]);
    put(file, size, 104, 1, q[FORMAT]);
    put(file, size, 105, 2, q[LENGTH]);
    put(file, size, 107, 4, q[COUNT]);
    for (uint64_t k = 1; k <= 5; k++) {
        put(file, size, 107 + 4 * k, 4, k == q[WHICH] ? q[COUNTED] : k);
    }
    if (q[MINOR] == 4) {
        put(file, size, 235, 8, 0);
        put(file, size, 243, 8, 0);
        put(file, size, 251, 4, 0);
    }
    for (uint64_t k = 0; k < q[VLRS]; k++) {
        put(file, size, q[HEADER_SIZE] + 54 * k + 20, 2, 0);
    }
    if (q[LAST] > 0) {
        uint64_t bytes = q[N] * q[LENGTH], at = q[OFFSET] + q[COUNT] * q[LENGTH] - bytes;
        memcpy(file + at, records, bytes);
        if (q[LAST] > 1) {
            file[at + q[LAST] - 2] ^= 1;
        }
    }
}

int main(void) {
    uint64_t q[NUMBERS], bounds[LAS_BOUNDS_NUMBERS], sweep[LAS_SWEEP_NUMBERS], sector[LAS_SPAN_NUMBERS], row[3], begun[3];
    size_t read = 0;
    while (scanf("%" SCNu64, &q[read]) == 1) {
        if (++read < NUMBERS) {
            continue;
        }
        read = 0;
        if (q[SIZE] > MOST || q[LENT] > MOST) {
            return EXIT_FAILURE;
        }
        make(q, bounds);
        memcpy(stored, file, q[SIZE]);
        las_append(file, q[SIZE], q[ALLOWANCE], records, q[LENT], q[N], bounds, q[BELIEVED], row);
        printf("%" PRIu64 " %" PRIu64 " %" PRIu64, row[LAS_ROW_NUMBER], row[LAS_ROW_VALUE], row[LAS_ROW_RECORD]);
        printf(" %" PRIu64, summed(NO_BYTES, file, q[SIZE]));

        las_append_begin(stored, q[SIZE], q[ALLOWANCE], records, q[LENT], q[N], q[BELIEVED], sweep, begun);
        if (memcmp(row, begun, sizeof row) != 0) {
            return EXIT_FAILURE;
        }
        if (row[LAS_ROW_NUMBER] == LAS_OK && row[LAS_ROW_VALUE] == LAS_APPEND_ADDED) {
            uint64_t sum = NO_BYTES, stores = las_append_stores(sweep);
            for (uint64_t k = 0; k < stores; k++) {
                las_append_store(stored, q[SIZE], sweep, records, q[LENT], bounds, k, sector, row);
                for (int i = 0; i < LAS_SPAN_NUMBERS; i++) {
                    for (int b = 0; b < 8; b++) {
                        const uint8_t byte = (uint8_t)(sector[i] >> 8 * b);
                        sum = summed(sum, &byte, 1);
                    }
                }
                sum = summed(sum, stored, q[SIZE]);
            }
            printf(" %" PRIu64 " %" PRIu64, stores, sum);
        }
        printf("\n");
    }
    return EXIT_SUCCESS;
}
