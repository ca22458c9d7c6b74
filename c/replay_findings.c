/* Repeats the list of findings in c/replay_findings: of each line of questions it makes a file, asks what is wrong with it, and prints a line
 * of answers. oracle/src/replay_findings.rs makes the list, and says what stands in a line. */
#include <inttypes.h>
#include <stdio.h>
#include <stdlib.h>

#include "inscjarol.h"
#include "replay_frame.h"

/* The numbers of a question, behind those of its file. */
enum { SIZE = FRAME, ALLOWANCE, RIGHT, LETTERS, RETURNS, AT, WIDTH, VALUE, ROOM, NUMBERS };

/* What can be right in a file, a bit each. */
enum { RIGHT_TEXTS = 1, RIGHT_RETURNS = 2, RIGHT_COUNTERS = 4 };

/* No file of the list is longer, and no room has more numbers. */
enum { MOST = 4096, MOST_NUMBERS = 400 };

/* What lent numbers are before a call, and how many there are past a room. */
enum { BEFORE = 0xA5, SPARE = 5 };

static uint8_t file[MOST];
static uint64_t out[MOST_NUMBERS + SPARE];

/* A text of letters, and zeros behind them. */
static void put_text(const uint64_t q[NUMBERS], uint64_t at, uint64_t length) {
    for (uint64_t k = 0; k < length; k++) {
        put(file, q[SIZE], at + k, 1, k < q[LETTERS] ? 'a' : 0);
    }
}

/* Every text of the file. */
static void put_texts(const uint64_t q[NUMBERS]) {
    uint64_t start = 0, later = 0;
    put_text(q, 26, 32);
    put_text(q, 58, 32);
    for (uint64_t k = 0; k < q[VLRS]; k++) {
        put_text(q, q[HEADER_SIZE] + 54 * k + 2, 16);
        put_text(q, q[HEADER_SIZE] + 54 * k + 22, 32);
    }
    if (q[MINOR] == 3 && q[WAVEFORM] > 0) {
        start = q[WAVEFORM];
        later = 1;
    }
    if (q[MINOR] == 4 && q[EVLR_START] > 0) {
        start = q[EVLR_START];
        later = q[EVLRS] < 9 ? q[EVLRS] : 9;
    }
    for (uint64_t k = 0; k < later; k++) {
        put_text(q, start + 60 * k + 2, 16);
        put_text(q, start + 60 * k + 28, 32);
    }
}

/* Counters that count the records. */
static void put_counters(const uint64_t q[NUMBERS]) {
    uint64_t counts[16] = {0};
    for (uint64_t k = 0; k < points_of(q); k++) {
        const uint64_t at = q[OFFSET] + k * q[LENGTH] + 14;
        counts[(at < q[SIZE] ? file[at] : 0) & (q[FORMAT] < 6 ? 7 : 15)]++;
    }
    for (uint64_t k = 1; k < 6; k++) {
        put(file, q[SIZE], 107 + 4 * k, 4, q[MINOR] < 4 ? counts[k] : 0);
    }
    for (uint64_t k = 1; q[MINOR] == 4 && k < 16; k++) {
        put(file, q[SIZE], 247 + 8 * k, 8, counts[k]);
    }
}

/* Makes the file. */
static void make(const uint64_t q[NUMBERS]) {
    make_frame(file, q[SIZE], q);
    if ((q[RIGHT] & RIGHT_TEXTS) != 0) {
        put_texts(q);
    }
    for (uint64_t k = 0; (q[RIGHT] & RIGHT_RETURNS) != 0 && k < points_of(q); k++) {
        put(file, q[SIZE], q[OFFSET] + k * q[LENGTH] + 14, 1, q[RETURNS]);
    }
    if ((q[RIGHT] & RIGHT_COUNTERS) != 0) {
        put_counters(q);
    }
    put(file, q[SIZE], q[AT], q[WIDTH], q[VALUE]);
}

int main(void) {
    uint64_t q[NUMBERS], row[3];
    size_t read = 0;
    while (scanf("%" SCNu64, &q[read]) == 1) {
        if (++read < NUMBERS) {
            continue;
        }
        read = 0;
        if (q[SIZE] > MOST || q[ROOM] > MOST_NUMBERS) {
            return EXIT_FAILURE;
        }
        make(q);
        for (uint64_t k = 0; k < q[ROOM] + SPARE; k++) {
            out[k] = BEFORE;
        }
        las_findings(file, q[SIZE], q[ALLOWANCE], out, q[ROOM], row);
        uint64_t sum = NO_BYTES;
        for (uint64_t k = 0; k < q[ROOM] + SPARE; k++) {
            uint8_t bytes[8];
            put(bytes, 8, 0, 8, out[k]);
            sum = summed(sum, bytes, 8);
        }
        printf("%" PRIu64 " %" PRIu64 " %" PRIu64 " %" PRIu64 "\n", row[LAS_ROW_NUMBER], row[LAS_ROW_VALUE], row[LAS_ROW_RECORD], sum);
    }
    return EXIT_SUCCESS;
}
