/* What the programs share that replay lists of questions about files of any version: the numbers of which a file is made. */
#ifndef REPLAY_FRAME_H
#define REPLAY_FRAME_H

#include "replay.h"

/* The first numbers of a question; a program's own begin at FRAME. */
enum { SEED, MINOR, HEADER_SIZE, VLRS, OFFSET, FORMAT, LENGTH, LEGACY, LARGE, WAVEFORM, EVLR_START, EVLRS, FRAME };

/* How many points there are. */
static inline uint64_t points_of(const uint64_t *q) {
    return q[LEGACY] == 0 && q[MINOR] == 4 ? q[LARGE] : q[LEGACY];
}

/* Makes a file of so many bytes, with records without data. */
static inline void make_frame(uint8_t *file, uint64_t size, const uint64_t *q) {
    uint64_t seed = q[SEED];
    for (uint64_t i = 0; i < size; i++) {
        file[i] = next_byte(&seed);
    }
    put(file, size, 0, 4, 0x4653414C);
    put(file, size, 24, 1, 1);
    put(file, size, 25, 1, q[MINOR]);
    put(file, size, 94, 2, q[HEADER_SIZE]);
    put(file, size, 96, 4, q[OFFSET]);
    put(file, size, 100, 4, q[VLRS]);
    put(file, size, 104, 1, q[FORMAT]);
    put(file, size, 105, 2, q[LENGTH]);
    put(file, size, 107, 4, q[LEGACY]);
    if (q[MINOR] == 3) {
        put(file, size, 6, 2, q[WAVEFORM] > 0 ? 2 : 0);
        put(file, size, 227, 8, q[WAVEFORM]);
    }
    if (q[MINOR] == 4) {
        put(file, size, 235, 8, q[EVLR_START]);
        put(file, size, 243, 4, q[EVLRS]);
        put(file, size, 247, 8, q[LARGE]);
    }
    for (uint64_t k = 0; k < q[VLRS]; k++) {
        put(file, size, q[HEADER_SIZE] + 54 * k + 20, 2, 0);
    }
    if (q[WAVEFORM] > 0 && q[MINOR] == 3) {
        put(file, size, q[WAVEFORM] + 20, 8, 0);
    }
    for (uint64_t k = 0; q[EVLR_START] > 0 && k < q[EVLRS] && k < 9; k++) {
        put(file, size, q[EVLR_START] + 60 * k + 20, 8, 0);
    }
}

#endif
