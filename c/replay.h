/* What the programs that replay lists share: bytes without pattern, of which files are made, and a sum over bytes. */
#ifndef REPLAY_H
#define REPLAY_H

#include <stdint.h>

/* The sum over no bytes. */
#define NO_BYTES UINT64_C(0xCBF29CE484222325)

/* The next of the bytes without pattern that begin with a seed. */
static inline uint8_t next_byte(uint64_t *seed) {
    *seed = *seed * 6364136223846793005u + 1442695040888963407u;
    return (uint8_t)(*seed >> 56);
}

/* A sum over bytes, FNV-1a of 64 bits. */
static inline uint64_t summed(uint64_t sum, const uint8_t *bytes, uint64_t len) {
    for (uint64_t i = 0; i < len; i++) {
        sum = (sum ^ bytes[i]) * 0x100000001B3u;
    }
    return sum;
}

/* The bytes of a number at a place of a file; what would stand past its end is left out. */
static inline void put(uint8_t *file, uint64_t size, uint64_t at, uint64_t width, uint64_t number) {
    for (uint64_t k = 0; k < width && at + k < size; k++) {
        file[at + k] = (uint8_t)(number >> 8 * k);
    }
}

#endif
