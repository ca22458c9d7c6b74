/* Repeats the list of coordinate keys in c/replay_keys: of each line of questions it makes a file with keys, opens them, asks for one of
 * them, tells the first ones and finds one, writes a directory, and prints a line of answers. oracle/src/replay_keys.rs makes the list,
 * and says what stands in a line. */
#include <inttypes.h>
#include <stdbool.h>
#include <stdio.h>
#include <stdlib.h>
#include <string.h>

#include "inscjarol.h"
#include "replay_frame.h"

/* The numbers of a question, behind those of its file. */
enum {
    SIZE = FRAME,
    ALLOWANCE,
    IDS,
    LAST,
    BYTES,
    CHANGES = BYTES + 3,
    WANTED = CHANGES + 4,
    HAND,
    HAND_NUMBER,
    GIVEN,
    SPACE,
    NUMBERS
};

/* No file of the list is longer, and no directory has more numbers or bytes. */
enum { MOST = 4096, MOST_NUMBERS = 32768, MOST_BYTES = 65536 };

/* What lent numbers and bytes are before a call, and how many bytes there are past a room. */
enum { BEFORE = 0xA5, SPARE = 2 };

/* The numbers of the keys that are asked for. */
enum { ASKED = 8 };
static const uint16_t asked[ASKED] = {0, 1, 2, 3, 4, 5, 6, 256};

/* The numbers of a directory, before its changes. */
enum { PLAIN = 24 };
static const uint16_t plain[PLAIN] = {
    1,    1,     0, 5,     /* in front */
    1024, 0,     1, 1,     /* a number */
    1026, 34737, 7, 3,     /* text */
    2057, 34736, 2, 1,     /* doubles */
    2059, 34736, 0, 3,     /* none of them */
    3072, 0,     9, 32632, /* a number */
};

static const char user[16] = "LASF_Projection";

static uint8_t file[MOST], dst[MOST_BYTES + SPARE];
static uint16_t given[MOST_NUMBERS];

/* The directory's numbers. */
static void make_directory(const uint64_t q[NUMBERS], uint16_t numbers[PLAIN]) {
    memcpy(numbers, plain, sizeof plain);
    for (int k = 0; k < 2; k++) {
        numbers[q[CHANGES + 2 * k]] = (uint16_t)q[CHANGES + 2 * k + 1];
    }
}

/* Gives the record whose head is here the user id, and the record id that the k-th four bits say. */
static void put_ids(const uint64_t q[NUMBERS], uint64_t at, int k) {
    const uint64_t four = q[IDS] >> 4 * k & 15;
    for (uint64_t i = 0; i < sizeof user; i++) {
        put(file, q[SIZE], at + 2 + i, 1, (uint8_t)user[i]);
    }
    put(file, q[SIZE], at + 2, 1, (uint8_t)user[0] ^ q[LAST] >> 8);
    put(file, q[SIZE], at + 17, 1, q[LAST]);
    put(file, q[SIZE], at + 18, 2, four == 14 ? 34735 ^ 0x100 : four == 15 ? 34735 ^ 0x8000 : 34734 + four);
}

/* Makes the file. */
static void make(const uint64_t q[NUMBERS]) {
    const uint64_t size = q[SIZE];
    uint16_t numbers[PLAIN];
    uint64_t at[3], next = q[HEADER_SIZE] + 54 * (q[VLRS] < 3 ? 0 : q[VLRS] - 3);
    make_frame(file, size, q);
    for (int k = 0; k < 3; k++) {
        at[k] = next;
        next += 54 + q[BYTES + k];
        put_ids(q, at[k], k);
    }
    if (q[MINOR] == 3 && q[WAVEFORM] > 0) {
        put_ids(q, q[WAVEFORM], 3);
    }
    for (uint64_t k = 0; q[MINOR] == 4 && k < q[EVLRS] && k < 9; k++) {
        put_ids(q, q[EVLR_START] + 60 * k, 3);
    }
    for (int k = 0; k < 3; k++) {
        put(file, size, at[k] + 20, 2, q[BYTES + k]);
    }
    make_directory(q, numbers);
    const uint64_t which = q[IDS] >> 16;
    for (uint64_t k = 0; k < 2 * PLAIN && k < q[BYTES + which]; k++) {
        put(file, size, at[which] + 54 + k, 1, k % 2 == 0 ? numbers[k / 2] : numbers[k / 2] >> 8);
    }
}

/* The sum over what the calls wrote or left. */
static uint64_t sum;

/* Numbers are summed by their bytes. */
static void add(const uint64_t *numbers, uint64_t count) {
    for (uint64_t i = 0; i < count; i++) {
        for (int k = 0; k < 8; k++) {
            const uint8_t low = (uint8_t)(numbers[i] >> 8 * k);
            sum = summed(sum, &low, 1);
        }
    }
}

static void lend(uint64_t *numbers, uint64_t count) {
    for (uint64_t i = 0; i < count; i++) {
        numbers[i] = BEFORE;
    }
}

static void print_row(const uint64_t row[3]) {
    printf("%" PRIu64 " %" PRIu64 " %" PRIu64 " ", row[LAS_ROW_NUMBER], row[LAS_ROW_VALUE], row[LAS_ROW_RECORD]);
}

/* Whether a key is there, and its numbers or what was lent. */
static void add_key(bool there, const uint64_t key[LAS_KEY_NUMBERS]) {
    const uint64_t number = there ? 1 : 0;
    add(&number, 1);
    add(key, LAS_KEY_NUMBERS);
}

/* The keys, a key by itself, and then keys of the same numbers, of which one may be made by hand. */
static void tell_keys(const uint64_t q[NUMBERS]) {
    uint64_t keys[LAS_KEYS_NUMBERS], key[LAS_KEY_NUMBERS], row[3];
    const uint16_t wanted = (uint16_t)q[WANTED];
    lend(keys, LAS_KEYS_NUMBERS);
    las_keys(file, q[SIZE], q[ALLOWANCE], keys, row);
    print_row(row);
    add(keys, LAS_KEYS_NUMBERS);
    lend(key, LAS_KEY_NUMBERS);
    las_key(file, q[SIZE], q[ALLOWANCE], wanted, key, row);
    print_row(row);
    add(key, LAS_KEY_NUMBERS);
    if (q[HAND] < LAS_KEYS_NUMBERS) {
        keys[q[HAND]] = q[HAND_NUMBER];
    }
    for (int k = 0; k < ASKED; k++) {
        lend(key, LAS_KEY_NUMBERS);
        const bool there = las_keys_at(file, q[SIZE], keys, asked[k], key);
        add_key(there, key);
    }
    lend(key, LAS_KEY_NUMBERS);
    const bool there = las_keys_find(file, q[SIZE], keys, wanted, key);
    add_key(there, key);
}

/* A directory written from the keys of the file's and more. */
static void tell_written(const uint64_t q[NUMBERS]) {
    uint16_t numbers[PLAIN];
    uint64_t row[3];
    make_directory(q, numbers);
    for (uint64_t i = 0; i < q[GIVEN]; i++) {
        const uint64_t k = i / 4 - (PLAIN / 4 - 1);
        const uint16_t more[4] = {(uint16_t)(4000 + k), 0, 1, (uint16_t)k};
        given[i] = i + 4 < PLAIN ? numbers[i + 4] : more[i % 4];
    }
    memset(dst, BEFORE, sizeof dst);
    las_keys_write(given, q[GIVEN], dst, q[SPACE], row);
    print_row(row);
    sum = summed(sum, dst, q[SPACE] + SPARE);
}

int main(void) {
    uint64_t q[NUMBERS];
    size_t read = 0;
    while (scanf("%" SCNu64, &q[read]) == 1) {
        if (++read < NUMBERS) {
            continue;
        }
        read = 0;
        if (q[SIZE] > MOST || q[GIVEN] > MOST_NUMBERS || q[SPACE] > MOST_BYTES || q[IDS] >> 16 > 2 || q[CHANGES] >= PLAIN ||
            q[CHANGES + 2] >= PLAIN) {
            return EXIT_FAILURE;
        }
        make(q);
        sum = NO_BYTES;
        tell_keys(q);
        tell_written(q);
        printf("%" PRIu64 "\n", sum);
    }
    return EXIT_SUCCESS;
}
