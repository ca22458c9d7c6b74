/* Appending: every refusal, what is added and where, store by store, cut after each, and again. */
#include <string.h>

#include "check.h"

/* A file of version 1.2 and format 0 with an extra byte, two points in sector 0, from 230 to 272, and room up to 1100: the last
 * sector has 76 bytes. Its counts by return are 1, 1, 0, 0, 0. */
enum { OFFSET = 230, LENGTH = 21, OLD = 2, END = OFFSET + OLD * LENGTH, SIZE = 1100 };

/* Records to add: 30 end at 902, in the second sector, 39 at 1091, in the last. */
enum { MOST = 40, NEW = 30 };

static uint8_t records[MOST * LENGTH];

/* A signalling and a quiet NaN, both infinities, zeros of both signs: whatever bits, they are kept. */
static const uint64_t bounds[LAS_BOUNDS_NUMBERS] = {
    0x7FF0000000000001, 0xFFF8000000000000, 0x7FF0000000000000, 0xFFF0000000000000, 0, 0x8000000000000000,
};

/* Bytes that differ from place to place, and return numbers that go through 0 to 7. */
static void make_records(void) {
    for (size_t i = 0; i < sizeof records; i++) {
        records[i] = (uint8_t)(i * 7 + i / 256);
    }
    for (size_t i = 0; i < MOST; i++) {
        records[i * LENGTH + 14] = (uint8_t)(0xF8 | i % 8);
    }
}

static void make_room(uint8_t file[SIZE]) {
    static const uint8_t padding[3] = {1, 2, 3};
    uint64_t row[3], numbers[LAS_HEADER_NUMBERS];
    fill_bytes(file, SIZE);
    new_header(numbers, 2, 0);
    numbers[LAS_HEADER_SIZE] = OFFSET;
    numbers[LAS_HEADER_POINT_OFFSET] = OFFSET;
    numbers[LAS_HEADER_RECORD_LENGTH] = LENGTH;
    numbers[LAS_HEADER_LEGACY_POINTS] = OLD;
    numbers[LAS_HEADER_LEGACY_BY_RETURN] = 1;
    numbers[LAS_HEADER_LEGACY_BY_RETURN + 1] = 1;
    las_header_write(numbers, guid, system_identifier, software, padding, 3, file, SIZE, row);
    CHECK(told(row, LAS_OK, OFFSET, 0));
    memset(file + OFFSET, 0xC3, OLD * LENGTH);
}

/* Whether both functions refuse the offer with these numbers, and leave file and sweep. */
static bool refuses(const uint8_t *file, size_t len, uint64_t allowance, size_t records_len, uint64_t n, uint64_t believed,
                    uint64_t number, uint64_t value) {
    static uint8_t lent[SIZE];
    uint64_t row[3], sweep[LAS_SWEEP_NUMBERS];
    fill_numbers(row, 3);
    fill_numbers(sweep, LAS_SWEEP_NUMBERS);
    memcpy(lent, file, len);
    las_append(lent, len, allowance, records, records_len, n, bounds, believed, row);
    bool same = told(row, number, value, 0) && memcmp(lent, file, len) == 0;
    las_append_begin(lent, len, allowance, records, records_len, n, believed, sweep, row);
    return told(row, number, value, 0) && same && left_numbers(sweep, LAS_SWEEP_NUMBERS);
}

/* Every refusal, in its order: each offer breaks all later rules too. */
static void test_append_refusals(void) {
    uint8_t file[SIZE];
    make_room(file);
    const uint64_t all = UINT64_MAX;

    /* the file check's own */
    CHECK(refuses(file, 3, all, 0, 0, 9, LAS_REFUSED_SHORT, 4));
    CHECK(refuses(file, END - 1, all, 0, 0, 9, LAS_REFUSED_POINT_EXTENT, OLD));
    /* "not 1.2" */
    file[25] = 1;
    CHECK(refuses(file, END, all, 0, 0, 9, LAS_REFUSED_NOT_VERSION_1_2, 0));
    file[25] = 0;
    CHECK(refuses(file, SIZE, all, sizeof records, NEW, OLD, LAS_REFUSED_NOT_VERSION_1_2, 0));
    file[25] = 2;
    /* "n is zero" */
    CHECK(refuses(file, END, all, 0, 0, 9, LAS_REFUSED_NO_RECORDS, 0));
    CHECK(refuses(file, SIZE, all, sizeof records, 0, OLD, LAS_REFUSED_NO_RECORDS, 0));
    /* "records short": by a byte, and by products on both sides of 64 bits */
    memset(file + 111, 0xFF, 20);
    CHECK(refuses(file, END, all, NEW * LENGTH - 1, NEW, 9, LAS_REFUSED_SHORT, NEW * LENGTH));
    CHECK(refuses(file, END, all, sizeof records, all, 9, LAS_REFUSED_SHORT, 0));
    CHECK(refuses(file, END, all, sizeof records, all / LENGTH, 9, LAS_REFUSED_SHORT, all / LENGTH * LENGTH));
    CHECK(refuses(file, END, all, sizeof records, all / LENGTH + 1, 9, LAS_REFUSED_SHORT, 0));
    /* "count neither": sums that would be right in 32 or 64 bits are not */
    CHECK(refuses(file, END, all, sizeof records, NEW, OLD + 1, LAS_REFUSED_COUNT_NEITHER, 0));
    CHECK(refuses(file, END, all, sizeof records, NEW, OLD - 1, LAS_REFUSED_COUNT_NEITHER, 0));
    CHECK(refuses(file, END, all, sizeof records, NEW, all, LAS_REFUSED_COUNT_NEITHER, 0));
    uint8_t kept[3 * LENGTH];
    memcpy(kept, records, sizeof kept);
    memcpy(records, file + END - sizeof kept, sizeof kept); /* three records, of which the first is no point */
    CHECK(refuses(file, END, all, sizeof records, 3, (uint64_t)OLD - 3, LAS_REFUSED_COUNT_NEITHER, 0));
    memcpy(records, kept, sizeof kept);
    CHECK(refuses(file, END, all, sizeof records, NEW, (UINT64_C(1) << 32) + OLD, LAS_REFUSED_COUNT_NEITHER, 0));
    CHECK(refuses(file, END, all, sizeof records, OLD, 0, LAS_REFUSED_COUNT_NEITHER, 0));
    /* "a count over 2^32-1": a count by return; record 1 has return 0, which is counted nowhere, record 2 has return 1 */
    CHECK(refuses(file, END, all, sizeof records, NEW, OLD, LAS_REFUSED_COUNT_TOO_LARGE, 0));
    CHECK(refuses(file, END, all, sizeof records, 2, OLD, LAS_REFUSED_COUNT_TOO_LARGE, 0));
    /* "no room for the records": these, after the points */
    CHECK(refuses(file, END, all, sizeof records, 1, OLD, LAS_REFUSED_NO_ROOM, END + LENGTH));
    CHECK(refuses(file, END + LENGTH - 1, all, sizeof records, 1, OLD, LAS_REFUSED_NO_ROOM, END + LENGTH));
    make_room(file);
    CHECK(refuses(file, SIZE, all, sizeof records, MOST, OLD, LAS_REFUSED_NO_ROOM, END + MOST * LENGTH));

    /* the record number of the file check's refusal stays */
    uint64_t row[3];
    fill_numbers(row, 3);
    file[100] = 1;
    las_append(file, SIZE, 0, records, sizeof records, 1, bounds, OLD, row);
    CHECK(told(row, LAS_REFUSED_ALLOWANCE, 0, 1));
}

/* What the file becomes, byte for byte: of the 30 records 4 have return 1, and so on up to 5. */
static void add_by_hand(uint8_t file[SIZE]) {
    static const uint8_t counts[6] = {OLD + NEW, 1 + 4, 1 + 4, 4, 4, 4};
    memcpy(file + END, records, NEW * LENGTH);
    for (size_t i = 0; i < 6; i++) {
        memset(file + 107 + 4 * i, 0, 4);
        file[107 + 4 * i] = counts[i];
        for (size_t k = 0; k < 8; k++) {
            file[179 + 8 * i + k] = (uint8_t)(bounds[i] >> 8 * k);
        }
    }
}

static void test_append_added(void) {
    uint64_t row[3], sweep[LAS_SWEEP_NUMBERS];
    uint8_t file[SIZE], expected[SIZE];
    fill_numbers(row, 3);
    make_room(file);
    make_room(expected);
    add_by_hand(expected);

    las_append(file, SIZE, UINT64_MAX, records, sizeof records, NEW, bounds, OLD, row);
    CHECK(told(row, LAS_OK, LAS_APPEND_ADDED, 0) && memcmp(file, expected, SIZE) == 0);

    /* "already in": with any bounds and without room for more; nothing is written, and no sweep */
    static const uint64_t others[LAS_BOUNDS_NUMBERS] = {1, 2, 3, 4, 5, 6};
    for (int again = 0; again < 2; again++) {
        las_append(file, SIZE - 198, 0, records, NEW * LENGTH, NEW, others, OLD, row);
        CHECK(told(row, LAS_OK, LAS_APPEND_ALREADY_IN, 0) && memcmp(file, expected, SIZE) == 0);
    }
    fill_numbers(sweep, LAS_SWEEP_NUMBERS);
    las_append_begin(file, SIZE, 0, records, NEW * LENGTH, NEW, OLD, sweep, row);
    CHECK(told(row, LAS_OK, LAS_APPEND_ALREADY_IN, 0) && left_numbers(sweep, LAS_SWEEP_NUMBERS));

    /* the bytes count: with one changed, in the first record or in the last, these are not the records */
    for (size_t at = END; at < END + NEW * LENGTH; at += NEW * LENGTH - 1) {
        file[at] ^= 1;
        CHECK(refuses(file, SIZE, 0, NEW * LENGTH, NEW, OLD, LAS_REFUSED_COUNT_NEITHER, 0));
        file[at] ^= 1;
    }

    /* the end of the room, and of 32 bits, can be reached */
    make_room(file);
    memset(file + 111, 0xFF, 4);
    file[111] = 0xFE;
    las_append(file, END + 2 * LENGTH, 0, records, 2 * LENGTH, 2, bounds, OLD, row);
    CHECK(told(row, LAS_OK, LAS_APPEND_ADDED, 0) && number_at(file + 111, 4) == 0xFFFFFFFF);

    /* what no check can see: the belief read again from the header adds the sweep a second time */
    make_room(file);
    las_append(file, SIZE, 0, records, sizeof records, 1, bounds, OLD, row);
    las_append(file, SIZE, 0, records, sizeof records, 1, bounds, number_at(file + 107, 4), row);
    CHECK(told(row, LAS_OK, LAS_APPEND_ADDED, 0) && number_at(file + 107, 4) == OLD + 2);
}

/* Store by store: the sectors in their order, the header last, and the file of the whole append; cut after each store, the file is
 * accepted with the old points or the new, and appending again ends as if it had never been cut. */
static void test_append_stores(void) {
    uint64_t row[4], sector[2], sweep[LAS_SWEEP_NUMBERS];
    uint8_t file[SIZE], before[SIZE], cut[SIZE], expected[SIZE];
    fill_numbers(row, 4);
    make_room(file);
    make_room(expected);
    add_by_hand(expected);

    las_append_begin(file, SIZE, 0, records, sizeof records, NEW, OLD, sweep, row);
    CHECK(told(row, LAS_OK, LAS_APPEND_ADDED, 0) && sweep[LAS_SWEEP_AT] == END && sweep[LAS_SWEEP_BYTES] == NEW * LENGTH);
    CHECK(sweep[LAS_SWEEP_POINTS] == OLD + NEW && sweep[LAS_SWEEP_BY_RETURN] == 5 && sweep[LAS_SWEEP_BY_RETURN + 1] == 5);
    CHECK(sweep[LAS_SWEEP_BY_RETURN + 2] == 4 && sweep[LAS_SWEEP_BY_RETURN + 3] == 4 && sweep[LAS_SWEEP_BY_RETURN + 4] == 4);

    /* the records begin in sector 0, so that it is stored twice */
    static const uint64_t starts[3] = {0, LAS_SECTOR_BYTES, 0};
    CHECK(las_append_stores(sweep) == 3);
    for (uint64_t k = 0; k < 3; k++) {
        memcpy(before, file, SIZE);
        las_append_store(file, SIZE, sweep, records, sizeof records, bounds, k, sector, row);
        CHECK(told(row, LAS_OK, LAS_SECTOR_BYTES, 0));
        uint64_t start = sector[LAS_SPAN_START];
        CHECK(start == starts[k] && sector[LAS_SPAN_LENGTH] == LAS_SECTOR_BYTES);
        CHECK(memcmp(file, before, start) == 0 && memcmp(file + start, before + start, LAS_SECTOR_BYTES) != 0);
        CHECK(memcmp(file + start + LAS_SECTOR_BYTES, before + start + LAS_SECTOR_BYTES, SIZE - start - LAS_SECTOR_BYTES) == 0);
        CHECK(k == 2 || memcmp(file, before, 227) == 0);

        las_file_check(file, SIZE, 0, row);
        CHECK(told(row, LAS_OK, 0, 0));
        las_header_points(file, SIZE, row);
        CHECK(told(row, LAS_OK, k < 2 ? OLD : OLD + NEW, 0));
        memcpy(cut, file, SIZE);
        las_append(cut, SIZE, 0, records, sizeof records, NEW, bounds, OLD, row);
        CHECK(told(row, LAS_OK, k < 2 ? LAS_APPEND_ADDED : LAS_APPEND_ALREADY_IN, 0) && memcmp(cut, expected, SIZE) == 0);
    }
    CHECK(memcmp(file, expected, SIZE) == 0);

    /* past the last store there is nothing more to do */
    static const uint64_t past[3] = {3, UINT64_C(1) << 32, UINT64_MAX};
    for (size_t i = 0; i < 3; i++) {
        las_append_store(file, SIZE, sweep, records, sizeof records, bounds, past[i], sector, row);
        CHECK(told(row, LAS_OK, 0, 0) && spans(sector, 0, 0) && memcmp(file, expected, SIZE) == 0);
    }

    /* the buffer's last sector is shorter */
    make_room(file);
    las_append_begin(file, SIZE, 0, records, sizeof records, MOST - 1, OLD, sweep, row);
    CHECK(told(row, LAS_OK, LAS_APPEND_ADDED, 0) && las_append_stores(sweep) == 4);
    las_append_store(file, SIZE, sweep, records, sizeof records, bounds, 2, sector, row);
    CHECK(told(row, LAS_OK, SIZE - 1024, 0) && spans(sector, 1024, SIZE - 1024));
}

/* Sweeps made by hand: refusals in exact sums, what is past the buffer's end left out, and numbers wider than their fields. */
static void test_made_sweeps(void) {
    uint64_t row[3], sector[2];
    uint8_t file[300];
    fill_numbers(row, 3);
    fill_numbers(sector, 2);
    fill_bytes(file, sizeof file);
    uint64_t sweep[LAS_SWEEP_NUMBERS] = {100, 41, 0x1234500000007, 0, 0, 0, 0, UINT64_MAX};

    las_append_store(file, 140, sweep, records, 40, bounds, 0, sector, row);
    CHECK(told(row, LAS_REFUSED_SHORT, 41, 0));
    las_append_store(file, 140, sweep, records, 41, bounds, 0, sector, row);
    CHECK(told(row, LAS_REFUSED_NO_ROOM, 141, 0));
    sweep[LAS_SWEEP_AT] = UINT64_MAX - 30;
    las_append_store(file, sizeof file, sweep, records, 41, bounds, 0, sector, row);
    CHECK(told(row, LAS_REFUSED_NO_ROOM, 0, 0));
    CHECK(left_bytes(file, sizeof file) && left_numbers(sector, 2));
    CHECK(las_append_stores(sweep) == 3);

    /* of a count the low 32 bits; and a buffer that ends inside the header */
    sweep[LAS_SWEEP_AT] = 0;
    las_append_store(file, 180, sweep, records, 41, bounds, 1, sector, row);
    CHECK(told(row, LAS_OK, 180, 0) && spans(sector, 0, 180));
    CHECK(number_at(file + 107, 4) == 7 && number_at(file + 127, 4) == 0xFFFFFFFF);
    CHECK(file[179] == 1 && left_bytes(file, 107) && left_bytes(file + 180, sizeof file - 180));

    /* without bytes: the sector that it would begin in, unless it would begin a sector */
    sweep[LAS_SWEEP_BYTES] = 0;
    CHECK(las_append_stores(sweep) == 1);
    sweep[LAS_SWEEP_AT] = 1;
    CHECK(las_append_stores(sweep) == 2);
    sweep[LAS_SWEEP_AT] = sweep[LAS_SWEEP_BYTES] = UINT64_MAX;
    CHECK(las_append_stores(sweep) == (UINT64_C(1) << 55) + 2);
}

void test_append(void) {
    make_records();
    test_append_refusals();
    test_append_added();
    test_append_stores();
    test_made_sweeps();
}
