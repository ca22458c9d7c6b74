/* Whole files, old to new and back: the questions and the calls that write. */
#include <string.h>

#include "check.h"

enum { ROOM = 900 };

/* A question, and the call that writes. */
struct way {
    void (*ask)(const uint8_t *file, size_t file_len, uint64_t allowance, uint64_t row[3]);
    void (*write)(const uint8_t *file, size_t file_len, uint64_t allowance, uint8_t *dst, size_t dst_len, uint64_t row[3]);
};
static const struct way down = {las_file_ask_old, las_file_to_old}, up = {las_file_ask_new, las_file_to_new};

/* Whether a question of a file is answered so, and the call that writes answers the same whatever room there is, but with
 * LAS_REFUSED_NO_ROOM and the bytes of the other file exactly where there is less than these; what it has no business with is
 * left. */
static bool answers(struct way way, const uint8_t *file, size_t len, uint64_t allowance, uint64_t number, uint64_t value,
                    uint64_t record) {
    static uint8_t dst[70000];
    uint64_t row[3];
    fill_numbers(row, 3);
    way.ask(file, len, allowance, row);
    bool same = told(row, number, value, record);
    const size_t needed = number == LAS_OK ? (size_t)value : ROOM;
    const size_t rooms[5] = {0, 1, needed - 1, needed, needed + 1};
    for (size_t i = 0; i < sizeof rooms / sizeof rooms[0]; i++) {
        bool none = number == LAS_OK && rooms[i] < value;
        size_t written = number == LAS_OK && !none ? needed : 0;
        fill_bytes(dst, sizeof dst);
        way.write(file, len, allowance, dst, rooms[i], row);
        same = same && (none ? told(row, LAS_REFUSED_NO_ROOM, value, 0) : told(row, number, value, record)) &&
               left_bytes(dst + written, sizeof dst - written);
    }
    return same;
}

/* The number at the front of some bytes, written. */
static void put(uint8_t *bytes, size_t len, uint64_t number) {
    for (size_t i = 0; i < len; i++) {
        bytes[i] = (uint8_t)(number >> 8 * i);
    }
}

/* What there is to know of a file that went. */
struct shape {
    size_t size, offset, record, count, end, len;
};

static struct shape shape_of(const uint8_t *file, size_t len) {
    struct shape shape;
    uint64_t row[3];
    shape.size = (size_t)number_at(file + 94, 2);
    shape.offset = (size_t)number_at(file + 96, 4);
    shape.record = (size_t)number_at(file + 105, 2);
    las_header_points(file, len, row);
    shape.count = (size_t)row[LAS_ROW_VALUE];
    shape.end = shape.offset + shape.record * shape.count;
    shape.len = len;
    return shape;
}

/* An old file of format 1 or 3: padding of 12 bytes, a VLR, a gap of 4, three points with extra bytes, a gap of 6, and another
 * number in every field of the header. */
static size_t make_old(uint8_t dst[ROOM], uint8_t format, uint16_t extra) {
    static const uint8_t data[5] = "12345", text[32] = "c/migrate", padding[12] = "and the pad";
    const uint64_t vlr[LAS_VLR_NUMBERS] = {0, 1, 5};
    uint64_t row[3], numbers[LAS_HEADER_NUMBERS], point[LAS_POINT_NUMBERS];
    const uint32_t word = LAS_FORMAT_TIME | (format == 3 ? LAS_FORMAT_COLOR : 0) | LAS_FORMAT_EXTRA(extra);
    const size_t record = (format == 3 ? 34 : 28) + extra;
    for (size_t i = 0; i < LAS_HEADER_NUMBERS; i++) {
        numbers[i] = 100 + i;
    }
    numbers[LAS_HEADER_VERSION_MAJOR] = 1;
    numbers[LAS_HEADER_VERSION_MINOR] = 2;
    numbers[LAS_HEADER_SIZE] = 239;
    numbers[LAS_HEADER_POINT_OFFSET] = 302; /* 239, a VLR of 59 and a gap of 4 */
    numbers[LAS_HEADER_NUMBER_OF_VLRS] = 1;
    numbers[LAS_HEADER_POINT_FORMAT] = format;
    numbers[LAS_HEADER_RECORD_LENGTH] = record;
    numbers[LAS_HEADER_LEGACY_POINTS] = 3;
    memset(dst, 0xB0, ROOM);
    las_header_write(numbers, guid, system_identifier, software, padding, 12, dst, ROOM, row);
    CHECK(told(row, LAS_OK, 239, 0));
    las_vlr_write(false, vlr, text, text, data, 5, dst + 239, ROOM - 239, row);
    CHECK(told(row, LAS_OK, 59, 0));
    memset(point, 0, sizeof point);
    point[LAS_POINT_FLAGS] = las_flags_two_bytes(0x51, 0x22);
    point[LAS_POINT_HAS_TIME] = 1;
    point[LAS_POINT_HAS_COLOR] = 1;
    for (size_t i = 0; i < 3; i++) {
        const uint8_t bytes[2] = {(uint8_t)i, 0xEE};
        point[LAS_POINT_X] = 1000 + i;
        point[LAS_POINT_SCAN_ANGLE] = las_angle_rank((int8_t)(-90 + 90 * (int)i));
        point[LAS_POINT_TIME] = double_bits(0.5 + (double)i);
        point[LAS_POINT_BLUE] = 1 + i;
        las_point_write(point, bytes, extra, word, dst + 302 + record * i, ROOM - 302 - record * i, row);
        CHECK(told(row, LAS_OK, record, 0));
    }
    return 302 + 3 * record + 6;
}

/* That a new file is what the old one becomes, field by field: "The header grows .. by 148 bytes, the point offset with it, VLRs,
 * padding and gaps are copied, point bytes follow document 01's upgrade"; "the legacy counts become zero and the large ones hold
 * them". */
static void check_up(const uint8_t *old, size_t old_len, const uint8_t *new, size_t new_len) {
    struct shape was = shape_of(old, old_len), is = shape_of(new, new_len);
    uint64_t row[4];
    las_file_check(new, new_len, UINT64_MAX, row);
    CHECK(row[LAS_ROW_NUMBER] == LAS_OK && row[LAS_ROW_WHOLE] == number_at(old + 100, 4));
    CHECK(memcmp(new, old, 24) == 0 && new[24] == 1 && new[25] == 4 && memcmp(new + 26, old + 26, 94 - 26) == 0);
    CHECK(is.size == was.size + 148 && is.offset == was.offset + 148 && number_at(new + 100, 4) == number_at(old + 100, 4));
    CHECK(new[104] == (old[104] == 1 ? 6 : 7) && is.record == was.record + 2 && is.count == was.count);
    for (size_t i = 0; i < 6; i++) { /* the count, and then those by return */
        CHECK(number_at(new + 107 + 4 * i, 4) == 0);
        CHECK(number_at(new + 247 + 8 * i, 8) == number_at(old + 107 + 4 * i, 4));
    }
    for (size_t i = 5; i < 15; i++) {
        CHECK(number_at(new + 255 + 8 * i, 8) == 0);
    }
    CHECK(memcmp(new + 131, old + 131, 227 - 131) == 0);
    CHECK(number_at(new + 227, 8) == 0 && number_at(new + 235, 8) == 0 && number_at(new + 243, 4) == 0);
    CHECK(memcmp(new + 375, old + 227, was.offset - 227) == 0);
    CHECK(is.len - is.end == was.len - was.end && memcmp(new + is.end, old + was.end, was.len - was.end) == 0);

    static uint8_t points[ROOM];
    uint16_t extra = (uint16_t)(was.record - (old[104] == 1 ? 28 : 34));
    las_convert_to_new(old + was.offset, was.end - was.offset, old[104], extra, was.count, points, sizeof points, row);
    CHECK(told(row, LAS_OK, is.end - is.offset, 0) && memcmp(new + is.offset, points, is.end - is.offset) == 0);
}

/* That an old file is what the new one becomes: "Going down, the counts by return are the legacy ones if the legacy count isn't
 * zero, else the large ones". */
static void check_down(const uint8_t *new, size_t new_len, const uint8_t *old, size_t old_len) {
    struct shape was = shape_of(new, new_len), is = shape_of(old, old_len);
    uint64_t row[4];
    las_file_check(old, old_len, UINT64_MAX, row);
    CHECK(row[LAS_ROW_NUMBER] == LAS_OK && row[LAS_ROW_WHOLE] == number_at(new + 100, 4));
    CHECK(memcmp(old, new, 24) == 0 && old[24] == 1 && old[25] == 2 && memcmp(old + 26, new + 26, 94 - 26) == 0);
    CHECK(is.size == was.size - 148 && is.offset == was.offset - 148 && number_at(old + 100, 4) == number_at(new + 100, 4));
    CHECK(old[104] == (new[104] == 6 ? 1 : 3) && is.record == was.record - 2);
    bool legacy = number_at(new + 107, 4) != 0;
    CHECK(number_at(old + 107, 4) == was.count);
    for (size_t i = 0; i < 5; i++) {
        uint64_t by_return = legacy ? number_at(new + 111 + 4 * i, 4) : number_at(new + 255 + 8 * i, 8);
        CHECK(number_at(old + 111 + 4 * i, 4) == by_return);
    }
    CHECK(memcmp(old + 131, new + 131, 227 - 131) == 0 && memcmp(old + 227, new + 375, was.offset - 375) == 0);
    CHECK(is.len - is.end == was.len - was.end && memcmp(old + is.end, new + was.end, was.len - was.end) == 0);

    static uint8_t points[ROOM];
    uint16_t extra = (uint16_t)(was.record - (new[104] == 6 ? 30 : 36));
    las_convert_to_old(new + was.offset, was.end - was.offset, new[104], extra, was.count, points, sizeof points, row);
    CHECK(told(row, LAS_OK, is.end - is.offset, 0) && memcmp(old + is.offset, points, is.end - is.offset) == 0);
}

/* Up, and down again: "comes back byte for byte". */
static void test_both_ways(void) {
    static uint8_t old[ROOM], new[ROOM], again[ROOM];
    uint64_t row[3];
    fill_numbers(row, 3);
    for (int format = 1; format <= 3; format += 2) {
        for (uint16_t extra = 0; extra <= 2; extra++) {
            size_t len = make_old(old, (uint8_t)format, extra), grown = len + 148 + 3 * 2;
            CHECK(answers(up, old, len, 1, LAS_OK, grown, 0));
            las_file_to_new(old, len, 1, new, sizeof new, row);
            CHECK(told(row, LAS_OK, grown, 0));
            check_up(old, len, new, grown);
            CHECK(answers(down, new, grown, 1, LAS_OK, len, 0));
            las_file_to_old(new, grown, 1, again, sizeof again, row);
            CHECK(told(row, LAS_OK, len, 0) && memcmp(again, old, len) == 0);
            check_down(new, grown, again, len);
        }
    }

    /* a header and nothing else */
    uint64_t numbers[LAS_HEADER_NUMBERS];
    new_header(numbers, 2, 1);
    las_header_write(numbers, guid, system_identifier, software, nothing, 0, old, sizeof old, row);
    CHECK(told(row, LAS_OK, 227, 0));
    CHECK(answers(up, old, 227, 0, LAS_OK, 375, 0));
    las_file_to_new(old, 227, 0, new, sizeof new, row);
    CHECK(told(row, LAS_OK, 375, 0));
    check_up(old, 227, new, 375);
    CHECK(answers(down, new, 375, 0, LAS_OK, 227, 0));
}

/* A new file, and its bytes: what an old one becomes. */
static size_t make_new(uint8_t dst[ROOM]) {
    static uint8_t old[ROOM];
    uint64_t row[3];
    las_file_to_new(old, make_old(old, 3, 2), UINT64_MAX, dst, ROOM, row);
    return (size_t)row[LAS_ROW_VALUE];
}

/* The counts on the way down, as they go and as they are refused. */
static void test_counts(void) {
    static uint8_t new[ROOM], old[ROOM];
    const uint64_t most = UINT32_MAX;
    uint64_t row[3];
    fill_numbers(row, 3);
    size_t len = make_new(new), shrunk = len - 148 - 3 * 2;

    /* the large counts by return, at most 2^32 - 1 each */
    for (size_t i = 0; i < 5; i++) {
        put(new + 255 + 8 * i, 8, most - i);
        CHECK(answers(down, new, len, 1, LAS_OK, shrunk, 0));
        put(new + 255 + 8 * i, 8, most + 1);
        CHECK(answers(down, new, len, 1, LAS_REFUSED_COUNTS_TOO_LARGE_FOR_OLD, 0, 0));
        put(new + 255 + 8 * i, 8, most - i);
    }
    las_file_to_old(new, len, 1, old, sizeof old, row);
    CHECK(told(row, LAS_OK, shrunk, 0));
    check_down(new, len, old, shrunk);

    /* the legacy ones, if the legacy count isn't 0: then what the large ones of returns 1 to 5 hold is nobody's business, and so
     * is the large count */
    put(new + 107, 4, 2);
    for (size_t i = 0; i < 5; i++) {
        put(new + 111 + 4 * i, 4, most - 10 * i);
        put(new + 255 + 8 * i, 8, most + 1);
    }
    put(new + 247, 8, UINT64_MAX);
    CHECK(answers(down, new, len, 1, LAS_OK, len - 148 - 2 * 2, 0));
    las_file_to_old(new, len, 1, old, sizeof old, row);
    CHECK(told(row, LAS_OK, len - 148 - 2 * 2, 0));
    check_down(new, len, old, len - 148 - 2 * 2);

    /* returns 6 to 15, whichever counts are used */
    for (int legacy = 0; legacy < 2; legacy++) {
        len = make_new(new);
        put(new + 107, 4, legacy ? 3 : 0);
        CHECK(answers(down, new, len, 1, LAS_OK, shrunk, 0));
        for (size_t i = 5; i < 15; i++) {
            put(new + 255 + 8 * i, 8, i == 5 ? 1 : (uint64_t)1 << 63);
            CHECK(answers(down, new, len, 1, LAS_REFUSED_COUNTS_TOO_LARGE_FOR_OLD, 0, 0));
            put(new + 255 + 8 * i, 8, 0);
        }
    }
}

/* Every version with every format that it has: only 1.2 with 1 or 3 goes up, and only 1.4 with 6 or 7 goes down. */
static void test_versions(void) {
    static const uint8_t last[5] = {1, 1, 3, 5, 10};
    uint8_t file[375];
    uint64_t row[3], numbers[LAS_HEADER_NUMBERS];
    for (uint8_t minor = 0; minor < 5; minor++) {
        for (uint8_t format = 0; format <= last[minor]; format++) {
            new_header(numbers, minor, format);
            las_header_write(numbers, guid, system_identifier, software, nothing, 0, file, sizeof file, row);
            size_t len = (size_t)row[LAS_ROW_VALUE];
            bool old = minor == 2 && (format == 1 || format == 3), new = minor == 4 && (format == 6 || format == 7);
            CHECK(old ? answers(up, file, len, 0, LAS_OK, 375, 0)
                      : answers(up, file, len, 0, LAS_REFUSED_OTHER_VERSION_OR_FORMAT, 0, 0));
            CHECK(new ? answers(down, file, len, 0, LAS_OK, 227, 0)
                      : answers(down, file, len, 0, LAS_REFUSED_OTHER_VERSION_OR_FORMAT, 0, 0));
        }
    }
}

/* The refusals of a file on the way down, each before those that follow it. */
static void test_refused_down(void) {
    static uint8_t file[ROOM], old[ROOM];
    uint64_t row[3];
    fill_numbers(row, 3);
    size_t len = make_new(file), third = 302 + 148 + 2 * 38;
    const size_t shrunk = len - 148 - 3 * 2;

    /* the third point: "then the conversion's" */
    file[third + 14] = 0x18;
    CHECK(answers(down, file, len, 1, LAS_REFUSED_RETURN_NUMBER, 8, 3));
    file[third + 14] = 0x81;
    CHECK(answers(down, file, len, 1, LAS_REFUSED_NUMBER_OF_RETURNS, 8, 3));
    file[third + 14] = 0x11;
    file[third + 16] = 32;
    CHECK(answers(down, file, len, 1, LAS_REFUSED_CLASS, 32, 3));
    file[third + 15] = 0x10;
    file[third + 16] = 2;
    CHECK(answers(down, file, len, 1, LAS_REFUSED_CHANNEL, 1, 3));
    file[third + 15] = 0x08;
    CHECK(answers(down, file, len, 1, LAS_REFUSED_OVERLAP, 2, 3));
    file[third + 15] = 0;
    put(file + third + 18, 2, 15084);
    CHECK(answers(down, file, len, 1, LAS_REFUSED_ANGLE, 15084, 3));

    /* counts before it */
    put(file + 255 + 8 * 6, 8, 1);
    CHECK(answers(down, file, len, 1, LAS_REFUSED_COUNTS_TOO_LARGE_FOR_OLD, 0, 0));

    /* a waveform start before them, and EVLRs: a pair, and no half of one */
    put(file + 227, 8, 1);
    CHECK(answers(down, file, len, 1, LAS_REFUSED_EVLRS_OR_WAVEFORMS, 0, 0));
    put(file + 227, 8, (uint64_t)1 << 56);
    CHECK(answers(down, file, len, 1, LAS_REFUSED_EVLRS_OR_WAVEFORMS, 0, 0));
    file[104] = 8; /* the format before that */
    CHECK(answers(down, file, len, 1, LAS_REFUSED_OTHER_VERSION_OR_FORMAT, 0, 0));
    CHECK(answers(down, file, len, 0, LAS_REFUSED_ALLOWANCE, 0, 1)); /* the file check before all */
    CHECK(answers(down, file, len - 7, 1, LAS_REFUSED_POINT_EXTENT, 3, 0));
    CHECK(answers(down, nothing, 0, 1, LAS_REFUSED_SHORT, 4, 0));

    len = make_file(file, sizeof file); /* with an EVLR */
    CHECK(answers(down, file, len, 2, LAS_REFUSED_EVLRS_OR_WAVEFORMS, 0, 0));
    for (int half = 0; half < 2; half++) {
        len = make_new(file);
        put(half ? file + 235 : file + 243, 4, 7);
        CHECK(answers(down, file, len, 1, LAS_OK, shrunk, 0));
        las_file_to_old(file, len, 1, old, sizeof old, row);
        CHECK(told(row, LAS_OK, shrunk, 0));
        check_down(file, len, old, shrunk);
    }
}

/* The refusals of a file on the way up, and what goes up and not down again. */
static void test_refused_up(void) {
    static uint8_t file[70000], new[70000];
    uint64_t row[3], numbers[LAS_HEADER_NUMBERS];
    fill_numbers(row, 3);
    size_t len = make_old(file, 1, 0);
    CHECK(answers(up, file, len, 0, LAS_REFUSED_ALLOWANCE, 0, 1));
    CHECK(answers(up, file, len - 7, 1, LAS_REFUSED_POINT_EXTENT, 3, 0));
    CHECK(answers(up, nothing, 0, 1, LAS_REFUSED_SHORT, 4, 0));

    /* "header size .. not fitting its field": 65,387 and 148 are 65,535 */
    new_header(numbers, 2, 1);
    las_header_write(numbers, guid, system_identifier, software, nothing, 0, file, sizeof file, row);
    put(file + 94, 2, 65387);
    put(file + 96, 4, 65387);
    CHECK(answers(up, file, 65387, 0, LAS_OK, 65535, 0));
    las_file_to_new(file, 65387, 0, new, sizeof new, row);
    CHECK(told(row, LAS_OK, 65535, 0));
    check_up(file, 65387, new, 65535);
    put(file + 94, 2, 65388);
    put(file + 96, 4, 65388);
    CHECK(answers(up, file, 65388, 0, LAS_REFUSED_HEADER_SIZE, 65388, 0));

    /* a record of 65,533 bytes and 2 is 65,535; the header's size before it */
    put(file + 105, 2, 65535);
    CHECK(answers(up, file, 65388, 0, LAS_REFUSED_HEADER_SIZE, 65388, 0));
    put(file + 94, 2, 227);
    put(file + 96, 4, 227);
    CHECK(answers(up, file, 227, 0, LAS_REFUSED_RECORD_LENGTH, 65537, 0));
    put(file + 105, 2, 65534);
    CHECK(answers(up, file, 227, 0, LAS_REFUSED_RECORD_LENGTH, 65536, 0));
    put(file + 105, 2, 65533);
    put(file + 107, 4, 1);
    CHECK(answers(up, file, 227 + 65533, 0, LAS_OK, 375 + 65535, 0));

    /* class 28, and a rank that is not from -90 to 90 */
    len = make_old(file, 1, 0);
    file[302 + 28 + 15] = 28;
    las_file_to_new(file, len, 1, new, sizeof new, row);
    CHECK(told(row, LAS_OK, len + 148 + 3 * 2, 0));
    CHECK(answers(down, new, len + 148 + 3 * 2, 1, LAS_REFUSED_OVERLAP, 28, 2));
    file[302 + 28 + 15] = 2;
    file[302 + 28 + 16] = 91;
    las_file_to_new(file, len, 1, new, sizeof new, row);
    CHECK(told(row, LAS_OK, len + 148 + 3 * 2, 0));
    CHECK(answers(down, new, len + 148 + 3 * 2, 1, LAS_REFUSED_ANGLE, 15166, 2));
}

void test_migration(void) {
    test_both_ways();
    test_counts();
    test_versions();
    test_refused_down();
    test_refused_up();
}
