/* Strict conversion, and upgrade: the questions and the calls that write. */
#include <string.h>

#include "check.h"

enum { RECORD = 38 }; /* format 7 and two extra bytes */

/* A run of three records of format 7. */
static void make_run(uint8_t run[3 * RECORD]) {
    uint64_t row[3], point[LAS_POINT_NUMBERS];
    memset(point, 0, sizeof point);
    point[LAS_POINT_FLAGS] = las_flags_three_bytes(0x21, 0x40, 2);
    point[LAS_POINT_HAS_TIME] = 1;
    point[LAS_POINT_HAS_COLOR] = 1;
    for (size_t i = 0; i < 3; i++) {
        const uint8_t extra[2] = {(uint8_t)i, 0xEE};
        point[LAS_POINT_X] = i;
        point[LAS_POINT_SCAN_ANGLE] = las_angle_scaled((int16_t)(249 + i));
        point[LAS_POINT_BLUE] = 1 + i;
        las_point_write(point, extra, 2, LAS_FORMAT_TIME | LAS_FORMAT_COLOR | LAS_FORMAT_EXTENDED | LAS_FORMAT_EXTRA(2),
                        run + RECORD * i, RECORD, row);
        CHECK(told(row, LAS_OK, RECORD, 0));
    }
}

/* A question, and the call that writes. */
struct way {
    void (*ask)(const uint8_t *src, size_t src_len, uint8_t format, uint16_t extra, uint64_t count, uint64_t row[3]);
    void (*write)(const uint8_t *src, size_t src_len, uint8_t format, uint16_t extra, uint64_t count, uint8_t *dst,
                  size_t dst_len, uint64_t row[3]);
};
static const struct way down = {las_convert_ask_old, las_convert_to_old}, up = {las_convert_ask_new, las_convert_to_new};

/* Whether a question of a run is answered so, and the call that writes answers the same whatever room there is, but with
 * LAS_REFUSED_NO_ROOM and the bytes needed exactly where there is less than these; what it has no business with is left. */
static bool answers(struct way way, const uint8_t *src, size_t src_len, uint8_t format, uint16_t extra, uint64_t count,
                    uint64_t number, uint64_t value, uint64_t record) {
    uint64_t row[3];
    uint8_t dst[120];
    fill_numbers(row, 3);
    way.ask(src, src_len, format, extra, count, row);
    bool same = told(row, number, value, record);
    for (size_t room = 0; room <= sizeof dst; room++) {
        bool none = number == LAS_OK && room < value;
        size_t written = number == LAS_OK && !none ? (size_t)value : 0;
        fill_bytes(dst, sizeof dst);
        way.write(src, src_len, format, extra, count, dst, room, row);
        same = same && (none ? told(row, LAS_REFUSED_NO_ROOM, value, 0) : told(row, number, value, record)) &&
               left_bytes(dst + written, sizeof dst - written);
    }
    return same;
}

/* Down, and up again. */
static void test_both_ways(void) {
    uint64_t row[3], point[LAS_POINT_NUMBERS];
    uint8_t run[3 * RECORD], old[120], new[120];
    const uint32_t format = LAS_FORMAT_TIME | LAS_FORMAT_COLOR | LAS_FORMAT_EXTRA(2);
    fill_numbers(row, 3);
    fill_bytes(old, sizeof old);
    fill_bytes(new, sizeof new);
    make_run(run);

    CHECK(answers(down, run, sizeof run, 7, 2, 3, LAS_OK, 3 * 36, 0));
    las_convert_to_old(run, sizeof run, 7, 2, 3, old, sizeof old, row);
    CHECK(told(row, LAS_OK, 3 * 36, 0) && left_bytes(old + 3 * 36, sizeof old - 3 * 36));
    for (size_t i = 0; i < 3; i++) {
        las_point_read(old + 36 * i, 36, format, row, point);
        CHECK(told(row, LAS_OK, 0, 0) && point[LAS_POINT_X] == i && point[LAS_POINT_BLUE] == 1 + i);
        CHECK(point[LAS_POINT_FLAGS] == las_flags_two_bytes(0x51, 2));
        CHECK(point[LAS_POINT_SCAN_ANGLE] == las_angle_rank(i == 0 ? 1 : 2));
        CHECK(old[36 * i + 34] == i && old[36 * i + 35] == 0xEE);
    }

    CHECK(answers(up, old, 3 * 36, 3, 2, 3, LAS_OK, 3 * RECORD, 0));
    las_convert_to_new(old, 3 * 36, 3, 2, 3, new, sizeof new, row);
    CHECK(told(row, LAS_OK, 3 * RECORD, 0) && left_bytes(new + 3 * RECORD, sizeof new - 3 * RECORD));
    uint8_t again[3 * 36];
    las_convert_to_old(new, 3 * RECORD, 7, 2, 3, again, sizeof again, row);
    CHECK(told(row, LAS_OK, 3 * 36, 0) && memcmp(again, old, 3 * 36) == 0);

    /* "P old (0x51,0x22): .. upgrade (0x21,0x41,0x02)" */
    old[14] = 0x51;
    old[15] = 0x22;
    las_convert_to_new(old, 36, 3, 2, 1, new, sizeof new, row);
    CHECK(told(row, LAS_OK, RECORD, 0) && number_at(new + 14, 3) == 0x024121);
}

/* The refusals of a run before its records, in their order. */
static void test_refused_runs(void) {
    uint8_t run[3 * RECORD];
    make_run(run);
    static const uint8_t newer[11] = {0, 6, 0, 7, 9, 10, 0, 0, 0, 0, 0}, older[11] = {0, 0, 0, 0, 0, 0, 1, 3, 3, 4, 5};
    static const uint64_t lengths[11] = {20, 28, 26, 34, 57, 63, 30, 36, 38, 59, 67};
    for (unsigned format = 0; format < 256; format++) {
        uint8_t code = (uint8_t)format;
        uint64_t overlong = format < 11 ? lengths[format] + 65535 : 0;
        bool is_new = format < 11 && older[format], is_old = format < 11 && newer[format];
        CHECK(is_new ? answers(down, run, sizeof run, code, 65535, 3, LAS_REFUSED_RECORD_LENGTH, overlong, 0)
                     : answers(down, run, sizeof run, code, 65535, 3, LAS_REFUSED_NO_PAIR, format, 0));
        CHECK(is_old ? answers(up, run, sizeof run, code, 65535, 3, LAS_REFUSED_RECORD_LENGTH, overlong, 0)
                     : answers(up, run, sizeof run, code, 65535, 3, LAS_REFUSED_NO_PAIR, format, 0));
        CHECK(is_new ? answers(down, nothing, 0, code, 2, 0, LAS_OK, 0, 0)
                     : answers(down, nothing, 0, code, 2, 0, LAS_REFUSED_NO_PAIR, format, 0));
        CHECK(is_old ? answers(up, nothing, 0, code, 2, 0, LAS_OK, 0, 0)
                     : answers(up, nothing, 0, code, 2, 0, LAS_REFUSED_NO_PAIR, format, 0));
    }
    CHECK(answers(up, run, sizeof run, 3, 65500, 3, LAS_REFUSED_RECORD_LENGTH, 65536, 0));
    CHECK(answers(down, run, sizeof run - 1, 7, 2, 3, LAS_REFUSED_SHORT, 3 * RECORD, 0));
    CHECK(answers(up, run, 3 * 36, 3, 2, 3, LAS_OK, 3 * RECORD, 0));
    CHECK(answers(up, run, 3 * 36 - 1, 3, 2, 3, LAS_REFUSED_SHORT, 3 * 36, 0));
    CHECK(answers(down, run, sizeof run, 7, 2, UINT64_MAX, LAS_REFUSED_SHORT, 0, 0));
    CHECK(answers(up, run, sizeof run, 3, 2, UINT64_MAX, LAS_REFUSED_SHORT, 0, 0));
}

/* The refusals of a record, its second: "Numbers on each side", strictly. */
static void test_refused_records(void) {
    static const struct {
        uint8_t flags[3];
        int16_t scaled;
        uint64_t number, value;
    } records[] = {
        {{0x88, 0x10, 40}, 0, LAS_REFUSED_RETURN_NUMBER, 8}, {{0x81, 0, 2}, 0, LAS_REFUSED_NUMBER_OF_RETURNS, 8},
        {{0x11, 0, 32}, 0, LAS_REFUSED_CLASS, 32},           {{0x11, 0x10, 2}, 0, LAS_REFUSED_CHANNEL, 1},
        {{0x21, 0x48, 2}, 0, LAS_REFUSED_OVERLAP, 2},        {{0x11, 0, 28}, 0, LAS_REFUSED_OVERLAP, 28},
        {{0x11, 0, 12}, 0, LAS_REFUSED_OVERLAP, 12},         {{0x11, 0, 2}, 15084, LAS_REFUSED_ANGLE, 15084},
        {{0x11, 0, 2}, -15084, LAS_REFUSED_ANGLE, 50452},    {{0x11, 0, 2}, 21249, LAS_REFUSED_ANGLE, 21249},
        {{0x11, 0, 2}, -21416, LAS_REFUSED_ANGLE, 44120},    {{0x11, 0, 2}, 21250, LAS_REFUSED_ANGLE, 21250},
        {{0x11, 0, 2}, -21417, LAS_REFUSED_ANGLE, 44119},
    };
    uint64_t row[3];
    uint8_t run[3 * RECORD], dst[120];
    fill_numbers(row, 3);
    for (size_t i = 0; i < sizeof records / sizeof records[0]; i++) {
        make_run(run);
        memcpy(run + RECORD + 14, records[i].flags, 3);
        run[RECORD + 18] = (uint8_t)((uint16_t)records[i].scaled & 255);
        run[RECORD + 19] = (uint8_t)((uint16_t)records[i].scaled >> 8);
        CHECK(answers(down, run, sizeof run, 7, 2, 3, records[i].number, records[i].value, 2));
        CHECK(answers(down, run, sizeof run, 7, 2, 1, LAS_OK, 36, 0));

        /* and so says the check of that record alone */
        uint64_t point[LAS_POINT_NUMBERS];
        las_point_read(run + RECORD, RECORD, LAS_FORMAT_TIME | LAS_FORMAT_COLOR | LAS_FORMAT_EXTENDED, row, point);
        las_strict_check(point, row);
        CHECK(told(row, records[i].number, records[i].value, 0));
    }

    /* overlap of class 12 fits, and so do the last angles */
    make_run(run);
    run[14] = 0x11;
    run[15] = 0x08;
    run[16] = 12;
    CHECK(answers(down, run, sizeof run, 7, 2, 1, LAS_OK, 36, 0));
    las_convert_to_old(run, sizeof run, 7, 2, 1, dst, sizeof dst, row);
    CHECK(told(row, LAS_OK, 36, 0) && dst[14] == 0x09 && dst[15] == 0x0C);
    uint64_t point[LAS_POINT_NUMBERS];
    las_point_default(point);
    point[LAS_POINT_FLAGS] = las_flags_three_bytes(0x11, 0x08, 12);
    static const int16_t last[2] = {15083, -15083};
    for (size_t i = 0; i < 2; i++) {
        point[LAS_POINT_SCAN_ANGLE] = las_angle_scaled(last[i]);
        las_strict_check(point, row);
        CHECK(told(row, LAS_OK, 0, 0));
    }
    point[LAS_POINT_NIR] = 7; /* missing still */
    las_strict_check(point, row);
    CHECK(told(row, LAS_OK, 0, 0));
    point[LAS_POINT_HAS_NIR] = 1;
    las_strict_check(point, row);
    CHECK(told(row, LAS_REFUSED_NIR, 7, 0));

    /* near infrared, of format 8: two bytes after the colour, of which 0 is read as it stands, and fits */
    uint8_t infrared[38] = {0};
    infrared[14] = 0x11;
    const uint32_t eight = LAS_FORMAT_TIME | LAS_FORMAT_COLOR | LAS_FORMAT_EXTENDED | LAS_FORMAT_NIR;
    las_point_read(infrared, sizeof infrared, eight, row, point);
    CHECK(told(row, LAS_OK, 0, 0) && point[LAS_POINT_HAS_NIR] == 1 && point[LAS_POINT_NIR] == 0);
    las_strict_check(point, row);
    CHECK(told(row, LAS_OK, 0, 0));
    las_convert_to_old(infrared, sizeof infrared, 8, 0, 1, dst, sizeof dst, row);
    CHECK(told(row, LAS_OK, 34, 0));
    infrared[37] = 1;
    las_convert_to_old(infrared, sizeof infrared, 8, 0, 1, dst, sizeof dst, row);
    CHECK(told(row, LAS_REFUSED_NIR, 256, 1));
    CHECK(answers(down, infrared, sizeof infrared, 8, 0, 1, LAS_REFUSED_NIR, 256, 1));
}

/* A rank is judged by the limits of scaled angles, and told as the scaled angle that it is upgraded to. */
static void test_ranks(void) {
    uint64_t row[3], point[LAS_POINT_NUMBERS];
    for (int rank = -128; rank < 128; rank++) {
        las_point_default(point);
        point[LAS_POINT_FLAGS] = las_flags_two_bytes(0x09, 0x02);
        point[LAS_POINT_SCAN_ANGLE] = las_angle_rank((int8_t)rank);
        uint64_t scaled = (uint16_t)(500 * rank / 3);
        bool fits = -90 <= rank && rank <= 90;
        for (int upgraded = 0; upgraded < 2; upgraded++) {
            las_strict_check(point, row);
            CHECK(fits ? told(row, LAS_OK, 0, 0) : told(row, LAS_REFUSED_ANGLE, scaled, 0));
            las_strict_upgraded(point);
        }
        CHECK(point[LAS_POINT_SCAN_ANGLE] == las_angle_scaled((int16_t)(500 * rank / 3)));
    }
}

/* The upgrade of one point. */
static void test_upgraded(void) {
    uint64_t point[LAS_POINT_NUMBERS], new[LAS_POINT_NUMBERS];
    las_point_default(point);
    point[LAS_POINT_X] = 5;
    point[LAS_POINT_FLAGS] = las_flags_two_bytes(0x51, 0x22);
    point[LAS_POINT_SCAN_ANGLE] = las_angle_rank(3);
    memcpy(new, point, sizeof new);
    las_strict_upgraded(new);
    point[LAS_POINT_FLAGS] = las_flags_three_bytes(0x21, 0x41, 0x02);
    point[LAS_POINT_SCAN_ANGLE] = las_angle_scaled(500);
    CHECK(memcmp(new, point, sizeof new) == 0);
    las_strict_upgraded(new);
    CHECK(memcmp(new, point, sizeof new) == 0);
    new[LAS_POINT_FLAGS] = las_flags_two_bytes(0x09, 12);
    las_strict_upgraded(new);
    CHECK(new[LAS_POINT_FLAGS] == las_flags_three_bytes(0x11, 0x08, 12));

    /* it has no near infrared, and in format 10 that is 0 */
    uint64_t row[3];
    uint8_t old[63] = {0}, record[67];
    new[LAS_POINT_FLAGS] = las_flags_two_bytes(0x09, 2);
    new[LAS_POINT_HAS_NIR] = 1;
    las_strict_upgraded(new);
    CHECK(new[LAS_POINT_HAS_NIR] == 0 && new[LAS_POINT_NIR] == 0);
    fill_numbers(row, 3);
    fill_bytes(record, sizeof record);
    las_convert_to_new(old, sizeof old, 5, 0, 1, record, sizeof record, row);
    CHECK(told(row, LAS_OK, 67, 0) && number_at(record + 36, 2) == 0);
    const uint32_t ten = LAS_FORMAT_TIME | LAS_FORMAT_COLOR | LAS_FORMAT_EXTENDED | LAS_FORMAT_WAVEFORM | LAS_FORMAT_NIR;
    las_point_read(record, sizeof record, ten, row, new);
    CHECK(told(row, LAS_OK, 0, 0) && new[LAS_POINT_HAS_NIR] == 1 && new[LAS_POINT_NIR] == 0);
}

void test_conversion(void) {
    test_upgraded();
    test_ranks();
    test_both_ways();
    test_refused_runs();
    test_refused_records();
}
