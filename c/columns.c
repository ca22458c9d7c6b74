/* Columns: one field of many points. */
#include <math.h>
#include <string.h>

#include "check.h"

enum { POINTS = 3, ROOM = 6 };

/* The columns, each with the number of a point that it shows. */
enum { X, Y, Z, TIME, TIME_BITS, RED, GREEN, BLUE, NIR, COLUMNS };
static const size_t shows[COLUMNS] = {LAS_POINT_X,   LAS_POINT_Y,     LAS_POINT_Z,    LAS_POINT_TIME, LAS_POINT_TIME,
                                      LAS_POINT_RED, LAS_POINT_GREEN, LAS_POINT_BLUE, LAS_POINT_NIR};

/* Whether a format has the field. */
static bool has(uint32_t format, int column) {
    return column < TIME  ? true
           : column < RED ? (format & LAS_FORMAT_TIME) != 0
           : column < NIR ? (format & LAS_FORMAT_COLOR) != 0
                          : (format & LAS_FORMAT_NIR) != 0;
}

/* A file of version 1.4 with POINTS points of a format and two extra bytes, every number of every point another; its bytes. */
static size_t make_points(uint8_t *dst, size_t dst_len, uint8_t code, uint32_t *format) {
    uint64_t row[3], numbers[LAS_HEADER_NUMBERS], point[LAS_POINT_NUMBERS];
    las_format_new(code, row);
    *format = (uint32_t)row[LAS_ROW_VALUE] | LAS_FORMAT_EXTRA(2);
    las_format_len(*format, row);
    size_t each = row[LAS_ROW_VALUE];

    memset(dst, 0xB0, dst_len);
    new_header(numbers, 4, code);
    numbers[LAS_HEADER_RECORD_LENGTH] = each;
    numbers[LAS_HEADER_HAS_LARGE_FILE] = 1;
    numbers[LAS_HEADER_LARGE_POINTS] = POINTS;
    las_header_write(numbers, guid, system_identifier, software, nothing, 0, dst, dst_len, row);
    CHECK(told(row, LAS_OK, 375, 0));

    for (size_t i = 0; i < POINTS; i++) {
        const uint8_t extra[2] = {0xE0, 0xE1};
        memset(point, 0, sizeof point);
        for (int column = 0; column < COLUMNS; column++) {
            point[shows[column]] = 1000 * (uint64_t)column + i;
        }
        point[LAS_POINT_X] = (uint32_t)(-5 - (int32_t)i);
        point[LAS_POINT_TIME] = double_bits(0.25 + (double)i);
        point[LAS_POINT_NIR] = i; /* a near infrared of 0 is one too */
        point[LAS_POINT_FLAGS] = code < 6 ? las_flags_two_bytes(0, 0) : las_flags_three_bytes(0, 0, 0);
        point[LAS_POINT_HAS_TIME] = has(*format, TIME);
        point[LAS_POINT_HAS_COLOR] = has(*format, RED);
        point[LAS_POINT_HAS_NIR] = has(*format, NIR);
        point[LAS_POINT_HAS_WAVEFORM] = (*format & LAS_FORMAT_WAVEFORM) != 0;
        las_point_write(point, extra, 2, *format, dst + 375 + each * i, dst_len - 375 - each * i, row);
        CHECK(told(row, LAS_OK, each, 0));
    }
    return 375 + each * POINTS;
}

/* What a column answers that is lent room entries, and every entry that it leaves, as its number in a point. */
static void ask(int column, const uint8_t *file, size_t len, uint64_t allowance, uint64_t first, uint64_t count, size_t room,
                uint64_t left[ROOM], uint64_t row[3]) {
    int32_t whole[ROOM];
    double time[ROOM];
    uint64_t bits[ROOM];
    uint16_t colour[ROOM];
    fill_bytes((uint8_t *)whole, sizeof whole);
    fill_bytes((uint8_t *)time, sizeof time);
    fill_bytes((uint8_t *)bits, sizeof bits);
    fill_bytes((uint8_t *)colour, sizeof colour);
    switch (column) {
    case X: las_column_x(file, len, allowance, first, count, whole, room, row); break;
    case Y: las_column_y(file, len, allowance, first, count, whole, room, row); break;
    case Z: las_column_z(file, len, allowance, first, count, whole, room, row); break;
    case TIME: las_column_time(file, len, allowance, first, count, time, room, row); break;
    case TIME_BITS: las_column_time_bits(file, len, allowance, first, count, bits, room, row); break;
    case RED: las_column_red(file, len, allowance, first, count, colour, room, row); break;
    case GREEN: las_column_green(file, len, allowance, first, count, colour, room, row); break;
    case BLUE: las_column_blue(file, len, allowance, first, count, colour, room, row); break;
    case NIR: las_column_nir(file, len, allowance, first, count, colour, room, row); break;
    }
    for (size_t i = 0; i < ROOM; i++) {
        left[i] = column < TIME         ? (uint32_t)whole[i]
                  : column == TIME      ? double_bits(time[i])
                  : column == TIME_BITS ? bits[i]
                                        : colour[i];
    }
}

/* Whether the entries from one on are as they were lent. */
static bool stay(int column, const uint64_t left[ROOM], size_t from) {
    const uint64_t lent = column < TIME ? 0xA5A5A5A5u : column < RED ? UINT64_C(0xA5A5A5A5A5A5A5A5) : 0xA5A5u;
    for (size_t i = from; i < ROOM; i++) {
        if (left[i] != lent) {
            return false;
        }
    }
    return true;
}

/* Every stretch around the points, with more and less room, against what the walker tells of each point. */
static void test_stretches(const uint8_t *file, size_t len, uint32_t format, int column) {
    uint64_t row[3], left[ROOM], place[LAS_PLACE_NUMBERS], points[POINTS][LAS_POINT_NUMBERS];
    las_file_walker(file, len, UINT64_MAX, place);
    for (size_t i = 0; i < POINTS; i++) {
        las_file_next(file, len, place, row, points[i]);
        CHECK(told(row, LAS_OK, 0, 0));
    }
    const uint64_t far[] = {0, 1, 2, 3, 4, 5, UINT64_MAX - 1, UINT64_MAX};
    for (size_t f = 0; f < sizeof far / sizeof *far; f++) {
        for (size_t n = 0; n < sizeof far / sizeof *far; n++) {
            for (size_t room = 0; room <= ROOM; room++) {
                uint64_t first = far[f], count = far[n];
                ask(column, file, len, UINT64_MAX, first, count, room, left, row);
                if (!has(format, column)) {
                    CHECK(told(row, LAS_REFUSED_FIELD_LACKING, 0, 0) && stay(column, left, 0));
                } else if (first < 1 || first > POINTS + 1 || count > POINTS + 1 - first) {
                    CHECK(told(row, LAS_REFUSED_INDEX, POINTS, 0) && stay(column, left, 0));
                } else if (room < count) {
                    CHECK(told(row, LAS_REFUSED_NO_ROOM, count, 0) && stay(column, left, 0));
                } else {
                    CHECK(told(row, LAS_OK, count, 0) && stay(column, left, count));
                    for (size_t i = 0; i < count; i++) {
                        CHECK(left[i] == points[first - 1 + i][shows[column]]);
                    }
                }
            }
        }
    }
}

/* All three at once leave what each by itself leaves, and are refused where one of them is. */
static void test_at_once(const uint8_t *file, size_t len) {
    uint64_t row[3];
    for (uint64_t first = 0; first <= POINTS + 2; first++) {
        for (uint64_t count = 0; count <= POINTS + 1; count++) {
            for (size_t short_one = 0; short_one < 4; short_one++) {
                int32_t left[3][ROOM], alone[3][ROOM];
                uint64_t answers[3][3];
                size_t rooms[3] = {ROOM, ROOM, ROOM};
                fill_bytes((uint8_t *)left, sizeof left);
                fill_bytes((uint8_t *)alone, sizeof alone);
                if (short_one < 3) {
                    rooms[short_one] = POINTS - 1;
                }
                las_column_x(file, len, UINT64_MAX, first, count, alone[0], rooms[0], answers[0]);
                las_column_y(file, len, UINT64_MAX, first, count, alone[1], rooms[1], answers[1]);
                las_column_z(file, len, UINT64_MAX, first, count, alone[2], rooms[2], answers[2]);
                const uint64_t *said = answers[short_one < 3 ? short_one : 0];
                las_columns_xyz(file, len, UINT64_MAX, first, count, left[0], rooms[0], left[1], rooms[1], left[2], rooms[2],
                                row);
                CHECK(told(row, said[LAS_ROW_NUMBER], said[LAS_ROW_VALUE], said[LAS_ROW_RECORD]));
                CHECK(said[LAS_ROW_NUMBER] == LAS_OK ? memcmp(left, alone, sizeof left) == 0
                                                     : left_bytes((uint8_t *)left, sizeof left));
            }
        }
    }
}

void test_columns(void) {
    uint64_t row[3], left[ROOM], numbers[LAS_HEADER_NUMBERS], bits;
    static uint8_t file[700];
    fill_numbers(row, 3);

    for (uint8_t code = 0; code <= 10; code++) {
        uint32_t format;
        size_t len = make_points(file, sizeof file, code, &format);
        test_at_once(file, len);
        for (int column = 0; column < COLUMNS; column++) {
            test_stretches(file, len, format, column);
            /* the file check's refusals come first, whatever is asked for */
            ask(column, file, len - 1, 0, 0, 0, ROOM, left, row);
            CHECK(told(row, LAS_REFUSED_POINT_EXTENT, POINTS, 0) && stay(column, left, 0));
            ask(column, file, 3, 0, 1, 1, 0, left, row);
            CHECK(told(row, LAS_REFUSED_SHORT, 4, 0) && stay(column, left, 0));
        }
    }

    /* a NaN's pattern is kept by the bits, and shown as a NaN by the other; format 1 has the time at byte 20 of 30 */
    uint32_t format;
    size_t len = make_points(file, sizeof file, 1, &format);
    bits = UINT64_C(0x7FF0DEADBEEF0001);
    memcpy(file + 375 + 30 + 20, &bits, sizeof bits);
    ask(TIME_BITS, file, len, UINT64_MAX, 2, 1, 1, left, row);
    CHECK(told(row, LAS_OK, 1, 0) && left[0] == bits);
    double time[1];
    las_column_time(file, len, UINT64_MAX, 2, 1, time, 1, row);
    CHECK(told(row, LAS_OK, 1, 0) && isnan(time[0]));

    /* VLRs, gaps and EVLRs around the points; the record number of the file check's refusal stays */
    len = make_file(file, sizeof file);
    ask(TIME, file, len, 1, 1, 1, ROOM, left, row);
    CHECK(told(row, LAS_REFUSED_ALLOWANCE, 1, 2) && stay(TIME, left, 0));
    ask(TIME, file, len, 2, 2, 2, ROOM, left, row);
    CHECK(told(row, LAS_OK, 2, 0) && left[0] == double_bits(1.5) && left[1] == double_bits(2.5) && stay(TIME, left, 2));

    /* without points an empty stretch begins at 1, and what the format lacks is told all the same */
    new_header(numbers, 4, 0);
    las_header_write(numbers, guid, system_identifier, software, nothing, 0, file, sizeof file, row);
    CHECK(told(row, LAS_OK, 375, 0));
    ask(Z, file, 375, 0, 1, 0, 0, left, row);
    CHECK(told(row, LAS_OK, 0, 0) && stay(Z, left, 0));
    ask(Z, file, 375, 0, 2, 0, 0, left, row);
    CHECK(told(row, LAS_REFUSED_INDEX, 0, 0) && stay(Z, left, 0));
    ask(TIME, file, 375, 0, 2, 0, 0, left, row);
    CHECK(told(row, LAS_REFUSED_FIELD_LACKING, 0, 0) && stay(TIME, left, 0));
}
