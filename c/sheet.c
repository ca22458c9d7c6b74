/* The site sheet: files added to it, one after the other. */
#include <string.h>

#include "check.h"

enum { POINTS = 40, ROOM = 4096 };

/* A file of version 1.4 with so many points of a format and an extra byte, its numbers from a seed; its bytes. */
static size_t make_points(uint8_t *dst, uint8_t code, size_t count, uint32_t seed) {
    uint64_t row[3], numbers[LAS_HEADER_NUMBERS], point[LAS_POINT_NUMBERS];
    las_format_new(code, row);
    uint32_t format = (uint32_t)row[LAS_ROW_VALUE] | LAS_FORMAT_EXTRA(1);
    las_format_len(format, row);
    size_t each = row[LAS_ROW_VALUE];

    new_header(numbers, 4, code);
    numbers[LAS_HEADER_RECORD_LENGTH] = each;
    numbers[LAS_HEADER_HAS_LARGE_FILE] = 1;
    numbers[LAS_HEADER_LARGE_POINTS] = count;
    numbers[LAS_HEADER_LEGACY_POINTS] = code < 6 ? count : 0;
    las_header_write(numbers, guid, system_identifier, software, nothing, 0, dst, ROOM, row);
    CHECK(told(row, LAS_OK, 375, 0));

    for (size_t i = 0; i < count; i++) {
        memset(point, 0, sizeof point);
        for (size_t k = LAS_POINT_X; k <= LAS_POINT_Z; k++) {
            seed = seed * 1664525 + 1013904223;
            point[k] = k == LAS_POINT_Z ? seed >> 8 : seed; /* X and Y of either sign, Z of one */
        }
        seed = seed * 1664525 + 1013904223;
        point[LAS_POINT_FLAGS] = code < 6 ? las_flags_two_bytes(seed >> 24, seed >> 16)
                                          : las_flags_three_bytes(seed >> 24, seed >> 16, seed >> 8);
        point[LAS_POINT_SCAN_ANGLE] = code < 6 ? 0 : 65536;
        las_point_write(point, nothing, 1, format, dst + 375 + each * i, ROOM - 375 - each * i, row);
        CHECK(told(row, LAS_OK, each, 0));
    }
    return 375 + each * count;
}

/* One number of a point, smaller or larger than the bounds so far. */
static void widen(uint64_t *min, uint64_t *max, bool first, uint64_t number) {
    if (first || (int32_t)number < (int32_t)*min) {
        *min = number;
    }
    if (first || (int32_t)number > (int32_t)*max) {
        *max = number;
    }
}

/* The sheet with a file that is accepted, by what the walker tells of each point. */
static void walk(const uint8_t *file, size_t len, uint64_t sheet[LAS_SHEET_NUMBERS]) {
    uint64_t row[3], place[LAS_PLACE_NUMBERS], point[LAS_POINT_NUMBERS];
    sheet[LAS_SHEET_FILES]++;
    las_file_walker(file, len, UINT64_MAX, place);
    for (las_file_next(file, len, place, row, point); row[LAS_ROW_NUMBER] == LAS_OK; las_file_next(file, len, place, row, point)) {
        bool first = sheet[LAS_SHEET_HAS_BOUNDS] == 0;
        uint32_t flags = (uint32_t)point[LAS_POINT_FLAGS];
        sheet[LAS_SHEET_POINTS]++;
        sheet[LAS_SHEET_HAS_BOUNDS] = 1;
        widen(&sheet[LAS_SHEET_MIN_X], &sheet[LAS_SHEET_MAX_X], first, point[LAS_POINT_X]);
        widen(&sheet[LAS_SHEET_MIN_Y], &sheet[LAS_SHEET_MAX_Y], first, point[LAS_POINT_Y]);
        widen(&sheet[LAS_SHEET_MIN_Z], &sheet[LAS_SHEET_MAX_Z], first, point[LAS_POINT_Z]);
        sheet[LAS_SHEET_CLASSES + las_flags_class(flags)]++;
        sheet[LAS_SHEET_RETURNS + las_flags_return_number(flags)]++;
    }
    CHECK(row[LAS_ROW_NUMBER] == LAS_REFUSED_INDEX);
}

/* So many numbers from a place on, together. */
static uint64_t together(const uint64_t *numbers, size_t count) {
    uint64_t sum = 0;
    for (size_t i = 0; i < count; i++) {
        sum += numbers[i];
    }
    return sum;
}

/* Whether classes and return numbers each add up to the points. */
static bool adds_up(const uint64_t sheet[LAS_SHEET_NUMBERS]) {
    return together(sheet + LAS_SHEET_CLASSES, LAS_SHEET_CLASS_NUMBERS) == sheet[LAS_SHEET_POINTS] &&
           together(sheet + LAS_SHEET_RETURNS, LAS_SHEET_RETURN_NUMBERS) == sheet[LAS_SHEET_POINTS];
}

/* A sheet on which each number in turn leaves no room for what the file adds to it, or just enough: refused, and as it was, or added. */
static void test_totals(const uint8_t *file, size_t len) {
    uint64_t row[3], alone[LAS_SHEET_NUMBERS] = {0}, sheet[LAS_SHEET_NUMBERS], before[LAS_SHEET_NUMBERS];
    walk(file, len, alone);
    for (size_t k = 0; k < LAS_SHEET_NUMBERS; k++) {
        if (k >= LAS_SHEET_HAS_BOUNDS && k < LAS_SHEET_CLASSES) {
            continue;
        }
        for (uint64_t over = 0; over <= 1; over++) {
            memset(sheet, 0, sizeof sheet);
            sheet[k] = UINT64_MAX - alone[k] + (alone[k] == 0 ? 0 : over);
            memcpy(before, sheet, sizeof sheet);
            las_sheet_add(file, len, UINT64_MAX, sheet, row);
            if (alone[k] != 0 && over == 1) {
                CHECK(told(row, LAS_REFUSED_TOTAL_TOO_LARGE, 0, 0) && memcmp(sheet, before, sizeof sheet) == 0);
            } else {
                CHECK(told(row, LAS_OK, 0, 0) && sheet[k] == UINT64_MAX);
            }
        }
    }
}

void test_sheet(void) {
    uint64_t row[3], sheet[LAS_SHEET_NUMBERS] = {0}, walked[LAS_SHEET_NUMBERS] = {0}, before[LAS_SHEET_NUMBERS], other[LAS_SHEET_NUMBERS];
    static uint8_t file[ROOM];
    fill_numbers(row, 3);

    /* a file without points counts, and has no bounds */
    size_t len = make_points(file, 0, 0, 0);
    las_sheet_add(file, len, 0, sheet, row);
    walk(file, len, walked);
    CHECK(told(row, LAS_OK, 0, 0) && sheet[LAS_SHEET_FILES] == 1 && memcmp(sheet, walked, sizeof sheet) == 0);

    /* every format, one point and many, against the walker; refused files in between leave the sheet */
    for (uint8_t code = 0; code <= 10; code++) {
        for (size_t count = 0; count <= POINTS; count = 2 * count + 1) {
            len = make_points(file, code, count, 77 * code + (uint32_t)count);
            las_sheet_add(file, len, UINT64_MAX, sheet, row);
            walk(file, len, walked);
            CHECK(told(row, LAS_OK, 0, 0) && memcmp(sheet, walked, sizeof sheet) == 0 && adds_up(sheet));
            memcpy(before, sheet, sizeof sheet);
            las_sheet_add(file, len - 1, UINT64_MAX, sheet, row);
            CHECK(row[LAS_ROW_NUMBER] == (count == 0 ? LAS_REFUSED_SHORT : LAS_REFUSED_POINT_EXTENT));
            las_sheet_add(file, 3, UINT64_MAX, sheet, row);
            CHECK(told(row, LAS_REFUSED_SHORT, 4, 0) && memcmp(sheet, before, sizeof sheet) == 0);
        }
        len = make_points(file, code, 5, code);
        test_totals(file, len);
    }

    /* the record number of the file check's refusal stays */
    len = make_file(file, sizeof file);
    las_sheet_add(file, len, 1, sheet, row);
    CHECK(told(row, LAS_REFUSED_ALLOWANCE, 1, 2) && memcmp(sheet, before, sizeof sheet) == 0);

    /* a sheet made by hand: anything but 0 says that it has bounds, of which the low 32 bits count */
    len = make_points(file, 6, 0, 0);
    memset(sheet, 0, sizeof sheet);
    sheet[LAS_SHEET_HAS_BOUNDS] = UINT64_C(1) << 63;
    sheet[LAS_SHEET_MIN_X] = UINT64_C(0x5FFFFFFFF);
    memcpy(other, sheet, sizeof sheet);
    las_sheet_add(file, len, 0, sheet, row);
    CHECK(told(row, LAS_OK, 0, 0) && sheet[LAS_SHEET_HAS_BOUNDS] == 1 && sheet[LAS_SHEET_MIN_X] == 0xFFFFFFFF);

    /* a refused file leaves even that as it was */
    las_sheet_add(file, 3, 0, other, row);
    CHECK(told(row, LAS_REFUSED_SHORT, 4, 0) && other[LAS_SHEET_MIN_X] == UINT64_C(0x5FFFFFFFF));
}
