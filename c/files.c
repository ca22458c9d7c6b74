/* Whole files: the check, the parts, the walker, rewriting. */
#include <string.h>

#include "check.h"

/* Document 01's example: version 1.2, one VLR with 4 data bytes, point offset 287, format 0, two points, 327 bytes. */
static void make_example(uint8_t file[327]) {
    static const uint8_t data[4] = {1, 2, 3, 4}, text[32];
    const uint64_t vlr[LAS_VLR_NUMBERS] = {0, 7, 4};
    uint64_t row[3], numbers[LAS_HEADER_NUMBERS], point[LAS_POINT_NUMBERS];
    memset(file, 0xB0, 327);
    new_header(numbers, 2, 0);
    numbers[LAS_HEADER_NUMBER_OF_VLRS] = 1;
    numbers[LAS_HEADER_POINT_OFFSET] = 287;
    numbers[LAS_HEADER_LEGACY_POINTS] = 2;
    las_header_write(numbers, guid, system_identifier, software, nothing, 0, file, 327, row);
    las_vlr_write(false, vlr, text, text, data, 4, file + 227, 327 - 227, row);
    memset(point, 0, sizeof point);
    for (size_t i = 0; i < 2; i++) {
        point[LAS_POINT_X] = 10 + i;
        point[LAS_POINT_FLAGS] = las_flags_two_bytes(0x09, 2);
        las_point_write(point, nothing, 0, las_format_default(), file + 287 + 20 * i, 40 - 20 * i, row);
    }
}

size_t make_file(uint8_t *dst, size_t dst_len) {
    static const uint8_t data[5] = "12345", text[32] = "c/test", padding[3];
    const uint64_t vlr[LAS_VLR_NUMBERS] = {0, 1, 5};
    uint64_t row[3], numbers[LAS_HEADER_NUMBERS], point[LAS_POINT_NUMBERS];
    const uint32_t format = LAS_FORMAT_TIME | LAS_FORMAT_COLOR | LAS_FORMAT_EXTENDED | LAS_FORMAT_EXTRA(2);
    memset(dst, 0xB0, dst_len);

    new_header(numbers, 4, 7);
    numbers[LAS_HEADER_SIZE] = 378;
    numbers[LAS_HEADER_NUMBER_OF_VLRS] = 1;
    numbers[LAS_HEADER_POINT_OFFSET] = 440; /* 378, a VLR of 59 and a gap of 3 */
    numbers[LAS_HEADER_RECORD_LENGTH] = 38;
    numbers[LAS_HEADER_HAS_EVLRS] = 1;
    numbers[LAS_HEADER_EVLR_START] = 559; /* 440, three points of 38 and a gap of 5 */
    numbers[LAS_HEADER_NUMBER_OF_EVLRS] = 1;
    numbers[LAS_HEADER_HAS_LARGE_FILE] = 1;
    numbers[LAS_HEADER_LARGE_POINTS] = 3;
    las_header_write(numbers, guid, system_identifier, software, padding, 3, dst, dst_len, row);
    CHECK(told(row, LAS_OK, 378, 0));
    las_vlr_write(false, vlr, text, text, data, 5, dst + 378, dst_len - 378, row);
    CHECK(told(row, LAS_OK, 59, 0));

    memset(point, 0, sizeof point);
    point[LAS_POINT_FLAGS] = las_flags_three_bytes(0x11, 0, 2);
    point[LAS_POINT_HAS_TIME] = 1;
    point[LAS_POINT_HAS_COLOR] = 1;
    for (size_t i = 0; i < 3; i++) {
        const uint8_t extra[2] = {(uint8_t)i, 0xEE};
        point[LAS_POINT_X] = 1000 + i;
        point[LAS_POINT_Y] = (uint32_t)(-1 - (int32_t)i);
        point[LAS_POINT_TIME] = double_bits(0.5 + (double)i);
        point[LAS_POINT_RED] = 256 * i;
        las_point_write(point, extra, 2, format, dst + 440 + 38 * i, dst_len - 440 - 38 * i, row);
        CHECK(told(row, LAS_OK, 38, 0));
    }
    las_vlr_write(true, vlr, text, text, data, 5, dst + 559, dst_len - 559, row);
    CHECK(told(row, LAS_OK, 65, 0));
    return 631; /* 559, an EVLR of 65 and a gap of 7 */
}

/* A 1.3 file with a VLR, a point of format 1, and the waveform packets in it, with gaps around them. */
static size_t make_waveforms(uint8_t *dst, size_t dst_len) {
    static const uint8_t data[8] = "packets", text[32] = "LASF_Spec";
    const uint64_t vlr[LAS_VLR_NUMBERS] = {0, 100, 5}, packets[LAS_VLR_NUMBERS] = {0, 65535, 8};
    uint64_t row[3], numbers[LAS_HEADER_NUMBERS], point[LAS_POINT_NUMBERS];
    memset(dst, 0xB0, dst_len);

    new_header(numbers, 3, 1);
    numbers[LAS_HEADER_GLOBAL_ENCODING] = 2; /* waveforms inside the file */
    numbers[LAS_HEADER_NUMBER_OF_VLRS] = 1;
    numbers[LAS_HEADER_POINT_OFFSET] = 294; /* 235 and a VLR of 59 */
    numbers[LAS_HEADER_LEGACY_POINTS] = 1;
    numbers[LAS_HEADER_HAS_WAVEFORM_START] = 1;
    numbers[LAS_HEADER_WAVEFORM_START] = 326; /* 294, a point of 28 and a gap of 4 */
    las_header_write(numbers, guid, system_identifier, software, nothing, 0, dst, dst_len, row);
    CHECK(told(row, LAS_OK, 235, 0));
    las_vlr_write(false, vlr, text, text, data, 5, dst + 235, dst_len - 235, row);
    memset(point, 0, sizeof point);
    las_point_write(point, nothing, 0, LAS_FORMAT_TIME, dst + 294, dst_len - 294, row);
    CHECK(told(row, LAS_OK, 28, 0));
    las_vlr_write(true, packets, text, text, data, 8, dst + 326, dst_len - 326, row);
    CHECK(told(row, LAS_OK, 68, 0));
    return 397; /* 326, a record of 68 and a gap of 3 */
}

/* Whether the row of a file check has these numbers; it is then filled. */
static bool judged(uint64_t row[4], uint64_t number, uint64_t value, uint64_t record, uint64_t whole) {
    bool same = row[LAS_ROW_WHOLE] == whole;
    row[LAS_ROW_WHOLE] = UINT64_MAX;
    return told(row, number, value, record) && same;
}

/* A part of a table. */
static bool entry(const uint64_t *table, size_t i, uint64_t kind, uint64_t start, uint64_t length) {
    const uint64_t *part = table + LAS_ENTRY_NUMBERS * i;
    return part[LAS_ENTRY_KIND] == kind && part[LAS_ENTRY_START] == start && part[LAS_ENTRY_LENGTH] == length;
}

/* Document 01's files, accepted and refused. */
static void test_file_check(void) {
    uint64_t row[4], numbers[LAS_HEADER_NUMBERS];
    uint8_t file[327];
    fill_numbers(row, 4);

    las_file_check(nothing, 0, UINT64_MAX, row);
    CHECK(judged(row, LAS_REFUSED_SHORT, 4, 0, 0));

    /* "A 1.2 file of 227 bytes, point offset 227, no points, is accepted. Format 0, one point: 247 accepted, 246 gives 12." */
    new_header(numbers, 2, 0);
    memset(file, 0, sizeof file);
    las_header_write(numbers, guid, system_identifier, software, nothing, 0, file, sizeof file, row);
    las_file_check(file, 227, 0, row);
    CHECK(judged(row, LAS_OK, 0, 0, 0));
    file[107] = 1;
    las_file_check(file, 247, 0, row);
    CHECK(judged(row, LAS_OK, 0, 0, 0));
    las_file_check(file, 246, 0, row);
    CHECK(judged(row, LAS_REFUSED_POINT_EXTENT, 1, 0, 0));

    /* each rule broken by one byte of the example, which is put back */
    static const struct {
        size_t at;
        uint8_t byte;
        uint64_t number, value, record;
    } broken[] = {
        {0, 'X', LAS_REFUSED_SIGNATURE, 0x46534158, 0},
        {25, 9, LAS_REFUSED_VERSION, 256 + 9, 0},
        {94, 226, LAS_REFUSED_HEADER_SIZE, 226, 0},
        {104, 11, LAS_REFUSED_FORMAT, 11, 0},
        {104, 128, LAS_REFUSED_COMPRESSED, 128, 0},
        {104, 4, LAS_REFUSED_FORMAT_FOR_VERSION, 4, 0},
        {105, 19, LAS_REFUSED_RECORD_LENGTH, 19, 0},
        {97, 0, LAS_REFUSED_POINT_OFFSET, 31, 0},
        {247, 9, LAS_REFUSED_VLR_EXTENT, 9, 1},
        {107, 3, LAS_REFUSED_POINT_EXTENT, 3, 0},
    };
    make_example(file);
    las_file_check(file, sizeof file, 1, row);
    CHECK(judged(row, LAS_OK, 0, 0, 1));
    las_file_check(file, sizeof file, 0, row);
    CHECK(judged(row, LAS_REFUSED_ALLOWANCE, 0, 1, 0));
    for (size_t i = 0; i < sizeof broken / sizeof broken[0]; i++) {
        uint8_t was = file[broken[i].at];
        file[broken[i].at] = broken[i].byte;
        las_file_check(file, sizeof file, 1, row);
        uint64_t whole = broken[i].number == LAS_REFUSED_POINT_EXTENT;
        CHECK(judged(row, broken[i].number, broken[i].value, broken[i].record, whole));
        file[broken[i].at] = was;
    }

    /* and EVLRs: a start before the end of the points, and a record that ends past the file */
    static uint8_t large[700];
    size_t len = make_file(large, sizeof large);
    las_file_check(large, len, UINT64_MAX, row);
    CHECK(judged(row, LAS_OK, 0, 0, 2));
    las_file_check(large, 623, UINT64_MAX, row);
    CHECK(judged(row, LAS_REFUSED_EVLR_EXTENT, 5, 2, 1));
    las_file_check(large, 600, UINT64_MAX, row);
    CHECK(judged(row, LAS_REFUSED_EVLR_EXTENT, 0, 2, 1));
    large[236] = 0;
    las_file_check(large, len, UINT64_MAX, row);
    CHECK(judged(row, LAS_REFUSED_EVLR_START, 559 % 256, 0, 1));
}

static void test_file_parts(void) {
    uint64_t row[3], table[8 * LAS_ENTRY_NUMBERS];
    uint8_t file[327];
    fill_numbers(row, 3);
    fill_numbers(table, 8 * LAS_ENTRY_NUMBERS);
    make_example(file);

    /* what the parts program prints */
    las_file_parts(file, sizeof file, 1300, table, 8 * LAS_ENTRY_NUMBERS, row);
    CHECK(told(row, LAS_OK, 4, 0));
    CHECK(entry(table, 0, LAS_PART_HEADER, 0, 227) && entry(table, 1, LAS_PART_VLR, 227, 58));
    CHECK(entry(table, 2, LAS_PART_GAP, 285, 2) && entry(table, 3, LAS_PART_POINTS, 287, 40));
    CHECK(left_numbers(table + 4 * LAS_ENTRY_NUMBERS, 4 * LAS_ENTRY_NUMBERS));

    /* the file check first, then one number too few for the entries wanted */
    fill_numbers(table, 8 * LAS_ENTRY_NUMBERS);
    las_file_parts(file, 326, 1300, table, 11, row);
    CHECK(told(row, LAS_REFUSED_POINT_EXTENT, 2, 0));
    las_file_parts(file, sizeof file, 0, table, 11, row);
    CHECK(told(row, LAS_REFUSED_ALLOWANCE, 0, 1));
    las_file_parts(file, sizeof file, 1300, table, 11, row);
    CHECK(told(row, LAS_REFUSED_NO_ROOM, 4, 0));
    las_file_parts(file, sizeof file, 1300, table, 0, row);
    CHECK(told(row, LAS_REFUSED_NO_ROOM, 4, 0) && left_numbers(table, 8 * LAS_ENTRY_NUMBERS));

    /* a file with every kind of part */
    static uint8_t large[700];
    size_t len = make_file(large, sizeof large);
    las_file_parts(large, len, 2, table, 8 * LAS_ENTRY_NUMBERS, row);
    CHECK(told(row, LAS_OK, 7, 0));
    CHECK(entry(table, 0, LAS_PART_HEADER, 0, 378) && entry(table, 1, LAS_PART_VLR, 378, 59));
    CHECK(entry(table, 2, LAS_PART_GAP, 437, 3) && entry(table, 3, LAS_PART_POINTS, 440, 114));
    CHECK(entry(table, 4, LAS_PART_GAP, 554, 5) && entry(table, 5, LAS_PART_EVLR, 559, 65));
    CHECK(entry(table, 6, LAS_PART_GAP, 624, 7));
}

/* The cursor tells what the table has, and at the end no more. */
static void test_cursor(void) {
    uint64_t row[3], table[8 * LAS_ENTRY_NUMBERS], cursor[LAS_CURSOR_NUMBERS], kept[LAS_CURSOR_NUMBERS];
    static uint8_t file[700];
    size_t len = make_file(file, sizeof file);
    fill_numbers(row, 3);
    fill_numbers(cursor, LAS_CURSOR_NUMBERS);

    las_cursor_start(file, len, 1, cursor, row);
    CHECK(told(row, LAS_REFUSED_ALLOWANCE, 1, 2) && left_numbers(cursor, LAS_CURSOR_NUMBERS));
    las_file_parts(file, len, 2, table, 8 * LAS_ENTRY_NUMBERS, row);
    las_cursor_start(file, len, 2, cursor, row);
    CHECK(told(row, LAS_OK, 0, 0));
    CHECK(cursor[LAS_CURSOR_STAGE] == 0 && cursor[LAS_CURSOR_AT] == 0 && cursor[LAS_CURSOR_LEFT] == 0);
    CHECK(cursor[LAS_CURSOR_HEADER_SIZE] == 378 && cursor[LAS_CURSOR_NUMBER_OF_VLRS] == 1);
    CHECK(cursor[LAS_CURSOR_POINT_OFFSET] == 440 && cursor[LAS_CURSOR_END_OF_POINTS] == 554);
    CHECK(cursor[LAS_CURSOR_LATER_START] == 559 && cursor[LAS_CURSOR_NUMBER_OF_LATER] == 1);
    CHECK(cursor[LAS_CURSOR_IS_WAVEFORM] == 0);
    uint64_t part[LAS_ENTRY_NUMBERS];
    for (size_t i = 0; i < 7; i++) {
        fill_numbers(part, LAS_ENTRY_NUMBERS);
        CHECK(las_cursor_next(file, len, cursor, part));
        CHECK(memcmp(part, table + LAS_ENTRY_NUMBERS * i, sizeof part) == 0);
    }
    memcpy(kept, cursor, sizeof cursor);
    fill_numbers(part, LAS_ENTRY_NUMBERS);
    for (int again = 0; again < 2; again++) {
        CHECK(!las_cursor_next(file, len, cursor, part));
        CHECK(memcmp(cursor, kept, sizeof cursor) == 0 && left_numbers(part, LAS_ENTRY_NUMBERS));
    }

    /* a cursor made by hand, at a record that is not all there: it ends, and stays as it is */
    fill_numbers(cursor, LAS_CURSOR_NUMBERS);
    CHECK(!las_cursor_next(file, len, cursor, part));
    CHECK(left_numbers(cursor, LAS_CURSOR_NUMBERS) && left_numbers(part, LAS_ENTRY_NUMBERS));
}

static void test_file_walker(void) {
    uint64_t row[3], span[2], place[LAS_PLACE_NUMBERS], kept[LAS_PLACE_NUMBERS], point[LAS_POINT_NUMBERS];
    static uint8_t file[700];
    size_t len = make_file(file, sizeof file);
    fill_numbers(row, 3);
    fill_numbers(place, LAS_PLACE_NUMBERS);

    las_file_walker(file, len, UINT64_MAX, place);
    CHECK(place[LAS_PLACE_FORMAT] == (LAS_FORMAT_TIME | LAS_FORMAT_COLOR | LAS_FORMAT_EXTENDED | LAS_FORMAT_EXTRA(2)));
    CHECK(place[LAS_PLACE_AT] == 440 && place[LAS_PLACE_LEFT] == 3 && place[LAS_PLACE_COUNT] == 3);
    CHECK(place[LAS_PLACE_REFUSED] == LAS_OK && place[LAS_PLACE_VALUE] == 0 && place[LAS_PLACE_RECORD] == 0);
    for (size_t i = 0; i < 3; i++) {
        /* the record, and in it the extra bytes, before the walker moves on */
        las_file_record(file, len, place, span);
        const uint8_t *record = file + span[LAS_SPAN_START];
        CHECK(spans(span, 440 + 38 * i, 38));
        las_point_extra(record, 38, (uint32_t)place[LAS_PLACE_FORMAT], span);
        CHECK(record[span[LAS_SPAN_START]] == i && record[span[LAS_SPAN_START] + 1] == 0xEE && spans(span, 36, 2));
        las_file_next(file, len, place, row, point);
        CHECK(told(row, LAS_OK, 0, 0) && point[LAS_POINT_X] == 1000 + i && (int32_t)point[LAS_POINT_Y] == -1 - (int32_t)i);
        CHECK(point[LAS_POINT_TIME] == double_bits(0.5 + (double)i) && point[LAS_POINT_RED] == 256 * i);
        CHECK(place[LAS_PLACE_AT] == 440 + 38 * (i + 1) && place[LAS_PLACE_LEFT] == 2 - i);
    }
    memcpy(kept, place, sizeof place);
    fill_numbers(point, LAS_POINT_NUMBERS);
    for (int again = 0; again < 2; again++) {
        las_file_next(file, len, place, row, point);
        CHECK(told(row, LAS_REFUSED_INDEX, 3, 0) && memcmp(place, kept, sizeof place) == 0);
        las_file_record(file, len, place, span);
        CHECK(spans(span, 0, 0));
    }

    /* a place made by hand, outside the file and overlong, stays too, with what means nothing in it */
    las_file_walker(file, len, UINT64_MAX, place);
    place[LAS_PLACE_AT] = UINT64_MAX;
    las_file_record(file, len, place, span);
    CHECK(spans(span, 0, 0));
    las_file_next(file, len, place, row, point);
    CHECK(told(row, LAS_REFUSED_INDEX, 3, 0) && place[LAS_PLACE_AT] == UINT64_MAX);
    place[LAS_PLACE_AT] = 0;
    place[LAS_PLACE_FORMAT] = LAS_FORMAT_EXTRA(65535) | 0xFFC0;
    memcpy(kept, place, sizeof place);
    las_file_next(file, len, place, row, point);
    CHECK(told(row, LAS_REFUSED_INDEX, 3, 0) && memcmp(place, kept, sizeof place) == 0);

    /* a refused file's walker repeats the refusal and stays */
    las_file_walker(file, len, 1, place);
    CHECK(place[LAS_PLACE_REFUSED] == LAS_REFUSED_ALLOWANCE && place[LAS_PLACE_VALUE] == 1 && place[LAS_PLACE_RECORD] == 2);
    memcpy(kept, place, sizeof place);
    for (int again = 0; again < 2; again++) {
        las_file_next(file, len, place, row, point);
        CHECK(told(row, LAS_REFUSED_ALLOWANCE, 1, 2) && memcmp(place, kept, sizeof place) == 0);
        las_file_record(file, len, place, span);
        CHECK(spans(span, 0, 0));
    }
    CHECK(left_numbers(point, LAS_POINT_NUMBERS));
}

/* Near infrared of a file's points: 0 as it stands, by the walker, and the same bytes rewritten; missing where the same records
 * are of a format without it. */
static void test_near_infrared_of_points(void) {
    static const uint16_t infrared[3] = {0, 1, 65535};
    uint64_t row[3], place[LAS_PLACE_NUMBERS], numbers[LAS_HEADER_NUMBERS], point[LAS_POINT_NUMBERS];
    uint8_t file[375 + 3 * 38] = {0}, dst[sizeof file];
    fill_numbers(row, 3);
    new_header(numbers, 4, 8);
    numbers[LAS_HEADER_LEGACY_POINTS] = 3;
    las_header_write(numbers, guid, system_identifier, software, nothing, 0, file, sizeof file, row);
    CHECK(told(row, LAS_OK, 375, 0));
    for (size_t i = 0; i < 3; i++) {
        file[375 + 38 * i + 36] = (uint8_t)(infrared[i] & 255);
        file[375 + 38 * i + 37] = (uint8_t)(infrared[i] >> 8);
    }

    las_file_walker(file, sizeof file, 0, place);
    for (size_t i = 0; i < 3; i++) {
        las_file_next(file, sizeof file, place, row, point);
        CHECK(told(row, LAS_OK, 0, 0) && point[LAS_POINT_HAS_NIR] == 1 && point[LAS_POINT_NIR] == infrared[i]);
    }
    las_file_rewrite(file, sizeof file, 0, dst, sizeof dst, row);
    CHECK(told(row, LAS_OK, sizeof file, 0) && memcmp(dst, file, sizeof file) == 0);

    file[104] = 7; /* with two extra bytes */
    las_file_walker(file, sizeof file, 0, place);
    for (size_t i = 0; i < 3; i++) {
        las_file_next(file, sizeof file, place, row, point);
        CHECK(told(row, LAS_OK, 0, 0) && point[LAS_POINT_HAS_NIR] == 0 && point[LAS_POINT_NIR] == 0);
    }
}

static void test_file_rewrite(void) {
    uint64_t row[3];
    static uint8_t file[700], dst[800];
    size_t len = make_file(file, sizeof file);
    fill_numbers(row, 3);
    fill_bytes(dst, sizeof dst);

    las_file_rewrite(file, len, 1, dst, 0, row);
    CHECK(told(row, LAS_REFUSED_ALLOWANCE, 1, 2));
    las_file_rewrite(file, len, 2, dst, len - 1, row);
    CHECK(told(row, LAS_REFUSED_NO_ROOM, len, 0) && left_bytes(dst, sizeof dst));
    las_file_rewrite(file, len, 2, dst, sizeof dst, row);
    CHECK(told(row, LAS_OK, len, 0) && memcmp(dst, file, len) == 0 && left_bytes(dst + len, sizeof dst - len));

    /* "an EVLR start and count of which one is zero become two zeros" */
    memset(file + 243, 0, 4);
    las_file_rewrite(file, len, 2, dst, sizeof dst, row);
    CHECK(told(row, LAS_OK, len, 0) && memcmp(dst, file, 235) == 0 && number_at(dst + 235, 8) == 0);
    CHECK(number_at(dst + 243, 4) == 0 && memcmp(dst + 247, file + 247, len - 247) == 0);
}

/* In 1.3, with bit 1 of global encoding and a start, the waveform packets are a part of their own kind. */
static void test_waveforms(void) {
    uint64_t row[4], table[6 * LAS_ENTRY_NUMBERS], cursor[LAS_CURSOR_NUMBERS], part[LAS_ENTRY_NUMBERS];
    static uint8_t file[500], dst[500];
    size_t len = make_waveforms(file, sizeof file);
    fill_numbers(row, 4);

    /* they are a record, after the VLRs */
    las_file_check(file, len, 2, row);
    CHECK(judged(row, LAS_OK, 0, 0, 2));
    las_file_check(file, len, 1, row);
    CHECK(judged(row, LAS_REFUSED_ALLOWANCE, 1, 2, 1));
    las_file_check(file, 393, 2, row);
    CHECK(judged(row, LAS_REFUSED_EVLR_EXTENT, 8, 2, 1));
    las_file_check(file, 385, 2, row);
    CHECK(judged(row, LAS_REFUSED_EVLR_EXTENT, 0, 2, 1));

    /* and a part: by the table, the cursor and rewriting */
    las_file_parts(file, len, 2, table, sizeof table / sizeof *table, row);
    CHECK(told(row, LAS_OK, 6, 0));
    CHECK(entry(table, 0, LAS_PART_HEADER, 0, 235) && entry(table, 1, LAS_PART_VLR, 235, 59));
    CHECK(entry(table, 2, LAS_PART_POINTS, 294, 28) && entry(table, 3, LAS_PART_GAP, 322, 4));
    CHECK(entry(table, 4, LAS_PART_WAVEFORM, 326, 68) && entry(table, 5, LAS_PART_GAP, 394, 3));
    las_cursor_start(file, len, 2, cursor, row);
    CHECK(cursor[LAS_CURSOR_LATER_START] == 326 && cursor[LAS_CURSOR_NUMBER_OF_LATER] == 1);
    CHECK(cursor[LAS_CURSOR_IS_WAVEFORM] == 1);
    for (size_t i = 0; i < 6; i++) {
        CHECK(las_cursor_next(file, len, cursor, part));
        CHECK(memcmp(part, table + LAS_ENTRY_NUMBERS * i, sizeof part) == 0);
    }
    CHECK(!las_cursor_next(file, len, cursor, part));
    las_file_rewrite(file, len, 2, dst, sizeof dst, row);
    CHECK(told(row, LAS_OK, len, 0) && memcmp(dst, file, len) == 0);

    /* a start inside the points, and beyond the file */
    file[227] = 321 % 256;
    las_file_check(file, len, 2, row);
    CHECK(judged(row, LAS_REFUSED_WAVEFORM_START, 0, 0, 1));
    file[227] = 398 % 256;
    las_file_check(file, len, 2, row);
    CHECK(judged(row, LAS_REFUSED_WAVEFORM_START, 0, 0, 1));

    /* without the bit, with bit 2, or in another version such a start says nothing */
    for (uint8_t encoding = 0; encoding <= 5; encoding++) {
        file[6] = encoding;
        las_file_check(file, len, 1, row);
        if (encoding == 2 || encoding == 3) {
            CHECK(judged(row, LAS_REFUSED_WAVEFORM_START, 0, 0, 1));
        } else {
            CHECK(judged(row, LAS_OK, 0, 0, 1));
        }
    }
    file[6] = 2;
    file[25] = 2;
    las_file_check(file, len, 1, row);
    CHECK(judged(row, LAS_OK, 0, 0, 1));
}

void test_files(void) {
    test_file_check();
    test_waveforms();
    test_file_parts();
    test_cursor();
    test_file_walker();
    test_near_infrared_of_points();
    test_file_rewrite();
}
