/* Reclassifying: one byte in every format, what is asked and what is done, every refusal, and what stays. */
#include <string.h>

#include "check.h"

enum { POINTS = 3, OFFSET = 447, ROOM = 1000 };

/* Where a record has its class. */
static size_t place_in(uint8_t format) {
    return format < 6 ? 15 : 16;
}

/* A file of version 1.4 in a format, with padding, a VLR, a gap, three points with extra bytes, a gap, an EVLR and a gap. The points
 * differ in every byte, and have every flag in one of them. */
static size_t make(uint8_t file[ROOM], uint8_t format, uint16_t extra, bool legacy) {
    static const uint8_t text[32] = "c/reclassify", data[5] = "12345", padding[8] = "padding";
    const uint64_t vlr[LAS_VLR_NUMBERS] = {0, 1, 5};
    uint64_t row[3], numbers[LAS_HEADER_NUMBERS];
    memset(file, 0xB0, ROOM);
    new_header(numbers, 4, format);
    const size_t record = (size_t)numbers[LAS_HEADER_RECORD_LENGTH] + extra, end = OFFSET + POINTS * record;
    numbers[LAS_HEADER_SIZE] = 383;
    numbers[LAS_HEADER_NUMBER_OF_VLRS] = 1;
    numbers[LAS_HEADER_POINT_OFFSET] = OFFSET; /* 383, a VLR of 59 and a gap of 5 */
    numbers[LAS_HEADER_RECORD_LENGTH] = record;
    numbers[LAS_HEADER_LEGACY_POINTS] = legacy ? POINTS : 0;
    numbers[LAS_HEADER_HAS_LARGE_FILE] = 1;
    numbers[LAS_HEADER_LARGE_POINTS] = legacy ? UINT64_MAX : POINTS;
    numbers[LAS_HEADER_HAS_EVLRS] = 1;
    numbers[LAS_HEADER_EVLR_START] = end + 4;
    numbers[LAS_HEADER_NUMBER_OF_EVLRS] = 1;
    las_header_write(numbers, guid, system_identifier, software, padding, 8, file, ROOM, row);
    CHECK(told(row, LAS_OK, 383, 0));
    las_vlr_write(false, vlr, text, text, data, 5, file + 383, ROOM - 383, row);
    CHECK(told(row, LAS_OK, 59, 0));
    for (size_t i = 0; i < POINTS * record; i++) {
        file[OFFSET + i] = (uint8_t)(i * 37 + i / 7);
    }
    for (size_t i = 0; i < POINTS; i++) {
        static const uint8_t flags[POINTS] = {0xA1, 0x4C, 0xFF}; /* in formats 0 to 5 classes 1, 12 and 31 */
        file[OFFSET + record * i + 15] = flags[i];
    }
    las_vlr_write(true, vlr, text, text, data, 5, file + end + 4, ROOM - end - 4, row);
    CHECK(told(row, LAS_OK, 65, 0));
    return end + 4 + 65 + 6;
}

/* Whether both functions refuse with these numbers, and leave file and change. */
static bool refuses(const uint8_t *file, size_t len, uint64_t allowance, uint64_t point, uint8_t class, uint64_t number,
                    uint64_t value, uint64_t record) {
    static uint8_t lent[ROOM];
    uint64_t row[3], change[LAS_CHANGE_NUMBERS];
    fill_numbers(row, 3);
    fill_numbers(change, LAS_CHANGE_NUMBERS);
    memcpy(lent, file, len);
    las_reclassify(lent, len, allowance, point, class, row);
    bool same = told(row, number, value, record) && memcmp(lent, file, len) == 0;
    las_reclassify_ask(lent, len, allowance, point, class, change, row);
    return told(row, number, value, record) && same && left_numbers(change, LAS_CHANGE_NUMBERS);
}

/* Whether a point gets a class: what is asked is that byte and what it becomes, what is done changes it and no other, and the class
 * that it had gives every byte back. */
static bool sets(uint8_t file[ROOM], size_t len, uint64_t point, uint8_t class) {
    static uint8_t before[ROOM];
    uint64_t row[3], change[LAS_CHANGE_NUMBERS];
    fill_numbers(row, 3);
    memcpy(before, file, ROOM);
    bool extended = file[104] >= 6;
    size_t at = OFFSET + (size_t)(point - 1) * number_at(file + 105, 2) + place_in(file[104]);
    uint8_t had = extended ? file[at] : file[at] & 0x1F, byte = extended ? class : (file[at] & 0xE0) | class;

    las_reclassify_ask(file, len, 2, point, class, change, row);
    bool same = told(row, LAS_OK, had, 0) && change[LAS_CHANGE_AT] == at && change[LAS_CHANGE_BYTE] == byte;
    same = same && memcmp(file, before, ROOM) == 0;
    las_reclassify(file, len, 2, point, class, row);
    same = same && told(row, LAS_OK, had, 0) && file[at] == byte;
    same = same && memcmp(file, before, at) == 0 && memcmp(file + at + 1, before + at + 1, ROOM - at - 1) == 0;
    las_reclassify(file, len, 2, point, had, row);
    return told(row, LAS_OK, class, 0) && same && memcmp(file, before, ROOM) == 0;
}

/* Every format, with extra bytes and without, by the legacy count and by the large one; every point and every class. */
static void test_every_class(void) {
    static uint8_t file[ROOM];
    for (uint8_t format = 0; format <= 10; format++) {
        for (uint16_t extra = 0; extra <= 3; extra += 3) {
            size_t len = make(file, format, extra, extra == 0);
            for (uint64_t point = 1; point <= POINTS; point++) {
                for (int class = 0; class <= 255; class++) {
                    CHECK(format < 6 && class > 31
                              ? refuses(file, len, 2, point, (uint8_t)class, LAS_REFUSED_CLASS, (uint64_t)class, 0)
                              : sets(file, len, point, (uint8_t)class));
                }
            }
        }
    }
}

/* "The state after equals reading everything, changing that one class and writing afresh": the file rewritten, and the point read,
 * given the class in its flags, and written by the point writer. */
static void write_afresh(const uint8_t *file, size_t len, uint64_t point, uint8_t class, uint8_t dst[ROOM]) {
    uint64_t row[3], numbers[LAS_POINT_NUMBERS], extra[2];
    las_header_point_format(file, len, row);
    uint32_t format = (uint32_t)row[LAS_ROW_VALUE];
    size_t record = (size_t)number_at(file + 105, 2), at = OFFSET + (size_t)(point - 1) * record;
    memset(dst, 0xB0, ROOM);
    las_file_rewrite(file, len, UINT64_MAX, dst, ROOM, row);
    CHECK(told(row, LAS_OK, len, 0));
    las_point_read(file + at, record, format, row, numbers);
    CHECK(told(row, LAS_OK, 0, 0));
    uint32_t flags = (uint32_t)numbers[LAS_POINT_FLAGS];
    uint8_t a = (uint8_t)flags, b = (uint8_t)(flags >> 8);
    numbers[LAS_POINT_FLAGS] = format & LAS_FORMAT_EXTENDED ? las_flags_three_bytes(a, b, class)
                                                             : las_flags_two_bytes(a, (uint8_t)((b & 0xE0) | class));
    las_point_extra(file + at, record, format, extra);
    las_point_write(numbers, file + at + extra[LAS_SPAN_START], (size_t)extra[LAS_SPAN_LENGTH], format, dst + at, record, row);
    CHECK(told(row, LAS_OK, record, 0));
}

/* The flags of a point of the file, as a word. */
static uint32_t flags_of(const uint8_t *file, size_t len, uint64_t point) {
    uint64_t row[3], place[LAS_PLACE_NUMBERS], numbers[LAS_POINT_NUMBERS];
    las_file_walker(file, len, UINT64_MAX, place);
    for (uint64_t i = 0; i < point; i++) {
        las_file_next(file, len, place, row, numbers);
        CHECK(row[LAS_ROW_NUMBER] == LAS_OK);
    }
    return (uint32_t)numbers[LAS_POINT_FLAGS];
}

/* What stays: all that is read of the flags but the class and, in formats 0 to 5, overlap, which class 12 says; and the parts. */
static void test_what_stays(void) {
    static uint8_t file[ROOM], fresh[ROOM];
    static const uint8_t classes[5] = {0, 2, 12, 28, 31};
    uint64_t row[3], before[8 * LAS_ENTRY_NUMBERS], after[8 * LAS_ENTRY_NUMBERS];
    fill_numbers(row, 3);
    for (uint8_t format = 0; format <= 10; format++) {
        for (size_t i = 0; i < sizeof classes; i++) {
            uint64_t point = 1 + i % POINTS;
            size_t len = make(file, format, 2, false);
            uint32_t was = flags_of(file, len, point);
            write_afresh(file, len, point, classes[i], fresh);
            fill_numbers(before, 8 * LAS_ENTRY_NUMBERS);
            fill_numbers(after, 8 * LAS_ENTRY_NUMBERS);
            las_file_parts(file, len, 2, before, 8 * LAS_ENTRY_NUMBERS, row);
            CHECK(told(row, LAS_OK, 7, 0));
            las_reclassify(file, len, 2, point, classes[i], row);
            CHECK(told(row, LAS_OK, las_flags_class(was), 0) && memcmp(file, fresh, ROOM) == 0);
            las_file_parts(file, len, 2, after, 8 * LAS_ENTRY_NUMBERS, row);
            CHECK(told(row, LAS_OK, 7, 0) && memcmp(before, after, sizeof before) == 0);

            uint32_t is = flags_of(file, len, point);
            CHECK(las_flags_class(is) == classes[i]);
            CHECK(las_flags_is_synthetic(is) == las_flags_is_synthetic(was));
            CHECK(las_flags_is_key_point(is) == las_flags_is_key_point(was));
            CHECK(las_flags_is_withheld(is) == las_flags_is_withheld(was));
            CHECK(las_flags_return_number(is) == las_flags_return_number(was));
            CHECK(las_flags_scanner_channel(is) == las_flags_scanner_channel(was));
            bool overlap = format < 6 ? classes[i] == 12 || classes[i] == 28 : las_flags_is_overlap(was);
            CHECK(las_flags_is_overlap(is) == overlap);
        }
    }

    /* "an EVLR pair with one zero stays as it is": the start without a count, and the count without a start */
    for (int half = 0; half < 2; half++) {
        size_t len = make(file, 7, 1, false);
        memset(file + (half ? 235 : 243), 0, half ? 8 : 4);
        CHECK(number_at(file + 235, 8) != 0 || number_at(file + 243, 4) != 0);
        CHECK(sets(file, len, 2, 200));
    }
}

/* "Refusals, in order: file check; index; class above 31 in formats 0 to 5": each breaks all later rules too. */
static void test_reclassify_refusals(void) {
    static uint8_t file[ROOM];
    static const uint64_t past[4] = {0, POINTS + 1, UINT64_C(0x100000001), UINT64_MAX};
    for (uint8_t format = 5; format <= 6; format++) {
        size_t len = make(file, format, 0, false);
        CHECK(refuses(file, 3, 2, 0, 32, LAS_REFUSED_SHORT, 4, 0));
        CHECK(refuses(file, OFFSET + 89, 2, 0, 32, LAS_REFUSED_POINT_EXTENT, POINTS, 0));
        CHECK(refuses(file, len, 0, 0, 32, LAS_REFUSED_ALLOWANCE, 0, 1));
        CHECK(refuses(file, len, 1, 0, 32, LAS_REFUSED_ALLOWANCE, 1, 2));
        for (size_t i = 0; i < sizeof past / sizeof past[0]; i++) {
            CHECK(refuses(file, len, 2, past[i], 32, LAS_REFUSED_INDEX, POINTS, 0));
            CHECK(refuses(file, len, 2, past[i], 0, LAS_REFUSED_INDEX, POINTS, 0));
        }
        /* "if the legacy count isn't zero": the count is 2 then, and the third is no point */
        file[107] = 2;
        CHECK(refuses(file, len, 2, 3, 0, LAS_REFUSED_INDEX, 2, 0));
        CHECK(sets(file, len, 2, 31));
    }

    /* a header and nothing else has no point */
    uint64_t row[3], numbers[LAS_HEADER_NUMBERS];
    new_header(numbers, 2, 0);
    las_header_write(numbers, guid, system_identifier, software, nothing, 0, file, ROOM, row);
    CHECK(refuses(file, 227, 0, 1, 2, LAS_REFUSED_INDEX, 0, 0) && refuses(file, 227, 0, 0, 32, LAS_REFUSED_INDEX, 0, 0));
}

void test_reclassify(void) {
    test_every_class();
    test_what_stays();
    test_reclassify_refusals();
}
