/* Formats, flags and angles. */
#include <math.h>
#include <string.h>

#include "check.h"

void test_formats(void) {
    /* "Point record bytes, formats 0 to 10" */
    static const uint64_t lengths[11] = {20, 28, 26, 34, 57, 63, 30, 36, 38, 59, 67};
    static const uint32_t time = LAS_FORMAT_TIME, color = LAS_FORMAT_COLOR, extended = LAS_FORMAT_EXTENDED | LAS_FORMAT_TIME;
    const uint32_t words[11] = {0,
                                time,
                                color,
                                time | color,
                                time | LAS_FORMAT_WAVEFORM,
                                time | color | LAS_FORMAT_WAVEFORM,
                                extended,
                                extended | color,
                                extended | color | LAS_FORMAT_NIR,
                                extended | LAS_FORMAT_WAVEFORM,
                                extended | color | LAS_FORMAT_NIR | LAS_FORMAT_WAVEFORM};
    uint64_t row[3];
    fill_numbers(row, 3);
    for (unsigned code = 0; code < 256; code++) {
        las_format_new((uint8_t)code, row);
        if (code < 11) {
            CHECK(told(row, LAS_OK, words[code], 0));
            las_format_len(words[code], row);
            CHECK(told(row, LAS_OK, lengths[code], 0));
            las_format_len(words[code] | LAS_FORMAT_EXTRA(3), row);
            CHECK(told(row, LAS_OK, lengths[code] + 3, 0));
            las_format_to_u8(words[code], row);
            CHECK(told(row, LAS_OK, code, 0));
            las_format_to_u8(words[code] | LAS_FORMAT_COMPRESSED, row);
            CHECK(told(row, LAS_REFUSED_ATTRIBUTES, 0, 0));
        } else if (code < 128) {
            CHECK(told(row, LAS_REFUSED_FORMAT, code, 0));
        } else if ((code & 0x3f) < 11) {
            CHECK(told(row, LAS_OK, words[code & 0x3f] | LAS_FORMAT_COMPRESSED, 0));
        } else {
            CHECK(told(row, LAS_OK, LAS_FORMAT_EXTENDED | LAS_FORMAT_COMPRESSED, 0));
        }
    }
    CHECK(las_format_extend(LAS_FORMAT_COLOR | LAS_FORMAT_EXTRA(9)) ==
          (LAS_FORMAT_COLOR | LAS_FORMAT_TIME | LAS_FORMAT_EXTENDED | LAS_FORMAT_EXTRA(9)));
    CHECK(las_format_default() == 0);

    /* a length of 65,535 is the last */
    las_format_len(LAS_FORMAT_EXTRA(65515), row);
    CHECK(told(row, LAS_OK, 65535, 0));
    las_format_len(LAS_FORMAT_EXTRA(65516), row);
    CHECK(told(row, LAS_REFUSED_RECORD_LENGTH, 65536, 0));
    CHECK(LAS_FORMAT_EXTRA_OF(LAS_FORMAT_EXTRA(65516) | LAS_FORMAT_TIME) == 65516);

    /* near infrared without colour has no code */
    las_format_to_u8(LAS_FORMAT_TIME | LAS_FORMAT_EXTENDED | LAS_FORMAT_NIR, row);
    CHECK(told(row, LAS_REFUSED_ATTRIBUTES, 0, 0));
}

void test_layouts(void) {
    /* the places of formats 3 and 10 with two extra bytes, by the standard */
    static const uint64_t old[LAS_LAYOUT_NUMBERS] = {0,  4, 4,  4, 8,  4, 12, 2, 14, 2, 17, 1, 16,
                                                     1,  18, 2, 20, 8, 28, 6, 34, 0, 34, 0, 34, 2};
    static const uint64_t large[LAS_LAYOUT_NUMBERS] = {0,  4, 4,  4, 8,  4, 12, 2, 14, 3,  17, 1, 18,
                                                       2,  20, 2, 22, 8, 30, 6, 36, 2, 38, 29, 67, 2};
    uint64_t numbers[LAS_LAYOUT_NUMBERS], row[3];
    fill_numbers(numbers, LAS_LAYOUT_NUMBERS);
    las_layout(LAS_FORMAT_TIME | LAS_FORMAT_COLOR | LAS_FORMAT_EXTRA(2), numbers);
    CHECK(memcmp(numbers, old, sizeof old) == 0);
    las_format_new(10, row);
    las_layout((uint32_t)row[LAS_ROW_VALUE] | LAS_FORMAT_EXTRA(2), numbers);
    CHECK(memcmp(numbers, large, sizeof large) == 0);
    CHECK(numbers[LAS_LAYOUT_START(LAS_FIELD_TIME)] == 22 && numbers[LAS_LAYOUT_LENGTH(LAS_FIELD_TIME)] == 8);

    /* of every format the fields take the record's bytes, without gap or overlap, overlong or not */
    for (uint32_t bits = 0; bits < 64; bits++) {
        uint64_t sum = 0, end = 0;
        las_layout(bits | LAS_FORMAT_EXTRA(65535), numbers);
        for (int field = LAS_FIELD_X; field <= LAS_FIELD_EXTRA_BYTES; field++) {
            uint64_t after = numbers[LAS_LAYOUT_START(field)] + numbers[LAS_LAYOUT_LENGTH(field)];
            sum += numbers[LAS_LAYOUT_LENGTH(field)];
            end = after > end ? after : end;
        }
        las_format_len(bits | LAS_FORMAT_EXTRA(65535), row);
        CHECK(told(row, LAS_REFUSED_RECORD_LENGTH, sum, 0) && sum == end);
    }
}

/* The two bytes of a row's value. */
static uint64_t two(uint8_t a, uint8_t b) {
    return a + 256u * b;
}

void test_flags(void) {
    uint64_t row[3];
    fill_numbers(row, 3);

    /* every reading of two bytes, by the standard's bits */
    for (unsigned a = 0; a < 256; a++) {
        for (unsigned b = 0; b < 256; b++) {
            uint32_t flags = las_flags_two_bytes((uint8_t)a, (uint8_t)b);
            bool holds = las_flags_return_number(flags) == (a & 7) && las_flags_number_of_returns(flags) == (a >> 3 & 7) &&
                         las_flags_scan_direction(flags) == (a >> 6 & 1) &&
                         las_flags_is_edge_of_flight_line(flags) == (a >> 7 == 1) && las_flags_class(flags) == (b & 31) &&
                         las_flags_is_synthetic(flags) == ((b >> 5 & 1) == 1) &&
                         las_flags_is_key_point(flags) == ((b >> 6 & 1) == 1) &&
                         las_flags_is_withheld(flags) == (b >> 7 == 1) && las_flags_is_overlap(flags) == ((b & 15) == 12) &&
                         las_flags_scanner_channel(flags) == 0;
            las_flags_to_two_bytes(flags, row);
            CHECK(holds && told(row, LAS_OK, two((uint8_t)a, (uint8_t)b), 0));
        }
    }

    /* and of three */
    for (unsigned a = 0; a < 256; a++) {
        for (unsigned b = 0; b < 256; b++) {
            unsigned c = a ^ 0x5A;
            uint32_t flags = las_flags_three_bytes((uint8_t)a, (uint8_t)b, (uint8_t)c);
            CHECK(las_flags_return_number(flags) == (a & 15) && las_flags_number_of_returns(flags) == a >> 4 &&
                  las_flags_is_synthetic(flags) == ((b & 1) == 1) && las_flags_is_key_point(flags) == ((b >> 1 & 1) == 1) &&
                  las_flags_is_withheld(flags) == ((b >> 2 & 1) == 1) && las_flags_is_overlap(flags) == ((b >> 3 & 1) == 1) &&
                  las_flags_scanner_channel(flags) == (b >> 4 & 3) && las_flags_scan_direction(flags) == (b >> 6 & 1) &&
                  las_flags_is_edge_of_flight_line(flags) == (b >> 7 == 1) && las_flags_class(flags) == c &&
                  las_flags_to_three_bytes(flags) == flags);
        }
    }

    /* "Numbers on each side" */
    las_flags_to_two_bytes(las_flags_three_bytes(0x11, 0, 2), row);
    CHECK(told(row, LAS_OK, two(0x09, 0x02), 0));
    las_flags_to_two_bytes(las_flags_three_bytes(0x21, 0x48, 2), row);
    CHECK(told(row, LAS_OK, two(0x51, 0x0C), 0));
    las_flags_to_two_bytes(las_flags_three_bytes(0x11, 0, 28), row);
    CHECK(told(row, LAS_OK, two(0x09, 0x1C), 0));
    las_flags_to_two_bytes(las_flags_three_bytes(0x88, 0x10, 40), row);
    CHECK(told(row, LAS_REFUSED_RETURN_NUMBER, 8, 0));
    las_flags_to_two_bytes(las_flags_three_bytes(0x81, 0, 2), row);
    CHECK(told(row, LAS_REFUSED_NUMBER_OF_RETURNS, 8, 0));
    las_flags_to_two_bytes(las_flags_three_bytes(0x11, 0, 32), row);
    CHECK(told(row, LAS_REFUSED_CLASS, 32, 0));
    las_flags_to_two_bytes(las_flags_three_bytes(0x11, 0x10, 2), row);
    CHECK(told(row, LAS_REFUSED_CHANNEL, 1, 0));
    CHECK(las_flags_to_three_bytes(las_flags_two_bytes(0x51, 0x22)) == las_flags_three_bytes(0x21, 0, 0x22));

    CHECK(las_flags_clear_overlap_class(las_flags_two_bytes(0x09, 0xEC)) == las_flags_two_bytes(0x09, 0xE1));
    CHECK(las_flags_clear_overlap_class(las_flags_three_bytes(0x11, 0x40, 12)) == las_flags_three_bytes(0x11, 0x48, 1));
    CHECK(las_flags_clear_overlap_class(las_flags_two_bytes(0x09, 0x1C)) == las_flags_two_bytes(0x09, 0x1C));
    CHECK(las_flags_eq(las_flags_two_bytes(0, 0), las_flags_two_bytes(0xC0, 0)));
    CHECK(!las_flags_eq(las_flags_three_bytes(1, 0, 2), las_flags_three_bytes(1, 8, 2)));
    CHECK(las_flags_default() == las_flags_two_bytes(0, 0));
}

void test_angles(void) {
    /* "Numbers on each side" */
    static const struct {
        int16_t scaled;
        int8_t rank;
    } ranks[] = {{249, 1}, {250, 2}, {-250, -2}, {21249, 127}, {21250, 127}, {-21416, -128}, {-21417, -128}};
    for (size_t i = 0; i < sizeof ranks / sizeof ranks[0]; i++) {
        CHECK(las_angle_to_rank(las_angle_scaled(ranks[i].scaled)) == ranks[i].rank);
    }
    CHECK(las_angle_to_scaled(las_angle_rank(1)) == 166);
    CHECK(las_angle_to_scaled(las_angle_rank(3)) == 500);
    CHECK(las_angle_to_scaled(las_angle_rank(-128)) == -21333);

    for (int rank = -128; rank < 128; rank++) {
        uint32_t angle = las_angle_rank((int8_t)rank);
        CHECK(las_angle_to_rank(angle) == rank && las_angle_to_scaled(angle) == 500 * rank / 3 &&
              las_angle_to_degrees(angle) == (float)rank);
    }
    for (int scaled = -32768; scaled < 32768; scaled++) {
        uint32_t angle = las_angle_scaled((int16_t)scaled);
        int nearest = (6 * scaled + (scaled < 0 ? -500 : 500)) / 1000;
        CHECK(las_angle_nearest_rank((int16_t)scaled) == nearest);
        int held = nearest < -128 ? -128 : nearest > 127 ? 127 : nearest;
        CHECK(las_angle_to_rank(angle) == held && las_angle_to_scaled(angle) == scaled &&
              las_angle_to_degrees(angle) == (float)scaled * 0.006f);
    }
    CHECK(las_angle_from_degrees(3.0f) == las_angle_scaled(500));
    CHECK(las_angle_from_degrees(-1e9f) == las_angle_scaled(-32768));
    CHECK(las_angle_from_degrees(1e9f) == las_angle_scaled(32767));
    CHECK(las_angle_from_degrees(NAN) == las_angle_scaled(0));
    CHECK(las_angle_eq(las_angle_rank(3), las_angle_scaled(500)));
    CHECK(!las_angle_eq(las_angle_rank(1), las_angle_scaled(166)));
    CHECK(las_angle_default() == las_angle_rank(0));
}
