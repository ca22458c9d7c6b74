/* Points, VLRs and EVLRs, and headers. */
#include <string.h>

#include "check.h"

/* A point of format 10 with every field, and another value in each. */
static void new_point(uint64_t point[24]) {
    memset(point, 0, LAS_POINT_NUMBERS * sizeof point[0]);
    point[LAS_POINT_X] = (uint32_t)-2;
    point[LAS_POINT_Y] = 0x12345678;
    point[LAS_POINT_Z] = 7;
    point[LAS_POINT_INTENSITY] = 0x0102;
    point[LAS_POINT_FLAGS] = las_flags_three_bytes(0x21, 0x40, 2);
    point[LAS_POINT_SCAN_ANGLE] = las_angle_scaled(-500);
    point[LAS_POINT_USER_DATA] = 9;
    point[LAS_POINT_SOURCE_ID] = 0x0304;
    point[LAS_POINT_HAS_TIME] = 1;
    point[LAS_POINT_TIME] = 0x7FF4000000000001; /* a NaN, and it keeps its bits */
    point[LAS_POINT_HAS_COLOR] = 1;
    point[LAS_POINT_RED] = 0x0506;
    point[LAS_POINT_GREEN] = 0x0708;
    point[LAS_POINT_BLUE] = 0x090A;
    point[LAS_POINT_HAS_NIR] = 1;
    point[LAS_POINT_NIR] = 0x0B0C;
    point[LAS_POINT_HAS_WAVEFORM] = 1;
    point[LAS_POINT_WAVEFORM_INDEX] = 3;
    point[LAS_POINT_WAVEFORM_OFFSET] = 0x0D0E0F1011121314;
    point[LAS_POINT_WAVEFORM_SIZE] = 0x15161718;
    point[LAS_POINT_WAVEFORM_LOCATION] = float_bits(0.25f);
    point[LAS_POINT_WAVEFORM_X_T] = float_bits(-1.5f);
    point[LAS_POINT_WAVEFORM_Y_T] = 0x7FA00001; /* another */
    point[LAS_POINT_WAVEFORM_Z_T] = float_bits(2.0f);
}

/* A record of format 10 and two extra bytes, field after field by the standard. */
static void test_extended_point(void) {
    static const uint8_t extra[2] = {0xEE, 0xFF};
    const uint32_t format = LAS_FORMAT_TIME | LAS_FORMAT_COLOR | LAS_FORMAT_EXTENDED | LAS_FORMAT_WAVEFORM | LAS_FORMAT_NIR |
                            LAS_FORMAT_EXTRA(2);
    uint64_t row[3], span[2], point[LAS_POINT_NUMBERS], read[LAS_POINT_NUMBERS];
    uint8_t dst[80];
    fill_numbers(row, 3);
    fill_bytes(dst, sizeof dst);
    new_point(point);

    las_point_write(point, extra, 2, format, dst, sizeof dst, row);
    CHECK(told(row, LAS_OK, 69, 0));
    CHECK(left_bytes(dst + 69, sizeof dst - 69));
    CHECK(number_at(dst, 4) == 0xFFFFFFFE && number_at(dst + 4, 4) == 0x12345678 && number_at(dst + 8, 4) == 7);
    CHECK(number_at(dst + 12, 2) == 0x0102 && number_at(dst + 14, 3) == 0x024021 && dst[17] == 9);
    CHECK(number_at(dst + 18, 2) == 65036 && number_at(dst + 20, 2) == 0x0304);
    CHECK(number_at(dst + 22, 8) == 0x7FF4000000000001);
    CHECK(number_at(dst + 30, 2) == 0x0506 && number_at(dst + 32, 2) == 0x0708 && number_at(dst + 34, 2) == 0x090A);
    CHECK(number_at(dst + 36, 2) == 0x0B0C && dst[38] == 3 && number_at(dst + 39, 8) == 0x0D0E0F1011121314);
    CHECK(number_at(dst + 47, 4) == 0x15161718 && number_at(dst + 51, 4) == float_bits(0.25f));
    CHECK(number_at(dst + 55, 4) == float_bits(-1.5f) && number_at(dst + 59, 4) == 0x7FA00001);
    CHECK(number_at(dst + 63, 4) == float_bits(2.0f) && dst[67] == 0xEE && dst[68] == 0xFF);

    /* and back */
    fill_numbers(read, LAS_POINT_NUMBERS);
    las_point_read(dst, sizeof dst, format, row, read);
    CHECK(told(row, LAS_OK, 0, 0) && memcmp(read, point, sizeof point) == 0);
    las_point_extra(dst, sizeof dst, format, span);
    CHECK(spans(span, 67, 2));
    CHECK((int32_t)read[LAS_POINT_X] == -2);
    CHECK(las_angle_to_scaled((uint32_t)read[LAS_POINT_SCAN_ANGLE]) == -500);

    /* refused, in the order 8, 23, 22, and reading 8, then 1 */
    fill_bytes(dst, sizeof dst);
    las_point_write(point, extra, 2, format | LAS_FORMAT_EXTRA(65535), nothing, 0, row);
    CHECK(told(row, LAS_REFUSED_RECORD_LENGTH, 67 + 65535, 0));
    las_point_write(point, extra, 1, format, nothing, 0, row);
    CHECK(told(row, LAS_REFUSED_EXTRA_BYTES, 2, 0));
    las_point_write(point, extra, 2, format, dst, 68, row);
    CHECK(told(row, LAS_REFUSED_NO_ROOM, 69, 0) && left_bytes(dst, sizeof dst));

    fill_numbers(read, LAS_POINT_NUMBERS);
    las_point_read(nothing, 0, format | LAS_FORMAT_EXTRA(65535), row, read);
    CHECK(told(row, LAS_REFUSED_RECORD_LENGTH, 67 + 65535, 0));
    las_point_read(dst, 68, format, row, read);
    CHECK(told(row, LAS_REFUSED_SHORT, 69, 0) && left_numbers(read, LAS_POINT_NUMBERS));
    las_point_extra(dst, 68, format, span);
    CHECK(spans(span, 0, 0));
    las_point_extra(dst, sizeof dst, LAS_FORMAT_TIME, span);
    CHECK(spans(span, 0, 0));
}

/* A record of format 3: what it lacks is not written, what the point lacks is zeros, and its flags have to fit. */
static void test_old_point(void) {
    const uint32_t format = LAS_FORMAT_TIME | LAS_FORMAT_COLOR;
    uint64_t row[3], point[LAS_POINT_NUMBERS], read[LAS_POINT_NUMBERS];
    uint8_t dst[40];
    fill_numbers(row, 3);
    fill_bytes(dst, sizeof dst);
    new_point(point);
    point[LAS_POINT_HAS_COLOR] = 0;

    las_point_write(point, nothing, 0, format, dst, sizeof dst, row);
    CHECK(told(row, LAS_OK, 34, 0) && left_bytes(dst + 34, sizeof dst - 34));
    CHECK(number_at(dst + 14, 2) == 0x0251 && (int8_t)dst[16] == -3 && dst[17] == 9 && number_at(dst + 18, 2) == 0x0304);
    CHECK(number_at(dst + 20, 8) == 0x7FF4000000000001 && number_at(dst + 28, 6) == 0);
    las_point_read(dst, 34, format, row, read);
    CHECK(told(row, LAS_OK, 0, 0));
    CHECK(read[LAS_POINT_HAS_COLOR] == 1 && read[LAS_POINT_RED] == 0 && read[LAS_POINT_HAS_NIR] == 0);
    CHECK(read[LAS_POINT_NIR] == 0 && read[LAS_POINT_HAS_WAVEFORM] == 0 && read[LAS_POINT_WAVEFORM_SIZE] == 0);
    CHECK(read[LAS_POINT_FLAGS] == las_flags_two_bytes(0x51, 2) && read[LAS_POINT_SCAN_ANGLE] == las_angle_rank(-3));

    fill_bytes(dst, sizeof dst);
    point[LAS_POINT_FLAGS] = las_flags_three_bytes(0x88, 0x10, 40);
    las_point_write(point, nothing, 0, format, dst, 33, row);
    CHECK(told(row, LAS_REFUSED_NO_ROOM, 34, 0));
    las_point_write(point, nothing, 0, format, dst, 34, row);
    CHECK(told(row, LAS_REFUSED_RETURN_NUMBER, 8, 0) && left_bytes(dst, sizeof dst));

    /* of a number too wide the low bits count */
    point[LAS_POINT_FLAGS] = las_flags_two_bytes(0x09, 2) | (uint64_t)1 << 40;
    point[LAS_POINT_INTENSITY] = 0x70001;
    las_point_write(point, nothing, 0, format, dst, 34, row);
    CHECK(told(row, LAS_OK, 34, 0) && number_at(dst + 12, 2) == 1 && number_at(dst + 14, 2) == 0x0209);
}

/* Near infrared: in a format that has it 0 is a number like any other, in one that has not it is missing, and where it is missing
 * it is written as zero bits. */
static void test_near_infrared(void) {
    const uint32_t without = LAS_FORMAT_TIME | LAS_FORMAT_COLOR | LAS_FORMAT_EXTENDED; /* format 7 */
    const uint32_t with = without | LAS_FORMAT_NIR;                                    /* format 8 */
    uint64_t row[3], point[LAS_POINT_NUMBERS], read[LAS_POINT_NUMBERS];
    uint8_t record[38] = {0}, dst[40], again[38];
    fill_numbers(row, 3);

    /* a record of zeros, in both formats */
    fill_numbers(read, LAS_POINT_NUMBERS);
    las_point_read(record, sizeof record, with, row, read);
    CHECK(told(row, LAS_OK, 0, 0) && read[LAS_POINT_HAS_NIR] == 1 && read[LAS_POINT_NIR] == 0);
    fill_numbers(read, LAS_POINT_NUMBERS);
    las_point_read(record, sizeof record, without, row, read);
    CHECK(told(row, LAS_OK, 0, 0) && read[LAS_POINT_HAS_NIR] == 0 && read[LAS_POINT_NIR] == 0);

    /* every number, of the two bytes after the colour */
    bool shown = true;
    memset(record, 0xFF, sizeof record);
    for (uint32_t nir = 0; nir < 65536; nir++) {
        record[36] = (uint8_t)(nir & 255);
        record[37] = (uint8_t)(nir >> 8);
        las_point_read(record, sizeof record, with, row, read);
        shown = shown && told(row, LAS_OK, 0, 0) && read[LAS_POINT_HAS_NIR] == 1 && read[LAS_POINT_NIR] == nir;
    }
    CHECK(shown);

    /* missing, whatever number stands beside that, and read back as 0 */
    fill_bytes(dst, sizeof dst);
    new_point(point);
    point[LAS_POINT_HAS_NIR] = 0;
    las_point_write(point, nothing, 0, with, dst, sizeof dst, row);
    CHECK(told(row, LAS_OK, 38, 0) && number_at(dst + 36, 2) == 0 && left_bytes(dst + 38, sizeof dst - 38));
    las_point_read(dst, 38, with, row, read);
    CHECK(told(row, LAS_OK, 0, 0) && read[LAS_POINT_HAS_NIR] == 1 && read[LAS_POINT_NIR] == 0);

    /* and what was read is written with the same bytes */
    las_point_write(read, nothing, 0, with, again, sizeof again, row);
    CHECK(told(row, LAS_OK, 38, 0) && memcmp(again, dst, sizeof again) == 0);
}

void test_points(void) {
    test_extended_point();
    test_old_point();
    test_near_infrared();

    uint64_t point[LAS_POINT_NUMBERS], none[LAS_POINT_NUMBERS] = {0};
    fill_numbers(point, LAS_POINT_NUMBERS);
    las_point_default(point);
    none[LAS_POINT_FLAGS] = las_flags_default();
    none[LAS_POINT_SCAN_ANGLE] = las_angle_default();
    CHECK(memcmp(point, none, sizeof point) == 0);
}

/* A VLR and an EVLR: heads of 54 and 60 bytes, lengths of 16 and 64 bits. */
static void test_vlr(bool extended, size_t head) {
    static const uint8_t user_id[LAS_VLR_USER_ID_BYTES] = "LASF_Projection";
    static const uint8_t description[LAS_VLR_DESCRIPTION_BYTES] = "four bytes";
    static const uint8_t data[4] = {1, 2, 3, 4};
    const uint64_t numbers[LAS_VLR_NUMBERS] = {0xAABB, 34735, 4};
    uint64_t row[3], span[2], read[LAS_VLR_NUMBERS];
    uint8_t dst[80], user[LAS_VLR_USER_ID_BYTES], text[LAS_VLR_DESCRIPTION_BYTES];
    fill_numbers(row, 3);
    fill_bytes(dst, sizeof dst);

    las_vlr_write(extended, numbers, user_id, description, data, 4, dst, sizeof dst, row);
    CHECK(told(row, LAS_OK, head + 4, 0) && left_bytes(dst + head + 4, sizeof dst - head - 4));
    CHECK(number_at(dst, 2) == 0xAABB && memcmp(dst + 2, user_id, sizeof user_id) == 0);
    CHECK(number_at(dst + 18, 2) == 34735 && number_at(dst + 20, head - 52) == 4);
    CHECK(memcmp(dst + head - 32, description, sizeof description) == 0 && memcmp(dst + head, data, 4) == 0);

    las_vlr_read(dst, sizeof dst, extended, row, read, user, text);
    CHECK(told(row, LAS_OK, head + 4, 0) && memcmp(read, numbers, sizeof numbers) == 0);
    CHECK(memcmp(user, user_id, sizeof user) == 0 && memcmp(text, description, sizeof text) == 0);
    las_vlr_data(dst, sizeof dst, extended, span);
    CHECK(spans(span, head, 4));
    las_vlr_measure(dst, sizeof dst, extended, row);
    CHECK(told(row, LAS_OK, head + 4, 0));
    CHECK(las_vlr_head_size(extended) == head);
    las_vlr_stated(dst, head, extended, row);
    CHECK(told(row, LAS_OK, 4, 0));
    las_vlr_stated(dst, head - 1, extended, row);
    CHECK(told(row, LAS_REFUSED_SHORT, head, 0));

    /* one byte short of its data, and of its head */
    fill_numbers(read, LAS_VLR_NUMBERS);
    fill_bytes(user, sizeof user);
    fill_bytes(text, sizeof text);
    las_vlr_read(dst, head + 3, extended, row, read, user, text);
    CHECK(told(row, LAS_REFUSED_SHORT, head + 4, 0));
    las_vlr_read(dst, head - 1, extended, row, read, user, text);
    CHECK(told(row, LAS_REFUSED_SHORT, head, 0));
    CHECK(left_numbers(read, LAS_VLR_NUMBERS) && left_bytes(user, sizeof user) && left_bytes(text, sizeof text));
    las_vlr_data(dst, head + 3, extended, span);
    CHECK(spans(span, 0, 0));
    las_vlr_data(dst, 1, extended, span);
    CHECK(spans(span, 0, 0));
    las_vlr_measure(dst, head + 3, extended, row);
    CHECK(told(row, LAS_REFUSED_SHORT, head + 4, 0));

    fill_bytes(dst, sizeof dst);
    las_vlr_write(extended, numbers, user_id, description, data, 3, nothing, 0, row);
    CHECK(told(row, LAS_REFUSED_VLR_DATA_LENGTH, 4, 0));
    las_vlr_write(extended, numbers, user_id, description, data, 4, dst, head + 3, row);
    CHECK(told(row, LAS_REFUSED_NO_ROOM, head + 4, 0) && left_bytes(dst, sizeof dst));
}

void test_vlrs(void) {
    test_vlr(false, 54);
    test_vlr(true, 60);

    /* a VLR's length of which 16 bits would be that of its data */
    static const uint8_t text[LAS_VLR_DESCRIPTION_BYTES];
    uint8_t evlr[60];
    uint64_t row[3], read[LAS_VLR_NUMBERS];
    const uint64_t wide[LAS_VLR_NUMBERS] = {0, 0, 65536};
    fill_bytes(evlr, sizeof evlr);
    las_vlr_write(false, wide, text, text, nothing, 0, evlr, sizeof evlr, row);
    CHECK(told(row, LAS_REFUSED_VLR_DATA_LENGTH, 65536, 0) && left_bytes(evlr, sizeof evlr));

    /* an EVLR's length near 2^64: the bytes wanted are over it */
    uint8_t user[LAS_VLR_USER_ID_BYTES], description[LAS_VLR_DESCRIPTION_BYTES];
    fill_numbers(row, 3);
    const uint64_t none[LAS_VLR_NUMBERS] = {0, 0, 0};
    las_vlr_write(true, none, text, text, nothing, 0, evlr, sizeof evlr, row);
    CHECK(told(row, LAS_OK, 60, 0));
    memset(evlr + 20, 0xFF, 8);
    las_vlr_read(evlr, sizeof evlr, true, row, read, user, description);
    CHECK(told(row, LAS_REFUSED_SHORT, 0, 0));

    fill_numbers(read, LAS_VLR_NUMBERS);
    fill_bytes(user, sizeof user);
    fill_bytes(description, sizeof description);
    las_vlr_default(read, user, description);
    CHECK(memcmp(read, none, sizeof none) == 0 && memcmp(user, text, sizeof user) == 0);
    CHECK(memcmp(description, text, sizeof text) == 0);
}

const uint8_t guid[16] = {1, 2, 3, 4, 5, 6, 7, 8, 9, 10, 11, 12, 13, 14, 15, 16};
const uint8_t system_identifier[32] = "pole scanner";
const uint8_t software[32] = "c/test";

void new_header(uint64_t numbers[51], uint8_t minor, uint8_t format) {
    static const uint64_t sizes[5] = {227, 227, 227, 235, 375};
    static const uint64_t lengths[11] = {20, 28, 26, 34, 57, 63, 30, 36, 38, 59, 67};
    memset(numbers, 0, LAS_HEADER_NUMBERS * sizeof numbers[0]);
    numbers[LAS_HEADER_VERSION_MAJOR] = 1;
    numbers[LAS_HEADER_VERSION_MINOR] = minor;
    numbers[LAS_HEADER_SIZE] = sizes[minor];
    numbers[LAS_HEADER_POINT_OFFSET] = sizes[minor];
    numbers[LAS_HEADER_POINT_FORMAT] = format;
    numbers[LAS_HEADER_RECORD_LENGTH] = lengths[format];
    for (size_t axis = 0; axis < 3; axis++) {
        numbers[LAS_HEADER_X_SCALE + axis] = double_bits(0.01);
    }
}

/* A 1.4 header with another value in each number: each comes back, and stands where the standard says. */
static void test_large_header(void) {
    uint64_t row[3], span[2], numbers[LAS_HEADER_NUMBERS], read[LAS_HEADER_NUMBERS];
    uint8_t dst[400], id[16], system[32], generating[32];
    static const uint8_t padding[3] = {0xD1, 0xD2, 0xD3};
    fill_numbers(row, 3);
    fill_bytes(dst, sizeof dst);
    for (size_t i = 0; i < LAS_HEADER_NUMBERS; i++) {
        numbers[i] = 100 + i;
    }
    numbers[LAS_HEADER_VERSION_MAJOR] = 1;
    numbers[LAS_HEADER_VERSION_MINOR] = 4;
    numbers[LAS_HEADER_SIZE] = 378;
    numbers[LAS_HEADER_MAX_X] = 0x7FF4000000000001; /* a NaN, and it keeps its bits */
    numbers[LAS_HEADER_HAS_WAVEFORM_START] = 1;
    numbers[LAS_HEADER_HAS_EVLRS] = 1;
    numbers[LAS_HEADER_HAS_LARGE_FILE] = 1;

    las_header_write(numbers, guid, system_identifier, software, padding, 3, dst, sizeof dst, row);
    CHECK(told(row, LAS_OK, 378, 0) && left_bytes(dst + 378, sizeof dst - 378));
    CHECK(memcmp(dst, "LASF", 4) == 0 && number_at(dst + 4, 2) == 100 && number_at(dst + 6, 2) == 101);
    CHECK(memcmp(dst + 8, guid, 16) == 0 && dst[24] == 1 && dst[25] == 4);
    CHECK(memcmp(dst + 26, system_identifier, 32) == 0 && memcmp(dst + 58, software, 32) == 0);
    CHECK(number_at(dst + 90, 2) == numbers[LAS_HEADER_CREATION_DAY]);
    CHECK(number_at(dst + 92, 2) == numbers[LAS_HEADER_CREATION_YEAR]);
    CHECK(number_at(dst + 94, 2) == 378 && number_at(dst + 96, 4) == numbers[LAS_HEADER_POINT_OFFSET]);
    CHECK(number_at(dst + 100, 4) == numbers[LAS_HEADER_NUMBER_OF_VLRS]);
    CHECK(dst[104] == numbers[LAS_HEADER_POINT_FORMAT] && number_at(dst + 105, 2) == numbers[LAS_HEADER_RECORD_LENGTH]);
    CHECK(number_at(dst + 107, 4) == numbers[LAS_HEADER_LEGACY_POINTS]);
    for (size_t i = 0; i < 5; i++) {
        CHECK(number_at(dst + 111 + 4 * i, 4) == numbers[LAS_HEADER_LEGACY_BY_RETURN + i]);
    }
    for (size_t i = 0; i < 12; i++) {
        CHECK(number_at(dst + 131 + 8 * i, 8) == numbers[LAS_HEADER_X_SCALE + i]);
    }
    CHECK(number_at(dst + 227, 8) == numbers[LAS_HEADER_WAVEFORM_START]);
    CHECK(number_at(dst + 235, 8) == numbers[LAS_HEADER_EVLR_START]);
    CHECK(number_at(dst + 243, 4) == numbers[LAS_HEADER_NUMBER_OF_EVLRS]);
    CHECK(number_at(dst + 247, 8) == numbers[LAS_HEADER_LARGE_POINTS]);
    for (size_t i = 0; i < 15; i++) {
        CHECK(number_at(dst + 255 + 8 * i, 8) == numbers[LAS_HEADER_LARGE_BY_RETURN + i]);
    }
    CHECK(memcmp(dst + 375, padding, 3) == 0);

    las_header_read(dst, sizeof dst, row, read, id, system, generating);
    CHECK(told(row, LAS_OK, 378, 0) && memcmp(read, numbers, sizeof numbers) == 0 && memcmp(id, guid, 16) == 0);
    CHECK(memcmp(system, system_identifier, 32) == 0 && memcmp(generating, software, 32) == 0);
    las_header_padding(dst, sizeof dst, span);
    CHECK(spans(span, 375, 3));

    /* the legacy count first, and then the large one */
    las_header_points(dst, sizeof dst, row);
    CHECK(told(row, LAS_OK, numbers[LAS_HEADER_LEGACY_POINTS], 0));
    las_header_end_of_points(dst, sizeof dst, row);
    CHECK(told(row, LAS_OK, 107 + 111 * 110, 0));
    memset(dst + 107, 0, 4);
    las_header_points(dst, sizeof dst, row);
    CHECK(told(row, LAS_OK, numbers[LAS_HEADER_LARGE_POINTS], 0));
    memset(dst + 247, 0xFF, 8);
    las_header_end_of_points(dst, sizeof dst, row);
    CHECK(told(row, LAS_REFUSED_POINT_EXTENT, UINT64_MAX, 0));
}

/* The order of a header's refusals, in which nothing but the row is written. */
static void test_refused_header(void) {
    uint64_t row[3], span[2], numbers[LAS_HEADER_NUMBERS], read[LAS_HEADER_NUMBERS];
    uint8_t dst[400], id[16], system[32], generating[32];
    fill_numbers(row, 3);
    fill_numbers(read, LAS_HEADER_NUMBERS);
    fill_bytes(id, sizeof id);
    fill_bytes(system, sizeof system);
    fill_bytes(generating, sizeof generating);
    fill_bytes(dst, sizeof dst);

    new_header(numbers, 4, 6);
    numbers[LAS_HEADER_SIZE] = 378;
    las_header_write(numbers, guid, system_identifier, software, nothing, 0, dst, 374, row);
    CHECK(told(row, LAS_REFUSED_NO_ROOM, 375, 0) && left_bytes(dst, sizeof dst));
    numbers[LAS_HEADER_VERSION_MINOR] = 5;
    las_header_write(numbers, guid, system_identifier, software, nothing, 0, nothing, 0, row);
    CHECK(told(row, LAS_REFUSED_VERSION, 261, 0));
    numbers[LAS_HEADER_VERSION_MINOR] = 4;
    las_header_write(numbers, guid, system_identifier, software, nothing, 0, dst, sizeof dst, row);
    CHECK(told(row, LAS_OK, 375, 0));

    static const struct {
        size_t len;
        uint64_t wanted;
    } shorts[] = {{0, 4}, {3, 4}, {4, 26}, {25, 26}, {26, 375}, {374, 375}, {375, 378}, {377, 378}};
    for (size_t i = 0; i < sizeof shorts / sizeof shorts[0]; i++) {
        las_header_read(dst, shorts[i].len, row, read, id, system, generating);
        CHECK(told(row, LAS_REFUSED_SHORT, shorts[i].wanted, 0));
        las_header_points(dst, shorts[i].len, row);
        CHECK(told(row, LAS_REFUSED_SHORT, shorts[i].wanted, 0));
        las_header_end_of_points(dst, shorts[i].len, row);
        CHECK(told(row, LAS_REFUSED_SHORT, shorts[i].wanted, 0));
        las_header_padding(dst, shorts[i].len, span);
        CHECK(spans(span, 0, 0));
    }
    dst[25] = 5;
    las_header_read(dst, 26, row, read, id, system, generating);
    CHECK(told(row, LAS_REFUSED_VERSION, 261, 0));
    dst[0] = 'l';
    las_header_read(dst, 4, row, read, id, system, generating);
    CHECK(told(row, LAS_REFUSED_SIGNATURE, 0x4653416C, 0));
    CHECK(left_numbers(read, LAS_HEADER_NUMBERS) && left_bytes(id, sizeof id) && left_bytes(system, sizeof system));
    CHECK(left_bytes(generating, sizeof generating));
}

void test_headers(void) {
    test_large_header();
    test_refused_header();

    /* "Header sizes, from the standard: 227 for 1.0 to 1.2, 235 for 1.3, 375 for 1.4" */
    static const uint64_t sizes[5] = {227, 227, 227, 235, 375};
    for (uint8_t minor = 0; minor < 5; minor++) {
        uint64_t row[3], numbers[LAS_HEADER_NUMBERS];
        uint8_t dst[375];
        new_header(numbers, minor, 0);
        las_header_write(numbers, guid, system_identifier, software, nothing, 0, dst, sizeof dst, row);
        CHECK(told(row, LAS_OK, sizes[minor], 0));
        las_header_size(1, minor, row);
        CHECK(told(row, LAS_OK, sizes[minor], 0));
    }
    uint64_t row[3], numbers[LAS_HEADER_NUMBERS], expected[LAS_HEADER_NUMBERS] = {0};
    las_header_size(1, 5, row);
    CHECK(told(row, LAS_REFUSED_VERSION, 261, 0));
    las_header_size(2, 4, row);
    CHECK(told(row, LAS_REFUSED_VERSION, 516, 0));

    /* the default header is that of an empty file */
    static const uint8_t zeros[32];
    uint8_t id[16], system[32], generating[32], dst[227];
    fill_numbers(numbers, LAS_HEADER_NUMBERS);
    fill_bytes(id, sizeof id);
    fill_bytes(system, sizeof system);
    fill_bytes(generating, sizeof generating);
    las_header_default(numbers, id, system, generating);
    expected[LAS_HEADER_VERSION_MAJOR] = 1;
    expected[LAS_HEADER_VERSION_MINOR] = 2;
    expected[LAS_HEADER_SIZE] = 227;
    expected[LAS_HEADER_POINT_OFFSET] = 227;
    expected[LAS_HEADER_RECORD_LENGTH] = 20;
    CHECK(memcmp(numbers, expected, sizeof numbers) == 0 && memcmp(id, zeros, sizeof id) == 0);
    CHECK(memcmp(system, zeros, 32) == 0 && memcmp(generating, zeros, 32) == 0);
    las_header_write(numbers, id, system, generating, nothing, 0, dst, sizeof dst, row);
    CHECK(told(row, LAS_OK, 227, 0));
    uint64_t checked[4];
    las_file_check(dst, sizeof dst, 0, checked);
    CHECK(checked[LAS_ROW_NUMBER] == LAS_OK);

    /* the format of its points: of its code and record length, and of a code that is none */
    dst[104] = 3;
    dst[105] = 36;
    las_header_point_format(dst, sizeof dst, row);
    CHECK(told(row, LAS_OK, LAS_FORMAT_TIME | LAS_FORMAT_COLOR | LAS_FORMAT_EXTRA(2), 0));
    dst[104] = 11;
    las_header_point_format(dst, sizeof dst, row);
    CHECK(told(row, LAS_OK, las_format_default(), 0));
    las_header_point_format(dst, 226, row);
    CHECK(told(row, LAS_REFUSED_SHORT, 227, 0));
}
