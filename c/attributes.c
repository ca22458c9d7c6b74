/* Attributes of the extra bytes: each by its name and one after the other, its values in every format, every refusal, and what stays;
 * and the first VLR with its ids. */
#include <string.h>

#include "check.h"

enum { POINTS = 3, ROOM = 8000, DESCRIPTOR = LAS_DESCRIPTOR_BYTES };

/* What a descriptor says. */
typedef struct {
    const char *name; /* up to 32 bytes */
    uint8_t type, options;
} Field;

/* Every type, two pairs of equal names, an empty name and one of 32 bytes, values of none and of twelve bytes. */
static const Field fields[] = {
    {"reflectance", 3, 0}, {"", 1, 0xFF}, {"pulse", 0, 12},
    {"reflectance", 10, 9}, {"nothing", 0, 0}, {"i8", 2, 1},
    {"i16", 4, 2}, {"a name that has all the 32 bytes", 5, 3}, {"i32", 6, 0},
    {"u64", 7, 0}, {"i64", 8, 0}, {"f32", 9, 0},
    {"Reflectance", 0, 0xFF}, {"", 3, 0},
};
enum { FIELDS = sizeof fields / sizeof fields[0] };

/* The bytes of a value. */
static size_t size_of(Field field) {
    static const size_t sizes[11] = {0, 1, 1, 2, 2, 4, 4, 8, 8, 4, 8};
    return field.type == 0 ? field.options : sizes[field.type];
}

/* The bytes of the values of some fields. */
static size_t sizes_of(const Field *some, size_t count) {
    size_t sum = 0;
    for (size_t i = 0; i < count; i++) {
        sum += size_of(some[i]);
    }
    return sum;
}

/* Descriptors one after the other. What nobody looks at is no zeros. */
static void describe(uint8_t *dst, const Field *some, size_t count) {
    for (size_t i = 0; i < count; i++, dst += DESCRIPTOR) {
        memset(dst, 0xD0 + (int)i, DESCRIPTOR);
        dst[2] = some[i].type;
        dst[3] = some[i].options;
        memset(dst + 4, 0, 32);
        memcpy(dst + 4, some[i].name, strlen(some[i].name) < 32 ? strlen(some[i].name) : 32);
    }
}

/* A VLR or EVLR of a file: its ids, and its data. */
typedef struct {
    uint8_t user[16];
    uint16_t id;
    const uint8_t *data;
    size_t len;
} Record;

/* A file, its points' offset and record length, where the extra bytes of a record start, and where the data of each VLR does. */
typedef struct {
    uint8_t bytes[ROOM];
    size_t len, offset, record, fixed, data[8];
} File;

/* A file of version 1.4 in a format, with padding, these VLRs, a gap, three points that differ in every byte, a gap, an EVLR and a
 * gap. */
static void make(File *file, uint8_t format, size_t extra, const Record *vlrs, size_t count, Record evlr) {
    static const uint8_t padding[8] = "padding", text[32] = "c/attributes";
    uint64_t row[3], numbers[LAS_HEADER_NUMBERS];
    memset(file->bytes, 0xB0, ROOM);
    new_header(numbers, 4, format);
    size_t at = 383;
    for (size_t i = 0; i < count; i++) {
        const uint64_t head[LAS_VLR_NUMBERS] = {i, vlrs[i].id, vlrs[i].len};
        las_vlr_write(false, head, vlrs[i].user, text, vlrs[i].data, vlrs[i].len, file->bytes + at, ROOM - at, row);
        CHECK(told(row, LAS_OK, 54 + vlrs[i].len, 0));
        file->data[i] = at + 54;
        at += 54 + vlrs[i].len;
    }
    file->offset = at + 5;
    file->fixed = (size_t)numbers[LAS_HEADER_RECORD_LENGTH];
    file->record = file->fixed + extra;
    at = file->offset + POINTS * file->record;
    for (size_t i = file->offset; i < at; i++) {
        file->bytes[i] = (uint8_t)(i * 37 + i / 7);
    }
    const uint64_t head[LAS_VLR_NUMBERS] = {0, evlr.id, evlr.len};
    las_vlr_write(true, head, evlr.user, text, evlr.data, evlr.len, file->bytes + at + 4, ROOM - at - 4, row);
    CHECK(told(row, LAS_OK, 60 + evlr.len, 0));
    file->len = at + 4 + 60 + evlr.len + 6;

    numbers[LAS_HEADER_SIZE] = 383;
    numbers[LAS_HEADER_NUMBER_OF_VLRS] = count;
    numbers[LAS_HEADER_POINT_OFFSET] = file->offset;
    numbers[LAS_HEADER_RECORD_LENGTH] = file->record;
    numbers[LAS_HEADER_HAS_LARGE_FILE] = 1;
    numbers[LAS_HEADER_LARGE_POINTS] = POINTS;
    numbers[LAS_HEADER_HAS_EVLRS] = 1;
    numbers[LAS_HEADER_EVLR_START] = at + 4;
    numbers[LAS_HEADER_NUMBER_OF_EVLRS] = 1;
    las_header_write(numbers, guid, system_identifier, software, padding, 8, file->bytes, ROOM, row);
    CHECK(told(row, LAS_OK, 383, 0));
}

/* A file of this data. Before its VLR are two that do not count, one by its record id, one by the last byte of its user id; after it is
 * a second one, and behind the points an EVLR with the same ids, both with a descriptor that is refused. */
enum { DESCRIBED = 2 };
static const uint8_t broken[DESCRIPTOR] = {0, 0, 11};

static void make_described(File *file, uint8_t format, size_t extra, const uint8_t *data, size_t len) {
    const Record vlrs[4] = {{"LASF_Spec", 3, broken, 7},
                            {"LASF_Spec\0\0\0\0\0\0x", 4, broken, 5},
                            {"LASF_Spec", 4, data, len},
                            {"LASF_Spec", 4, broken, DESCRIPTOR}};
    make(file, format, extra, vlrs, 4, vlrs[3]);
}

static void make_fields(File *file, uint8_t format, size_t extra, const Field *some, size_t count) {
    static uint8_t data[FIELDS * DESCRIPTOR];
    describe(data, some, count);
    make_described(file, format, extra, data, count * DESCRIPTOR);
}

/* Whether five numbers are these. */
static bool are(const uint64_t numbers[5], uint64_t a, uint64_t b, uint64_t c, uint64_t d, uint64_t e) {
    return numbers[0] == a && numbers[1] == b && numbers[2] == c && numbers[3] == d && numbers[4] == e;
}

/* Whether an attribute is that of a field of a file. */
static bool is_field(const uint64_t attribute[LAS_ATTRIBUTE_NUMBERS], const File *file, const Field *some, size_t i) {
    return are(attribute, some[i].type, size_of(some[i]), file->offset + file->fixed + sizes_of(some, i), file->record, POINTS);
}

/* Whether an attribute is found by so many bytes of a name, and is that of a field; FIELDS for none. */
static bool finds(const File *file, const Field *some, const void *name, size_t len, size_t i) {
    uint64_t row[3], attribute[LAS_ATTRIBUTE_NUMBERS];
    fill_numbers(row, 3);
    fill_numbers(attribute, LAS_ATTRIBUTE_NUMBERS);
    las_attribute_find(file->bytes, file->len, 5, name, len, attribute, row);
    return i == FIELDS ? told(row, LAS_REFUSED_NAME_NOT_FOUND, 0, 0) && left_numbers(attribute, LAS_ATTRIBUTE_NUMBERS)
                       : told(row, LAS_OK, 0, 0) && is_field(attribute, file, some, i);
}

/* Every attribute of a file, one after the other. */
static void test_in_turn(const File *file, const Field *some, size_t count) {
    uint64_t row[3], span[2], place[LAS_ATTRIBUTES_NUMBERS], attribute[LAS_ATTRIBUTE_NUMBERS];
    const uint8_t *s = file->bytes;
    size_t at = file->data[DESCRIBED], values = file->offset + file->fixed;
    fill_numbers(row, 3);
    las_attributes(s, file->len, 5, place, row);
    CHECK(told(row, LAS_OK, count, 0) && are(place, at, count, values, file->record, POINTS));
    for (size_t i = 0; i < count; i++) {
        fill_numbers(attribute, LAS_ATTRIBUTE_NUMBERS);
        fill_numbers(span, 2);
        CHECK(las_attributes_next(s, file->len, place, attribute, span) && is_field(attribute, file, some, i));
        CHECK(spans(span, at + DESCRIPTOR * i, DESCRIPTOR));
        values += size_of(some[i]);
        CHECK(are(place, at + DESCRIPTOR * (i + 1), count - i - 1, values, file->record, POINTS));
    }
    fill_numbers(attribute, LAS_ATTRIBUTE_NUMBERS);
    fill_numbers(span, 2);
    CHECK(!las_attributes_next(s, file->len, place, attribute, span) && left_numbers(attribute, LAS_ATTRIBUTE_NUMBERS));
    CHECK(left_numbers(span, 2) && are(place, at + DESCRIPTOR * count, 0, values, file->record, POINTS));
}

/* The number that the bytes of a value are, of more than eight the first eight. */
static uint64_t bits_at(const uint8_t *value, size_t size) {
    return number_at(value, size < 8 ? size : 8);
}

/* Whether the value in a point of a file of so many bytes, and the column of that point alone, are at this place; 0 where they are
 * refused, with the count that the attribute says, and span and entry are left. */
static bool stands(const uint8_t *file, size_t len, const uint64_t attribute[LAS_ATTRIBUTE_NUMBERS], uint64_t point, size_t at) {
    uint64_t row[3], span[2], entry[1], size = attribute[LAS_ATTRIBUTE_SIZE];
    fill_numbers(row, 3);
    fill_numbers(span, 2);
    fill_numbers(entry, 1);
    las_attribute_value(file, len, attribute, point, span, row);
    if (at == 0) {
        bool refused = told(row, LAS_REFUSED_INDEX, attribute[LAS_ATTRIBUTE_COUNT], 0) && left_numbers(span, 2);
        las_attribute_column(file, len, attribute, point, 1, entry, 0, row);
        return told(row, LAS_REFUSED_INDEX, attribute[LAS_ATTRIBUTE_COUNT], 0) && refused && left_numbers(entry, 1);
    }
    uint64_t bits = bits_at(file + at, (size_t)size);
    bool same = told(row, LAS_OK, bits, 0) && spans(span, at, size);
    las_attribute_column(file, len, attribute, point, 1, entry, 1, row);
    return told(row, LAS_OK, 1, 0) && same && entry[0] == bits;
}

/* Every stretch around the points, with more and less room, against the bytes of the file. */
static void test_column(const File *file, const uint64_t attribute[LAS_ATTRIBUTE_NUMBERS]) {
    static const uint64_t far[] = {0, 1, 2, 3, 4, 5, UINT64_MAX - 1, UINT64_MAX};
    enum { FAR = sizeof far / sizeof *far, ENTRIES = 5 };
    uint64_t row[3], dst[ENTRIES];
    fill_numbers(row, 3);
    for (size_t i = 0; i < FAR * FAR * (ENTRIES + 1); i++) {
        uint64_t first = far[i % FAR], count = far[i / FAR % FAR];
        size_t room = i / FAR / FAR, filled = 0;
        fill_numbers(dst, ENTRIES);
        las_attribute_column(file->bytes, file->len, attribute, first, count, dst, room, row);
        if (first < 1 || first > POINTS + 1 || count > POINTS + 1 - first) {
            CHECK(told(row, LAS_REFUSED_INDEX, POINTS, 0));
        } else if (room < count) {
            CHECK(told(row, LAS_REFUSED_NO_ROOM, count, 0));
        } else {
            CHECK(told(row, LAS_OK, count, 0));
            filled = (size_t)count;
        }
        for (size_t k = 0; k < filled; k++) {
            size_t at = (size_t)attribute[LAS_ATTRIBUTE_AT] + file->record * ((size_t)first - 1 + k);
            CHECK(dst[k] == bits_at(file->bytes + at, (size_t)attribute[LAS_ATTRIBUTE_SIZE]));
        }
        CHECK(left_numbers(dst + filled, ENTRIES - filled));
    }
}

/* Every value of every attribute, by its place in the file and as that part of the extra bytes that the walker's record has. */
static void test_values(const File *file, const Field *some, size_t count) {
    uint64_t row[3], span[2], place[LAS_ATTRIBUTES_NUMBERS], walk[LAS_PLACE_NUMBERS], numbers[LAS_POINT_NUMBERS];
    uint64_t attribute[LAS_ATTRIBUTE_NUMBERS];
    las_attributes(file->bytes, file->len, 5, place, row);
    for (size_t i = 0; i < count; i++) {
        CHECK(las_attributes_next(file->bytes, file->len, place, attribute, span));
        las_file_walker(file->bytes, file->len, 5, walk);
        for (uint64_t point = 1; point <= POINTS; point++) {
            las_file_record(file->bytes, file->len, walk, span);
            size_t at = (size_t)span[LAS_SPAN_START] + file->fixed + sizes_of(some, i);
            CHECK(stands(file->bytes, file->len, attribute, point, at));
            las_file_next(file->bytes, file->len, walk, row, numbers);
            CHECK(row[LAS_ROW_NUMBER] == LAS_OK);
        }
        CHECK(stands(file->bytes, file->len, attribute, 0, 0) && stands(file->bytes, file->len, attribute, POINTS + 1, 0));
        CHECK(stands(file->bytes, file->len, attribute, UINT64_MAX, 0));
        CHECK(stands(file->bytes, file->len, attribute, (UINT64_C(1) << 32) + 1, 0));
        attribute[LAS_ATTRIBUTE_DATA_TYPE] += 256; /* the type is not looked at */
        test_column(file, attribute);
    }
}

/* Every name, of equal ones the first, by its bytes, by its bytes and zeros, and not by others. */
static void test_names(const File *file, const Field *some, size_t count) {
    for (size_t i = 0; i < count; i++) {
        uint8_t name[33] = {0};
        size_t len = strlen(some[i].name) < 32 ? strlen(some[i].name) : 32, first = 0;
        memcpy(name, some[i].name, len);
        while (strcmp(some[first].name, some[i].name) != 0) {
            first++;
        }
        for (size_t n = 0; n <= 33; n++) {
            bool empty = n == 0 && count == FIELDS; /* the name of the field with none */
            CHECK(finds(file, some, name, n, n == 33 ? FIELDS : n >= len ? first : empty ? 1 : FIELDS));
        }
        name[31] ^= 1;
        CHECK(finds(file, some, name, 32, FIELDS));
        name[31] ^= 1;
        name[len < 31 ? 31 : 0] ^= 0x20; /* a blank behind the name, or a capital */
        CHECK(finds(file, some, name, 32, FIELDS));
    }
}

/* Files with two fields and with many, in every format, with no more extra bytes than theirs and with some. */
static void test_every_attribute(void) {
    static File file;
    static const Field two[2] = {{"reflectance", 4, 0}, {"deviation", 9, 0}};
    for (uint8_t format = 0; format <= 10; format++) {
        for (size_t more = 0; more <= 3; more += 3) {
            make_fields(&file, format, sizes_of(two, 2) + more, two, 2);
            test_in_turn(&file, two, 2);
            test_names(&file, two, 2);
            test_values(&file, two, 2);
            make_fields(&file, format, sizes_of(fields, FIELDS) + more, fields, FIELDS);
            test_in_turn(&file, fields, FIELDS);
            test_names(&file, fields, FIELDS);
            test_values(&file, fields, FIELDS);
        }
    }
    /* no bytes of descriptors are a multiple of 192, and no name is found in them */
    make_fields(&file, 6, 0, fields, 0);
    test_in_turn(&file, fields, 0);
    CHECK(finds(&file, fields, nothing, 0, FIELDS) && finds(&file, fields, "reflectance", 11, FIELDS));
}

/* Whether a file of so many bytes is refused with these numbers, and place and attribute are left. */
static bool refuses(const File *file, size_t len, uint64_t allowance, uint64_t number, uint64_t value, uint64_t record) {
    uint64_t row[3], place[LAS_ATTRIBUTES_NUMBERS], attribute[LAS_ATTRIBUTE_NUMBERS];
    fill_numbers(row, 3);
    fill_numbers(place, LAS_ATTRIBUTES_NUMBERS);
    fill_numbers(attribute, LAS_ATTRIBUTE_NUMBERS);
    las_attributes(file->bytes, len, allowance, place, row);
    bool same = told(row, number, value, record) && left_numbers(place, LAS_ATTRIBUTES_NUMBERS);
    const char *names[2] = {"reflectance", "no such name"};
    for (size_t i = 0; i < 2; i++) {
        las_attribute_find(file->bytes, len, allowance, (const uint8_t *)names[i], strlen(names[i]), attribute, row);
        same = same && told(row, number, value, record) && left_numbers(attribute, LAS_ATTRIBUTE_NUMBERS);
    }
    return same;
}

/* "Refusals, in order: file check; no such VLR; data not a multiple of 192; a type above 10; sizes adding up to more than the extra
 * bytes; name not found": each breaks later rules too. */
static void test_refusals(void) {
    static File file;
    static uint8_t data[FIELDS * DESCRIPTOR];
    const size_t sum = sizes_of(fields, FIELDS);
    describe(data, fields, FIELDS);
    data[2] = 11;
    make_described(&file, 7, 1, data, 193);
    CHECK(refuses(&file, 3, 5, LAS_REFUSED_SHORT, 4, 0));
    CHECK(refuses(&file, file.offset + file.record, 5, LAS_REFUSED_POINT_EXTENT, POINTS, 0));
    CHECK(refuses(&file, file.len, 0, LAS_REFUSED_ALLOWANCE, 0, 1) && refuses(&file, file.len, 4, LAS_REFUSED_ALLOWANCE, 4, 5));

    /* only an EVLR has the ids; a VLR has but one of them */
    const Record none[3] = {{"LASF_Spec", 3, data, 1}, {"LASF_SPEC", 4, data, 1}, {"LASF_Spec\0 ", 4, data, 1}};
    for (size_t count = 0; count <= 3; count++) {
        describe(data, fields, FIELDS);
        make(&file, 7, sum, none, count, (Record){"LASF_Spec", 4, data, sizeof data});
        CHECK(refuses(&file, file.len, 4, LAS_REFUSED_NO_DESCRIPTORS, 0, 0));
    }

    static const size_t lengths[6] = {1, 191, 193, 383, 385, FIELDS * DESCRIPTOR - 1};
    data[2] = 11;
    for (size_t i = 0; i < 6; i++) {
        make_described(&file, 7, 1, data, lengths[i]);
        CHECK(refuses(&file, file.len, 5, LAS_REFUSED_DESCRIPTOR_BYTES, 0, 0));
    }

    for (size_t i = 0; i < FIELDS; i++) {
        for (int type = 11; type <= 255; type += 61) {
            describe(data, fields, FIELDS);
            data[DESCRIPTOR * i + 2] = (uint8_t)type;
            make_described(&file, 7, type == 11 ? 0 : sum + 255, data, sizeof data);
            CHECK(refuses(&file, file.len, 5, LAS_REFUSED_DATA_TYPE, 0, 0));
        }
    }

    for (size_t i = 1; i <= sum; i += 6) {
        make_fields(&file, 7, sum - i, fields, FIELDS);
        CHECK(refuses(&file, file.len, 5, LAS_REFUSED_ATTRIBUTE_SIZES, 0, 0));
    }
}

/* A place made by hand: there is an attribute where a descriptor is in the file, wherever in memory its values would be. */
static void test_made_places(void) {
    static File file;
    make_fields(&file, 3, sizes_of(fields, FIELDS), fields, FIELDS);
    const uint64_t half = UINT64_C(1) << 63, last = file.len - DESCRIPTOR;
    const uint64_t far[] = {0, 1, 2, last - 1, last, last + 1, half - 1, half, UINT64_MAX};
    enum { FAR = sizeof far / sizeof *far };
    for (size_t i = 0; i < FAR * FAR * FAR; i++) {
        uint64_t at = far[i % FAR], left = far[i / FAR % FAR], values = far[i / FAR / FAR];
        uint64_t place[LAS_ATTRIBUTES_NUMBERS] = {at, left, values, UINT64_MAX, 7}, attribute[LAS_ATTRIBUTE_NUMBERS], span[2];
        fill_numbers(attribute, LAS_ATTRIBUTE_NUMBERS);
        fill_numbers(span, 2);
        bool has = las_attributes_next(file.bytes, file.len, place, attribute, span);
        CHECK(has == (left > 0 && at <= last && values < half));
        if (has) {
            const uint8_t *s = file.bytes + at;
            uint64_t size = las_descriptor_size(s[2], s[3]);
            CHECK(are(attribute, s[2], size, values, UINT64_MAX, 7) && spans(span, at, DESCRIPTOR));
            CHECK(are(place, at + DESCRIPTOR, left - 1, values + size, UINT64_MAX, 7));
        } else {
            CHECK(left_numbers(attribute, LAS_ATTRIBUTE_NUMBERS) && left_numbers(span, 2));
            CHECK(are(place, at, left, values, UINT64_MAX, 7));
        }
    }
    uint64_t place[LAS_ATTRIBUTES_NUMBERS] = {0, 1, 0, 1, 1}, attribute[LAS_ATTRIBUTE_NUMBERS], span[2];
    CHECK(!las_attributes_next(file.bytes, 191, place, attribute, span));
    CHECK(!las_attributes_next(nothing, 0, place, attribute, span));
    CHECK(las_attributes_next(file.bytes, 192, place, attribute, span) && spans(span, 0, 192));
}

/* An attribute made by hand: its value is given where its stride could be a record's and all of it is in the file, and else refused
 * with the count that it says. */
static void test_made_attributes(void) {
    static uint8_t file[1000];
    for (size_t i = 0; i < sizeof file; i++) {
        file[i] = (uint8_t)(i * 37 + i / 7 + 1);
    }
    static const uint64_t half = UINT64_C(1) << 63;
    enum { SIZES = 9, PLACES = 8, STRIDES = 9, NUMBERS = 7, COUNTS = 4 };
    const uint64_t sizes[SIZES] = {0, 1, 8, 9, 255, 1000, 1001, half, UINT64_MAX};
    const uint64_t places[PLACES] = {1, 500, 992, 999, 1000, 1001, half, UINT64_MAX};
    const uint64_t strides[STRIDES] = {0, 1, 19, 20, 333, 65535, 65536, half, UINT64_MAX};
    const uint64_t points[NUMBERS] = {0, 1, 2, 3, half, half + 1, UINT64_MAX}, counts[COUNTS] = {0, 1, 3, UINT64_MAX};
    for (size_t i = 0; i < SIZES * PLACES * STRIDES * NUMBERS * COUNTS; i++) {
        size_t j = i / SIZES / PLACES;
        uint64_t size = sizes[i % SIZES], at = places[i / SIZES % PLACES], stride = strides[j % STRIDES];
        uint64_t point = points[j / STRIDES % NUMBERS], count = counts[j / STRIDES / NUMBERS];
        const uint64_t attribute[LAS_ATTRIBUTE_NUMBERS] = {i, size, at, stride, count};
        /* the strides behind the first, by additions that end before they could wrap */
        bool is = point >= 1 && point <= count && stride >= 20 && stride <= 65535 && at <= 1000;
        for (uint64_t k = 1; is && k < point; k++) {
            at += stride;
            is = at <= 1000;
        }
        is = is && size <= 1000 - at;
        CHECK(stands(file, 1000, attribute, point, is ? (size_t)at : 0));
    }
    /* a column whose last value is not all there is refused whole, and an empty one has no value that could be outside */
    uint64_t row[3], dst[3];
    const uint64_t attribute[LAS_ATTRIBUTE_NUMBERS] = {7, 8, 700, 147, 3};
    fill_numbers(row, 3);
    fill_numbers(dst, 3);
    las_attribute_column(file, 1000, attribute, 1, 3, dst, 3, row);
    CHECK(told(row, LAS_REFUSED_INDEX, 3, 0) && left_numbers(dst, 3));
    las_attribute_column(nothing, 0, attribute, 4, 0, dst, 3, row);
    CHECK(told(row, LAS_OK, 0, 0) && left_numbers(dst, 3));
    las_attribute_column(file, 1000, attribute, 1, 2, dst, 3, row);
    CHECK(told(row, LAS_OK, 2, 0) && dst[0] == number_at(file + 700, 8) && dst[1] == number_at(file + 847, 8));
    CHECK(left_numbers(dst + 2, 1));
}

/* The first VLR with its ids, by every length of a user id; an EVLR is none. */
static void test_first_vlr(void) {
    static File file;
    static const uint8_t data[300] = {1, 2, 3};
    const Record vlrs[8] = {{"LASF_Spec", 4, data, 7},
                            {"", 4, data, 0},
                            {"LASF_Spec", 4, data, 9},
                            {"LASF_Projection", 34735, data, 300},
                            {"LASF_Projection", 34736, data, 8},
                            {"sixteen bytes it", 1, data, 1},
                            {"sixteen bytes i", 1, data, 2},
                            {"LASF_Spec\0x", 65535, data, 3}};
    make(&file, 0, 1, vlrs, 8, (Record){"an EVLR", 4, data, 5});
    uint64_t row[3], span[2];
    fill_numbers(row, 3);
    for (size_t i = 0; i <= 8; i++) {
        uint8_t user[17] = "an EVLR";
        if (i < 8) {
            memcpy(user, vlrs[i].user, 16);
        }
        for (size_t n = 0; n <= 17; n++) {
            for (size_t k = 0; k < 8; k++) {
                uint8_t filled[16] = {0};
                memcpy(filled, user, n < 16 ? n : 16);
                size_t first = n == 17 ? 8 : 0;
                while (first < 8 && (memcmp(vlrs[first].user, filled, 16) != 0 || vlrs[first].id != vlrs[k].id)) {
                    first++;
                }
                fill_numbers(span, 2);
                las_vlr_first(file.bytes, file.len, 9, user, n, vlrs[k].id, span, row);
                CHECK(told(row, LAS_OK, first < 8 ? 1 : 0, 0));
                CHECK(first < 8 ? spans(span, file.data[first], vlrs[first].len) : left_numbers(span, 2));
            }
        }
    }
    fill_numbers(span, 2);
    las_vlr_first(file.bytes, file.len, 8, (const uint8_t *)"LASF_Spec", 9, 4, span, row);
    CHECK(told(row, LAS_REFUSED_ALLOWANCE, 8, 9) && left_numbers(span, 2));
    las_vlr_first(nothing, 0, 8, nothing, 0, 4, span, row);
    CHECK(told(row, LAS_REFUSED_SHORT, 4, 0) && left_numbers(span, 2));
}

void test_attributes(void) {
    test_every_attribute();
    test_refusals();
    test_made_places();
    test_made_attributes();
    test_first_vlr();
}
