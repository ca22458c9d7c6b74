/* Descriptors of extra bytes: every field at the standard's place, both ways, every refusal, and what stays. */
#include <string.h>

#include "check.h"

enum { BYTES = LAS_DESCRIPTOR_BYTES, ROOM = BYTES + 8 };

static const uint8_t name[LAS_DESCRIPTOR_NAME_BYTES] = "reflectance";
static const uint8_t description[LAS_DESCRIPTOR_DESCRIPTION_BYTES] = "of the target, in dB";
static const uint64_t numbers[LAS_DESCRIPTOR_NUMBERS] = {0xAABB, 4, 0x1F, 0x11223344, UINT64_MAX - 1, 2, 3, 4, 5};

/* A descriptor that is lent to a read: numbers and texts of the caller. */
typedef struct {
    uint64_t numbers[LAS_DESCRIPTOR_NUMBERS];
    uint8_t name[LAS_DESCRIPTOR_NAME_BYTES], deprecated[LAS_DESCRIPTOR_DEPRECATED_BYTES],
        description[LAS_DESCRIPTOR_DESCRIPTION_BYTES];
} Lent;

static void fill(Lent *lent) {
    fill_numbers(lent->numbers, LAS_DESCRIPTOR_NUMBERS);
    fill_bytes(lent->name, sizeof lent->name);
    fill_bytes(lent->deprecated, sizeof lent->deprecated);
    fill_bytes(lent->description, sizeof lent->description);
}

static bool left(const Lent *lent) {
    return left_numbers(lent->numbers, LAS_DESCRIPTOR_NUMBERS) && left_bytes(lent->name, sizeof lent->name) &&
           left_bytes(lent->deprecated, sizeof lent->deprecated) && left_bytes(lent->description, sizeof lent->description);
}

static void read_from(const uint8_t *s, size_t len, uint64_t row[3], Lent *lent) {
    fill(lent);
    las_descriptor_read(s, len, row, lent->numbers, lent->name, lent->deprecated, lent->description);
}

/* Each field written is at its place, and read from there. */
static void test_places(void) {
    static const size_t places[LAS_DESCRIPTOR_NUMBERS] = {0, 2, 3, 36, 40, 64, 88, 112, 136};
    static const size_t widths[LAS_DESCRIPTOR_NUMBERS] = {2, 1, 1, 4, 8, 8, 8, 8, 8};
    uint8_t deprecated[LAS_DESCRIPTOR_DEPRECATED_BYTES], dst[ROOM];
    uint64_t row[3];
    Lent lent;
    for (size_t i = 0; i < sizeof deprecated; i++) {
        deprecated[i] = (uint8_t)(i + 100);
    }
    fill_numbers(row, 3);
    fill_bytes(dst, sizeof dst);
    las_descriptor_write(numbers, name, deprecated, description, dst, sizeof dst, row);
    CHECK(told(row, LAS_OK, BYTES, 0) && left_bytes(dst + BYTES, sizeof dst - BYTES));
    for (size_t i = 0; i < LAS_DESCRIPTOR_NUMBERS; i++) {
        CHECK(number_at(dst + places[i], widths[i]) == numbers[i]);
    }
    CHECK(memcmp(dst + 4, name, sizeof name) == 0 && memcmp(dst + 160, description, sizeof description) == 0);
    for (size_t i = 0; i < 5; i++) {
        CHECK(memcmp(dst + 48 + 24 * i, deprecated + 16 * i, 16) == 0);
    }
    read_from(dst, BYTES, row, &lent);
    CHECK(told(row, LAS_OK, BYTES, 0) && memcmp(lent.numbers, numbers, sizeof numbers) == 0);
    CHECK(memcmp(lent.name, name, sizeof name) == 0 && memcmp(lent.deprecated, deprecated, sizeof deprecated) == 0);
    CHECK(memcmp(lent.description, description, sizeof description) == 0);

    /* room for all but a byte; a type above 10 is told first */
    uint64_t wide[LAS_DESCRIPTOR_NUMBERS];
    memcpy(wide, numbers, sizeof wide);
    fill_bytes(dst, sizeof dst);
    las_descriptor_write(wide, name, deprecated, description, dst, BYTES - 1, row);
    CHECK(told(row, LAS_REFUSED_NO_ROOM, BYTES, 0) && left_bytes(dst, sizeof dst));
    static const uint64_t types[4] = {11, 255, 256 + 4, UINT64_MAX};
    for (size_t i = 0; i < 4; i++) {
        wide[LAS_DESCRIPTOR_DATA_TYPE] = types[i];
        las_descriptor_write(wide, name, deprecated, description, dst, i % 2 == 0 ? sizeof dst : 0, row);
        CHECK(told(row, LAS_REFUSED_DATA_TYPE, 0, 0) && left_bytes(dst, sizeof dst));
    }

    /* of the other numbers the low bits count */
    for (size_t i = 0; i < LAS_DESCRIPTOR_NUMBERS; i++) {
        bool whole = widths[i] == 8 || i == LAS_DESCRIPTOR_DATA_TYPE;
        wide[i] = whole ? numbers[i] : numbers[i] + ((uint64_t)7 << (8 * widths[i]));
    }
    las_descriptor_write(wide, name, deprecated, description, dst, BYTES, row);
    CHECK(told(row, LAS_OK, BYTES, 0));
    read_from(dst, BYTES, row, &lent);
    CHECK(told(row, LAS_OK, BYTES, 0) && memcmp(lent.numbers, numbers, sizeof numbers) == 0);
}

/* Any 192 bytes of a type up to 10, read and written, are those bytes, whatever lies past them; any others are refused. */
static void test_bytes(void) {
    uint8_t s[ROOM], dst[ROOM];
    uint64_t row[3];
    Lent lent;
    fill_numbers(row, 3);
    for (unsigned type = 0; type <= 255; type++) {
        for (size_t i = 0; i < sizeof s; i++) {
            s[i] = (uint8_t)(i * 37 + type * 11 + i / 7);
        }
        s[2] = (uint8_t)type;
        read_from(s, BYTES - 1, row, &lent);
        CHECK(told(row, LAS_REFUSED_SHORT, BYTES, 0) && left(&lent));
        read_from(s, BYTES + type % 9, row, &lent);
        if (type > 10) {
            CHECK(told(row, LAS_REFUSED_DATA_TYPE, 0, 0) && left(&lent));
            continue;
        }
        CHECK(told(row, LAS_OK, BYTES, 0));
        fill_bytes(dst, sizeof dst);
        las_descriptor_write(lent.numbers, lent.name, lent.deprecated, lent.description, dst, BYTES + type % 9, row);
        CHECK(told(row, LAS_OK, BYTES, 0) && memcmp(dst, s, BYTES) == 0 && left_bytes(dst + BYTES, sizeof dst - BYTES));
    }
    read_from(nothing, 0, row, &lent);
    CHECK(told(row, LAS_REFUSED_SHORT, BYTES, 0) && left(&lent));
}

/* The bytes of a value of every type, with any options. */
static void test_sizes(void) {
    static const uint64_t sizes[11] = {0, 1, 1, 2, 2, 4, 4, 8, 8, 4, 8};
    for (unsigned type = 0; type <= 255; type++) {
        bool same = true;
        for (unsigned options = 0; options <= 255; options++) {
            uint64_t size = type == 0 ? options : type <= 10 ? sizes[type] : 0;
            same = same && las_descriptor_size((uint8_t)type, (uint8_t)options) == size;
        }
        CHECK(same);
    }
}

void test_descriptors(void) {
    test_places();
    test_bytes();
    test_sizes();
}
