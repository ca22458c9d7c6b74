/* Coordinate keys: each key of a directory, every refusal in its order, and a directory written. */
#include <string.h>

#include "check.h"

enum { MOST = 8190, KEYS = 5, DOUBLES = 3, TEXT = 10 };

/* The keys of the tests, four numbers each. */
static const uint16_t given[4 * KEYS] = {
    1024, 0,     1, 1,     /* a number */
    1026, 34737, 7, 3,     /* text up to its end */
    2057, 34736, 2, 1,     /* doubles up to their end */
    2059, 34736, 0, 3,     /* none of them, behind the last */
    3072, 0,     9, 32632, /* a number, whose count is not looked at */
};

/* A file as the tests want it: its directory as numbers, how many bytes of them and of zeros behind them it has, which records
 * there are, and how many bytes the two others have. */
typedef struct {
    uint16_t numbers[4 + 4 * KEYS];
    size_t bytes;
    bool directory, doubles, text;
    size_t doubles_bytes, text_bytes;
} Asked;

static Asked asked(void) {
    Asked a = {{1, 1, 0, KEYS}, 8 + 8 * KEYS, true, true, true, 8 * DOUBLES, TEXT};
    memcpy(a.numbers + 4, given, sizeof given);
    return a;
}

/* A VLR to dst; its bytes. */
static size_t put_vlr(uint8_t *dst, size_t dst_len, const char *user, uint16_t id, const uint8_t *data, size_t len) {
    uint64_t row[3];
    const uint64_t numbers[LAS_VLR_NUMBERS] = {0, id, len};
    uint8_t user_id[16] = {0}, description[32] = {0};
    memcpy(user_id, user, strlen(user));
    las_vlr_write(false, numbers, user_id, description, data, len, dst, dst_len, row);
    CHECK(told(row, LAS_OK, 54 + len, 0));
    return 54 + len;
}

enum { DIRECTORY_AT, DOUBLES_AT, TEXT_AT, END };

/* The file, with records of others and second ones, which do not count; where the data of each record starts, 0 where there is
 * none, and where the file ends. */
static void make_keys(const Asked *a, uint8_t *dst, size_t dst_len, size_t at[4]) {
    uint64_t row[3], numbers[LAS_HEADER_NUMBERS];
    uint8_t data[8 + 8 * KEYS + 8] = {0}, other[64];
    memset(other, 0x77, sizeof other);
    for (size_t i = 0; i < 4 + 4 * KEYS; i++) {
        data[2 * i] = (uint8_t)(a->numbers[i] % 256);
        data[2 * i + 1] = (uint8_t)(a->numbers[i] / 256);
    }
    memset(dst, 0xB0, dst_len);
    memset(at, 0, 4 * sizeof *at);
    size_t end = 375;
    uint32_t vlrs = 2;
    end += put_vlr(dst + end, dst_len - end, "LASF_Projectio", 34735, other, 16);
    end += put_vlr(dst + end, dst_len - end, "LASF_Projection", 34734, other, 16);
    if (a->text) {
        at[TEXT_AT] = end + 54;
        end += put_vlr(dst + end, dst_len - end, "LASF_Projection", 34737, other, a->text_bytes);
        vlrs++;
    }
    if (a->directory) {
        at[DIRECTORY_AT] = end + 54;
        end += put_vlr(dst + end, dst_len - end, "LASF_Projection", 34735, data, a->bytes);
        end += put_vlr(dst + end, dst_len - end, "LASF_Projection", 34735, other, 16);
        vlrs += 2;
    }
    if (a->doubles) {
        at[DOUBLES_AT] = end + 54;
        end += put_vlr(dst + end, dst_len - end, "LASF_Projection", 34736, other, a->doubles_bytes);
        end += put_vlr(dst + end, dst_len - end, "LASF_Projection", 34736, other, 64);
        vlrs += 2;
    }
    new_header(numbers, 4, 0);
    numbers[LAS_HEADER_POINT_OFFSET] = end;
    numbers[LAS_HEADER_NUMBER_OF_VLRS] = vlrs;
    las_header_write(numbers, guid, system_identifier, software, nothing, 0, dst, 375, row);
    CHECK(told(row, LAS_OK, 375, 0));
    at[END] = end;
}

static uint8_t file[4096];

/* Whether a key has these numbers; they are then filled with others. */
static bool is_key(uint64_t key[LAS_KEY_NUMBERS], uint64_t name, uint64_t location, uint64_t value, uint64_t start,
                   uint64_t length) {
    bool same = key[LAS_KEY_KEY] == name && key[LAS_KEY_LOCATION] == location && key[LAS_KEY_VALUE] == value &&
                key[LAS_KEY_START] == start && key[LAS_KEY_LENGTH] == length;
    fill_numbers(key, LAS_KEY_NUMBERS);
    return same;
}

/* Whether key k is the one that was given. */
static bool as_given(uint64_t key[LAS_KEY_NUMBERS], size_t k, const size_t at[4]) {
    const uint16_t *g = given + 4 * k;
    return g[1] == 0       ? is_key(key, g[0], 0, g[3], 0, 0)
           : g[1] == 34736 ? is_key(key, g[0], 34736, 0, at[DOUBLES_AT] + 8 * (size_t)g[3], 8 * (size_t)g[2])
                           : is_key(key, g[0], 34737, 0, at[TEXT_AT] + g[3], g[2]);
}

/* Each key in turn and by itself, and none that is not there. */
static void test_found(void) {
    uint64_t row[3], keys[LAS_KEYS_NUMBERS], key[LAS_KEY_NUMBERS];
    size_t at[4];
    Asked a = asked();
    fill_numbers(row, 3);
    fill_numbers(key, LAS_KEY_NUMBERS);
    make_keys(&a, file, sizeof file, at);
    las_keys(file, at[END], UINT64_MAX, keys, row);
    CHECK(told(row, LAS_OK, KEYS, 0));
    CHECK(keys[LAS_KEYS_COUNT] == KEYS && keys[LAS_KEYS_DIRECTORY] == at[DIRECTORY_AT] && keys[LAS_KEYS_BYTES] == a.bytes &&
          keys[LAS_KEYS_DOUBLES] == at[DOUBLES_AT] && keys[LAS_KEYS_TEXT] == at[TEXT_AT]);
    for (size_t k = 0; k < 65536; k++) {
        CHECK(las_keys_at(file, at[END], keys, (uint16_t)k, key) ? k < KEYS && as_given(key, k, at)
                                                                 : k >= KEYS && left_numbers(key, LAS_KEY_NUMBERS));
    }
    for (size_t name = 0; name < 65536; name++) {
        size_t k = 0;
        while (k < KEYS && given[4 * k] != name) {
            k++;
        }
        bool found = las_keys_find(file, at[END], keys, (uint16_t)name, key);
        CHECK(found ? k < KEYS && as_given(key, k, at) : k == KEYS && left_numbers(key, LAS_KEY_NUMBERS));
        las_key(file, at[END], UINT64_MAX, (uint16_t)name, key, row);
        if (k < KEYS) {
            CHECK(told(row, LAS_OK, 0, 0) && as_given(key, k, at));
        } else {
            CHECK(told(row, LAS_REFUSED_KEY_NOT_FOUND, 0, 0) && left_numbers(key, LAS_KEY_NUMBERS));
        }
    }

    /* numbers made by hand: of the count the low bits count, and no value is told that would end beyond the file */
    keys[LAS_KEYS_COUNT] += 65536;
    CHECK(las_keys_at(file, at[END], keys, 4, key) && as_given(key, 4, at));
    CHECK(!las_keys_at(file, at[END], keys, 5, key) && left_numbers(key, LAS_KEY_NUMBERS));
    keys[LAS_KEYS_DOUBLES] = at[END] - 8 * DOUBLES + 1;
    CHECK(!las_keys_at(file, at[END], keys, 2, key) && left_numbers(key, LAS_KEY_NUMBERS));
    keys[LAS_KEYS_DOUBLES] = UINT64_MAX;
    CHECK(!las_keys_find(file, at[END], keys, 2057, key) && left_numbers(key, LAS_KEY_NUMBERS));
    keys[LAS_KEYS_DIRECTORY] = UINT64_MAX;
    CHECK(!las_keys_find(file, at[END], keys, 1024, key) && left_numbers(key, LAS_KEY_NUMBERS));
}

/* What opening and asking answer of a file, for a key that is there and one that is not: the same refusal, or the count. */
static void test_refused(const Asked *a, uint64_t refusal, int line) {
    uint64_t row[3], keys[LAS_KEYS_NUMBERS], key[LAS_KEY_NUMBERS];
    size_t at[4];
    fill_numbers(row, 3);
    fill_numbers(keys, LAS_KEYS_NUMBERS);
    fill_numbers(key, LAS_KEY_NUMBERS);
    make_keys(a, file, sizeof file, at);
    las_keys(file, at[END], UINT64_MAX, keys, row);
    check(refusal == LAS_OK ? told(row, LAS_OK, a->numbers[3], 0)
                            : told(row, refusal, 0, 0) && left_numbers(keys, LAS_KEYS_NUMBERS),
          "keys are opened or refused", __FILE__, line);
    las_key(file, at[END], UINT64_MAX, 1024, key, row);
    check(refusal == LAS_OK ? told(row, LAS_OK, 0, 0)
                            : told(row, refusal, 0, 0) && left_numbers(key, LAS_KEY_NUMBERS),
          "a key is given or refused", __FILE__, line);
    las_key(file, at[END], UINT64_MAX, 1025, key, row);
    check(told(row, refusal == LAS_OK ? LAS_REFUSED_KEY_NOT_FOUND : refusal, 0, 0), "a key that is absent", __FILE__, line);
    /* the file check's refusal comes first, with its record number */
    las_key(file, at[END], 1, 1024, key, row);
    check(told(row, LAS_REFUSED_ALLOWANCE, 1, 2), "the file check comes first", __FILE__, line);
}

#define REFUSED(a, refusal) test_refused((a), (refusal), __LINE__)

/* Each refusal at its limit, and each before those that come after it: a later fault stands in an earlier entry. */
static void test_refusals(void) {
    Asked a = asked();
    REFUSED(&a, LAS_OK);
    a.bytes += 8; /* more is fine, and the first three numbers are not looked at, nor the count at location 0 */
    a.numbers[0] = a.numbers[1] = a.numbers[2] = a.numbers[6] = 65535;
    REFUSED(&a, LAS_OK);

    a = asked();
    a.numbers[7] = 7; /* the value of key 1024 */
    a.doubles_bytes = 8 * DOUBLES - 1;
    REFUSED(&a, LAS_REFUSED_TARGET_BEYOND);
    a.doubles_bytes = 8 * DOUBLES;
    a.text_bytes = TEXT - 1;
    REFUSED(&a, LAS_REFUSED_TARGET_BEYOND);
    a.text_bytes = TEXT;
    a.numbers[4 + 4 * 3 + 3] = 4; /* no doubles, but from beyond their end on */
    REFUSED(&a, LAS_REFUSED_TARGET_BEYOND);
    a.numbers[4 + 4 * 1 + 2] = 65535;
    a.doubles = false; /* whatever the count */
    REFUSED(&a, LAS_REFUSED_TARGET_ABSENT);
    a.doubles = true;
    a.text = false;
    REFUSED(&a, LAS_REFUSED_TARGET_ABSENT);
    a.numbers[4 + 4 * 4 + 1] = 34738;
    REFUSED(&a, LAS_REFUSED_UNKNOWN_LOCATION);
    a.numbers[4 + 4 * 4 + 1] = 34735;
    REFUSED(&a, LAS_REFUSED_UNKNOWN_LOCATION);
    a.numbers[4 + 4 * 4] = 2059;
    REFUSED(&a, LAS_REFUSED_KEYS_NOT_RISING);
    a.numbers[4 + 4 * 4] = 0;
    REFUSED(&a, LAS_REFUSED_KEYS_NOT_RISING);
    a.bytes -= 1;
    REFUSED(&a, LAS_REFUSED_DIRECTORY_SHORT);
    a.bytes = 8;
    REFUSED(&a, LAS_REFUSED_DIRECTORY_SHORT);
    a.bytes = 7;
    REFUSED(&a, LAS_REFUSED_DIRECTORY_SHORT);
    a.numbers[3] = 0;
    REFUSED(&a, LAS_REFUSED_DIRECTORY_SHORT);
    a.bytes = 0;
    REFUSED(&a, LAS_REFUSED_DIRECTORY_SHORT);
    a.directory = false;
    REFUSED(&a, LAS_REFUSED_NO_DIRECTORY);
}

/* A directory written, number by number; what it leaves, and its refusals in their order. */
static void test_written(void) {
    static uint16_t many[4 * (MOST + 1) + 3];
    static uint8_t dst[8 + 8 * MOST + 8];
    uint64_t row[3];
    fill_numbers(row, 3);
    for (size_t i = 0; i < sizeof many / sizeof *many; i++) {
        many[i] = (uint16_t)(i % 4 == 0 ? i / 4 * 8 + 1 : 40000 + i);
    }
    const size_t counts[] = {0, 1, 2, 5, MOST - 1, MOST};
    for (size_t i = 0; i < sizeof counts / sizeof *counts; i++) {
        for (size_t over = 0; over < 4; over++) {
            size_t n = counts[i], bytes = 8 + 8 * n;
            fill_bytes(dst, sizeof dst);
            las_keys_write(many, 4 * n + over, dst, bytes - 1, row);
            CHECK(told(row, LAS_REFUSED_NO_ROOM, bytes, 0) && left_bytes(dst, sizeof dst));
            las_keys_write(many, 4 * n + over, dst, bytes + over, row);
            CHECK(told(row, LAS_OK, bytes, 0) && left_bytes(dst + bytes, sizeof dst - bytes));
            CHECK(number_at(dst, 2) == 1 && number_at(dst + 2, 2) == 1 && number_at(dst + 4, 2) == 0);
            CHECK(number_at(dst + 6, 2) == n);
            for (size_t k = 0; k < 4 * n; k++) {
                CHECK(number_at(dst + 8 + 2 * k, 2) == many[k]);
            }
        }
    }

    fill_bytes(dst, sizeof dst);
    las_keys_write(many, 4 * (MOST + 1), dst, 0, row);
    CHECK(told(row, LAS_REFUSED_TOO_MANY_KEYS, 0, 0));
    many[4 * MOST] = many[4 * (MOST - 1)];
    las_keys_write(many, 4 * (MOST + 1), dst, 0, row);
    CHECK(told(row, LAS_REFUSED_KEYS_NOT_RISING, 0, 0));
    las_keys_write(many, 4 * MOST + 3, dst, sizeof dst - 9, row); /* a rest is no key, so that it need not rise */
    CHECK(told(row, LAS_REFUSED_NO_ROOM, 8 + 8 * MOST, 0));
    many[4] = 0;
    las_keys_write(many, 8, dst, sizeof dst, row);
    CHECK(told(row, LAS_REFUSED_KEYS_NOT_RISING, 0, 0) && left_bytes(dst, sizeof dst));

    /* what is written is read, each key as it was given */
    uint64_t keys[LAS_KEYS_NUMBERS], key[LAS_KEY_NUMBERS];
    size_t at[4];
    Asked a = asked();
    make_keys(&a, file, sizeof file, at);
    memset(file + at[DIRECTORY_AT], 0, a.bytes);
    las_keys_write(given, 4 * KEYS, file + at[DIRECTORY_AT], a.bytes, row);
    CHECK(told(row, LAS_OK, a.bytes, 0));
    las_keys(file, at[END], UINT64_MAX, keys, row);
    CHECK(told(row, LAS_OK, KEYS, 0));
    for (uint16_t k = 0; k < KEYS; k++) {
        CHECK(las_keys_at(file, at[END], keys, k, key) && as_given(key, k, at));
    }
}

void test_keys(void) {
    test_found();
    test_refusals();
    test_written();
}
