/* Calls every function of the C header and compares what it answers, refuses and leaves with document 01's numbers.
 *
 *   test FILE
 *
 * writes a small file with every kind of part to FILE, for the example to read. */
#include <stdio.h>
#include <stdlib.h>
#include <string.h>

#include "check.h"

static unsigned long checked, failed;

uint8_t nothing[1];

void check(bool holds, const char *fact, const char *file, int line) {
    checked++;
    if (!holds) {
        failed++;
        fprintf(stderr, "%s:%d: %s\n", file, line, fact);
    }
}

bool told(uint64_t row[3], uint64_t number, uint64_t value, uint64_t record) {
    bool same = row[LAS_ROW_NUMBER] == number && row[LAS_ROW_VALUE] == value && row[LAS_ROW_RECORD] == record;
    fill_numbers(row, 3);
    return same;
}

bool spans(uint64_t span[2], uint64_t start, uint64_t length) {
    bool same = span[LAS_SPAN_START] == start && span[LAS_SPAN_LENGTH] == length;
    fill_numbers(span, LAS_SPAN_NUMBERS);
    return same;
}

void fill_bytes(uint8_t *bytes, size_t len) {
    memset(bytes, 0xA5, len);
}

bool left_bytes(const uint8_t *bytes, size_t len) {
    for (size_t i = 0; i < len; i++) {
        if (bytes[i] != 0xA5) {
            return false;
        }
    }
    return true;
}

void fill_numbers(uint64_t *numbers, size_t len) {
    for (size_t i = 0; i < len; i++) {
        numbers[i] = UINT64_MAX;
    }
}

bool left_numbers(const uint64_t *numbers, size_t len) {
    for (size_t i = 0; i < len; i++) {
        if (numbers[i] != UINT64_MAX) {
            return false;
        }
    }
    return true;
}

uint64_t number_at(const uint8_t *bytes, size_t len) {
    uint64_t number = 0;
    while (len > 0) {
        number = number * 256 + bytes[--len];
    }
    return number;
}

uint64_t float_bits(float value) {
    uint32_t bits;
    memcpy(&bits, &value, sizeof bits);
    return bits;
}

uint64_t double_bits(double value) {
    uint64_t bits;
    memcpy(&bits, &value, sizeof bits);
    return bits;
}

int main(int argc, char **argv) {
    if (argc != 2) {
        fprintf(stderr, "usage: test FILE\n");
        return 2;
    }
    test_formats();
    test_layouts();
    test_flags();
    test_angles();
    test_points();
    test_vlrs();
    test_descriptors();
    test_headers();
    test_files();
    test_columns();
    test_attributes();
    test_keys();
    test_sheet();
    test_findings();
    test_append();
    test_reclassify();
    test_conversion();
    test_migration();

    static uint8_t file[4096];
    size_t len = make_file(file, sizeof file);
    FILE *out = fopen(argv[1], "wb");
    CHECK(out != NULL && fwrite(file, 1, len, out) == len && fclose(out) == 0);

    printf("%lu facts checked, %lu failed\n", checked, failed);
    return failed == 0 ? EXIT_SUCCESS : EXIT_FAILURE;
}
