/* What the test program goes by: facts that are counted, rows and buffers that show what was left. */
#ifndef CHECK_H
#define CHECK_H

#include <stdbool.h>
#include <stddef.h>
#include <stdint.h>

#include "inscjarol.h"

/* A fact; one that does not hold is printed with its place, and makes the program fail. */
#define CHECK(fact) check((fact), #fact, __FILE__, __LINE__)
void check(bool holds, const char *fact, const char *file, int line);

/* Whether a row has these numbers. The row is then filled with numbers that no answer has, so that the next call has to
 * write it whole. */
bool told(uint64_t row[3], uint64_t number, uint64_t value, uint64_t record);

/* Whether a span has these numbers; it is then filled likewise. */
bool spans(uint64_t span[2], uint64_t start, uint64_t length);

/* Fills bytes with one that stands for memory of the caller, and tells whether they still are; numbers likewise. */
void fill_bytes(uint8_t *bytes, size_t len);
bool left_bytes(const uint8_t *bytes, size_t len);
void fill_numbers(uint64_t *numbers, size_t len);
bool left_numbers(const uint64_t *numbers, size_t len);

/* The address of an empty slice. */
extern uint8_t nothing[1];

/* The little-endian number of so many bytes. */
uint64_t number_at(const uint8_t *bytes, size_t len);

/* The bits of a float and of a double. */
uint64_t float_bits(float value);
uint64_t double_bits(double value);

/* A header of a version and a point format, with no points, all else as small as can be; and its texts. */
void new_header(uint64_t numbers[51], uint8_t minor, uint8_t format);
extern const uint8_t guid[16], system_identifier[32], software[32];

/* The tests of each part of the header. */
void test_formats(void);
void test_layouts(void);
void test_flags(void);
void test_angles(void);
void test_points(void);
void test_vlrs(void);
void test_descriptors(void);
void test_headers(void);
void test_files(void);
void test_columns(void);
void test_attributes(void);
void test_keys(void);

void test_sheet(void);

void test_findings(void);
void test_append(void);
void test_reclassify(void);
void test_conversion(void);
void test_migration(void);

/* A whole small file of version 1.4, with every kind of part, into dst; its bytes. */
size_t make_file(uint8_t *dst, size_t dst_len);

#endif
