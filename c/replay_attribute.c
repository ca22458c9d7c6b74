/* Repeats the list of attributes in c/replay_attribute: of each line of questions it makes a file with descriptors, tells its attributes,
 * finds one by its name, takes its value and its column, finds the first VLR, reads a descriptor and writes it, and prints a line of
 * answers. oracle/src/replay_attribute.rs makes the list, and says what stands in a line. */
#include <inttypes.h>
#include <stdio.h>
#include <stdlib.h>
#include <string.h>

#include "inscjarol.h"
#include "replay_frame.h"

/* The numbers of a question, behind those of its file. */
enum {
    SIZE = FRAME,
    ALLOWANCE,
    SUCH,
    DATA,
    LAST,
    ID,
    TYPES,
    OPTIONS,
    NAMES,
    NAME,
    NAME_LEN,
    POINT,
    FIRST,
    COUNT,
    ROOM,
    SPACE,
    NUMBERS
};

/* No file of the list is longer, and no destination has more entries or bytes. */
enum { MOST = 8192, MOST_ENTRIES = 64, MOST_BYTES = 256 };

/* What lent numbers and bytes are before a call, and how many entries or bytes there are past a room. */
enum { BEFORE = 0xA5, SPARE = 2 };

/* The bit that marks the records after the points. */
enum { LATER = 256 };

/* The bytes of a name, of which a question takes the front. */
enum { NAME_BYTES = 33 };

static const char user[16] = "LASF_Spec";

static uint8_t file[MOST];

/* One of eight bytes. */
static uint64_t byte(uint64_t bytes, uint64_t k) {
    return bytes >> 8 * k & 0xFF;
}

/* The name that a byte stands for. */
static void make_name(uint64_t code, uint8_t name[NAME_BYTES]) {
    memset(name, 0, NAME_BYTES);
    if (code % 16 > 0) {
        name[0] = (uint8_t)('a' + code % 16 - 1);
    }
    name[31] = (uint8_t)(code / 16);
}

/* Gives the record whose head is here the user id and the record id. */
static void put_ids(const uint64_t q[NUMBERS], uint64_t at) {
    for (uint64_t k = 0; k < sizeof user; k++) {
        put(file, q[SIZE], at + 2 + k, 1, (uint8_t)user[k]);
    }
    put(file, q[SIZE], at + 17, 1, q[LAST]);
    put(file, q[SIZE], at + 18, 2, q[ID]);
}

/* Makes the file. */
static void make(const uint64_t q[NUMBERS]) {
    const uint64_t size = q[SIZE], told = q[HEADER_SIZE] + 54 * q[VLRS];
    uint8_t name[NAME_BYTES];
    make_frame(file, size, q);
    for (uint64_t k = 0; k < q[VLRS] && k < 8; k++) {
        if ((q[SUCH] >> k & 1) == 1) {
            put_ids(q, q[HEADER_SIZE] + 54 * k);
        }
    }
    if ((q[SUCH] & LATER) != 0 && q[MINOR] == 3 && q[WAVEFORM] > 0) {
        put_ids(q, q[WAVEFORM]);
    }
    for (uint64_t k = 0; (q[SUCH] & LATER) != 0 && q[MINOR] == 4 && k < q[EVLRS] && k < 9; k++) {
        put_ids(q, q[EVLR_START] + 60 * k);
    }
    if (q[VLRS] > 0) {
        put(file, size, told - 54 + 20, 2, q[DATA]);
    }
    for (uint64_t k = 0; k < 8 && k < q[DATA] / LAS_DESCRIPTOR_BYTES; k++) {
        const uint64_t at = told + LAS_DESCRIPTOR_BYTES * k;
        put(file, size, at + 2, 1, byte(q[TYPES], k));
        put(file, size, at + 3, 1, byte(q[OPTIONS], k));
        make_name(byte(q[NAMES], k), name);
        for (uint64_t i = 0; i < 32; i++) {
            put(file, size, at + 4 + i, 1, name[i]);
        }
    }
}

/* The sum over what the calls wrote or left. */
static uint64_t sum;

static void add_bytes(const uint8_t *bytes, uint64_t len) {
    sum = summed(sum, bytes, len);
}

/* Numbers are summed by their bytes. */
static void add(const uint64_t *numbers, uint64_t count) {
    for (uint64_t i = 0; i < count; i++) {
        for (int k = 0; k < 8; k++) {
            const uint8_t low = (uint8_t)(numbers[i] >> 8 * k);
            add_bytes(&low, 1);
        }
    }
}

static void lend(uint64_t *numbers, uint64_t count) {
    for (uint64_t i = 0; i < count; i++) {
        numbers[i] = BEFORE;
    }
}

static void print_row(const uint64_t row[3]) {
    printf("%" PRIu64 " %" PRIu64 " %" PRIu64 " ", row[LAS_ROW_NUMBER], row[LAS_ROW_VALUE], row[LAS_ROW_RECORD]);
}

/* The attributes, one after the other. */
static void tell_attributes(const uint64_t q[NUMBERS]) {
    uint64_t place[LAS_ATTRIBUTES_NUMBERS], attribute[LAS_ATTRIBUTE_NUMBERS], span[LAS_SPAN_NUMBERS], row[3];
    lend(place, LAS_ATTRIBUTES_NUMBERS);
    las_attributes(file, q[SIZE], q[ALLOWANCE], place, row);
    print_row(row);
    add(place, LAS_ATTRIBUTES_NUMBERS);
    while (las_attributes_next(file, q[SIZE], place, attribute, span)) {
        add(place, LAS_ATTRIBUTES_NUMBERS);
        add(attribute, LAS_ATTRIBUTE_NUMBERS);
        add(span, LAS_SPAN_NUMBERS);
    }
}

/* The attribute of a name, its value and its column; where there is none, those of what is left of an attribute. */
static void tell_named(const uint64_t q[NUMBERS]) {
    uint64_t attribute[LAS_ATTRIBUTE_NUMBERS], span[LAS_SPAN_NUMBERS], dst[MOST_ENTRIES + SPARE], row[3];
    uint8_t name[NAME_BYTES];
    lend(attribute, LAS_ATTRIBUTE_NUMBERS);
    lend(span, LAS_SPAN_NUMBERS);
    lend(dst, MOST_ENTRIES + SPARE);
    make_name(q[NAME], name);
    las_attribute_find(file, q[SIZE], q[ALLOWANCE], name, q[NAME_LEN], attribute, row);
    print_row(row);
    add(attribute, LAS_ATTRIBUTE_NUMBERS);
    las_attribute_value(file, q[SIZE], attribute, q[POINT], span, row);
    print_row(row);
    add(span, LAS_SPAN_NUMBERS);
    las_attribute_column(file, q[SIZE], attribute, q[FIRST], q[COUNT], dst, q[ROOM], row);
    print_row(row);
    add(dst, q[ROOM] + SPARE);
}

/* The first VLR. */
static void tell_vlr(const uint64_t q[NUMBERS]) {
    uint64_t span[LAS_SPAN_NUMBERS], row[3];
    lend(span, LAS_SPAN_NUMBERS);
    las_vlr_first(file, q[SIZE], q[ALLOWANCE], (const uint8_t *)user, strlen(user), 4, span, row);
    print_row(row);
    add(span, LAS_SPAN_NUMBERS);
}

/* The bytes behind the heads of the VLRs, read as a descriptor, which is then written. */
static void tell_descriptor(const uint64_t q[NUMBERS]) {
    uint64_t numbers[LAS_DESCRIPTOR_NUMBERS], row[3];
    uint8_t name[32], deprecated[80], description[32], dst[MOST_BYTES + SPARE];
    uint64_t from = q[HEADER_SIZE] + 54 * q[VLRS], bytes = q[DATA];
    from = from < q[SIZE] ? from : q[SIZE];
    bytes = bytes < q[SIZE] - from ? bytes : q[SIZE] - from;
    lend(numbers, LAS_DESCRIPTOR_NUMBERS);
    memset(name, BEFORE, sizeof name);
    memset(deprecated, BEFORE, sizeof deprecated);
    memset(description, BEFORE, sizeof description);
    memset(dst, BEFORE, sizeof dst);
    las_descriptor_read(file + from, bytes, row, numbers, name, deprecated, description);
    print_row(row);
    add(numbers, LAS_DESCRIPTOR_NUMBERS);
    add_bytes(name, sizeof name);
    add_bytes(deprecated, sizeof deprecated);
    add_bytes(description, sizeof description);
    las_descriptor_write(numbers, name, deprecated, description, dst, q[SPACE], row);
    print_row(row);
    add_bytes(dst, q[SPACE] + SPARE);
}

int main(void) {
    uint64_t q[NUMBERS];
    size_t read = 0;
    while (scanf("%" SCNu64, &q[read]) == 1) {
        if (++read < NUMBERS) {
            continue;
        }
        read = 0;
        if (q[SIZE] > MOST || q[ROOM] > MOST_ENTRIES || q[SPACE] > MOST_BYTES || q[NAME_LEN] > NAME_BYTES) {
            return EXIT_FAILURE;
        }
        make(q);
        sum = NO_BYTES;
        tell_attributes(q);
        tell_named(q);
        tell_vlr(q);
        tell_descriptor(q);
        printf("%" PRIu64 "\n", sum);
    }
    return EXIT_SUCCESS;
}
