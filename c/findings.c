/* Findings: files of every version with counters, texts and return numbers that are right or wrong, against the rules read off the bytes. */
#include <string.h>

#include "check.h"

enum { POINTS = 5, ROOM = 1200, MOST = 64 };

/* A file: its header's size, and where its points, the record after them and its end are. */
struct made {
    uint8_t bytes[ROOM];
    uint8_t minor, format;
    size_t size, points, each, later, len;
};

/* The next of a row of numbers that are the same in every run. */
static uint32_t some(void) {
    static uint32_t state = 12;
    state = state * 1664525u + 1013904223u;
    return state >> 8;
}

static void put(uint8_t *at, uint64_t number, size_t bytes) {
    for (size_t i = 0; i < bytes; i++) {
        at[i] = (uint8_t)(number >> 8 * i);
    }
}

/* A file of a version in a format, with padding, a VLR, a gap, five points with an extra byte and a gap; then in 1.4 an EVLR, in 1.3 the
 * waveform packets, and a gap. Nothing is wrong with it: every point is the first of one return. */
static void make(struct made *m, uint8_t minor, uint8_t format) {
    static const uint8_t text[32] = "c/findings", data[5] = "12345", padding[8] = "padding";
    const uint64_t vlr[LAS_VLR_NUMBERS] = {0, 1, 5};
    uint64_t row[3], numbers[LAS_HEADER_NUMBERS];
    memset(m->bytes, 0xB0, ROOM);
    new_header(numbers, minor, format);
    m->minor = minor;
    m->format = format;
    m->size = (size_t)numbers[LAS_HEADER_SIZE] + 8;
    m->points = m->size + 59 + 5;
    m->each = (size_t)numbers[LAS_HEADER_RECORD_LENGTH] + 1;
    m->later = m->points + POINTS * m->each + 4;
    m->len = m->later + (minor < 3 ? 0 : 65) + 6;
    numbers[LAS_HEADER_SIZE] = m->size;
    numbers[LAS_HEADER_NUMBER_OF_VLRS] = 1;
    numbers[LAS_HEADER_POINT_OFFSET] = m->points;
    numbers[LAS_HEADER_RECORD_LENGTH] = m->each;
    numbers[LAS_HEADER_LEGACY_POINTS] = numbers[LAS_HEADER_LEGACY_BY_RETURN] = format < 6 ? POINTS : 0;
    if (minor == 3) {
        numbers[LAS_HEADER_GLOBAL_ENCODING] = 2;
        numbers[LAS_HEADER_HAS_WAVEFORM_START] = 1;
        numbers[LAS_HEADER_WAVEFORM_START] = m->later;
    } else if (minor == 4) {
        numbers[LAS_HEADER_HAS_EVLRS] = numbers[LAS_HEADER_NUMBER_OF_EVLRS] = 1;
        numbers[LAS_HEADER_EVLR_START] = m->later;
        numbers[LAS_HEADER_HAS_LARGE_FILE] = 1;
        numbers[LAS_HEADER_LARGE_POINTS] = numbers[LAS_HEADER_LARGE_BY_RETURN] = POINTS;
    }
    las_header_write(numbers, guid, text, text, padding, 8, m->bytes, ROOM, row);
    CHECK(told(row, LAS_OK, m->size, 0));
    las_vlr_write(false, vlr, text, text, data, 5, m->bytes + m->size, ROOM - m->size, row);
    CHECK(told(row, LAS_OK, 59, 0));
    for (size_t i = 0; i < POINTS; i++) {
        m->bytes[m->points + m->each * i + 14] = format < 6 ? 0x09 : 0x11;
    }
    if (minor >= 3) {
        las_vlr_write(true, vlr, text, text, data, 5, m->bytes + m->later, ROOM - m->later, row);
        CHECK(told(row, LAS_OK, 65, 0));
    }
}

/* The findings by the rules, read off the bytes. */
static uint64_t findings[MOST * LAS_FINDING_NUMBERS];
static size_t found;

static void find(bool broken, uint64_t rule, uint64_t part, uint64_t point, uint64_t at) {
    if (broken) {
        const uint64_t numbers[LAS_FINDING_NUMBERS] = {rule, part, point, at};
        memcpy(findings + LAS_FINDING_NUMBERS * found++, numbers, sizeof numbers);
    }
}

static void find_text(const struct made *m, uint64_t part, size_t at, size_t width) {
    bool ended = false, rest = false;
    for (size_t i = at; i < at + width; i++) {
        rest = rest || (ended && m->bytes[i] != 0);
        ended = ended || m->bytes[i] == 0;
    }
    find(rest, LAS_RULE_TEXT, part, 0, at);
}

static void find_all(const struct made *m) {
    const uint8_t *b = m->bytes;
    const bool large = m->minor == 4, old = m->format < 6;
    uint64_t have[16] = {0};
    for (size_t i = 0; i < POINTS; i++) {
        have[b[m->points + m->each * i + 14] & (old ? 7 : 15)]++;
    }
    found = 0;
    find_text(m, 1, 26, 32);
    find_text(m, 1, 58, 32);
    for (size_t i = 0; i < 6; i++) {
        const uint64_t stated = number_at(b + 107 + 4 * i, 4);
        find(!old && stated != 0, LAS_RULE_LEGACY_NOT_ZERO, 1, 0, 107 + 4 * i);
        find(large && i == 0 && stated != 0 && stated != number_at(b + 247, 8), LAS_RULE_LEGACY_UNLIKE, 1, 0, 107);
        find(!large && i > 0 && stated != have[i], LAS_RULE_RETURNS_UNLIKE, 1, 0, 107 + 4 * i);
    }
    for (size_t i = 1; large && i < 16; i++) {
        find(number_at(b + 247 + 8 * i, 8) != have[i], LAS_RULE_RETURNS_UNLIKE, 1, 0, 247 + 8 * i);
    }
    find_text(m, 2, m->size + 2, 16);
    find_text(m, 2, m->size + 22, 32);
    for (size_t i = 0; i < POINTS; i++) { /* part 3 is a gap */
        const size_t at = m->points + m->each * i;
        const uint8_t number = b[at + 14] & (old ? 7 : 15), of = old ? b[at + 14] >> 3 & 7 : b[at + 14] >> 4;
        find(number == 0 || number > of, LAS_RULE_RETURN_NUMBER, 4, i + 1, at);
    }
    if (m->minor >= 3) { /* and so is part 5 */
        find_text(m, 6, m->later + 2, 16);
        find_text(m, 6, m->later + 28, 32);
    }
}

/* Whether these findings, and no others, are told into just enough room, and into more; and whether one entry less is refused. */
static bool finds(const struct made *m) {
    uint64_t row[3], out[MOST * LAS_FINDING_NUMBERS];
    const size_t wanted = LAS_FINDING_NUMBERS * found;
    bool same = true;
    for (size_t room = wanted; room <= wanted + 5; room++) {
        fill_numbers(row, 3);
        fill_numbers(out, MOST * LAS_FINDING_NUMBERS);
        las_findings(m->bytes, m->len, 2, out, room, row);
        same = same && told(row, LAS_OK, found, 0) && memcmp(out, findings, wanted * sizeof *out) == 0;
        same = same && left_numbers(out + wanted, MOST * LAS_FINDING_NUMBERS - wanted);
    }
    for (size_t less = 1; less <= wanted && less <= 5; less++) {
        fill_numbers(out, MOST * LAS_FINDING_NUMBERS);
        las_findings(m->bytes, m->len, 2, out, wanted - less, row);
        same = same && told(row, LAS_REFUSED_NO_ROOM, found, 0) && left_numbers(out, MOST * LAS_FINDING_NUMBERS);
    }
    return same;
}

/* Texts with bytes after their end, counters and return numbers that may be wrong; the file stays one that is accepted. */
static void spoil(struct made *m) {
    const size_t later = m->minor < 3 ? m->size : m->later;
    const size_t texts[6][2] = {{26, 32}, {58, 32}, {m->size + 2, 16}, {m->size + 22, 32}, {later + 2, 16}, {later + (m->minor < 3 ? 22 : 28), 32}};
    for (size_t i = 0; i < 6; i++) {
        if (some() % 3 == 0) {
            memset(m->bytes + texts[i][0], some() % 2 == 0 ? 0 : 'x', texts[i][1]);
            m->bytes[texts[i][0] + some() % texts[i][1]] = 0;
            m->bytes[texts[i][0] + (some() % 2 == 0 ? texts[i][1] - 1 : some() % texts[i][1])] = (uint8_t)some();
        }
    }
    for (size_t i = 0; i < POINTS; i++) {
        if (some() % 3 == 0) {
            m->bytes[m->points + m->each * i + 14] = (uint8_t)some();
        }
    }
    for (size_t i = 1; i < 6; i++) {
        put(m->bytes + 107 + 4 * i, some() % 3, 4);
    }
    if (m->minor == 4) {
        const bool legacy = some() % 2 == 0; /* which count is the one that counts */
        put(m->bytes + 107, legacy ? POINTS : 0, 4);
        put(m->bytes + 247, legacy && some() % 2 == 0 ? some() : POINTS, 8);
        for (size_t i = 1; i < 16; i++) {
            put(m->bytes + 247 + 8 * i, some() % 3, 8);
        }
    }
}

static void test_every_rule(void) {
    static struct made m;
    for (uint8_t minor = 0; minor <= 4; minor++) {
        for (uint8_t format = 0; format <= (minor < 2 ? 1 : minor == 2 ? 3 : minor == 3 ? 5 : 10); format++) {
            make(&m, minor, format);
            find_all(&m);
            CHECK(found == 0 && finds(&m));
            for (size_t i = 0; i < 100; i++) {
                make(&m, minor, format);
                spoil(&m);
                find_all(&m);
                CHECK(finds(&m));
            }
        }
    }
}

/* What the file check refuses is refused, and the buffer stays. */
static void test_refusals(void) {
    static struct made m;
    uint64_t row[3], out[8];
    fill_numbers(row, 3);
    fill_numbers(out, 8);
    make(&m, 4, 6);
    m.bytes[26] = 0; /* a finding */
    las_findings(m.bytes, m.len, 1, out, 8, row);
    CHECK(told(row, LAS_REFUSED_ALLOWANCE, 1, 2) && left_numbers(out, 8));
    las_findings(m.bytes, 100, 2, out, 8, row);
    CHECK(told(row, LAS_REFUSED_SHORT, 375, 0) && left_numbers(out, 8));
    las_findings(m.bytes, m.len, 2, out, 4, row);
    CHECK(told(row, LAS_OK, 1, 0) && out[LAS_FINDING_RULE] == LAS_RULE_TEXT && out[LAS_FINDING_PART] == 1);
    CHECK(out[LAS_FINDING_POINT] == 0 && out[LAS_FINDING_AT] == 26 && left_numbers(out + 4, 4));
}

void test_findings(void) {
    test_every_rule();
    test_refusals();
}
