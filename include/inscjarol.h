/* Inscjarol for C: LAS records, files and conversions, by numbers and byte slices.
 *
 * Every function is machine-proved. It is total: it ends on every input, touches nothing but what was lent to it, and
 * answers what its sentence says, or refuses. It allocates nothing, keeps nothing between two calls, and may be called
 * from any number of threads at once.
 *
 * Link with libinscjarol.a, which the script tools/libraries writes into target/staticlib/.
 *
 * What is lent. A slice is a pointer and its length, in bytes for uint8_t and in numbers for every other type; an array has the
 * length that its declaration states. No pointer may be NULL, not even that of an empty slice: lend any address, with the
 * length 0. Memory that a call writes may not overlap anything else that is lent to the same call.
 *
 * Rows. An answer that may be a refusal goes into a row of three numbers, which is always written whole. The first,
 * row[LAS_ROW_NUMBER], is LAS_OK, and then row[LAS_ROW_VALUE] is the result and row[LAS_ROW_RECORD] is 0; or it is one of
 * the LAS_REFUSED_ numbers below, with the value that stands beside it there and, for a record of a file or of a run, its
 * number, counted from 1. A call gives the first refusal in the order in which its sentence names them, and a refused call
 * leaves everything but its row as it was.
 *
 * Words. Formats, flags and angles are words, uint32_t. Every word means something, so none is refused.
 *   A format has the LAS_FORMAT_ bits and, in bits 16 to 31, its count of extra bytes.
 *   Flags have their two or three bytes from bit 0 up, and how many there are in bits 24 to 31: a 3 there says three,
 *   anything else two. An old format has two, an extended one three.
 *   An angle has in bits 16 to 31 a 1 for a scaled one, of 0.006 degrees, which stands in bits 0 to 15, or else a rank, of
 *   whole degrees, in bits 0 to 7; both are in two's complement.
 *
 * Numbers. A point is LAS_POINT_NUMBERS numbers, a header LAS_HEADER_NUMBERS and three texts, the head of a VLR or EVLR
 * LAS_VLR_NUMBERS and two texts, a descriptor of extra bytes LAS_DESCRIPTOR_NUMBERS and three texts. A signed field stands in
 * two's complement of its own width, as in (int32_t)point[LAS_POINT_X], and a float as its bits, to be copied into a float or
 * double by memcpy, so that every bit pattern is kept. Of what may be missing one number says whether it is there. Read, what is
 * missing is zeros; written, its numbers are ignored, and of a number too wide for its field the low bits count, but for the
 * length of a VLR's data, which las_vlr_write refuses, and the type of a descriptor, which las_descriptor_write refuses. Texts are
 * bytes and need not end with 0.
 *
 * A walker's place, a cursor, a sweep, a place among attributes and an attribute are numbers that the caller keeps from call to call.
 * Every number in them means something, so that one made by hand is taken too.
 *
 * The numbers and rules are those of LAS 1.4 R15. "Records" of a file are its VLRs and, after the points, its EVLRs or its
 * waveform packets. These are one record with the head of an EVLR, in LAS 1.3 where bit 1 of global encoding is set and the
 * waveform start isn't 0. "Allowance" is how many records a call may go through before it refuses, to bound its time on
 * hostile files; UINT64_MAX takes every file.
 */
#ifndef INSCJAROL_H
#define INSCJAROL_H

#include <stdbool.h>
#include <stddef.h>
#include <stdint.h>

#ifdef __cplusplus
extern "C" {
#endif

/* ---- rows ---- */

/* The places of a row. LAS_ROW_WHOLE is only in the row of las_file_check. */
enum {
    LAS_ROW_NUMBER = 0,
    LAS_ROW_VALUE = 1,
    LAS_ROW_RECORD = 2,
    LAS_ROW_WHOLE = 3
};

/* The first number of a row; beside each refusal is what its value says. */
enum {
    LAS_OK = 0,
    LAS_REFUSED_SHORT = 1,              /* bytes wanted in all, 0 if over 2^64 - 1 */
    LAS_REFUSED_SIGNATURE = 2,          /* the four bytes found, as a little-endian number */
    LAS_REFUSED_VERSION = 3,            /* major * 256 + minor */
    LAS_REFUSED_HEADER_SIZE = 4,        /* the field */
    LAS_REFUSED_FORMAT = 5,             /* the format byte */
    LAS_REFUSED_COMPRESSED = 6,         /* the format byte */
    LAS_REFUSED_FORMAT_FOR_VERSION = 7, /* the format byte */
    LAS_REFUSED_RECORD_LENGTH = 8,      /* the field, or for a format its true length */
    LAS_REFUSED_POINT_OFFSET = 9,       /* the field */
    LAS_REFUSED_ALLOWANCE = 10,         /* the allowance */
    LAS_REFUSED_VLR_EXTENT = 11,        /* the length field, 0 if the record's head ends too late */
    LAS_REFUSED_POINT_EXTENT = 12,      /* the count of points */
    LAS_REFUSED_EVLR_EXTENT = 13,       /* the length field, 0 if the record's head ends too late; so of waveform packets */
    LAS_REFUSED_EVLR_START = 14,        /* the field */
    LAS_REFUSED_RETURN_NUMBER = 15,     /* the return number */
    LAS_REFUSED_NUMBER_OF_RETURNS = 16, /* the number of returns */
    LAS_REFUSED_CLASS = 17,             /* the class */
    LAS_REFUSED_CHANNEL = 18,           /* the scanner channel */
    LAS_REFUSED_OVERLAP = 19,           /* the class that the overlap flag does not go with */
    LAS_REFUSED_NIR = 20,               /* the near infrared */
    LAS_REFUSED_ANGLE = 21,             /* the scaled angle's 16 bits, unsigned; of a rank, those of its scaled angle */
    LAS_REFUSED_NO_ROOM = 22,           /* bytes or entries wanted, 0 if over 2^64 - 1 */
    LAS_REFUSED_EXTRA_BYTES = 23,       /* the format's count of extra bytes */
    LAS_REFUSED_VLR_DATA_LENGTH = 24,   /* the stated length */
    LAS_REFUSED_ATTRIBUTES = 25,        /* 0 */
    LAS_REFUSED_NO_PAIR = 26,           /* the format byte */
    LAS_REFUSED_INDEX = 27,             /* the count of points */
    LAS_REFUSED_NOT_VERSION_1_2 = 28,   /* 0, here and below */
    LAS_REFUSED_NO_RECORDS = 29,
    LAS_REFUSED_COUNT_NEITHER = 30,
    LAS_REFUSED_COUNT_TOO_LARGE = 31,
    LAS_REFUSED_OTHER_VERSION_OR_FORMAT = 32,
    LAS_REFUSED_EVLRS_OR_WAVEFORMS = 33,
    LAS_REFUSED_COUNTS_TOO_LARGE_FOR_OLD = 34,
    LAS_REFUSED_WAVEFORM_START = 35,
    LAS_REFUSED_FIELD_LACKING = 36,
    LAS_REFUSED_NO_DESCRIPTORS = 37,
    LAS_REFUSED_DESCRIPTOR_BYTES = 38,
    LAS_REFUSED_DATA_TYPE = 39,
    LAS_REFUSED_ATTRIBUTE_SIZES = 40,
    LAS_REFUSED_NAME_NOT_FOUND = 41,
    LAS_REFUSED_NO_DIRECTORY = 42,
    LAS_REFUSED_DIRECTORY_SHORT = 43,
    LAS_REFUSED_KEYS_NOT_RISING = 44,
    LAS_REFUSED_UNKNOWN_LOCATION = 45,
    LAS_REFUSED_TARGET_ABSENT = 46,
    LAS_REFUSED_TARGET_BEYOND = 47,
    LAS_REFUSED_KEY_NOT_FOUND = 48,
    LAS_REFUSED_TOO_MANY_KEYS = 49,
    LAS_REFUSED_TOTAL_TOO_LARGE = 50
};

/* Some of the caller's bytes, as two numbers: where they start in the slice that was lent, and how many there are. Where there
 * are none, both are 0, so that they lie in every slice; but of an attribute's empty value and of a VLR's empty data it is told where
 * they start. */
enum {
    LAS_SPAN_START = 0,
    LAS_SPAN_LENGTH = 1,
    LAS_SPAN_NUMBERS = 2
};

/* ---- formats ---- */

/* The bits of a format word. */
enum {
    LAS_FORMAT_TIME = 1,
    LAS_FORMAT_COLOR = 2,
    LAS_FORMAT_EXTENDED = 4,
    LAS_FORMAT_WAVEFORM = 8,
    LAS_FORMAT_NIR = 16,
    LAS_FORMAT_COMPRESSED = 32
};

/* A format word's count of extra bytes, n below 65,536, to be added to its bits; and the count of a format word. */
#define LAS_FORMAT_EXTRA(n) ((uint32_t)(n) << 16)
#define LAS_FORMAT_EXTRA_OF(format) ((uint32_t)(format) >> 16)

/* The format with a code, 0 to 10, as a word. A code of 128 or more is masked with 0x3f and marked compressed, whatever
 * remains. Refuses 11 to 127 with LAS_REFUSED_FORMAT. */
void las_format_new(uint8_t code, uint64_t row[3]);

/* The format with time and with the extended flags and angle; the rest of it stays. */
uint32_t las_format_extend(uint32_t format);

/* The bytes of a record of the format. Refuses with LAS_REFUSED_RECORD_LENGTH where they are more than 65,535. */
void las_format_len(uint32_t format, uint64_t row[3]);

/* The format's code. Refuses with LAS_REFUSED_ATTRIBUTES where it is compressed or no code has its attributes. */
void las_format_to_u8(uint32_t format, uint64_t row[3]);

/* The format with no attribute at all, which is format 0 without extra bytes. */
uint32_t las_format_default(void);

/* ---- layouts ---- */

/* The fields of a point record. */
enum {
    LAS_FIELD_X = 0,
    LAS_FIELD_Y = 1,
    LAS_FIELD_Z = 2,
    LAS_FIELD_INTENSITY = 3,
    LAS_FIELD_FLAGS = 4,
    LAS_FIELD_USER_DATA = 5,
    LAS_FIELD_SCAN_ANGLE = 6,
    LAS_FIELD_SOURCE_ID = 7,
    LAS_FIELD_TIME = 8,
    LAS_FIELD_COLOR = 9,
    LAS_FIELD_NIR = 10,
    LAS_FIELD_WAVEFORM = 11,
    LAS_FIELD_EXTRA_BYTES = 12,
    LAS_LAYOUT_NUMBERS = 26
};

/* The places of a field's two numbers in a layout: its first byte in the record, and its bytes. */
#define LAS_LAYOUT_START(field) (2 * (field))
#define LAS_LAYOUT_LENGTH(field) (2 * (field) + 1)

/* Where each field of a record of the format stands. A field that the format lacks has no bytes, and starts where the next
 * one does. The extra bytes end where the record does, longer than 65,535 bytes or not. */
void las_layout(uint32_t format, uint64_t numbers[26]);

/* ---- flags ---- */

/* The flags of the two bytes of an old record. */
uint32_t las_flags_two_bytes(uint8_t a, uint8_t b);

/* The flags of the three bytes of an extended record. */
uint32_t las_flags_three_bytes(uint8_t a, uint8_t b, uint8_t c);

/* The return number: 0 to 7 of two bytes, 0 to 15 of three. */
uint8_t las_flags_return_number(uint32_t flags);

/* The number of returns: 0 to 7 of two bytes, 0 to 15 of three. */
uint8_t las_flags_number_of_returns(uint32_t flags);

/* The scan direction: 0 right to left, 1 left to right. */
uint8_t las_flags_scan_direction(uint32_t flags);

/* Whether the point is synthetic. */
bool las_flags_is_synthetic(uint32_t flags);

/* Whether the point is a key point. */
bool las_flags_is_key_point(uint32_t flags);

/* Whether the point is withheld. */
bool las_flags_is_withheld(uint32_t flags);

/* Whether the point is overlap. Of two bytes it is where the class is 12 or 28, as the Rust crate las reads it; the
 * standard knows only 12. */
bool las_flags_is_overlap(uint32_t flags);

/* The scanner channel: 0 of two bytes, 0 to 3 of three. */
uint8_t las_flags_scanner_channel(uint32_t flags);

/* Whether the point is at the edge of a flight line. */
bool las_flags_is_edge_of_flight_line(uint32_t flags);

/* The class: 0 to 31 of two bytes, 0 to 255 of three. */
uint8_t las_flags_class(uint32_t flags);

/* The flags as two bytes, the first in bits 0 to 7 of the value and the second in bits 8 to 15. Two bytes stay as they
 * are; of three, overlap becomes class 12 whatever the class was, which las_convert_to_old never does. Refuses with
 * LAS_REFUSED_RETURN_NUMBER and LAS_REFUSED_NUMBER_OF_RETURNS above 7, LAS_REFUSED_CLASS above 31 and LAS_REFUSED_CHANNEL
 * above 0. */
void las_flags_to_two_bytes(uint32_t flags, uint64_t row[3]);

/* The flags as three bytes, in a flags word. Three bytes stay as they are; two lose direction and edge, and the second
 * becomes the class whole, which las_convert_to_new never does. */
uint32_t las_flags_to_three_bytes(uint32_t flags);

/* The flags with class 12 turned into class 1, in three bytes with the overlap flag set; others stay as they are. */
uint32_t las_flags_clear_overlap_class(uint32_t flags);

/* Whether both have the same three bytes, by las_flags_to_three_bytes. */
bool las_flags_eq(uint32_t flags, uint32_t other);

/* Two zero bytes. */
uint32_t las_flags_default(void);

/* ---- angles ---- */

/* The angle of a rank, in whole degrees. */
uint32_t las_angle_rank(int8_t rank);

/* The angle of a scaled number, in steps of 0.006 degrees. */
uint32_t las_angle_scaled(int16_t scaled);

/* The nearest whole number to 6n/1000 of a scaled n, halves away from zero: -197 to 197. */
int16_t las_angle_nearest_rank(int16_t scaled);

/* The rank: of a scaled number that nearest whole number, held at -128 and 127. */
int8_t las_angle_to_rank(uint32_t angle);

/* The scaled number: of a rank r 500r/3, its fraction dropped. */
int16_t las_angle_to_scaled(uint32_t angle);

/* The angle in degrees: a rank as it is, a scaled n times the float nearest to 0.006, rounded once. */
float las_angle_to_degrees(uint32_t angle);

/* The scaled angle of degrees: the quotient by that float, rounded once, its fraction dropped, held at -32,768 and 32,767;
 * 0 for a NaN. */
uint32_t las_angle_from_degrees(float degrees);

/* Whether both are the same angle: of one kind the same number, a rank r and a scaled n where 500r = 3n. */
bool las_angle_eq(uint32_t angle, uint32_t other);

/* Rank 0. */
uint32_t las_angle_default(void);

/* ---- points ---- */

/* The places of a point's numbers. */
enum {
    LAS_POINT_X = 0, /* int32_t */
    LAS_POINT_Y = 1,
    LAS_POINT_Z = 2,
    LAS_POINT_INTENSITY = 3,
    LAS_POINT_FLAGS = 4,      /* a flags word */
    LAS_POINT_SCAN_ANGLE = 5, /* an angle word */
    LAS_POINT_USER_DATA = 6,
    LAS_POINT_SOURCE_ID = 7,
    LAS_POINT_HAS_TIME = 8, /* 1 or 0; written, anything but 0 says yes, here and below */
    LAS_POINT_TIME = 9,     /* the bits of a double */
    LAS_POINT_HAS_COLOR = 10,
    LAS_POINT_RED = 11,
    LAS_POINT_GREEN = 12,
    LAS_POINT_BLUE = 13,
    LAS_POINT_HAS_NIR = 14, /* near infrared: 1 in every format that has it, where 0 is a number like any other */
    LAS_POINT_NIR = 15,
    LAS_POINT_HAS_WAVEFORM = 16,
    LAS_POINT_WAVEFORM_INDEX = 17,
    LAS_POINT_WAVEFORM_OFFSET = 18,
    LAS_POINT_WAVEFORM_SIZE = 19,
    LAS_POINT_WAVEFORM_LOCATION = 20, /* the bits of a float, here and below */
    LAS_POINT_WAVEFORM_X_T = 21,
    LAS_POINT_WAVEFORM_Y_T = 22,
    LAS_POINT_WAVEFORM_Z_T = 23,
    LAS_POINT_NUMBERS = 24
};

/* The point in the first bytes of s, a record of the format. What the format has is there, whatever its numbers are, and what
 * the format lacks is missing. Refuses with LAS_REFUSED_RECORD_LENGTH where the format is longer than 65,535 bytes, then with
 * LAS_REFUSED_SHORT, and leaves the numbers. The value is 0. */
void las_point_read(const uint8_t *s, size_t s_len, uint32_t format, uint64_t row[3], uint64_t numbers[24]);

/* Where the extra bytes of that record are in s; none where las_point_read refuses. */
void las_point_extra(const uint8_t *s, size_t s_len, uint32_t format, uint64_t span[2]);

/* Writes a point and its extra bytes to the front of dst as a record of the format, and leaves what lies past it; the value
 * is the count of bytes. What the format has and the point lacks is zeros. Refuses with LAS_REFUSED_RECORD_LENGTH,
 * LAS_REFUSED_EXTRA_BYTES where there are not as many as the format says, LAS_REFUSED_NO_ROOM and, in formats that are not
 * extended, as las_flags_to_two_bytes does; and leaves dst. */
void las_point_write(const uint64_t numbers[24], const uint8_t *extra, size_t extra_len, uint32_t format, uint8_t *dst,
                     size_t dst_len, uint64_t row[3]);

/* The default point: zeros, in two-byte flags and a rank, with nothing that may be missing. */
void las_point_default(uint64_t numbers[24]);

/* ---- VLRs and EVLRs ---- */

/* The places of a VLR's or EVLR's numbers, and the bytes of its texts. */
enum {
    LAS_VLR_RESERVED = 0,
    LAS_VLR_RECORD_ID = 1,
    LAS_VLR_LENGTH = 2, /* the length that the head states, of the data: 16 bits in a VLR, 64 in an EVLR */
    LAS_VLR_NUMBERS = 3,
    LAS_VLR_USER_ID_BYTES = 16,
    LAS_VLR_DESCRIPTION_BYTES = 32
};

/* The head of the VLR, or extended the EVLR, at the start of s; the value is the record's bytes in all, head and data.
 * Refuses with LAS_REFUSED_SHORT where they are not all there, and leaves numbers and texts. */
void las_vlr_read(const uint8_t *s, size_t s_len, bool extended, uint64_t row[3], uint64_t numbers[3], uint8_t user_id[16],
                  uint8_t description[32]);

/* Where that record's data is in s; none where las_vlr_read refuses. */
void las_vlr_data(const uint8_t *s, size_t s_len, bool extended, uint64_t span[2]);

/* Writes a VLR, or extended an EVLR, head and data, to the front of dst, and leaves what lies past it; the value is the
 * count of bytes. Refuses with LAS_REFUSED_VLR_DATA_LENGTH where a VLR's stated length has more than 16 bits or the data has
 * not the stated length, then with LAS_REFUSED_NO_ROOM, and leaves dst. */
void las_vlr_write(bool extended, const uint64_t numbers[3], const uint8_t user_id[16], const uint8_t description[32],
                   const uint8_t *data, size_t data_len, uint8_t *dst, size_t dst_len, uint64_t row[3]);

/* How many bytes the VLR, or extended the EVLR, at the start of s takes, head and data, from its stated length alone.
 * Refuses with LAS_REFUSED_SHORT where they are not all there. */
void las_vlr_measure(const uint8_t *s, size_t s_len, bool extended, uint64_t row[3]);

/* The bytes of a head: 54 of a VLR, 60 of an EVLR. */
uint64_t las_vlr_head_size(bool extended);

/* The length that the head at the start of s states. Refuses with LAS_REFUSED_SHORT where the head is not all there. */
void las_vlr_stated(const uint8_t *s, size_t s_len, bool extended, uint64_t row[3]);

/* The default VLR: zeros, without data. */
void las_vlr_default(uint64_t numbers[3], uint8_t user_id[16], uint8_t description[32]);

/* ---- descriptors of extra bytes ---- */

/* The places of a descriptor's numbers, the bytes of its texts, and its bytes in all. The VLR with user id LASF_Spec and record
 * id 4 has one for each value that the extra bytes of a point hold. */
enum {
    LAS_DESCRIPTOR_RESERVED = 0,
    LAS_DESCRIPTOR_DATA_TYPE = 1, /* 0 to 10: bytes of which nothing is said, u8, i8, u16, i16, u32, i32, u64, i64, f32, f64 */
    LAS_DESCRIPTOR_OPTIONS = 2,   /* of type 0 the bytes of a value; else, from bit 0 up, whether no data, min, max, scale, offset count */
    LAS_DESCRIPTOR_UNUSED = 3,
    LAS_DESCRIPTOR_NO_DATA = 4, /* no data, min and max are bits that the type says how to read */
    LAS_DESCRIPTOR_MIN = 5,
    LAS_DESCRIPTOR_MAX = 6,
    LAS_DESCRIPTOR_SCALE = 7, /* scale and offset are the bits of doubles */
    LAS_DESCRIPTOR_OFFSET = 8,
    LAS_DESCRIPTOR_NUMBERS = 9,
    LAS_DESCRIPTOR_NAME_BYTES = 32,
    LAS_DESCRIPTOR_DEPRECATED_BYTES = 80, /* the five deprecated fields of 16 bytes, one after the other */
    LAS_DESCRIPTOR_DESCRIPTION_BYTES = 32,
    LAS_DESCRIPTOR_BYTES = 192
};

/* The descriptor in the first LAS_DESCRIPTOR_BYTES of s, of which every byte is kept; the value is their count. Refuses with
 * LAS_REFUSED_SHORT where they are not all there, then with LAS_REFUSED_DATA_TYPE where its type is above 10, and leaves numbers
 * and texts. */
void las_descriptor_read(const uint8_t *s, size_t s_len, uint64_t row[3], uint64_t numbers[9], uint8_t name[32],
                         uint8_t deprecated[80], uint8_t description[32]);

/* Writes a descriptor to the front of dst, and leaves what lies past it; the value is LAS_DESCRIPTOR_BYTES. Refuses with
 * LAS_REFUSED_DATA_TYPE where its type is above 10, then with LAS_REFUSED_NO_ROOM, and leaves dst. */
void las_descriptor_write(const uint64_t numbers[9], const uint8_t name[32], const uint8_t deprecated[80],
                          const uint8_t description[32], uint8_t *dst, size_t dst_len, uint64_t row[3]);

/* The bytes of a value of a type: of type 0 as many as the options say, whatever they are; of a type above 10 none. */
uint64_t las_descriptor_size(uint8_t data_type, uint8_t options);

/* ---- headers ---- */

/* The places of a header's numbers, and the bytes of its texts. */
enum {
    LAS_HEADER_FILE_SOURCE_ID = 0,
    LAS_HEADER_GLOBAL_ENCODING = 1,
    LAS_HEADER_VERSION_MAJOR = 2,
    LAS_HEADER_VERSION_MINOR = 3,
    LAS_HEADER_CREATION_DAY = 4, /* of the year */
    LAS_HEADER_CREATION_YEAR = 5,
    LAS_HEADER_SIZE = 6,
    LAS_HEADER_POINT_OFFSET = 7, /* the first byte of the points */
    LAS_HEADER_NUMBER_OF_VLRS = 8,
    LAS_HEADER_POINT_FORMAT = 9,
    LAS_HEADER_RECORD_LENGTH = 10,
    LAS_HEADER_LEGACY_POINTS = 11,
    LAS_HEADER_LEGACY_BY_RETURN = 12, /* 5 numbers */
    LAS_HEADER_X_SCALE = 17,          /* the bits of a double, here and below */
    LAS_HEADER_Y_SCALE = 18,
    LAS_HEADER_Z_SCALE = 19,
    LAS_HEADER_X_OFFSET = 20,
    LAS_HEADER_Y_OFFSET = 21,
    LAS_HEADER_Z_OFFSET = 22,
    LAS_HEADER_MAX_X = 23,
    LAS_HEADER_MIN_X = 24,
    LAS_HEADER_MAX_Y = 25,
    LAS_HEADER_MIN_Y = 26,
    LAS_HEADER_MAX_Z = 27,
    LAS_HEADER_MIN_Z = 28,
    LAS_HEADER_HAS_WAVEFORM_START = 29, /* from version 1.3 on; a start of 0 is read as missing */
    LAS_HEADER_WAVEFORM_START = 30,
    LAS_HEADER_HAS_EVLRS = 31, /* from version 1.4 on; a start or a count of 0 is read as missing, both */
    LAS_HEADER_EVLR_START = 32,
    LAS_HEADER_NUMBER_OF_EVLRS = 33,
    LAS_HEADER_HAS_LARGE_FILE = 34, /* from version 1.4 on */
    LAS_HEADER_LARGE_POINTS = 35,
    LAS_HEADER_LARGE_BY_RETURN = 36, /* 15 numbers */
    LAS_HEADER_NUMBERS = 51,
    LAS_HEADER_GUID_BYTES = 16,
    LAS_HEADER_SYSTEM_BYTES = 32,  /* the system identifier */
    LAS_HEADER_SOFTWARE_BYTES = 32 /* the generating software */
};

/* The header at the front of s; the value is where it ends with its padding. Refuses with LAS_REFUSED_SHORT below 4 bytes,
 * LAS_REFUSED_SIGNATURE, LAS_REFUSED_SHORT below 26 bytes, LAS_REFUSED_VERSION outside 1.0 to 1.4, and LAS_REFUSED_SHORT
 * below the version's size and then below the header's size field; and leaves numbers and texts. */
void las_header_read(const uint8_t *s, size_t s_len, uint64_t row[3], uint64_t numbers[51], uint8_t guid[16],
                     uint8_t system[32], uint8_t software[32]);

/* Where the header's padding is in s, the bytes between the version's size and the size field; none where las_header_read
 * refuses. */
void las_header_padding(const uint8_t *s, size_t s_len, uint64_t span[2]);

/* How many points the header at the front of s counts: the legacy count where it is not 0, else the large count, if any.
 * Refuses as las_header_read does. */
void las_header_points(const uint8_t *s, size_t s_len, uint64_t row[3]);

/* The first byte after the points, by the header at the front of s: the offset, and the count times the record length.
 * Refuses as las_header_read does, then with LAS_REFUSED_POINT_EXTENT from 2^64 on. */
void las_header_end_of_points(const uint8_t *s, size_t s_len, uint64_t row[3]);

/* The format of the points as a word, by the header at the front of s: that of its format code, with what its record length
 * has beyond the code's bytes as extra bytes, 0 where it has less; format 0 without extra bytes where the code is 11 to 127.
 * Refuses as las_header_read does. */
void las_header_point_format(const uint8_t *s, size_t s_len, uint64_t row[3]);

/* The bytes of a header of a version, without padding: 227, 235 or 375. Refuses with LAS_REFUSED_VERSION outside 1.0 to
 * 1.4. */
void las_header_size(uint8_t major, uint8_t minor, uint64_t row[3]);

/* The default header: version 1.2, format 0, header size and point offset 227, record length 20, all else zeros and missing;
 * the scale factors too are 0. */
void las_header_default(uint64_t numbers[51], uint8_t guid[16], uint8_t system[32], uint8_t software[32]);

/* Writes a header of its version, and then the padding, to the front of dst, and leaves what lies past it; the value is
 * the count of bytes. Refuses with LAS_REFUSED_VERSION outside 1.0 to 1.4, then with LAS_REFUSED_NO_ROOM, and leaves dst. */
void las_header_write(const uint64_t numbers[51], const uint8_t guid[16], const uint8_t system[32],
                      const uint8_t software[32], const uint8_t *padding, size_t padding_len, uint8_t *dst, size_t dst_len,
                      uint64_t row[3]);

/* ---- files ---- */

/* The places of a part's numbers in a table of parts, and the kinds of parts. */
enum {
    LAS_ENTRY_KIND = 0,
    LAS_ENTRY_START = 1,  /* its first byte in the file */
    LAS_ENTRY_LENGTH = 2, /* its bytes */
    LAS_ENTRY_NUMBERS = 3
};
enum {
    LAS_PART_HEADER = 0, /* with its padding */
    LAS_PART_VLR = 1,
    LAS_PART_GAP = 2, /* bytes between parts or after the last, never none */
    LAS_PART_POINTS = 3,
    LAS_PART_EVLR = 4,
    LAS_PART_WAVEFORM = 5 /* the waveform packets, with their head; a later version may know more kinds */
};

/* The places of the numbers of a cursor over the parts, which the caller keeps between calls. */
enum {
    LAS_CURSOR_STAGE = 0, /* what is next: 0 the header, 1 a VLR or the gap after them, 2 the points, 3 the gap after them,
                             4 a later record or the gap after them; above 4 is 4 */
    LAS_CURSOR_AT = 1,    /* the first byte that is next */
    LAS_CURSOR_LEFT = 2,  /* how many records are left of the stage */
    LAS_CURSOR_HEADER_SIZE = 3,
    LAS_CURSOR_NUMBER_OF_VLRS = 4,
    LAS_CURSOR_POINT_OFFSET = 5,
    LAS_CURSOR_END_OF_POINTS = 6,
    LAS_CURSOR_LATER_START = 7, /* of the later records, those after the points; the end of the points where there are none */
    LAS_CURSOR_NUMBER_OF_LATER = 8,
    LAS_CURSOR_IS_WAVEFORM = 9, /* whether the later record is the waveform packets; any number but 0 says so */
    LAS_CURSOR_NUMBERS = 10
};

/* The places of the numbers of a walker's place, which the caller keeps between calls. */
enum {
    LAS_PLACE_FORMAT = 0,  /* of every point of the file, a format word: the header's record length is its length */
    LAS_PLACE_AT = 1,      /* the first byte of the next record */
    LAS_PLACE_LEFT = 2,    /* how many points are left */
    LAS_PLACE_COUNT = 3,   /* the file's count of points */
    LAS_PLACE_REFUSED = 4, /* number, value and record number where the file was refused; else three zeros */
    LAS_PLACE_VALUE = 5,
    LAS_PLACE_RECORD = 6,
    LAS_PLACE_NUMBERS = 7
};

/* Whether the file is accepted; and in row[LAS_ROW_WHOLE], accepted or refused, how many records were found whole.
 * The value of an accepted file is 0. Refuses as las_header_read does, then with LAS_REFUSED_HEADER_SIZE below the
 * version's; LAS_REFUSED_FORMAT, LAS_REFUSED_COMPRESSED, LAS_REFUSED_FORMAT_FOR_VERSION; LAS_REFUSED_RECORD_LENGTH below
 * the format's; LAS_REFUSED_POINT_OFFSET before the header's end or beyond the file; for each VLR LAS_REFUSED_ALLOWANCE,
 * then LAS_REFUSED_VLR_EXTENT past the point offset; LAS_REFUSED_POINT_EXTENT beyond the file; LAS_REFUSED_EVLR_START, or
 * LAS_REFUSED_WAVEFORM_START, before the end of the points or beyond the file; and for each EVLR, or the waveform packets,
 * LAS_REFUSED_ALLOWANCE, then LAS_REFUSED_EVLR_EXTENT beyond the file. The record number is counted through all kinds. */
void las_file_check(const uint8_t *file, size_t file_len, uint64_t allowance, uint64_t row[4]);

/* The parts of the file in its order to the front of the table, LAS_ENTRY_NUMBERS numbers each, what lies past them staying;
 * the value is how many parts there are. They cover the file, byte after byte. Refuses as las_file_check does, then with
 * LAS_REFUSED_NO_ROOM and the entries wanted, and leaves the table. */
void las_file_parts(const uint8_t *file, size_t file_len, uint64_t allowance, uint64_t *table, size_t table_len,
                    uint64_t row[3]);

/* The cursor before the first part of the file, for las_cursor_next to tell the parts one by one, without a table; the value
 * is 0. Refuses as las_file_check does, and leaves the cursor. */
void las_cursor_start(const uint8_t *file, size_t file_len, uint64_t allowance, uint64_t cursor[10], uint64_t row[3]);

/* Whether there is a part at the cursor: then entry has its LAS_ENTRY_NUMBERS numbers, and the cursor moves on; else, after
 * the last part, and at a record that is not all there, both stay as they are. */
bool las_cursor_next(const uint8_t *file, size_t file_len, uint64_t cursor[10], uint64_t entry[3]);

/* The place of a walker before the first point of the file; where las_file_check refuses the file, a place that holds the
 * refusal. */
void las_file_walker(const uint8_t *file, size_t file_len, uint64_t allowance, uint64_t place[7]);

/* The next point of the file from a place on, and the place after it; the value is 0. Refuses with the refusal that the
 * place holds; else after the last point, and of a place made by hand whose format is longer than 65,535 bytes or whose next
 * record lies outside the file, with LAS_REFUSED_INDEX; and leaves the place and the numbers. */
void las_file_next(const uint8_t *file, size_t file_len, uint64_t place[7], uint64_t row[3], uint64_t numbers[24]);

/* Where the record of the next point is in the file, for las_point_extra and for whoever wants its bytes, and how many bytes
 * it has: none where las_file_next would refuse. Ask before las_file_next, which moves on. */
void las_file_record(const uint8_t *file, size_t file_len, const uint64_t place[7], uint64_t span[2]);

/* Writes the file anew to the front of dst, each part from what its reader answers, and leaves what lies past it; the value
 * is the file's length. The bytes are the file's, but that an EVLR start and count of which one is 0 become two zeros.
 * Refuses as las_file_check does, then with LAS_REFUSED_NO_ROOM, and leaves dst. */
void las_file_rewrite(const uint8_t *file, size_t file_len, uint64_t allowance, uint8_t *dst, size_t dst_len,
                      uint64_t row[3]);

/* ---- columns ---- */

/* One field of many points, taken straight from its place in each record, for a viewer that wants no more of them: count
 * points from point number first on, the first of the file being 1, go to the front of dst, what lies past them staying;
 * the value is the count. Each entry is what las_file_next tells of that point. Each function refuses as las_file_check
 * does, then with LAS_REFUSED_FIELD_LACKING where the format of the points does not have the field, whether there are
 * points or not; LAS_REFUSED_INDEX where the stretch is not within the points: an empty one may begin right behind the
 * last; LAS_REFUSED_NO_ROOM, with the count, where dst has fewer entries; and leaves dst. */

/* X, Y and Z, the stored whole numbers. */
void las_column_x(const uint8_t *file, size_t file_len, uint64_t allowance, uint64_t first, uint64_t count, int32_t *dst,
                  size_t dst_len, uint64_t row[3]);
void las_column_y(const uint8_t *file, size_t file_len, uint64_t allowance, uint64_t first, uint64_t count, int32_t *dst,
                  size_t dst_len, uint64_t row[3]);
void las_column_z(const uint8_t *file, size_t file_len, uint64_t allowance, uint64_t first, uint64_t count, int32_t *dst,
                  size_t dst_len, uint64_t row[3]);

/* X, Y and Z in one pass over the records: each goes to the front of its slice, as its own function has it. Refuses as these do,
 * with LAS_REFUSED_NO_ROOM where any of the three slices is too short, and leaves all three. */
void las_columns_xyz(const uint8_t *file, size_t file_len, uint64_t allowance, uint64_t first, uint64_t count, int32_t *xs,
                     size_t xs_len, int32_t *ys, size_t ys_len, int32_t *zs, size_t zs_len, uint64_t row[3]);

/* The time, as a double. Of a NaN it is promised that it is one, and not which. */
void las_column_time(const uint8_t *file, size_t file_len, uint64_t allowance, uint64_t first, uint64_t count, double *dst,
                     size_t dst_len, uint64_t row[3]);

/* The time by its bits, every pattern kept. */
void las_column_time_bits(const uint8_t *file, size_t file_len, uint64_t allowance, uint64_t first, uint64_t count,
                          uint64_t *dst, size_t dst_len, uint64_t row[3]);

/* The colours and near infrared. */
void las_column_red(const uint8_t *file, size_t file_len, uint64_t allowance, uint64_t first, uint64_t count, uint16_t *dst,
                    size_t dst_len, uint64_t row[3]);
void las_column_green(const uint8_t *file, size_t file_len, uint64_t allowance, uint64_t first, uint64_t count, uint16_t *dst,
                      size_t dst_len, uint64_t row[3]);
void las_column_blue(const uint8_t *file, size_t file_len, uint64_t allowance, uint64_t first, uint64_t count, uint16_t *dst,
                     size_t dst_len, uint64_t row[3]);
void las_column_nir(const uint8_t *file, size_t file_len, uint64_t allowance, uint64_t first, uint64_t count, uint16_t *dst,
                    size_t dst_len, uint64_t row[3]);

/* ---- a VLR by its ids ---- */

/* Where the data of the first VLR with this user id and this record id is in the file: then the value is 1. Where no VLR has them, the
 * value is 0, and the span is left. All 16 bytes of a user id are compared, zeros filling the one that is lent, so that none is found by
 * more than 16 bytes; EVLRs are not looked at. Refuses as las_file_check does, and leaves the span. */
void las_vlr_first(const uint8_t *file, size_t file_len, uint64_t allowance, const uint8_t *user, size_t user_len,
                   uint16_t record_id, uint64_t span[2], uint64_t row[3]);

/* ---- attributes ---- */

/* An attribute is a value that the extra bytes of every point hold, as a reflectance: the descriptors say which there are, 192 bytes
 * each in the data of the first VLR with the user id "LASF_Spec" and the record id 4, in the order in which they stand in a point. Bytes
 * are given as they are stored: scale, offset and the values that stand for none are in the descriptor, and the caller's to apply.
 *
 * The numbers of an attribute say where its values are, so that las_attribute_value and las_attribute_column need neither a file check nor the
 * descriptors. They are of the file that they were asked of, with the bytes that it had then. Numbers made by hand are taken too: no value is
 * there that would lie outside the file, and none where the stride is no record length, 20 to 65,535. */

/* The places of an attribute's numbers. */
enum {
    LAS_ATTRIBUTE_DATA_TYPE = 0, /* 0 bytes of which nothing is said, or 1 to 10: u8, i8, u16, i16, u32, i32, u64, i64, f32, f64 */
    LAS_ATTRIBUTE_SIZE = 1,      /* the bytes of a value: 1 1 2 2 4 4 8 8 4 8 of the types 1 to 10, 0 to 255 of type 0 */
    LAS_ATTRIBUTE_AT = 2,        /* the first byte of the first point's value in the file */
    LAS_ATTRIBUTE_STRIDE = 3,    /* the bytes from a point's value to the next one's, which is the record length */
    LAS_ATTRIBUTE_COUNT = 4,     /* the points of the file */
    LAS_ATTRIBUTE_NUMBERS = 5
};

/* The places of the numbers of a place among the attributes, which the caller keeps between calls. */
enum {
    LAS_ATTRIBUTES_DESCRIPTOR = 0, /* the first byte of the next descriptor in the file */
    LAS_ATTRIBUTES_LEFT = 1,       /* how many attributes are left */
    LAS_ATTRIBUTES_AT = 2,         /* the first byte of the first point's next value in the file */
    LAS_ATTRIBUTES_STRIDE = 3,
    LAS_ATTRIBUTES_COUNT = 4,
    LAS_ATTRIBUTES_NUMBERS = 5
};

/* The place before the first attribute of the file, for las_attributes_next to tell them one by one; the value is how many there are.
 * Refuses as las_file_check does, then with LAS_REFUSED_NO_DESCRIPTORS where no VLR describes the extra bytes;
 * LAS_REFUSED_DESCRIPTOR_BYTES where its data is not a multiple of 192 bytes: none is one, and there are no attributes then;
 * LAS_REFUSED_DATA_TYPE where a type is above 10; LAS_REFUSED_ATTRIBUTE_SIZES where the sizes of all add up to more than a
 * point's extra bytes; and leaves the place. So one broken descriptor refuses all. */
void las_attributes(const uint8_t *file, size_t file_len, uint64_t allowance, uint64_t attributes[5], uint64_t row[3]);

/* Whether there is an attribute at the place: then its numbers and, as a span, where its descriptor is in the file, for
 * las_descriptor_read, are written, and the place moves on; else, after the last, and at a place made by hand whose descriptor is not all
 * in the file or whose value is at 2^63 or beyond, all stay as they are. */
bool las_attributes_next(const uint8_t *file, size_t file_len, uint64_t attributes[5], uint64_t attribute[5],
                         uint64_t span[2]);

/* The attribute with a name, of equal ones the first; the value is 0. All 32 bytes of a name are compared, zeros filling the one that is
 * lent, capitals and blanks too: the empty name is that of 32 zeros. Refuses as las_attributes does, then with
 * LAS_REFUSED_NAME_NOT_FOUND, also where the name has more than 32 bytes; and leaves the attribute. */
void las_attribute_find(const uint8_t *file, size_t file_len, uint64_t allowance, const uint8_t *name, size_t name_len,
                        uint64_t attribute[5], uint64_t row[3]);

/* Where an attribute's value in a point is in the file, the first point being 1; the value of the row is the number that its bytes are, the
 * first byte the lowest, of more than eight bytes the first eight. A signed type stands in two's complement of its own width, and a float
 * as its bits. Refuses with LAS_REFUSED_INDEX and the count of points where there is no such point, 0 or one past the last, or no value;
 * and leaves the span. */
void las_attribute_value(const uint8_t *file, size_t file_len, const uint64_t attribute[5], uint64_t point, uint64_t span[2],
                         uint64_t row[3]);

/* The column of an attribute: those numbers of count points from point number first on go to the front of dst, what lies past them
 * staying; the value is the count. Refuses with LAS_REFUSED_INDEX where the stretch is not within the points, of which an empty one may begin
 * right behind the last, or not all have a value; then with LAS_REFUSED_NO_ROOM, with the count, where dst has fewer entries; and leaves
 * dst. */
void las_attribute_column(const uint8_t *file, size_t file_len, const uint64_t attribute[5], uint64_t first, uint64_t count,
                          uint64_t *dst, size_t dst_len, uint64_t row[3]);

/* ---- coordinate keys ---- */

/* The coordinate keys of a file say which grid its points are in. Their directory is the data of the first VLR with user id
 * LASF_Projection and record id 34735: four numbers of 16 bits, the last one the number of keys, and four for each key. The
 * values stand in the directory itself or in the first such VLRs with record ids 34736, doubles, and 34737, text. */

/* The places of a file's keys, which are numbers that the caller keeps; of the count the low 16 bits count. */
enum {
    LAS_KEYS_COUNT = 0,     /* how many keys there are */
    LAS_KEYS_DIRECTORY = 1, /* the first byte of their directory in the file */
    LAS_KEYS_BYTES = 2,     /* and its bytes */
    LAS_KEYS_DOUBLES = 3,   /* the first byte of the doubles, and of the text; 0 where there are none */
    LAS_KEYS_TEXT = 4,
    LAS_KEYS_NUMBERS = 5
};

/* The places of a key. */
enum {
    LAS_KEY_KEY = 0,      /* the key */
    LAS_KEY_LOCATION = 1, /* 0: its value is a number; 34736: it is doubles, of eight bytes each; 34737: it is text */
    LAS_KEY_VALUE = 2,    /* the number; 0 where it is doubles or text */
    LAS_KEY_START = 3,    /* the first byte of the doubles or of the text in the file; 0 where it is a number */
    LAS_KEY_LENGTH = 4,   /* and their bytes */
    LAS_KEY_NUMBERS = 5
};

/* Where the keys of the file stand, once its directory was judged; the value is how many there are. Refuses as las_file_check
 * does, then with LAS_REFUSED_NO_DIRECTORY; LAS_REFUSED_DIRECTORY_SHORT where the directory's data is shorter than its keys
 * want: more is fine; LAS_REFUSED_KEYS_NOT_RISING where a key is not above the one before it; LAS_REFUSED_UNKNOWN_LOCATION
 * where a location is not 0, 34736 or 34737; LAS_REFUSED_TARGET_ABSENT where the VLR of a location is not there;
 * LAS_REFUSED_TARGET_BEYOND where a value ends beyond its VLR's data; each for the whole directory before the next; and
 * leaves the numbers. */
void las_keys(const uint8_t *file, size_t file_len, uint64_t allowance, uint64_t keys[5], uint64_t row[3]);

/* Whether there is a key with number k, the first being 0, among those of las_keys: then key has its LAS_KEY_NUMBERS numbers;
 * else it stays as it is. Keys come in rising order. Of numbers made by hand, bytes of a directory that the file does not have are
 * zeros, another location than 0 and 34736 is told as text, and a value that would end beyond the file is none. */
bool las_keys_at(const uint8_t *file, size_t file_len, const uint64_t keys[5], uint16_t k, uint64_t key[5]);

/* Whether the keys of las_keys have this one: then key has its numbers; else it stays as it is. */
bool las_keys_find(const uint8_t *file, size_t file_len, const uint64_t keys[5], uint16_t wanted, uint64_t key[5]);

/* A key of the file; the value of the row is 0. Refuses as las_keys does, then with LAS_REFUSED_KEY_NOT_FOUND, and leaves the
 * numbers. */
void las_key(const uint8_t *file, size_t file_len, uint64_t allowance, uint16_t wanted, uint64_t key[5], uint64_t row[3]);

/* Writes a directory to the front of dst, what lies past it staying, from four numbers for each key: key, location, count,
 * value or index; one to three numbers at the end are no key. In front stand 1, 1, 0 and the number of keys. The value is the
 * count of bytes. Refuses with LAS_REFUSED_KEYS_NOT_RISING, then with LAS_REFUSED_TOO_MANY_KEYS for more than 8,190, as many
 * as a VLR holds, then with LAS_REFUSED_NO_ROOM, and leaves dst. Locations are not judged: las_keys does. */
void las_keys_write(const uint16_t *keys, size_t keys_len, uint8_t *dst, size_t dst_len, uint64_t row[3]);

/* ---- the site sheet ---- */

/* One sheet for many files, whose numbers the caller keeps; all zeros is the sheet of no files. Each file is added by itself, so a sheet
 * of many is one call after the other. The points of each class and of each return number, 0 too, are counted from the records and never
 * taken from header sums, and every record counts, withheld ones too: so the classes add up to the points, and so do the return numbers,
 * over all files together. The bounds are the smallest and the largest of the stored whole numbers, whatever the scales and offsets of
 * the files: they say something of the ground where all files have the same. */

/* The places of a sheet's numbers. */
enum {
    LAS_SHEET_FILES = 0,      /* how many were added, files without points too */
    LAS_SHEET_POINTS = 1,     /* how many points they have */
    LAS_SHEET_HAS_BOUNDS = 2, /* 1, or 0 as long as there are no points; given, anything but 0 says yes */
    LAS_SHEET_MIN_X = 3,      /* int32_t, as the five after it; all six are 0 where there are no bounds */
    LAS_SHEET_MAX_X = 4,
    LAS_SHEET_MIN_Y = 5,
    LAS_SHEET_MAX_Y = 6,
    LAS_SHEET_MIN_Z = 7,
    LAS_SHEET_MAX_Z = 8,
    LAS_SHEET_CLASSES = 9,   /* the first of LAS_SHEET_CLASS_NUMBERS, that of class 0 */
    LAS_SHEET_RETURNS = 265, /* the first of LAS_SHEET_RETURN_NUMBERS, that of return number 0 */
    LAS_SHEET_NUMBERS = 281,
    LAS_SHEET_CLASS_NUMBERS = 256,
    LAS_SHEET_RETURN_NUMBERS = 16
};

/* Adds a file to the sheet; the value is 0. The class is five bits of its byte in formats 0 to 5 and the whole byte in 6 to 10; the return
 * number is three bits, or four. Refuses as las_file_check does, then with LAS_REFUSED_TOTAL_TOO_LARGE where any of the sheet's counts,
 * each by itself, would be over 2^64 - 1; and leaves the sheet. A sheet made by hand is taken as it is. */
void las_sheet_add(const uint8_t *file, size_t file_len, uint64_t allowance, uint64_t sheet[281], uint64_t row[3]);

/* ---- findings ---- */

/* What is wrong with a file that is accepted all the same, for whoever gets files from other programs: each counter, each text
 * field and each point that breaks a rule is one finding, and no other is told. They come in file order, and those of the same
 * byte in the order of the rules. */

/* The rules. */
enum {
    LAS_RULE_LEGACY_NOT_ZERO = 1, /* in formats 6 to 10, one of the six legacy counters, at 107, 111 to 127, is not 0 */
    LAS_RULE_LEGACY_UNLIKE = 2,   /* in version 1.4, the legacy count of points, at 107, is neither 0 nor the large one, at 247 */
    LAS_RULE_RETURNS_UNLIKE = 3,  /* a count by return is not the number of records of that return: in version 1.4 one of the
                                     15 large ones, at 255 to 367, in versions 1.0 to 1.3 one of the five at 111 to 127 */
    LAS_RULE_RETURN_NUMBER = 4,   /* a point's return number is 0, or above its number of returns */
    LAS_RULE_TEXT = 5             /* a text field has a byte after its first zero that is not zero: system identifier or
                                     generating software of the header; user id or description of a VLR, an EVLR or the
                                     waveform packets */
};

/* The places of a finding's numbers. */
enum {
    LAS_FINDING_RULE = 0,  /* one of LAS_RULE_LEGACY_NOT_ZERO and so on */
    LAS_FINDING_PART = 1,  /* its entry in the table of las_file_parts, the first, the header, being 1; gaps are entries too */
    LAS_FINDING_POINT = 2, /* the point, the first of the file being 1; 0 where it is none */
    LAS_FINDING_AT = 3,    /* the first byte of the counter, the field or the point's record, counted from 0 */
    LAS_FINDING_NUMBERS = 4
};

/* Every finding of the file, LAS_FINDING_NUMBERS numbers each, to the front of out, what lies past them staying; the value is how
 * many there are, 0 where nothing is wrong. Refuses as las_file_check does, then with LAS_REFUSED_NO_ROOM, and how many findings
 * there are, where out_len is less than LAS_FINDING_NUMBERS for each; and leaves out. An out_len of 0 asks for their number. The
 * points are looked at once, and once more where some of them are findings and there is room. */
void las_findings(const uint8_t *file, size_t file_len, uint64_t allowance, uint64_t *out, size_t out_len, uint64_t row[3]);

/* ---- appending ---- */

/* Records are added to a file of version 1.2 that is lent in a buffer longer than its points, so that adding them again, after
 * a cut of the power, does no harm: they are added, or they are found to be in already. The room behind the points is the
 * file's last gap.
 *
 * "Believed" is the count of points that stood in the file before the records came. Keep it, with the records and the bounds,
 * from before they are first offered until they are in. Never read it again from the header after a cut: where the records
 * were in by then, the header counts them, and they would be added a second time. No check can see that.
 *
 * Firmware that writes the sectors of a card itself takes las_append in steps. The buffer holds the file as it is on the card.
 *   1. las_append_begin, once. Go on where it answers LAS_APPEND_ADDED; at LAS_APPEND_ALREADY_IN sync, since the cut may have
 *      come before the last sync, and forget the records.
 *   2. las_append_store for each k from 0 on, below las_append_stores. Each changes one sector of the buffer, and tells which:
 *      write that sector to the card, as it is then, at its place in the file, before the next call. The sectors that the
 *      records touch come first, ascending, each with the old header, and sector 0 with the new one comes last.
 *   3. Sync before the last write, so that all other sectors are on the card; write sector 0; sync again. Only then forget
 *      the records.
 * Where the records begin in sector 0, it is written twice: first with them and the old header, at last with the new one.
 * The card must store a sector whole or not at all, and sync must say that it has; then a cut at any moment leaves a file that
 * las_file_check accepts, with exactly the old points or exactly the old and the new. Read it into the buffer again, and start
 * again at 1 with the same records, bounds and belief: it ends as if it had never been cut. */

/* The value of an append that is not refused. */
enum {
    LAS_APPEND_ADDED = 0,
    LAS_APPEND_ALREADY_IN = 1
};

/* The places of the bounds, each the bits of a double: the order of a header's. */
enum {
    LAS_BOUNDS_MAX_X = 0,
    LAS_BOUNDS_MIN_X = 1,
    LAS_BOUNDS_MAX_Y = 2,
    LAS_BOUNDS_MIN_Y = 3,
    LAS_BOUNDS_MAX_Z = 4,
    LAS_BOUNDS_MIN_Z = 5,
    LAS_BOUNDS_NUMBERS = 6
};

/* The places of a sweep's numbers, which the caller keeps between calls. */
enum {
    LAS_SWEEP_AT = 0,        /* the first byte of its records in the file, which is the end of the file's points */
    LAS_SWEEP_BYTES = 1,     /* the bytes of its records */
    LAS_SWEEP_POINTS = 2,    /* the header's count of points with them; of this and the five below the low 32 bits count */
    LAS_SWEEP_BY_RETURN = 3, /* 5 numbers */
    LAS_SWEEP_NUMBERS = 8
};

/* The bytes of a sector; the buffer's last may have less. */
enum {
    LAS_SECTOR_BYTES = 512
};

/* Adds n records to the file: their bytes right after its points, and in its header the count, the five counts by return,
 * which count returns 1 to 5 and no others, and the bounds, whatever their bits; the value is LAS_APPEND_ADDED. Nothing else
 * changes. Or the file counts believed + n points and the last n of them are these bytes: then the value is
 * LAS_APPEND_ALREADY_IN, and nothing changes; the bounds are not looked at. A record has as many bytes as the header says, and
 * bytes past the n-th are ignored. Refuses the buffer as las_file_check does, then with LAS_REFUSED_NOT_VERSION_1_2;
 * LAS_REFUSED_NO_RECORDS where n is 0; LAS_REFUSED_SHORT where there are fewer than n records; LAS_REFUSED_COUNT_NEITHER where
 * the file counts neither believed points nor believed + n with these bytes last; LAS_REFUSED_COUNT_TOO_LARGE where a count
 * would be over 2^32 - 1; LAS_REFUSED_NO_ROOM where the records would end beyond the buffer. */
void las_append(uint8_t *file, size_t file_len, uint64_t allowance, const uint8_t *records, size_t records_len, uint64_t n,
                const uint64_t bounds[6], uint64_t believed, uint64_t row[3]);

/* What las_append would answer, and nothing of the file is changed: where the value is LAS_APPEND_ADDED, the records are to be
 * added, by the stores of the sweep that is written; else the sweep is left. Refuses as las_append does. Of the points it
 * looks at the last n alone. */
void las_append_begin(const uint8_t *file, size_t file_len, uint64_t allowance, const uint8_t *records, size_t records_len,
                      uint64_t n, uint64_t believed, uint64_t sweep[8], uint64_t row[3]);

/* How many stores a sweep takes: one for each sector from that of its first byte up to its end, and then one for sector 0. */
uint64_t las_append_stores(const uint64_t sweep[8]);

/* Makes the k-th store of a sweep in the file, counted from 0: in the k-th sector that the records touch their bytes; after
 * these, in sector 0, the header's counts and bounds. No other byte changes. The sector's first byte and its bytes are told as
 * a span, and the value is its bytes, which is what is to be written to the card. Past the last store nothing changes, and the
 * value and both numbers of the span are 0. Refuses with LAS_REFUSED_SHORT where there are fewer bytes than the sweep's, then
 * with LAS_REFUSED_NO_ROOM where they would end beyond the buffer. A sweep made by hand is taken too; of what it puts past the
 * buffer's end nothing is written. */
void las_append_store(uint8_t *file, size_t file_len, const uint64_t sweep[8], const uint8_t *records, size_t records_len,
                      const uint64_t bounds[6], uint64_t k, uint64_t sector[2], uint64_t row[3]);

/* ---- reclassifying ---- */

/* The class of one point is set in its place, in a file of any version: one byte changes, and no other. In formats 0 to 5 the class, 0 to
 * 31, is the low five bits of that byte, and synthetic, key point and withheld, above them, stay. In formats 6 to 10 it is the whole
 * byte, 0 to 255. There overlap is a bit of its own, which stays; in formats 0 to 5 class 12 is what says overlap, so that a point is
 * overlap with it, and is none with another class.
 *
 * The value is the class that the point had. Keep it for whoever wants to undo this: set again, it gives every byte back.
 *
 * Whoever writes to a device himself lends the file as it is there to las_reclassify_ask, and then writes one byte, the one that is told,
 * at the place that is told, and nothing else. Nobody may change the file between the two. A cut of the power leaves the class that
 * the point had or the new one. */

/* The places of a change's numbers. */
enum {
    LAS_CHANGE_AT = 0,   /* the place of the byte in the file, counted from 0 */
    LAS_CHANGE_BYTE = 1, /* what it becomes */
    LAS_CHANGE_NUMBERS = 2
};

/* Gives a point of the file, counted from 1, this class; the value is the class that it had. Refuses as las_file_check does, then with
 * LAS_REFUSED_INDEX where the file has no such point, 0 or one past the last; LAS_REFUSED_CLASS where the class is above 31 and the
 * format is 0 to 5. Of the points it looks at that byte alone. */
void las_reclassify(uint8_t *file, size_t file_len, uint64_t allowance, uint64_t point, uint8_t classification,
                    uint64_t row[3]);

/* What las_reclassify would change, and nothing of the file is changed: the byte's place and what it becomes; the value is the class
 * that the point has. Refuses as las_reclassify does, and leaves the change. */
void las_reclassify_ask(const uint8_t *file, size_t file_len, uint64_t allowance, uint64_t point, uint8_t classification,
                        uint64_t change[2], uint64_t row[3]);

/* ---- conversion ---- */

/* Whether an old record can show a point to an old reader with the same value in every field, the angle to the nearest whole
 * degree; the value is 0. Refuses by its first field that does not fit with LAS_REFUSED_RETURN_NUMBER and
 * LAS_REFUSED_NUMBER_OF_RETURNS above 7; LAS_REFUSED_CLASS above 31; LAS_REFUSED_CHANNEL above 0; LAS_REFUSED_OVERLAP where
 * overlap is set and the class is not 12, or clear and it is 12 or 28; LAS_REFUSED_NIR where it is not 0; LAS_REFUSED_ANGLE
 * where the nearest whole degree, or the rank, is not from -90 to 90: scaled numbers from -15,083 to 15,083 fit. */
void las_strict_check(const uint64_t numbers[24], uint64_t row[3]);

/* Makes an old point, one with two-byte flags, new in its place: the class is kept, overlap set exactly for class 12, the
 * other flags moved, the channel 0, the angle scaled, and there is no near infrared. A point with three-byte flags keeps its
 * values. las_strict_check answers of the new point what it answers of an old one, which has no near infrared. */
void las_strict_upgraded(uint64_t numbers[24]);

/* Whether las_convert_to_old can convert a run of count records of format 6 to 10, each with so many extra bytes; nothing is
 * written, and the value is the count of bytes that the converted run needs. Refuses with LAS_REFUSED_NO_PAIR;
 * LAS_REFUSED_RECORD_LENGTH where a record of the run is longer than 65,535 bytes, then where a converted one would be;
 * LAS_REFUSED_SHORT; and then as las_strict_check does, with the number of the first record that it refuses. Never refuses with
 * LAS_REFUSED_NO_ROOM. */
void las_convert_ask_old(const uint8_t *src, size_t src_len, uint8_t format, uint16_t extra, uint64_t count, uint64_t row[3]);

/* The same of las_convert_to_new and a run of format 1, 3, 4 or 5; no record is refused. */
void las_convert_ask_new(const uint8_t *src, size_t src_len, uint8_t format, uint16_t extra, uint64_t count, uint64_t row[3]);

/* Converts a run of count records of format 6 to 10, each with so many extra bytes, strictly into the old format of the pair
 * (6 to 1, 7 and 8 to 3, 9 to 4, 10 to 5), at the front of dst, and leaves what lies past it; the value is the count of
 * bytes. It asks las_convert_ask_old itself, and refuses as that does; then, where dst is shorter than the bytes that are
 * needed, with LAS_REFUSED_NO_ROOM and these; and leaves dst. So a run that las_convert_ask_old lets go is refused for want of
 * room alone, and one that it refuses is refused alike, whatever room there is. */
void las_convert_to_old(const uint8_t *src, size_t src_len, uint8_t format, uint16_t extra, uint64_t count, uint8_t *dst,
                        size_t dst_len, uint64_t row[3]);

/* Converts a run of count records of format 1, 3, 4 or 5, each with so many extra bytes, into the new format of the pair
 * (6, 7, 9, 10), at the front of dst, and leaves what lies past it; the value is the count of bytes. Refuses as
 * las_convert_ask_new does, then with LAS_REFUSED_NO_ROOM, as las_convert_to_old. Each becomes what las_strict_upgraded says; the
 * near infrared of format 10, which that lacks, is 0. */
void las_convert_to_new(const uint8_t *src, size_t src_len, uint8_t format, uint16_t extra, uint64_t count, uint8_t *dst,
                        size_t dst_len, uint64_t row[3]);

/* ---- whole files, old to new and back ---- */

/* A new file is of version 1.4 with points of format 6 or 7, and an old one of version 1.2 with points of format 1 or 3: 6 and 1
 * are a pair, 7 and 3. Between them header size, point offset and record length differ, by 148, 148 and 2, and the points are
 * those of las_convert_to_old or las_convert_to_new. VLRs, padding, gaps and all else of the header are the file's own bytes; so
 * coordinate-system records stay as they are, though the standard wants WKT for new formats.
 *
 * A file that went up comes back byte for byte, unless a point of it has class 28 or a rank that is not from -90 to 90: such a
 * file goes up, and las_file_ask_old refuses it then. */

/* Whether las_file_to_old can make the new file old; nothing is written, and the value is the bytes of the old file. Refuses as
 * las_file_check does, then with LAS_REFUSED_OTHER_VERSION_OR_FORMAT where it is no new file; LAS_REFUSED_EVLRS_OR_WAVEFORMS
 * where it has EVLRs or a waveform start, of which an EVLR start or count without the other is none;
 * LAS_REFUSED_COUNTS_TOO_LARGE_FOR_OLD where its count of points, or one of the five by return that would be written, is over
 * 2^32 - 1, or a large count of returns 6 to 15 is not 0; and then as las_convert_ask_old does of its points, with the number of
 * the first that it refuses. Never refuses with LAS_REFUSED_NO_ROOM. */
void las_file_ask_old(const uint8_t *file, size_t file_len, uint64_t allowance, uint64_t row[3]);

/* Whether las_file_to_new can make the old file new; nothing is written, and the value is the bytes of the new file. Refuses as
 * las_file_check does, then with LAS_REFUSED_OTHER_VERSION_OR_FORMAT where it is no old file; LAS_REFUSED_HEADER_SIZE, then
 * LAS_REFUSED_POINT_OFFSET, where 148 more do not fit the field; and LAS_REFUSED_RECORD_LENGTH where 2 more do not. No point is
 * refused, and never for want of room. */
void las_file_ask_new(const uint8_t *file, size_t file_len, uint64_t allowance, uint64_t row[3]);

/* Makes the new file old, at the front of dst, and leaves what lies past it; the value is the bytes of the old file. Its count of
 * points is the new file's, and its five counts by return are the legacy ones where the legacy count is not 0, else the first
 * five of the large ones. It asks las_file_ask_old itself, and refuses as that does; then, where dst is shorter than the old
 * file, with LAS_REFUSED_NO_ROOM and its bytes; and leaves dst. */
void las_file_to_old(const uint8_t *file, size_t file_len, uint64_t allowance, uint8_t *dst, size_t dst_len, uint64_t row[3]);

/* Makes the old file new, at the front of dst, and leaves what lies past it; the value is the bytes of the new file. Its six
 * legacy counts are 0; its large count, and the first five of the large ones by return, are what these were, and the other ten
 * are 0; it has no EVLRs and no waveform start. Refuses as las_file_ask_new does, then with LAS_REFUSED_NO_ROOM, as
 * las_file_to_old. */
void las_file_to_new(const uint8_t *file, size_t file_len, uint64_t allowance, uint8_t *dst, size_t dst_len, uint64_t row[3]);

#ifdef __cplusplus
}
#endif

#endif
