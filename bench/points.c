/* X, Y and Z of a LAS file as CSV by a plain loop: the limit that the tool's `points` is held against by bench/points.
 *
 *   points make FILE COUNT   writes a file of LAS 1.2, point format 3, scales of 0.001, whose coordinates look like a survey's
 *   points FILE              writes what `inscjarol points --fields x,y,z FILE` does; it takes files made as above only
 */
#include <stdint.h>
#include <stdio.h>
#include <stdlib.h>
#include <string.h>

#include <fcntl.h>
#include <sys/mman.h>
#include <sys/stat.h>
#include <unistd.h>

enum { HEADER = 227, RECORD = 34, PLACES = 3, GATHERED = 1 << 16, LINE = 80 };

static int make(const char *path, uint32_t count) {
    uint8_t header[HEADER] = {'L', 'A', 'S', 'F'}, record[RECORD] = {0};
    const double numbers[6] = {0.001, 0.001, 0.001, 500000, 5400000, 0}; /* scales and offsets */
    const uint16_t header_size = HEADER, record_length = RECORD;
    const uint32_t offset = HEADER;
    header[24] = 1;
    header[25] = 2;
    header[104] = 3;
    memcpy(header + 94, &header_size, 2);
    memcpy(header + 96, &offset, 4);
    memcpy(header + 105, &record_length, 2);
    memcpy(header + 107, &count, 4);
    memcpy(header + 131, numbers, sizeof numbers);
    FILE *out = fopen(path, "wb");
    if (out == NULL || fwrite(header, 1, HEADER, out) != HEADER) {
        return 1;
    }
    uint64_t chance = 1;
    for (uint32_t n = 0; n < count; n++) {
        int32_t place[3];
        const int32_t sides[3] = {1000000, 1000000, 150000}; /* a kilometre, and 150 metres of height */
        for (int axis = 0; axis < 3; axis++) {
            chance = chance * 6364136223846793005u + 1442695040888963407u;
            place[axis] = (int32_t)((chance >> 33) % (uint64_t)sides[axis]);
        }
        memcpy(record, place, sizeof place);
        if (fwrite(record, 1, RECORD, out) != RECORD) {
            return 1;
        }
    }
    return fclose(out);
}

/* Writes a number of thousandths with its point, and answers where it ends. */
static char *written(char *to, int64_t steps) {
    char digits[24];
    int count = 0;
    uint64_t left = steps < 0 ? -(uint64_t)steps : (uint64_t)steps;
    if (steps < 0) {
        *to++ = '-';
    }
    do {
        digits[count++] = (char)('0' + left % 10);
        left /= 10;
    } while (left != 0 || count <= PLACES);
    while (count > 0) {
        if (count == PLACES) {
            *to++ = '.';
        }
        *to++ = digits[--count];
    }
    return to;
}

int main(int argc, char **argv) {
    if (argc == 4 && strcmp(argv[1], "make") == 0) {
        return make(argv[2], (uint32_t)strtoul(argv[3], NULL, 10));
    }
    int fd = argc == 2 ? open(argv[1], O_RDONLY) : -1;
    struct stat about;
    if (fd < 0 || fstat(fd, &about) != 0) {
        return 2;
    }
    const uint8_t *file = mmap(NULL, (size_t)about.st_size, PROT_READ, MAP_SHARED, fd, 0);
    if (file == MAP_FAILED) {
        return 2;
    }
    uint32_t count;
    double offsets[3];
    int64_t from[3];
    memcpy(&count, file + 107, sizeof count);
    memcpy(offsets, file + 155, sizeof offsets);
    for (int axis = 0; axis < 3; axis++) {
        from[axis] = (int64_t)offsets[axis] * 1000;
    }
    static char lines[GATHERED + LINE];
    size_t used = (size_t)sprintf(lines, "x,y,z\n");
    for (uint32_t n = 0; n < count; n++) {
        const uint8_t *record = file + HEADER + (size_t)n * RECORD;
        char *to = lines + used;
        for (int axis = 0; axis < 3; axis++) {
            int32_t stored;
            memcpy(&stored, record + 4 * axis, sizeof stored);
            to = written(to, stored + from[axis]);
            *to++ = axis < 2 ? ',' : '\n';
        }
        used = (size_t)(to - lines);
        if (used >= GATHERED) {
            if (write(1, lines, used) != (ssize_t)used) {
                return 2;
            }
            used = 0;
        }
    }
    return write(1, lines, used) == (ssize_t)used ? 0 : 2;
}
