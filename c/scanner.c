/* A scanner's firmware adds sweeps to the file on its card, sector by sector, while the power fails again and again. */
#include <inttypes.h>
#include <stdio.h>
#include <string.h>

#include "inscjarol.h"

enum { ROOM = 2048, SWEEPS = 3, RECORDS = 20, LENGTH = 20 };

/* What outlives a cut: the card, and the sweep on its way with what it was offered with. Keep "believed" from before the first try:
 * read again from the header after a cut, it would add the sweep twice. */
static uint8_t card[ROOM];
static uint8_t sweep_records[RECORDS * LENGTH];
static uint64_t bounds[LAS_BOUNDS_NUMBERS], believed;

/* How many sectors are written before the power fails. */
static int power;

/* Writes a sector of the file to the card, whole or not at all; false where the power failed. */
static bool write_sector(const uint8_t *file, const uint64_t sector[2]) {
    if (power-- == 0) {
        return false;
    }
    memcpy(card + sector[LAS_SPAN_START], file + sector[LAS_SPAN_START], sector[LAS_SPAN_LENGTH]);
    return true;
}

/* Waits until the card has all that was written. This one always has. */
static void sync(void) {
}

/* Offers the sweep to the file on the card. False where the power failed: then do it again. */
static bool offer(void) {
    static uint8_t file[ROOM];
    uint64_t row[3], sweep[LAS_SWEEP_NUMBERS], sector[LAS_SPAN_NUMBERS];
    memcpy(file, card, ROOM);
    las_append_begin(file, ROOM, UINT64_MAX, sweep_records, sizeof sweep_records, RECORDS, believed, sweep, row);
    if (row[LAS_ROW_NUMBER] != LAS_OK) {
        printf("refused %" PRIu64 " %" PRIu64 "\n", row[LAS_ROW_NUMBER], row[LAS_ROW_VALUE]);
        return true;
    }
    if (row[LAS_ROW_VALUE] == LAS_APPEND_ALREADY_IN) {
        sync(); /* the power may have failed after the last write and before its sync */
        printf("already in\n");
        return true;
    }
    uint64_t last = las_append_stores(sweep) - 1;
    for (uint64_t k = 0; k <= last; k++) {
        if (k == last) {
            sync(); /* the records are on the card before the header counts them */
        }
        las_append_store(file, ROOM, sweep, sweep_records, sizeof sweep_records, bounds, k, sector, row);
        if (!write_sector(file, sector)) {
            printf("cut after %" PRIu64 " of %" PRIu64 " stores\n", k, last + 1);
            return false;
        }
    }
    sync(); /* only now may the sweep be forgotten */
    if (power == 0) {
        printf("cut after all stores\n");
        return false;
    }
    printf("added\n");
    return true;
}

int main(void) {
    /* An empty file of version 1.2 and format 0 with room behind its points: the default header, and then zeros. */
    static const uint8_t padding[1];
    uint64_t row[3], header[LAS_HEADER_NUMBERS];
    uint8_t guid[LAS_HEADER_GUID_BYTES], system[LAS_HEADER_SYSTEM_BYTES], software[LAS_HEADER_SOFTWARE_BYTES];
    las_header_default(header, guid, system, software);
    las_header_write(header, guid, system, software, padding, 0, card, ROOM, row);

    /* The power fails after ever more stores, but not in the last sweep. */
    for (int sweep = 0; sweep < SWEEPS; sweep++) {
        las_header_points(card, ROOM, row);
        believed = row[LAS_ROW_VALUE];
        memset(sweep_records, sweep + 1, sizeof sweep_records); /* as the head measured them, and the bounds with them */
        int tries = sweep == SWEEPS - 1 ? 100 : 0;
        do {
            power = tries++;
        } while (!offer());
    }
    las_header_points(card, ROOM, row);
    printf("%" PRIu64 " points\n", row[LAS_ROW_VALUE]);
    return 0;
}
