/* Plays document 01's record onto a sheet of two pixels, shows what the journal holds, and undoes the play. */
#include "../include/lacrumont.h"

#include <stdio.h>
#include <string.h>

static void put32(uint8_t *p, uint32_t v) {
    for (int i = 0; i < 4; i++) p[i] = (uint8_t)(v >> 8 * i);
}

static uint32_t get32(const uint8_t *p) {
    return p[0] | (uint32_t)p[1] << 8 | (uint32_t)p[2] << 16 | (uint32_t)p[3] << 24;
}

int main(void) {
    /* EMR_STRETCHDIBITS without a source: the brush on target (0, 0), 2 by 1 */
    uint8_t record[80] = {0};
    put32(record, 0x51);
    put32(record + 4, sizeof record);
    put32(record + 16, 1);          /* Bounds: columns 0 to 1, row 0 */
    put32(record + 68, 0x00F00021); /* PATCOPY */
    put32(record + 72, 2);
    put32(record + 76, 1);

    const uint32_t start[2] = {0xFF000000, 0xFF0000FF};
    uint32_t surface[2];
    uint8_t journal[3 * LACRUMONT_JOURNAL_RECORD]; /* one for each pixel, and the closing one */
    uint64_t used = 0;
    uint32_t pixels;
    memcpy(surface, start, sizeof surface);
    memset(journal, 0xA5, sizeof journal);

    uint32_t status = lacrumont_play(surface, 2, 2, 1, journal, sizeof journal, &used, record, sizeof record, 0, 0, 2, 1, 0x112233, &pixels);
    printf("play: status %u, %u pixels, %llu records in use\n", status, pixels, (unsigned long long)used);
    printf("surface: %08X %08X\n", surface[0], surface[1]);
    for (uint64_t k = 0; k < used; k++) {
        const uint8_t *at = journal + LACRUMONT_JOURNAL_RECORD * k;
        printf("record %llu: %08X %08X %08X\n", (unsigned long long)k, get32(at), get32(at + 4), get32(at + 8));
    }

    status = lacrumont_undo(surface, 2, 2, 1, journal, sizeof journal, &used, &pixels);
    printf("undo: status %u, %u pixels, %llu records in use\n", status, pixels, (unsigned long long)used);
    printf("surface: %08X %08X, %s\n", surface[0], surface[1], memcmp(surface, start, sizeof surface) ? "NOT as before" : "as before");

    status = lacrumont_undo(surface, 2, 2, 1, journal, sizeof journal, &used, &pixels);
    printf("undo: status %u (nothing left to undo)\n", status);
    return 0;
}
