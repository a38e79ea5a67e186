/* Lacrumont: plays EMF bitmap records onto a surface, journals every old pixel, and takes plays back to the last pixel.
 *
 * Link with liblacrumont.a: x86-64, ELF, the System V calling convention; it goes into position-independent programs too. It
 * needs memcpy and memset of the C library and nothing else: no heap, no globals, no threads, no input or output, no errno.
 *
 * Every call takes every input: it ends, and does nothing undefined, whatever the bytes are. What must hold of the pointers:
 *   - each points to as many elements as the length behind it says, `used`, `pixels` and `calls` to one, aligned as its type asks;
 *   - none is null, also where its length is 0: any aligned address will do there;
 *   - what a call may write (surface, journal, used, pixels, answers, calls, out) overlaps nothing else that is lent to the same call;
 *   - nobody else writes the lent memory during the call, nor reads what the call writes.
 * Calls on memory of their own may run at the same time. A call keeps no pointer.
 *
 * Stack: a play, and a run, uses about 60 KiB (buffers for one row of 4,096 pixels, and a palette), whatever the input; the other
 * calls use less than 8 KiB. There is no recursion.
 *
 * A surface is width by height 32-bit pixels, row by row from the top: alpha << 24 | red << 16 | green << 8 | blue.
 * A journal is records of 12 bytes: three 32-bit little-endian numbers. `used` counts those in use; it starts at 0. A play needs
 * as many records as it draws pixels, and one more, also where it draws none: room for width * height + 1 takes any one play. A
 * play that finds no room (14) changes nothing, so a larger journal with the same records may be lent and the play tried again.
 */
#ifndef LACRUMONT_H
#define LACRUMONT_H

#include <stddef.h>
#include <stdint.h>

#ifdef __cplusplus
extern "C" {
#endif

enum {
    LACRUMONT_MOST_SIDE = 4096,             /* of a surface */
    LACRUMONT_MOST_RECORD = 16777216,       /* bytes of an EMF record */
    LACRUMONT_MOST_JOURNAL = 20000000,      /* records of a journal */
    LACRUMONT_JOURNAL_RECORD = 12           /* bytes of a journal record */
};

/* What a call answers. The first that applies is given, exactly where it applies; they are judged in the order in which they stand
 * here. A refused call changes no byte of the surface and of the journal and not the count in use, and counts 0 pixels. */
enum lacrumont_status {
    LACRUMONT_OK = 0,
    LACRUMONT_BAD_SURFACE = 1,    /* sides not 1..4,096, or pixels lent are not width * height */
    LACRUMONT_BAD_JOURNAL = 2,    /* not a multiple of 12 bytes, over 20,000,000 records, or used above its records */
    LACRUMONT_BAD_LENGTH = 3,     /* record under 8 bytes or over 16,777,216 */
    LACRUMONT_BAD_TYPE = 4,       /* type not 0x72 (alpha blend), 0x4E (mask blit) or 0x51 (stretched DIB) */
    LACRUMONT_BAD_SIZE = 5,       /* Size not the lent length, not a multiple of 4, or below the fixed part */
    LACRUMONT_BAD_PART = 6,       /* a present picture's part begins before the fixed part's end or ends past Size */
    LACRUMONT_SHARED_PARTS = 21,  /* two parts of the pictures share a byte; judged between 6 and 7 */
    LACRUMONT_BAD_TRANSFORM = 7,  /* XformSrc not the identity, or a present picture's usage not 0 */
    LACRUMONT_BAD_HEADER = 8,     /* header part too short, or a header field not listed or out of bounds */
    LACRUMONT_BAD_MASKS = 9,      /* under BI_BITFIELDS, a channel mask breaks its rules */
    LACRUMONT_BAD_BITS = 10,      /* bits part shorter than its rows */
    LACRUMONT_BAD_OPERATION = 11, /* blend operation, format or alpha, or a source that is needed and absent */
    LACRUMONT_BAD_GEOMETRY = 12,  /* extents, signs, corners, or a source rectangle that is not inside its picture */
    LACRUMONT_BAD_MASK = 13,      /* mask blit whose mask is absent or not 1 bit */
    LACRUMONT_NO_ROOM = 14,       /* play: pixels + 1 exceed the free records */
    LACRUMONT_NOTHING = 15,       /* undo: no record in use */
    LACRUMONT_BAD_CLOSING = 16,   /* undo: the last record does not close a play, names too many, or one of those is off the surface */
    LACRUMONT_BAD_LIST = 29,      /* run: the list is malformed */
    LACRUMONT_FEW_ANSWERS = 30    /* run: there is no room for two numbers of each call */
};

/* Plays the record, cut to the clip (left, top, right, bottom; right and bottom not included; any numbers) with the brush's low
 * 24 bits (red << 16 | green << 8 | blue). Statuses 0 to 14, 21. An empty or inverted clip is accepted.
 *
 * The clipped target is the record's target as far as it lies in the clip and on the surface; it is empty where the record's
 * Bounds (both corners included) do not meet the clip on the surface. An alpha blend blends the surface's alpha with its colours; a
 * mask blit and a stretched DIB leave it. A mask blit's two raster operations are those of MAKEROP4(fore, back) of wingdi.h: bits 16
 * to 23 are the one used where the mask's bit is 1, bits 24 to 31 the one used where it is 0.
 *
 * Accepted: every pixel of the clipped target is drawn, and the journal gets, from record *used on, one record for each (column,
 * row, old pixel; row by row, left to right) and a closing one (0xFFFFFFFF, their number, the record's type). *used grows by
 * their number + 1, and *pixels is their number. All other bytes of the journal stay. Refused: *pixels is 0 and *used keeps
 * its value (both are stored to, so both must be writable); no byte of the surface and of the journal is written. */
uint32_t lacrumont_play(uint32_t *surface, size_t surface_len, uint32_t width, uint32_t height, uint8_t *journal, size_t journal_len,
                        uint64_t *used, const uint8_t *record, size_t record_len, int32_t left, int32_t top, int32_t right,
                        int32_t bottom, uint32_t brush, uint32_t *pixels);

/* Undoes the last play in the journal: restores its pixels from last to first, and lowers *used past its records. The journal is
 * only read. *pixels is the number restored, 0 where the undo is refused. Statuses 0, 1, 2, 15, 16; all records are tested before one pixel is restored. */
uint32_t lacrumont_undo(uint32_t *surface, size_t surface_len, uint32_t width, uint32_t height, const uint8_t *journal,
                        size_t journal_len, uint64_t *used, uint32_t *pixels);

/* Runs a list of plays and undos, each made as by the two calls above, on a journal that has no record in use. The list is 32-bit
 * little-endian numbers: how many calls, then the calls, and nothing behind them. A play: 1, left, top, right, bottom, brush, a number
 * that is kept for a tag and not looked at, the record's length, the record, and bytes up to the next multiple of 4. An undo: 2.
 *
 * `answers` gets two numbers of each call, in order: its status and its pixels. A call that is refused is answered so, and the next
 * one is made. *calls is the number of calls, *used the journal's records in use afterwards. Statuses 0, 1, 2, 29, 30. A refused run makes
 * no call: nothing is written but *calls and *used, which are 0. */
uint32_t lacrumont_run(uint32_t *surface, size_t surface_len, uint32_t width, uint32_t height, uint8_t *journal, size_t journal_len,
                       const uint8_t *list, size_t list_len, uint32_t *answers, size_t answers_len, uint64_t *used, uint32_t *calls);

/* The numbers of a reading, by their place in `out`. The two parts are the record's own bytes, by offset and length. A refused
 * reading, and one of a picture that is absent, gives 0 everywhere but for bits, which are 1. */
enum lacrumont_number {
    LACRUMONT_HEADER_AT = 0,
    LACRUMONT_HEADER_LENGTH = 1, /* all bytes of the header part */
    LACRUMONT_VIEW_AT = 2,
    LACRUMONT_VIEW_LENGTH = 3, /* row length times rows */
    LACRUMONT_WIDTH = 4,
    LACRUMONT_ROWS = 5,
    LACRUMONT_BITS = 6,
    LACRUMONT_COMPRESSION = 7, /* 0 BI_RGB, 3 BI_BITFIELDS */
    LACRUMONT_TOP_DOWN = 8,    /* 1 where the first stored row is the top one */
    LACRUMONT_RED = 9,         /* the masks; 0 under BI_RGB */
    LACRUMONT_GREEN = 10,
    LACRUMONT_BLUE = 11,
    LACRUMONT_ALPHA = 12,
    LACRUMONT_NUMBERS = 13
};

/* Reads the record's source (mask 0) or mask (any other number). Statuses 0, 3 to 13, 21: the whole record is judged. A picture is
 * absent where its four offset and size fields are 0; the types 0x72 and 0x51 have no mask. */
uint32_t lacrumont_read(const uint8_t *record, size_t record_len, uint32_t mask, uint64_t out[LACRUMONT_NUMBERS]);

/* Its palette: 256 colours, red << 16 | green << 8 | blue; black where the table has no entry, where the picture has more than 8
 * bits or is absent, and where the record is refused. */
void lacrumont_palette(const uint8_t *record, size_t record_len, uint32_t mask, uint32_t out[256]);

#ifdef __cplusplus
}
#endif

#endif
