/* Damaged PNG files through the shim of rust/png, for a build with AddressSanitizer: each file named on the command line is cut at every
 * length, changed at every byte, and changed at many places at once. Every change is tried as it is, which the checksums catch, and with
 * all checksums mended, so that libpng, zlib and the shim meet it. What is read then must come back when it is written. */
#include "../rust/png/src/shim.h"

#include <stdio.h>
#include <stdlib.h>
#include <string.h>

enum { SIGNATURE = 8, FRAME = 12, PIXEL = 4, STRETCH = 64, MANY = 1000 };

static unsigned long refused, read_whole;

static void *memory(size_t length) {
    void *room = malloc(length ? length : 1);
    if (!room) abort();
    return room;
}

static void fail(const char *what) {
    fprintf(stderr, "damaged_png: %s\n", what);
    exit(1);
}

/* A failure has its reason in words. */
static void refuse(const char *words) {
    if (!*words || !memchr(words, 0, PNG_SHIM_WORDS)) fail("refused without words");
    refused++;
}

static uint32_t big(const uint8_t *at) {
    return (uint32_t)at[0] << 24 | (uint32_t)at[1] << 16 | (uint32_t)at[2] << 8 | at[3];
}

/* Each chunk that lies in the file whole gets the checksum of what it holds. */
static void mend(uint8_t *bytes, size_t length) {
    size_t at = SIGNATURE;
    while (length >= FRAME && at <= length - FRAME) {
        size_t data = big(bytes + at);
        if (data > length - FRAME - at) return;
        uint32_t sum = png_shim_crc(0, bytes + at + 4, data + 4);
        for (int k = 0; k < 4; k++) bytes[at + 8 + data + k] = (uint8_t)(sum >> (24 - 8 * k));
        at += FRAME + data;
    }
}

/* The pixels in room of just their size; NULL where the file is refused. */
static uint8_t *decode(struct png_shim_reader *reader, const struct png_shim_header *header, char *words) {
    size_t length = (size_t)header->width * header->height * PIXEL;
    uint8_t *pixels = memory(length);
    memset(pixels, 0, length);
    uint64_t left = (uint64_t)header->height * header->passes;
    int went = 1;
    while (went && left) {
        uint32_t rows = left < STRETCH ? (uint32_t)left : STRETCH;
        went = png_shim_read_rows(reader, pixels, length, rows, words);
        left -= rows;
    }
    if (went && png_shim_read_end(reader, pixels, length, words)) return pixels;
    free(pixels);
    return NULL;
}

static void write_chunks(struct png_shim_reader *reader, struct png_shim_writer *writer, uint32_t behind, char *words) {
    struct png_shim_chunk chunk;
    for (size_t number = 0; png_shim_chunk(reader, number, &chunk); number++)
        if (chunk.behind == behind && !png_shim_write_chunk(writer, chunk.name, chunk.data, chunk.length, words)) fail(words);
}

static void same_pixels(const uint8_t *bytes, size_t length, const uint8_t *pixels, const struct png_shim_header *header) {
    char words[PNG_SHIM_WORDS];
    struct png_shim_header again;
    struct png_shim_reader *reader = png_shim_open(bytes, length, &again, words);
    if (!reader) fail(words);
    if (again.width != header->width || again.height != header->height) fail("another size came back");
    uint8_t *back = decode(reader, &again, words);
    if (!back) fail(words);
    if (memcmp(back, pixels, (size_t)header->width * header->height * PIXEL)) fail("other pixels came back");
    free(back);
    png_shim_close(reader);
}

/* Writes the picture with its chunks and reads it once more. */
static void there_and_back(struct png_shim_reader *reader, const struct png_shim_header *header, const uint8_t *pixels) {
    char words[PNG_SHIM_WORDS];
    struct png_shim_writer *writer = png_shim_create(header->width, header->height, words);
    if (!writer) fail(words);
    write_chunks(reader, writer, 0, words);
    if (!png_shim_write_rows(writer, pixels, header->height, words)) fail(words);
    write_chunks(reader, writer, 1, words);
    if (!png_shim_write_end(writer, words)) fail(words);
    size_t length;
    const uint8_t *bytes = png_shim_written(writer, &length);
    same_pixels(bytes, length, pixels, header);
    png_shim_destroy(writer);
}

/* The bytes in room of just their size, so that reading past them is seen. */
static void try(const uint8_t *bytes, size_t length) {
    char words[PNG_SHIM_WORDS];
    struct png_shim_header header;
    uint8_t *copy = memory(length);
    memcpy(copy, bytes, length);
    memset(words, 'x', sizeof words);
    struct png_shim_reader *reader = png_shim_open(copy, length, &header, words);
    if (!reader) {
        refuse(words);
    } else if (header.width > PNG_SHIM_MOST_SIDE || header.height > PNG_SHIM_MOST_SIDE) {
        refused++; /* the caller says so */
    } else {
        uint8_t *pixels = decode(reader, &header, words);
        if (pixels) {
            read_whole++;
            if (header.width * header.height < 10000) there_and_back(reader, &header, pixels);
        } else {
            refuse(words);
        }
        free(pixels);
    }
    png_shim_close(reader);
    free(copy);
}

static void try_both(uint8_t *bytes, size_t length) {
    try(bytes, length);
    mend(bytes, length);
    try(bytes, length);
}

static uint32_t next(uint32_t *seed) {
    *seed = *seed * 1664525 + 1013904223;
    return *seed >> 8;
}

static void damage(const uint8_t *good, size_t length) {
    static const uint8_t changes[] = {0x01, 0x80, 0xFF};
    uint8_t *bytes = memory(length);
    for (size_t cut = 0; cut < length; cut++) try(good, cut);
    for (size_t at = 0; at < length; at++)
        for (size_t k = 0; k < sizeof changes; k++) {
            memcpy(bytes, good, length);
            bytes[at] ^= changes[k];
            try_both(bytes, length);
        }
    uint32_t seed = 7;
    for (int k = 0; k < MANY; k++) {
        memcpy(bytes, good, length);
        for (uint32_t more = 1 + next(&seed) % 8; more; more--) {
            size_t at = SIGNATURE + next(&seed) % (length - SIGNATURE);
            bytes[at] = (uint8_t)next(&seed);
        }
        try_both(bytes, length);
    }
    free(bytes);
}

static size_t load(const char *path, uint8_t *bytes, size_t room) {
    FILE *file = fopen(path, "rb");
    if (!file) fail(path);
    size_t length = fread(bytes, 1, room, file);
    fclose(file);
    if (length <= SIGNATURE || length == room) fail("a file is too short or too long");
    return length;
}

int main(int count, char **paths) {
    static uint8_t bytes[65536];
    for (int k = 1; k < count; k++) {
        size_t length = load(paths[k], bytes, sizeof bytes);
        unsigned long before = read_whole;
        try(bytes, length);
        /* Pictures of 16 bits a channel are the only ones that are refused as they are. */
        if (read_whole == before && !strstr(paths[k], "-16.png")) fail(paths[k]);
        damage(bytes, length);
    }
    if (!refused || !read_whole) fail("nothing was tried");
    printf("%d files: %lu damaged ones refused, %lu read whole\n", count - 1, refused, read_whole);
    return 0;
}
