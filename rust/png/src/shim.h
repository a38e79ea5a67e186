/* PNG pictures through libpng. Every call that may fail gives 1 or a pointer where it went well; else 0 or NULL, and the reason in
 * `words`, which has room for PNG_SHIM_WORDS bytes. After a failure a reader or writer may only be closed. Nothing is printed, no
 * call leaves by longjmp, and there is no global state. Pixels are four bytes: blue, green, red, alpha. */
#ifndef PNG_SHIM_H
#define PNG_SHIM_H

#include <stddef.h>
#include <stdint.h>

#define PNG_SHIM_WORDS 256
/* The longest side that is decoded. */
#define PNG_SHIM_MOST_SIDE 4096

struct png_shim_header {
    uint32_t width;
    uint32_t height;
    uint32_t bits;   /* a channel; of palette pictures, an index */
    uint32_t passes; /* over all rows: 7 where it is interlaced, else 1 */
    uint32_t grey;   /* 1 where the file has shades of grey alone */
};

/* A chunk that the pixels do not depend on, as it is. Its data belong to the reader. */
struct png_shim_chunk {
    uint8_t name[4];
    uint32_t behind; /* 1 where it stands behind the image data */
    const uint8_t *data;
    size_t length;
};

struct png_shim_reader;
struct png_shim_writer;

/* Reads all that stands before the image data. `bytes` must stay until the reader is closed. */
struct png_shim_reader *png_shim_open(const uint8_t *bytes, size_t length, struct png_shim_header *header, char *words);
/* Decodes the next rows; height times passes are there. `pixels` is the whole picture, the same at every call. */
int png_shim_read_rows(struct png_shim_reader *reader, uint8_t *pixels, size_t length, uint32_t rows, char *words);
/* Reads the rest of the file, once all rows are decoded. */
int png_shim_read_end(struct png_shim_reader *reader, uint8_t *pixels, size_t length, char *words);
/* The chunk of this number, in the file's order: 1 where there is one. */
int png_shim_chunk(const struct png_shim_reader *reader, size_t number, struct png_shim_chunk *chunk);
void png_shim_close(struct png_shim_reader *reader);

/* Begins a file of RGBA, 8 bits a channel, not interlaced. */
struct png_shim_writer *png_shim_create(uint32_t width, uint32_t height, char *words);
/* Writes a chunk where the file stands: before the first row or behind the last. */
int png_shim_write_chunk(struct png_shim_writer *writer, const uint8_t *name, const uint8_t *data, size_t length, char *words);
int png_shim_write_rows(struct png_shim_writer *writer, const uint8_t *pixels, uint32_t rows, char *words);
int png_shim_write_end(struct png_shim_writer *writer, char *words);
/* The bytes written so far. They belong to the writer. */
const uint8_t *png_shim_written(const struct png_shim_writer *writer, size_t *length);
void png_shim_destroy(struct png_shim_writer *writer);

/* zlib's CRC-32, continued from `sum`; 0 begins one. */
uint32_t png_shim_crc(uint32_t sum, const uint8_t *bytes, size_t length);

#endif
