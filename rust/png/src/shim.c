#include "shim.h"

#include <png.h>
#include <stdbool.h>
#include <stdlib.h>
#include <string.h>
#include <zlib.h>

enum { PIXEL = 4, MOST_CHUNKS = 1000, MOST_CHUNK_BYTES = 8000000 };
/* Of an orthophoto level 6 makes at most 8 % less, in more than twice the time. */
enum { LEVEL = 4, BUFFER = 65536 };

/* libpng calls back with a pointer to this; a reader and a writer each begin with one. */
struct fault {
    char *words; /* of the call under way */
    char warning[PNG_SHIM_WORDS];
};

struct png_shim_reader {
    struct fault fault;
    png_structp png;
    png_infop info;
    const uint8_t *bytes;
    size_t left;
    struct png_shim_header header;
    bool palette;
    bool started;
    uint32_t row, pass;
};

struct png_shim_writer {
    struct fault fault;
    png_structp png;
    png_infop info;
    uint8_t *out;
    size_t used, room;
    uint32_t width, rows_left;
};

/* ---- errors */

static void say(char *words, const char *first, const char *second) {
    size_t at = 0;
    const char *parts[] = {first, *first ? "; " : "", second};
    for (size_t part = 0; part < 3; part++)
        for (const char *from = parts[part]; *from && at + 1 < PNG_SHIM_WORDS; from++) words[at++] = *from;
    words[at] = 0;
}

/* The warning before an error often says what is wrong, as where IHDR is. */
static void on_error(png_structp png, png_const_charp text) {
    struct fault *fault = png_get_error_ptr(png);
    say(fault->words, fault->warning, text);
    png_longjmp(png, 1);
}

static void on_warning(png_structp png, png_const_charp text) {
    struct fault *fault = png_get_error_ptr(png);
    say(fault->warning, "", text);
}

static void begin(struct fault *fault, char *words) {
    fault->words = words;
    fault->warning[0] = 0;
}

/* ---- reading */

static void on_read(png_structp png, png_bytep to, size_t length) {
    struct png_shim_reader *reader = png_get_io_ptr(png);
    if (length > reader->left) png_error(png, "the file ends too early");
    memcpy(to, reader->bytes, length);
    reader->bytes += length;
    reader->left -= length;
}

/* Every fault of the file is an error. Chunks that the pixels do not depend on are stored as they are and not unpacked; a critical one
 * that is not known is an error. */
static void set_rules(png_structp png) {
    png_set_crc_action(png, PNG_CRC_ERROR_QUIT, PNG_CRC_ERROR_QUIT);
    png_set_benign_errors(png, 0);
    png_set_keep_unknown_chunks(png, PNG_HANDLE_CHUNK_IF_SAFE, NULL, -1);
    png_set_chunk_cache_max(png, MOST_CHUNKS);
    png_set_chunk_malloc_max(png, MOST_CHUNK_BYTES);
    /* The header of a larger picture is told; it is not decoded. */
    png_set_user_limits(png, PNG_UINT_31_MAX, PNG_UINT_31_MAX);
}

/* A palette's indices are left to be looked up and checked here: libpng takes one that is not in the palette for black. */
static void set_expansion(struct png_shim_reader *reader) {
    png_structp png = reader->png;
    if (reader->palette) {
        png_set_packing(png);
    } else {
        png_set_expand(png);
        png_set_gray_to_rgb(png);
        png_set_add_alpha(png, 0xFF, PNG_FILLER_AFTER);
        png_set_bgr(png);
    }
    reader->header.passes = (uint32_t)png_set_interlace_handling(png);
}

static bool read_header(struct png_shim_reader *reader) {
    if (setjmp(png_jmpbuf(reader->png))) return false;
    set_rules(reader->png);
    png_set_read_fn(reader->png, reader, on_read);
    png_read_info(reader->png, reader->info);
    reader->header.width = png_get_image_width(reader->png, reader->info);
    reader->header.height = png_get_image_height(reader->png, reader->info);
    reader->header.bits = png_get_bit_depth(reader->png, reader->info);
    int colours = png_get_color_type(reader->png, reader->info);
    reader->palette = colours == PNG_COLOR_TYPE_PALETTE;
    reader->header.grey = !(colours & PNG_COLOR_MASK_COLOR);
    set_expansion(reader);
    return true;
}

struct png_shim_reader *png_shim_open(const uint8_t *bytes, size_t length, struct png_shim_header *header, char *words) {
    say(words, "", "there is no memory left");
    struct png_shim_reader *reader = calloc(1, sizeof *reader);
    if (!reader) return NULL;
    begin(&reader->fault, words);
    reader->bytes = bytes;
    reader->left = length;
    reader->png = png_create_read_struct(PNG_LIBPNG_VER_STRING, &reader->fault, on_error, on_warning);
    if (reader->png) reader->info = png_create_info_struct(reader->png);
    if (!reader->info || !read_header(reader)) {
        png_shim_close(reader);
        return NULL;
    }
    *header = reader->header;
    return reader;
}

/* Called under setjmp. Nothing may be written past what is lent, whatever libpng makes of the rows. */
static void start_rows(struct png_shim_reader *reader) {
    const struct png_shim_header *header = &reader->header;
    if (header->bits > 8) png_error(reader->png, "16 bits a channel are not decoded");
    if (header->width > PNG_SHIM_MOST_SIDE || header->height > PNG_SHIM_MOST_SIDE)
        png_error(reader->png, "a side is too long");
    png_read_update_info(reader->png, reader->info);
    size_t step = reader->palette ? 1 : PIXEL;
    if (png_get_rowbytes(reader->png, reader->info) != header->width * step)
        png_error(reader->png, "the rows have another length than the picture's width gives");
    reader->started = true;
}

static void check_room(const struct png_shim_reader *reader, size_t length) {
    if (length != (size_t)reader->header.width * reader->header.height * PIXEL)
        png_error(reader->png, "the room lent is not the picture's");
}

int png_shim_read_rows(struct png_shim_reader *reader, uint8_t *pixels, size_t length, uint32_t rows, char *words) {
    begin(&reader->fault, words);
    if (setjmp(png_jmpbuf(reader->png))) return 0;
    check_room(reader, length);
    if (!reader->started) start_rows(reader);
    for (uint32_t done = 0; done < rows; done++) {
        if (reader->pass == reader->header.passes) png_error(reader->png, "there is no row left");
        png_read_row(reader->png, pixels + (size_t)reader->row * reader->header.width * PIXEL, NULL);
        reader->row++;
        if (reader->row == reader->header.height) {
            reader->row = 0;
            reader->pass++;
        }
    }
    return 1;
}

/* Called under setjmp. The indices stand at each row's beginning, so from the last on no one is written over before it is read. */
static void look_up(struct png_shim_reader *reader, uint8_t *pixels) {
    png_colorp colours = NULL;
    png_bytep alphas = NULL;
    int count = 0, alpha_count = 0;
    png_get_PLTE(reader->png, reader->info, &colours, &count);
    png_get_tRNS(reader->png, reader->info, &alphas, &alpha_count, NULL);
    for (uint32_t y = 0; y < reader->header.height; y++) {
        uint8_t *line = pixels + (size_t)y * reader->header.width * PIXEL;
        for (size_t x = reader->header.width; x-- > 0;) {
            int index = line[x];
            if (index >= count) png_error(reader->png, "a pixel names a colour that is not in the palette");
            uint8_t alpha = index < alpha_count ? alphas[index] : 0xFF;
            uint8_t pixel[PIXEL] = {colours[index].blue, colours[index].green, colours[index].red, alpha};
            memcpy(line + x * PIXEL, pixel, PIXEL);
        }
    }
}

int png_shim_read_end(struct png_shim_reader *reader, uint8_t *pixels, size_t length, char *words) {
    begin(&reader->fault, words);
    if (setjmp(png_jmpbuf(reader->png))) return 0;
    check_room(reader, length);
    if (reader->pass != reader->header.passes) png_error(reader->png, "there are rows left");
    png_read_end(reader->png, reader->info);
    if (reader->palette) look_up(reader, pixels);
    return 1;
}

int png_shim_chunk(const struct png_shim_reader *reader, size_t number, struct png_shim_chunk *chunk) {
    png_unknown_chunkp chunks = NULL;
    int count = png_get_unknown_chunks(reader->png, reader->info, &chunks);
    if (count < 0 || number >= (size_t)count) return 0;
    memcpy(chunk->name, chunks[number].name, sizeof chunk->name);
    chunk->behind = (chunks[number].location & PNG_AFTER_IDAT) != 0;
    chunk->data = chunks[number].data;
    chunk->length = chunks[number].size;
    return 1;
}

void png_shim_close(struct png_shim_reader *reader) {
    if (!reader) return;
    png_destroy_read_struct(&reader->png, &reader->info, NULL);
    free(reader);
}

/* ---- writing */

static void on_write(png_structp png, png_bytep from, size_t length) {
    struct png_shim_writer *writer = png_get_io_ptr(png);
    if (length > writer->room - writer->used) {
        size_t room = writer->room * 2 + length + BUFFER;
        uint8_t *out = realloc(writer->out, room);
        if (!out) png_error(png, "there is no memory left");
        writer->out = out;
        writer->room = room;
    }
    memcpy(writer->out + writer->used, from, length);
    writer->used += length;
}

static void on_flush(png_structp png) {
    (void)png;
}

static bool write_header(struct png_shim_writer *writer, uint32_t height) {
    if (setjmp(png_jmpbuf(writer->png))) return false;
    png_set_write_fn(writer->png, writer, on_write, on_flush);
    png_set_compression_level(writer->png, LEVEL);
    png_set_filter(writer->png, PNG_FILTER_TYPE_BASE, PNG_ALL_FILTERS);
    png_set_compression_buffer_size(writer->png, BUFFER);
    png_set_IHDR(writer->png, writer->info, writer->width, height, 8, PNG_COLOR_TYPE_RGB_ALPHA, PNG_INTERLACE_NONE,
                 PNG_COMPRESSION_TYPE_BASE, PNG_FILTER_TYPE_BASE);
    png_write_info(writer->png, writer->info);
    png_set_bgr(writer->png);
    return true;
}

struct png_shim_writer *png_shim_create(uint32_t width, uint32_t height, char *words) {
    say(words, "", "there is no memory left");
    struct png_shim_writer *writer = calloc(1, sizeof *writer);
    if (!writer) return NULL;
    begin(&writer->fault, words);
    writer->width = width;
    writer->rows_left = height;
    writer->png = png_create_write_struct(PNG_LIBPNG_VER_STRING, &writer->fault, on_error, on_warning);
    if (writer->png) writer->info = png_create_info_struct(writer->png);
    if (!writer->info || !write_header(writer, height)) {
        png_shim_destroy(writer);
        return NULL;
    }
    return writer;
}

int png_shim_write_chunk(struct png_shim_writer *writer, const uint8_t *name, const uint8_t *data, size_t length, char *words) {
    begin(&writer->fault, words);
    if (setjmp(png_jmpbuf(writer->png))) return 0;
    png_write_chunk(writer->png, name, data, length);
    return 1;
}

int png_shim_write_rows(struct png_shim_writer *writer, const uint8_t *pixels, uint32_t rows, char *words) {
    begin(&writer->fault, words);
    if (setjmp(png_jmpbuf(writer->png))) return 0;
    if (rows > writer->rows_left) png_error(writer->png, "there is no row left");
    for (uint32_t done = 0; done < rows; done++)
        png_write_row(writer->png, pixels + (size_t)done * writer->width * PIXEL);
    writer->rows_left -= rows;
    return 1;
}

int png_shim_write_end(struct png_shim_writer *writer, char *words) {
    begin(&writer->fault, words);
    if (setjmp(png_jmpbuf(writer->png))) return 0;
    if (writer->rows_left) png_error(writer->png, "there are rows left");
    png_write_end(writer->png, NULL);
    return 1;
}

const uint8_t *png_shim_written(const struct png_shim_writer *writer, size_t *length) {
    *length = writer->used;
    return writer->out;
}

void png_shim_destroy(struct png_shim_writer *writer) {
    if (!writer) return;
    png_destroy_write_struct(&writer->png, &writer->info);
    free(writer->out);
    free(writer);
}

uint32_t png_shim_crc(uint32_t sum, const uint8_t *bytes, size_t length) {
    return (uint32_t)crc32_z(sum, bytes, length);
}
