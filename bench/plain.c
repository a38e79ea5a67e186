/* A plain C player, for the benchmark only: it draws what the library draws and journals every old pixel, but trusts its record
   (a 40-byte header, everything in place, no mask but a 1-bit one). What the record decides is decided once a play or once a row. */
#include "../include/lacrumont.h" /* for the length of a journal record alone */
#include "plain.h"

#include <stdlib.h>
#include <string.h>

static const size_t RECORD = LACRUMONT_JOURNAL_RECORD;

static uint32_t le16(const uint8_t *p) { return p[0] | (uint32_t)p[1] << 8; }
static uint32_t le32(const uint8_t *p) { return le16(p) | le16(p + 2) << 16; }

static uint32_t magnitude(int32_t v) { return v < 0 ? 0u - (uint32_t)v : (uint32_t)v; }

struct picture {
    const uint8_t *bits;
    uint32_t width, rows, depth, stride;
    int top_down;
    int fields; /* BI_BITFIELDS 5-6-5; else BI_RGB */
    uint32_t palette[256];
};

static void read_picture(struct picture *p, const uint8_t *record, uint32_t bmi, uint32_t bits) {
    const uint8_t *h = record + bmi;
    int32_t height = (int32_t)le32(h + 8);
    p->bits = record + bits;
    p->width = le32(h + 4);
    p->rows = magnitude(height);
    p->top_down = height < 0;
    p->depth = le16(h + 14);
    p->fields = le32(h + 16) == 3;
    p->stride = (p->width * p->depth + 31) / 32 * 4;
    memset(p->palette, 0, sizeof p->palette);
    if (p->depth <= 8) {
        uint32_t n = le32(h + 32);
        if (n == 0) n = 1u << p->depth;
        for (uint32_t k = 0; k < n; k++) p->palette[k] = 0xFF000000u | (le32(h + 40 + 4 * k) & 0xFFFFFF);
        for (uint32_t k = n; k < 256; k++) p->palette[k] = 0xFF000000u;
    }
}

static const uint8_t *row_of(const struct picture *p, uint32_t row) {
    return p->bits + (size_t)p->stride * (p->top_down ? row : p->rows - 1 - row);
}

static uint8_t widen5[32], widen6[64];

static void make_tables(void) {
    for (int v = 0; v < 32; v++) widen5[v] = (uint8_t)((2 * 255 * v + 31) / 62);
    for (int v = 0; v < 64; v++) widen6[v] = (uint8_t)((2 * 255 * v + 63) / 126);
}

static void fetch(const struct picture *restrict p, const uint8_t *restrict line, const uint32_t *restrict columns, uint32_t n, int alpha, uint32_t *restrict out) {
    switch (p->depth) {
    case 1:
        for (uint32_t i = 0; i < n; i++) out[i] = p->palette[line[columns[i] / 8] >> (7 - columns[i] % 8) & 1];
        break;
    case 4:
        for (uint32_t i = 0; i < n; i++) out[i] = p->palette[columns[i] % 2 ? line[columns[i] / 2] & 15 : line[columns[i] / 2] >> 4];
        break;
    case 8:
        for (uint32_t i = 0; i < n; i++) out[i] = p->palette[line[columns[i]]];
        break;
    case 16:
        if (p->fields) {
            for (uint32_t i = 0; i < n; i++) {
                uint32_t v = le16(line + 2 * columns[i]);
                out[i] = 0xFF000000u | (uint32_t)widen5[v >> 11] << 16 | (uint32_t)widen6[v >> 5 & 63] << 8 | widen5[v & 31];
            }
        } else {
            for (uint32_t i = 0; i < n; i++) {
                uint32_t v = le16(line + 2 * columns[i]);
                out[i] = 0xFF000000u | (uint32_t)widen5[v >> 10 & 31] << 16 | (uint32_t)widen5[v >> 5 & 31] << 8 | widen5[v & 31];
            }
        }
        break;
    case 24:
        for (uint32_t i = 0; i < n; i++) {
            const uint8_t *q = line + 3 * columns[i];
            out[i] = 0xFF000000u | (uint32_t)q[2] << 16 | (uint32_t)q[1] << 8 | q[0];
        }
        break;
    default:
        if (alpha) for (uint32_t i = 0; i < n; i++) out[i] = le32(line + 4 * columns[i]);
        else for (uint32_t i = 0; i < n; i++) out[i] = 0xFF000000u | le32(line + 4 * columns[i]);
    }
}

static void put(uint8_t *j, uint32_t a, uint32_t b, uint32_t c) {
    memcpy(j, &a, 4);
    memcpy(j + 4, &b, 4);
    memcpy(j + 8, &c, 4);
}

static uint32_t blend0(uint32_t s, uint32_t d, uint32_t c) { return (s * c + d * (255 - c) + 127) / 255; }
static uint32_t uncut1(uint32_t s, uint32_t a, uint32_t d, uint32_t c) { return (255 * s * c + (65025 - a * c) * d + 32512) / 65025; }
static uint32_t blend1(uint32_t s, uint32_t a, uint32_t d, uint32_t c) {
    uint32_t v = uncut1(s, a, d, c);
    return v > 255 ? 255 : v;
}

static void row_blend0(uint32_t *restrict d, uint8_t *restrict j, const uint32_t *restrict s, uint32_t n, uint32_t x, uint32_t y, uint32_t c) {
    for (uint32_t i = 0; i < n; i++) {
        uint32_t o = d[i], v = s[i];
        put(j + RECORD * i, x + i, y, o);
        d[i] = blend0(v >> 24, o >> 24, c) << 24 | blend0(v >> 16 & 255, o >> 16 & 255, c) << 16 | blend0(v >> 8 & 255, o >> 8 & 255, c) << 8
             | blend0(v & 255, o & 255, c);
    }
}

static void row_blend1(uint32_t *restrict d, uint8_t *restrict j, const uint32_t *restrict s, uint32_t n, uint32_t x, uint32_t y, uint32_t c) {
    for (uint32_t i = 0; i < n; i++) {
        uint32_t o = d[i], v = s[i], a = v >> 24;
        put(j + RECORD * i, x + i, y, o);
        d[i] = uncut1(a, a, o >> 24, c) << 24 | blend1(v >> 16 & 255, a, o >> 16 & 255, c) << 16 | blend1(v >> 8 & 255, a, o >> 8 & 255, c) << 8
             | blend1(v & 255, a, o & 255, c);
    }
}

/* The operation folded with the brush into four masks: what a bit becomes for source and target 00, 01, 10, 11. */
static void fold(uint32_t m[4], uint32_t op, uint32_t brush) {
    for (int k = 0; k < 4; k++) {
        uint32_t zero = op >> k & 1 ? 0xFFFFFF : 0, one = op >> (k + 4) & 1 ? 0xFFFFFF : 0;
        m[k] = (zero & ~brush) | (one & brush);
    }
}

static uint32_t combine(const uint32_t m[4], uint32_t s, uint32_t d) {
    uint32_t a = (m[0] & ~d) | (m[1] & d), b = (m[2] & ~d) | (m[3] & d);
    return ((a & ~s) | (b & s)) & 0xFFFFFF;
}

static void row_raster(uint32_t *restrict d, uint8_t *restrict j, const uint32_t *restrict s, uint32_t n, uint32_t x, uint32_t y, const uint32_t m[4]) {
    uint32_t k[4] = {m[0], m[1], m[2], m[3]};
    for (uint32_t i = 0; i < n; i++) {
        uint32_t o = d[i];
        put(j + RECORD * i, x + i, y, o);
        d[i] = (o & 0xFF000000u) | combine(k, s[i], o);
    }
}

static void row_masked(uint32_t *restrict d, uint8_t *restrict j, const uint32_t *restrict s, const uint8_t *restrict bits, uint32_t n, uint32_t x, uint32_t y, const uint32_t f[4],
                       const uint32_t b[4]) {
    uint32_t k[4] = {f[0], f[1], f[2], f[3]}, l[4] = {b[0], b[1], b[2], b[3]};
    for (uint32_t i = 0; i < n; i++) {
        uint32_t o = d[i];
        put(j + RECORD * i, x + i, y, o);
        uint32_t q = 0u - bits[i];
        d[i] = (o & 0xFF000000u) | (combine(k, s[i], o) & q) | (combine(l, s[i], o) & ~q);
    }
}

/* The whole target lies on the surface. */
uint32_t plain_play(uint32_t *surface, uint32_t width, uint8_t *journal, uint64_t *used, const uint8_t *r, uint32_t brush) {
    static uint32_t columns[4096], spots[4096], colours[4096];
    static uint8_t bits[4096];
    static struct picture source, mask;
    uint32_t type = le32(r);
    int place = type == 0x51 ? 72 : 32;
    int32_t x = (int32_t)le32(r + 24), y = (int32_t)le32(r + 28), cx = (int32_t)le32(r + place), cy = (int32_t)le32(r + place + 4);
    uint32_t op = le32(r + (type == 0x51 ? 68 : 40));
    int corner = type == 0x51 ? 32 : 44, extent = type == 0x51 ? 40 : type == 0x72 ? 100 : 32, parts = type == 0x51 ? 48 : 84;
    uint32_t xs = le32(r + corner), ys = le32(r + corner + 4);
    int32_t cxs = (int32_t)le32(r + extent), cys = (int32_t)le32(r + extent + 4);
    uint32_t m = magnitude(cx), l = magnitude(cy), n = magnitude(cxs), k = magnitude(cys);
    int present = le32(r + parts + 4) != 0;
    uint32_t left = cx < 0 ? (uint32_t)(x + cx) : (uint32_t)x, top = cy < 0 ? (uint32_t)(y + cy) : (uint32_t)y;
    uint32_t f[4], b[4];
    make_tables();
    fold(f, op >> 16 & 255, brush);
    fold(b, op >> 24, brush);
    if (present) {
        read_picture(&source, r, le32(r + parts), le32(r + parts + 8));
        uint32_t start = cxs < 0 ? xs - n : xs;
        for (uint32_t i = 0; i < m; i++) {
            uint32_t q = (uint32_t)((uint64_t)i * n / m);
            columns[i] = start + ((cx < 0) != (cxs < 0) ? n - 1 - q : q);
        }
    } else memset(colours, 0, sizeof colours);
    if (type == 0x4E) {
        read_picture(&mask, r, le32(r + 112), le32(r + 120));
        for (uint32_t i = 0; i < m; i++) spots[i] = (uint32_t)((((int64_t)(int32_t)le32(r + 100) + i) % mask.width + mask.width) % mask.width);
    }
    uint8_t *j = journal + *used * RECORD;
    for (uint32_t q = 0; q < l; q++) {
        uint32_t *d = surface + (size_t)(top + q) * width + left;
        if (present) {
            uint32_t row = (uint32_t)((uint64_t)q * k / l);
            if ((cy < 0) != (cys < 0)) row = k - 1 - row;
            fetch(&source, row_of(&source, (cys < 0 ? ys - k : ys) + row), columns, m, type == 0x72 && op >> 24 == 1, colours);
        }
        if (type == 0x4E) {
            const uint8_t *line = row_of(&mask, (uint32_t)((((int64_t)(int32_t)le32(r + 104) + q) % mask.rows + mask.rows) % mask.rows));
            for (uint32_t i = 0; i < m; i++) bits[i] = line[spots[i] / 8] >> (7 - spots[i] % 8) & 1;
        }
        if (type == 0x72 && op >> 24 == 0) row_blend0(d, j, colours, m, left, top + q, op >> 16 & 255);
        else if (type == 0x72) row_blend1(d, j, colours, m, left, top + q, op >> 16 & 255);
        else if (type == 0x51) row_raster(d, j, colours, m, left, top + q, f);
        else row_masked(d, j, colours, bits, m, left, top + q, f, b);
        j += RECORD * m;
    }
    put(j, 0xFFFFFFFFu, m * l, type);
    *used += (uint64_t)m * l + 1;
    return m * l;
}

uint32_t plain_undo(uint32_t *surface, uint32_t width, uint32_t height, const uint8_t *journal, uint64_t *used) {
    const uint8_t *last = journal + (*used - 1) * RECORD;
    uint32_t n = le32(last + 4);
    const uint8_t *from = last - n * RECORD;
    if (le32(last) != 0xFFFFFFFFu) return 0;
    for (const uint8_t *p = from; p < last; p += RECORD)
        if (le32(p) >= width || le32(p + 4) >= height) return 0;
    for (const uint8_t *p = last - RECORD; p + RECORD > from; p -= RECORD) surface[(size_t)le32(p + 4) * width + le32(p)] = le32(p + 8);
    *used -= (uint64_t)n + 1;
    return n;
}
