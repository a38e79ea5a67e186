/* Plays and undoes on a 4096 by 4096 surface, journal included, by the library and by the plain C player of plain.c on the same input in
   the same run. Nanoseconds of processor time a pixel, the least of several rounds taken in turn, and their ratio. Surfaces, journals and counts must come out alike. */
#include "../include/lacrumont.h"
#include "plain.h"

#include <stdio.h>
#include <stdlib.h>
#include <string.h>
#include <time.h>

enum { SIDE = 4096, ROUNDS = 11 };
static const size_t PIXELS = (size_t)SIDE * SIDE, JOURNAL = ((size_t)SIDE * SIDE + 1) * LACRUMONT_JOURNAL_RECORD;

static double now(void) {
    struct timespec t;
    clock_gettime(CLOCK_PROCESS_CPUTIME_ID, &t);
    return (double)t.tv_sec + (double)t.tv_nsec * 1e-9;
}

static uint32_t seed = 1;
static uint32_t rnd(void) {
    seed = seed * 1664525u + 1013904223u;
    return seed ^ seed >> 15;
}

static void w32(uint8_t *p, uint32_t v) {
    for (int i = 0; i < 4; i++) p[i] = (uint8_t)(v >> 8 * i);
}

/* A record of a type with a target, an operation and, if depth is not 0, a source of width by rows; a 1-bit mask for 0x4E. */
static size_t make(uint8_t *r, uint32_t type, int32_t cx, int32_t cy, uint32_t op, uint32_t depth, int fields, uint32_t width, uint32_t rows) {
    uint32_t fixed = type == 0x72 ? 108 : type == 0x4E ? 128 : 80, parts = type == 0x51 ? 48 : 84, at = fixed;
    memset(r, 0, 1024 + 4096);
    w32(r, type);
    w32(r + 16, SIDE - 1);
    w32(r + 20, SIDE - 1);
    w32(r + 24, cx < 0 ? (uint32_t)-cx : 0);
    w32(r + 28, cy < 0 ? (uint32_t)-cy : 0);
    w32(r + (type == 0x51 ? 72 : 32), (uint32_t)cx);
    w32(r + (type == 0x51 ? 76 : 36), (uint32_t)cy);
    w32(r + (type == 0x51 ? 68 : 40), op);
    if (type != 0x51) {
        w32(r + 52, 0x3F800000);
        w32(r + 64, 0x3F800000);
    }
    for (int pass = 0; pass < 2; pass++) {
        uint32_t d = pass ? 1 : depth, w = pass ? 4096 : width, h = pass ? 61 : rows, p = pass ? 112 : parts;
        if (d == 0 || (pass && type != 0x4E)) continue;
        uint32_t colours = d <= 8 ? 1u << d : 0, head = 40 + (fields && !pass ? 12 : 0) + 4 * colours, bits = (w * d + 31) / 32 * 4 * h;
        if (!pass && type != 0x4E) {
            w32(r + (type == 0x51 ? 40 : 100), w);
            w32(r + (type == 0x51 ? 44 : 104), h);
        }
        w32(r + p, at);
        w32(r + p + 4, head);
        w32(r + p + 8, at + head);
        w32(r + p + 12, bits);
        uint8_t *b = r + at;
        memset(b, 0, head);
        w32(b, 40);
        w32(b + 4, w);
        w32(b + 8, h);
        w32(b + 12, 1 | d << 16);
        w32(b + 16, fields && !pass ? 3 : 0);
        if (fields && !pass) {
            w32(b + 40, 0xF800);
            w32(b + 44, 0x07E0);
            w32(b + 48, 0x001F);
        }
        for (uint32_t k = 0; k < colours; k++) w32(b + head - 4 * colours + 4 * k, rnd());
        for (uint32_t k = 0; k < bits; k++) b[head + k] = (uint8_t)rnd();
        if (d == 32) /* premultiplied, as format 1 asks for */
            for (uint32_t k = 0; k < bits; k += 4)
                for (int q = 0; q < 3; q++) b[head + k + q] = (uint8_t)(b[head + k + q] * b[head + k + 3] / 255);
        at += head + bits;
    }
    w32(r + 4, at);
    return at;
}

static uint32_t *before, *ours, *theirs;
static uint8_t *our_journal, *their_journal, *record;
static int differs;

static void check(const char *what, int alike) {
    if (alike) return;
    printf("DIFFERENT: %s\n", what);
    differs = 1;
}

static void run(const char *name, size_t len) {
    double best_a = 1e9, best_b = 1e9, undo_a = 1e9, undo_b = 1e9;
    uint32_t pixels = 0;
    for (int round = 0; round < ROUNDS; round++) {
        uint64_t used_a = 0, used_b = 0;
        uint32_t n = 0;
        memcpy(ours, before, PIXELS * 4);
        double t = now();
        uint32_t status = lacrumont_play(ours, PIXELS, SIDE, SIDE, our_journal, JOURNAL, &used_a, record, len, 0, 0, SIDE, SIDE, 0x123456, &pixels);
        t = now() - t;
        if (t < best_a) best_a = t;
        memcpy(theirs, before, PIXELS * 4);
        t = now();
        n = plain_play(theirs, SIDE, their_journal, &used_b, record, 0x123456);
        t = now() - t;
        if (t < best_b) best_b = t;
        check(name, status == 0 && n == pixels && used_a == used_b);
        if (round == 0) check(name, !memcmp(ours, theirs, PIXELS * 4) && !memcmp(our_journal, their_journal, used_a * LACRUMONT_JOURNAL_RECORD));
        t = now();
        status = lacrumont_undo(ours, PIXELS, SIDE, SIDE, our_journal, JOURNAL, &used_a, &n);
        t = now() - t;
        if (t < undo_a) undo_a = t;
        check("undo", status == 0 && n == pixels && used_a == 0);
        t = now();
        n = plain_undo(theirs, SIDE, SIDE, their_journal, &used_b);
        t = now() - t;
        if (t < undo_b) undo_b = t;
        if (round == 0) check("undo", !memcmp(ours, before, PIXELS * 4) && !memcmp(theirs, before, PIXELS * 4));
    }
    double k = 1e9 / pixels;
    printf("| %-44s | %6.2f | %6.2f | %5.2f | %6.2f | %6.2f | %5.2f |\n", name, best_a * k, best_b * k, best_a / best_b, undo_a * k, undo_b * k,
           undo_a / undo_b);
    fflush(stdout);
}

/* Plays of a small record, one after the other from an empty journal: what a play costs by itself. */
static void small(const char *name, size_t len) {
    enum { PLAYS = 20000 };
    double best_a = 1e9, best_b = 1e9;
    for (int round = 0; round < ROUNDS; round++) {
        uint64_t used_a = 0, used_b = 0;
        uint32_t n = 0, pixels = 0;
        double t = now();
        for (int k = 0; k < PLAYS; k++) {
            used_a = 0;
            if (lacrumont_play(ours, PIXELS, SIDE, SIDE, our_journal, JOURNAL, &used_a, record, len, 0, 0, SIDE, SIDE, 0x123456, &pixels)) differs = 1;
        }
        t = now() - t;
        if (t < best_a) best_a = t;
        t = now();
        for (int k = 0; k < PLAYS; k++) {
            used_b = 0;
            n = plain_play(theirs, SIDE, their_journal, &used_b, record, 0x123456);
        }
        t = now() - t;
        if (t < best_b) best_b = t;
        check(name, n == pixels && used_a == used_b && !memcmp(ours, theirs, PIXELS * 4));
    }
    printf("| %-44s | %6.0f | %6.0f | %5.2f |\n", name, best_a * 1e9 / PLAYS, best_b * 1e9 / PLAYS, best_a / best_b);
    fflush(stdout);
}

int main(void) {
    before = malloc(PIXELS * 4);
    ours = malloc(PIXELS * 4);
    theirs = malloc(PIXELS * 4);
    our_journal = calloc(1, JOURNAL);
    their_journal = calloc(1, JOURNAL);
    record = malloc(17u << 20);
    for (size_t i = 0; i < PIXELS; i++) before[i] = rnd();
    memcpy(ours, before, PIXELS * 4);
    printf("| play | library ns/pixel | plain C ns/pixel | ratio | undo: library | plain C | ratio |\n|---|---|---|---|---|---|---|\n");
    run("0x72, format 0, 32 bits", make(record, 0x72, SIDE, SIDE, 0x00800000, 32, 0, 4096, 1000));
    run("0x72, format 1, 32 bits", make(record, 0x72, SIDE, SIDE, 0x01800000, 32, 0, 4096, 1000));
    run("0x51, 0xCC, 32 bits", make(record, 0x51, SIDE, SIDE, 0x00CC0020, 32, 0, 4096, 1000));
    run("0x51, 0x66, 32 bits", make(record, 0x51, SIDE, SIDE, 0x00660046, 32, 0, 4096, 1000));
    run("0x51, 0xF0, no source", make(record, 0x51, SIDE, SIDE, 0x00F00021, 0, 0, 0, 0));
    run("0x4E, 0xCC over 0x66, 8 bits", make(record, 0x4E, SIDE, 4000, 0x66CC0000, 8, 0, 4096, 4000));
    static const struct { const char *name; uint32_t depth; int fields; } depths[] = {
        {"1 bit", 1, 0}, {"4 bits", 4, 0}, {"8 bits", 8, 0}, {"16 bits 5-6-5", 16, 1}, {"16 bits BI_RGB", 16, 0}, {"24 bits", 24, 0}, {"32 bits", 32, 0}};
    for (int k = 0; k < 7; k++) {
        char name[64];
        snprintf(name, sizeof name, "0x51, 0xCC, 1000 to 4096, %s", depths[k].name);
        run(name, make(record, 0x51, SIDE, SIDE, 0x00CC0020, depths[k].depth, depths[k].fields, 1000, 1000));
    }
    run("0x51, 0xCC, 1000 to 4096, 32 bits, mirrored", make(record, 0x51, -SIDE, SIDE, 0x00CC0020, 32, 0, 1000, 1000));
    memcpy(ours, before, PIXELS * 4);
    memcpy(theirs, before, PIXELS * 4);
    printf("\n| small play | library ns/play | plain C ns/play | ratio |\n|---|---|---|---|\n");
    small("16 by 16, 0x51, 0xCC, 32 bits", make(record, 0x51, 16, 16, 0x00CC0020, 32, 0, 16, 16));
    small("16 by 16, 0x72, format 1, 32 bits", make(record, 0x72, 16, 16, 0x01800000, 32, 0, 16, 16));
    small("16 by 16, 0x4E, 0xCC over 0x66, 8 bits", make(record, 0x4E, 16, 16, 0x66CC0000, 8, 0, 16, 16));
    small("1 by 1, 0x51, 0xF0, no source", make(record, 0x51, 1, 1, 0x00F00021, 0, 0, 0, 0));
    return differs;
}
