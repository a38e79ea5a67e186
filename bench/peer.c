/* pixman doing the like of some rows of the table, plus a copy of the rectangle: a user's other way to be able to take a play back.
   It rounds otherwise, so its pixels are not compared. Built where pixman is installed. */
#include <pixman.h>
#include <stdint.h>
#include <stdio.h>
#include <stdlib.h>
#include <string.h>
#include <time.h>

enum { SIDE = 4096, ROUNDS = 11 };

static double now(void) {
    struct timespec t;
    clock_gettime(CLOCK_PROCESS_CPUTIME_ID, &t);
    return (double)t.tv_sec + (double)t.tv_nsec * 1e-9;
}

static uint32_t seed = 1;
static uint32_t rnd(void) {
    seed = seed * 1664525u + 1013904223u;
    return seed ^ seed >> 15;
}

static uint32_t *surface, *copy;

/* A source of width by rows drawn over the whole surface, at a constant alpha unless it is 255. */
static void run(const char *name, pixman_op_t op, pixman_format_code_t format, int width, int rows, uint8_t constant) {
    uint32_t *bits = malloc((size_t)width * rows * 4);
    for (size_t i = 0; i < (size_t)width * rows; i++) {
        uint32_t v = rnd(), a = v >> 24;
        bits[i] = format == PIXMAN_a8r8g8b8 ? a << 24 | (v >> 16 & 255) * a / 255 << 16 | (v >> 8 & 255) * a / 255 << 8 | (v & 255) * a / 255 : v;
    }
    pixman_image_t *source = pixman_image_create_bits(format, width, rows, bits, width * 4);
    pixman_image_t *target = pixman_image_create_bits(PIXMAN_a8r8g8b8, SIDE, SIDE, surface, SIDE * 4);
    pixman_color_t colour = {0, 0, 0, (uint16_t)(constant * 257)};
    pixman_image_t *mask = constant == 255 ? NULL : pixman_image_create_solid_fill(&colour);
    pixman_transform_t scale;
    pixman_transform_init_scale(&scale, pixman_double_to_fixed((double)width / SIDE), pixman_double_to_fixed((double)rows / SIDE));
    pixman_image_set_transform(source, &scale);
    pixman_image_set_filter(source, PIXMAN_FILTER_NEAREST, NULL, 0);
    pixman_image_set_repeat(source, PIXMAN_REPEAT_PAD);
    double best = 1e9;
    for (int round = 0; round < ROUNDS; round++) {
        double t = now();
        memcpy(copy, surface, (size_t)SIDE * SIDE * 4);
        pixman_image_composite32(op, source, mask, target, 0, 0, 0, 0, 0, 0, SIDE, SIDE);
        t = now() - t;
        if (t < best) best = t;
    }
    printf("| %-44s | %6.2f |\n", name, best * 1e9 / SIDE / SIDE);
    fflush(stdout);
    pixman_image_unref(source);
    pixman_image_unref(target);
    if (mask) pixman_image_unref(mask);
    free(bits);
}

int main(void) {
    surface = malloc((size_t)SIDE * SIDE * 4);
    copy = malloc((size_t)SIDE * SIDE * 4);
    for (size_t i = 0; i < (size_t)SIDE * SIDE; i++) surface[i] = rnd();
    memset(copy, 1, (size_t)SIDE * SIDE * 4);
    printf("| pixman plus a copy of the rectangle | ns/pixel |\n|---|---|\n");
    run("like 0x72, format 0, 32 bits", PIXMAN_OP_OVER, PIXMAN_x8r8g8b8, 4096, 1000, 128);
    run("like 0x72, format 1, 32 bits", PIXMAN_OP_OVER, PIXMAN_a8r8g8b8, 4096, 1000, 128);
    run("like 0x51, 0xCC, 32 bits", PIXMAN_OP_SRC, PIXMAN_x8r8g8b8, 4096, 1000, 255);
    run("like 0x51, 0xCC, 1000 to 4096, 32 bits", PIXMAN_OP_SRC, PIXMAN_x8r8g8b8, 1000, 1000, 255);
    return 0;
}
