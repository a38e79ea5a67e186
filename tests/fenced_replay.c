/* Answers a script of `replay` (docs/SCRIPT.md) through the C header, as an AddressSanitizer-built program. Each call is made in
 * three placements of all memory that it is lent: on the heap between the sanitizer's zones, ending at a page that nobody may
 * touch, and beginning behind one. All three must leave the same. A refused call is made once more with surface and journal
 * read-only. What it prints is to be compared with what the second player prints; the tally goes to standard error.
 * With --every-kind it fails where the script does not have each type of play, undos and readings, accepted and refused. */
#define _DEFAULT_SOURCE
#include "../include/lacrumont.h"

#include <inttypes.h>
#include <stdbool.h>
#include <stdio.h>
#include <stdlib.h>
#include <string.h>
#include <sys/mman.h>
#include <unistd.h>

static void fail(const char *why) {
    fflush(stdout);
    fprintf(stderr, "fenced_replay: %s\n", why);
    exit(1);
}

/* ---- memory to lend */

enum placement { HEAP, ENDS_AT_FENCE, BEGINS_BEHIND_FENCE, PLACEMENTS };

struct lent {
    uint8_t *base; /* of the mapping; of the heap's bytes */
    size_t mapped;
    uint8_t *at;
    size_t length;
};

static size_t page(void) {
    return (size_t)sysconf(_SC_PAGESIZE);
}

static struct lent lend(enum placement where, const void *bytes, size_t length) {
    struct lent l = {.length = length};
    if (where == HEAP) {
        l.base = malloc(length ? length : 1);
        if (!l.base) fail("no memory");
        l.at = length ? l.base : l.base + 1;
    } else {
        size_t room = (length + page() - 1) / page() * page();
        l.mapped = room + 2 * page();
        l.base = mmap(NULL, l.mapped, PROT_NONE, MAP_PRIVATE | MAP_ANONYMOUS, -1, 0);
        if (l.base == MAP_FAILED) fail("mmap");
        if (room && mprotect(l.base + page(), room, PROT_READ | PROT_WRITE)) fail("mprotect");
        l.at = l.base + page() + (where == ENDS_AT_FENCE ? room - length : 0);
    }
    if (length) memcpy(l.at, bytes, length);
    return l;
}

/* A write ends the program from now on; the heap's bytes have no pages of their own. */
static void read_only(struct lent *l) {
    if (l->mapped > 2 * page() && mprotect(l->base + page(), l->mapped - 2 * page(), PROT_READ)) fail("mprotect");
}

static void take_back(struct lent *l) {
    if (l->mapped) munmap(l->base, l->mapped);
    else free(l->base);
}

/* ---- the script */

static uint8_t *script;
static size_t script_length, script_at;

static void bad_script(void) {
    printf("bad script\n");
    exit(0);
}

static uint32_t get32(const uint8_t *p) {
    return p[0] | (uint32_t)p[1] << 8 | (uint32_t)p[2] << 16 | (uint32_t)p[3] << 24;
}

static uint32_t word(void) {
    if (script_length - script_at < 4) bad_script();
    script_at += 4;
    return get32(script + script_at - 4);
}

static const uint8_t *data(size_t *length) {
    *length = word();
    if (*length > 131072 || script_length - script_at < (*length + 3) / 4 * 4) bad_script();
    const uint8_t *at = script + script_at;
    script_at += (*length + 3) / 4 * 4;
    for (size_t k = *length; k % 4; k++)
        if (at[k]) bad_script();
    return at;
}

static void read_script(void) {
    size_t room = 1 << 16;
    script = malloc(room);
    for (size_t n = 1; n; script_length += n) {
        if (script_length == room) script = realloc(script, room *= 2);
        if (!script) fail("no memory");
        n = fread(script + script_length, 1, room - script_length, stdin);
    }
}

static uint64_t sum(const void *bytes, size_t length) {
    uint64_t h = UINT64_C(14695981039346656037);
    for (const uint8_t *b = bytes; length--; b++) h = (h ^ *b) * UINT64_C(1099511628211);
    return h;
}

/* ---- the calls; little-endian machines only, as the sums are over the numbers' bytes */

static uint32_t *surface; /* all P pixels, and all J bytes */
static uint8_t *journal;
static size_t all_pixels, all_bytes;
static uint32_t width, height;
static size_t lent_pixels, lent_bytes;
static uint64_t used;

/* By type: accepted, refused. */
static unsigned plays[3][2], undos[2], reads[2], on_read_only;

struct play {
    int32_t clip[4];
    uint32_t brush;
    const uint8_t *record;
    size_t length;
};

struct left {
    uint32_t status, pixels;
    uint64_t used;
    uint32_t *surface;
    uint8_t *journal;
};

/* One call with its own copies of all that is lent; what it left. An undo where play is null. */
static struct left call(enum placement where, const struct play *play, bool sealed) {
    uint32_t unwritten = 0xA5C396E1;
    struct lent s = lend(where, surface, 4 * lent_pixels), j = lend(where, journal, lent_bytes);
    struct lent u = lend(where, &used, sizeof used), p = lend(where, &unwritten, sizeof unwritten);
    struct lent r = lend(where, play ? play->record : NULL, play ? play->length : 0);
    read_only(&r);
    if (sealed) read_only(&s);
    if (sealed || !play) read_only(&j);
    struct left l;
    l.status = play ? lacrumont_play((uint32_t *)s.at, lent_pixels, width, height, j.at, j.length, (uint64_t *)u.at, r.at, r.length,
                                     play->clip[0], play->clip[1], play->clip[2], play->clip[3], play->brush, (uint32_t *)p.at)
                    : lacrumont_undo((uint32_t *)s.at, lent_pixels, width, height, j.at, j.length, (uint64_t *)u.at, (uint32_t *)p.at);
    if (play && play->length && memcmp(r.at, play->record, play->length)) fail("a record was changed");
    l.used = *(uint64_t *)u.at;
    l.pixels = *(uint32_t *)p.at;
    l.surface = malloc(s.length + 1);
    l.journal = malloc(j.length + 1);
    if (!l.surface || !l.journal) fail("no memory");
    memcpy(l.surface, s.at, s.length);
    memcpy(l.journal, j.at, j.length);
    struct lent *all[] = {&s, &j, &u, &p, &r};
    for (size_t k = 0; k < sizeof all / sizeof *all; k++) take_back(all[k]);
    return l;
}

static bool same(const struct left *a, const struct left *b) {
    return a->status == b->status && a->pixels == b->pixels && a->used == b->used && !memcmp(a->surface, b->surface, 4 * lent_pixels) &&
           !memcmp(a->journal, b->journal, lent_bytes);
}

static void count(const struct play *play, bool refused) {
    if (!play) {
        undos[refused]++;
        return;
    }
    if (play->length < 4) return;
    static const uint32_t types[3] = {0x72, 0x4E, 0x51};
    for (int k = 0; k < 3; k++) plays[k][refused] += get32(play->record) == types[k];
}

static void all_placements(const struct play *play) {
    struct left first = call(HEAP, play, false);
    for (int where = HEAP; where < PLACEMENTS; where++)
        for (int sealed = 0; sealed <= (first.status != 0); sealed++) {
            struct left l = call(where, play, sealed);
            if (!same(&first, &l)) fail("a call left something else in another placement");
            free(l.surface);
            free(l.journal);
            on_read_only += sealed && where != HEAP;
        }
    if (first.status) {
        struct left before = {first.status, 0, used, surface, journal};
        if (!same(&first, &before)) fail("a refused call changed something");
    }
    count(play, first.status != 0);
    memcpy(surface, first.surface, 4 * lent_pixels);
    memcpy(journal, first.journal, lent_bytes);
    used = first.used;
    free(first.surface);
    free(first.journal);
    printf("%" PRIu32 " %" PRIu32 " %" PRIu64 "\n", first.status, first.pixels, used);
}

static void play_next(void) {
    struct play play;
    for (int k = 0; k < 4; k++) play.clip[k] = (int32_t)word();
    play.brush = word();
    word(); /* the tag */
    play.record = data(&play.length);
    all_placements(&play);
}

static void read_next(void) {
    uint32_t mask = word();
    size_t length;
    const uint8_t *record = data(&length);
    if (mask > 1) bad_script();
    uint64_t n[PLACEMENTS][LACRUMONT_NUMBERS];
    uint32_t colours[PLACEMENTS][256], status[PLACEMENTS];
    memset(n, 0xA5, sizeof n);
    memset(colours, 0xA5, sizeof colours);
    for (int where = HEAP; where < PLACEMENTS; where++) {
        struct lent r = lend(where, record, length), o = lend(where, n[where], sizeof n[where]);
        struct lent c = lend(where, colours[where], sizeof colours[where]);
        read_only(&r);
        status[where] = lacrumont_read(r.at, length, mask, (uint64_t *)o.at);
        lacrumont_palette(r.at, length, mask, (uint32_t *)c.at);
        memcpy(n[where], o.at, sizeof n[where]);
        memcpy(colours[where], c.at, sizeof colours[where]);
        take_back(&r);
        take_back(&o);
        take_back(&c);
        if (status[where] != status[HEAP] || memcmp(n[where], n[HEAP], sizeof n[HEAP]) || memcmp(colours[where], colours[HEAP], sizeof colours[HEAP]))
            fail("a reading gave something else in another placement");
    }
    reads[status[HEAP] != 0]++;
    const uint64_t *m = n[HEAP];
    if (m[LACRUMONT_HEADER_AT] + m[LACRUMONT_HEADER_LENGTH] > length || m[LACRUMONT_VIEW_AT] + m[LACRUMONT_VIEW_LENGTH] > length) fail("a part outside its record");
    printf("%" PRIu32 " %" PRIu64 " %" PRIu64 " %" PRIu64 " %" PRIu64, status[HEAP], m[LACRUMONT_HEADER_LENGTH],
           sum(record + m[LACRUMONT_HEADER_AT], m[LACRUMONT_HEADER_LENGTH]), m[LACRUMONT_VIEW_LENGTH],
           sum(record + m[LACRUMONT_VIEW_AT], m[LACRUMONT_VIEW_LENGTH]));
    for (int k = LACRUMONT_WIDTH; k < LACRUMONT_NUMBERS; k++) printf(" %" PRIu64, m[k]);
    printf(" %" PRIu64 "\n", sum(colours[HEAP], sizeof colours[HEAP]));
}

static void head(void) {
    if (word() != 0x3143524F) bad_script();
    word(); /* the items in force */
    width = word();
    height = word();
    all_pixels = lent_pixels = word();
    if (all_pixels > 262144) bad_script();
    surface = malloc(4 * all_pixels + 1);
    for (size_t k = 0; k < all_pixels; k++) surface[k] = word();
    all_bytes = lent_bytes = word();
    if (all_bytes > 1048576) bad_script();
    journal = malloc(all_bytes + 1);
    uint32_t seed = word();
    for (size_t k = 0; k < all_bytes; k++) journal[k] = (uint8_t)((uint32_t)(seed + (uint32_t)k) * 2654435761u >> 24);
    used = word();
}

static void lend_next(void) {
    width = word();
    height = word();
    lent_pixels = word();
    lent_bytes = word();
    if (lent_pixels > all_pixels || lent_bytes > all_bytes) bad_script();
}

static void poke_next(void) {
    size_t at = word();
    uint32_t value = word();
    if (at + 4 > all_bytes) bad_script();
    for (int k = 0; k < 4; k++) journal[at + k] = (uint8_t)(value >> 8 * k);
}

int main(int words, char **word_at) {
    bool every_kind = words > 1 && !strcmp(word_at[1], "--every-kind");
    read_script();
    head();
    for (uint32_t op; (op = word());) switch (op) {
        case 1: play_next(); break;
        case 2: all_placements(NULL); break;
        case 3: read_next(); break;
        case 4: lend_next(); break;
        case 5: used = word(); break;
        case 6: poke_next(); break;
        default: bad_script();
        }
    if (script_at != script_length) bad_script();
    printf("sheet %" PRIu64 "\njournal %" PRIu64 "\n", sum(surface, 4 * all_pixels), sum(journal, all_bytes));
    fprintf(stderr, "plays of 0x72: %u accepted, %u refused; of 0x4E: %u, %u; of 0x51: %u, %u; undos: %u, %u; readings: %u, %u\n", plays[0][0],
            plays[0][1], plays[1][0], plays[1][1], plays[2][0], plays[2][1], undos[0], undos[1], reads[0], reads[1]);
    fprintf(stderr, "refused calls made again on read-only surface and journal: %u\n", on_read_only);
    for (int refused = 0; every_kind && refused < 2; refused++)
        if (!plays[0][refused] || !plays[1][refused] || !plays[2][refused] || !undos[refused] || !reads[refused]) fail("the script leaves a kind of call out");
    free(script);
    free(surface);
    free(journal);
    return 0;
}
