/* Two versions of the proved code in one program (bin/compare): `before_` and `now_` stand before the names of each. The two take turns, batch by batch,
 * and what is told is the median time of each and of their ratio. A row of which a version lacks the call is left out. */
#define _GNU_SOURCE
#include <stdint.h>
#include <stdio.h>
#include <stdlib.h>
#include <string.h>
#include <time.h>

enum { ROOM = 46456, BATCHES = 201 };
static const double BATCH_NS = 2e6;

typedef uint32_t is_access_allowed(const uint8_t *, size_t, uint32_t, const uint8_t *, size_t, uint32_t, uint32_t, const uint8_t *, size_t,
                                   const uint8_t *, size_t);
typedef uint32_t decide(const uint8_t *, size_t, uint32_t, const uint8_t *, size_t, uint32_t, uint32_t, const uint8_t *, size_t, const uint32_t *, size_t);
typedef uint32_t owner_edit(uint8_t *, size_t, uint32_t, uint32_t, const uint8_t *, size_t);
typedef uint32_t read_image(const uint8_t *, size_t, uint8_t *);
typedef uint64_t write_image(const uint8_t *, size_t, uint8_t *, size_t);

struct version {
    is_access_allowed *agent;
    decide *decide;
    owner_edit *edit;
    read_image *read;
    write_image *write;
    uint32_t change, remove;
};

#define VERSION(v)                                                       \
    __attribute__((weak)) is_access_allowed v##_dugwalen_is_access_allowed; \
    __attribute__((weak)) decide v##_bench_decide;                       \
    __attribute__((weak)) owner_edit v##_bench_owner_edit;               \
    __attribute__((weak)) read_image v##_bench_read_image;               \
    __attribute__((weak)) write_image v##_bench_write_image;             \
    static struct version v(void) {                                      \
        return (struct version){v##_dugwalen_is_access_allowed, v##_bench_decide, v##_bench_owner_edit, v##_bench_read_image, v##_bench_write_image, 1, 2}; \
    }
VERSION(before)
VERSION(now)

/* ---- tables: those of the Ridge, and completely full ones with one view of 96 rows whose 64 parts are equal up to the last */

static uint8_t ridge[ROOM], full[ROOM], changed[ROOM], out[ROOM];
static size_t ridge_length, full_length;

static uint8_t *put_name(uint8_t *p, int octet, int last) {
    *p++ = 32;
    memset(p, octet, 31);
    p[31] = (uint8_t)last;
    return p + 32;
}

static uint8_t *put_quad(uint8_t *p, uint32_t x) {
    for (int shift = 24; shift >= 0; shift -= 8) *p++ = (uint8_t)(x >> shift);
    return p;
}

static uint8_t *put_mapping(uint8_t *p, int i) {
    p = put_name(put_name(put_quad(p, 3), 'n', i), 'g', i);
    *p++ = 3, *p++ = 1;
    return p;
}

static uint8_t *put_access(uint8_t *p, int i) {
    p = put_quad(put_name(put_name(p, 'g', i), 'c', 15), 3);
    *p++ = 1, *p++ = 1;
    for (int k = 0; k < 3; k++) p = put_name(p, 'v', 0);
    *p++ = 3, *p++ = 1;
    return p;
}

static uint8_t *put_view(uint8_t *p, int i) {
    p = put_name(p, 'v', 0);
    *p++ = 64;
    for (int k = 0; k < 63; k++) p = put_quad(p, 1);
    p = put_quad(p, (uint32_t)i);
    *p++ = 16;
    memset(p, 0xff, 16);
    p += 16;
    *p++ = 1, *p++ = 3, *p++ = 1;
    return p;
}

static void make_full(void) {
    static const int counts[4] = {16, 64, 64, 96};
    uint8_t *lengths = full + 8, *row = lengths + 2 * (16 + 64 + 64 + 96);
    for (int t = 0; t < 4; t++) {
        full[2 * t + 1] = (uint8_t)counts[t];
        for (int i = 0; i < counts[t]; i++) {
            uint8_t *end = t == 0 ? put_name(row, 'c', i) : t == 1 ? put_mapping(row, i) : t == 2 ? put_access(row, i) : put_view(row, i);
            *lengths++ = (uint8_t)((end - row) >> 8);
            *lengths++ = (uint8_t)(end - row);
            row = end;
        }
    }
    full_length = (size_t)(row - full);
}

/* ---- the rows of the table */

enum work { AGENT_RIDGE, AGENT_LAST, AGENT_FIRST, AGENT_NONE, STORE_RIDGE, STORE_LAST, STORE_FIRST, STORE_NONE, CHANGE, TWO_CHANGES, REMOVE_CREATE,
            READ_RIDGE, WRITE_RIDGE, READ_FULL, WRITE_FULL, WORKS };

static const char *const titles[WORKS] = {
    "C call, the Ridge tables, P1", "C call, full tables, the last view row decides", "C call, full tables, the first view row decides",
    "C call, full tables, no view row matches", "decision on a store, the Ridge tables, P1",
    "decision on a store, full tables, the last view row decides", "decision on a store, full tables, the first view row decides",
    "decision on a store, full tables, no view row matches", "change of the first mapping row", "two changes of it, shorter, then longer",
    "removal and create of the first context row", "image reading, the Ridge tables", "image writing, the Ridge tables", "image reading, full tables",
    "image writing, full tables"};

static uint32_t variables[4][64];
static uint8_t variable_bytes[4][256], names[4][32], contexts[4][32], same_row[80], short_row[80], context_row[33];
static size_t variable_parts[4], name_lengths[4], context_lengths[4], same_length, short_length;

static void make_requests(void) {
    static const uint32_t p1[] = {1, 3, 6, 1, 2, 1, 2, 2, 1, 8, 2};
    static const uint32_t last[4] = {0, 95, 0, 96};
    for (int k = 0; k < 4; k++) {
        variable_parts[k] = k == 0 ? 11 : 64;
        for (size_t i = 0; i < variable_parts[k]; i++) {
            variables[k][i] = k == 0 ? p1[i] : i == 63 ? last[k] : 1;
            put_quad(variable_bytes[k] + 4 * i, variables[k][i]);
        }
        name_lengths[k] = k == 0 ? 3 : 32;
        context_lengths[k] = k == 0 ? 6 : 32;
        memset(names[k], 'n', 31), names[k][31] = 63;
        memset(contexts[k], 'c', 31), contexts[k][31] = 15;
    }
    memcpy(names[0], "ann", 3);
    memcpy(contexts[0], "ridge1", 6);
    same_length = (size_t)(put_mapping(same_row, 0) - same_row);
    memcpy(short_row, same_row, 37);
    memcpy(short_row + 37, "\1g\3\1", 4);
    short_length = 41;
    put_name(context_row, 'c', 0);
}

static int has(const struct version *v, enum work w) {
    return w <= AGENT_NONE ? v->agent != NULL : w <= STORE_NONE ? v->decide != NULL : w <= REMOVE_CREATE ? v->edit != NULL
           : (w == READ_RIDGE || w == READ_FULL) ? v->read != NULL : v->write != NULL;
}

/* A version from before creates were apart from changes does both by 0 and removes by 1. */
static void number_operations(struct version *v) {
    if (v->edit != NULL && v->edit(changed, ROOM, 0, 1, same_row, same_length) == 0) v->change = 0, v->remove = 1;
}

static uint64_t once(const struct version *v, enum work w) {
    int k = w <= AGENT_NONE ? (int)w : (int)w - STORE_RIDGE;
    uint64_t r;
    switch (w) {
    case AGENT_RIDGE: case AGENT_LAST: case AGENT_FIRST: case AGENT_NONE:
        return v->agent(k ? full : ridge, k ? full_length : ridge_length, 3, names[k], name_lengths[k], 3, 1, contexts[k], context_lengths[k],
                        variable_bytes[k], 4 * variable_parts[k]);
    case STORE_RIDGE: case STORE_LAST: case STORE_FIRST: case STORE_NONE:
        return v->decide(k ? full : ridge, ROOM, 3, names[k], name_lengths[k], 3, 1, contexts[k], context_lengths[k], variables[k], variable_parts[k]);
    case CHANGE: return v->edit(changed, ROOM, v->change, 1, same_row, same_length);
    case TWO_CHANGES:
        r = v->edit(changed, ROOM, v->change, 1, short_row, short_length);
        return r + v->edit(changed, ROOM, v->change, 1, same_row, same_length);
    case REMOVE_CREATE:
        r = v->edit(changed, ROOM, v->remove, 0, context_row, sizeof context_row);
        return r + v->edit(changed, ROOM, 0, 0, context_row, sizeof context_row);
    case READ_RIDGE: return v->read(ridge, ridge_length, out);
    case WRITE_RIDGE: return v->write(ridge, ROOM, out, ROOM);
    case READ_FULL: return v->read(full, full_length, out);
    case WRITE_FULL: return v->write(full, ROOM, out, ROOM);
    case WORKS: break;
    }
    return 0;
}

/* ---- measuring */

static double cpu_ns(void) {
    struct timespec t;
    clock_gettime(CLOCK_THREAD_CPUTIME_ID, &t);
    return (double)t.tv_sec * 1e9 + (double)t.tv_nsec;
}

static volatile uint64_t sink;

static double batch(const struct version *v, enum work w, int times) {
    double from = cpu_ns();
    for (int i = 0; i < times; i++) {
        sink += once(v, w);
        __asm__ volatile("" ::: "memory");
    }
    return (cpu_ns() - from) / times;
}

static int by_size(const void *a, const void *b) {
    double x = *(const double *)a, y = *(const double *)b;
    return (x > y) - (x < y);
}

static double median(double *xs) {
    qsort(xs, BATCHES, sizeof *xs, by_size);
    return xs[BATCHES / 2];
}

int main(int argc, char **argv) {
    FILE *file = argc == 2 ? fopen(argv[1], "rb") : NULL;
    if (file == NULL) return fprintf(stderr, "usage: compare TABLES, the image of the Ridge tables\n"), 2;
    ridge_length = fread(ridge, 1, ROOM, file);
    fclose(file);
    make_full();
    make_requests();
    memcpy(changed, full, ROOM);
    struct version versions[2] = {before(), now()};
    for (int k = 0; k < 2; k++) number_operations(&versions[k]);
    printf("| work | before | now | now to before |\n|---|---|---|---|\n");
    for (enum work w = 0; w < WORKS; w++) {
        if (!has(&versions[0], w) || !has(&versions[1], w)) continue;
        if (once(&versions[0], w) != once(&versions[1], w)) return fprintf(stderr, "the two answer differently: %s\n", titles[w]), 1;
        int times = 1 + (int)(BATCH_NS / batch(&versions[0], w, 100));
        double times_of[2][BATCHES], ratios[BATCHES];
        for (int i = 0; i < BATCHES; i++) {
            for (int k = 0; k < 2; k++) times_of[k][i] = batch(&versions[k], w, times);
            ratios[i] = times_of[1][i] / times_of[0][i];
        }
        printf("| %s | %.0f ns | %.0f ns | %.2f |\n", titles[w], median(times_of[0]), median(times_of[1]), median(ratios));
        fflush(stdout);
    }
    return 0;
}
