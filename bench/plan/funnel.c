/* The funnel as a C programmer would first write it, for the words of `vodserve plan trace=NAME buffer=BYTES startup=SLOTS` on a good
 * trace: it reads the trace whole and checks nothing but its length, makes both curves in one pass, compares slopes in 128 bits and
 * prints the certificate. `cc -O2 funnel.c`. The words come in this order, and none may be left out. */
#include <inttypes.h>
#include <stdio.h>
#include <stdlib.h>
#include <string.h>

typedef struct {
    int64_t place, height;
} point;

/* The points of a chain from `head` up to `tail`. */
typedef struct {
    point *points;
    size_t head, tail;
} chain;

static point apex;

/* Whether the slope from `from` to `a` is at most that from `from` to `b`. */
static inline int is_flat_as(point from, point a, point b) {
    return (__int128)(a.height - from.height) * (b.place - from.place) <= (__int128)(b.height - from.height) * (a.place - from.place);
}

static inline point before_last(const chain *c) { return c->tail - c->head > 1 ? c->points[c->tail - 2] : apex; }

static void bend_at(point corner, FILE *out) {
    fprintf(out, "segment %" PRId64 " %" PRId64 "\n", corner.place - apex.place, corner.height - apex.height);
    apex = corner;
}

/* The sizes of a trace: digits, and any other byte between them. */
static size_t read_trace(const char *text, size_t len, uint64_t *sizes, uint64_t *total) {
    size_t count = 0;
    const char *at = text, *end = text + len;
    while (at < end) {
        uint64_t size = (unsigned char)*at++ - '0';
        if (size > 9) continue;
        for (unsigned digit; at < end && (digit = (unsigned)(*at - '0')) <= 9; at++) size = size * 10 + digit;
        sizes[count++] = size;
        *total += size;
    }
    return count;
}

int main(int argc, char **argv) {
    if (argc != 5) return 2;
    FILE *file = fopen(argv[2] + strlen("trace="), "rb");
    uint64_t buffer = strtoull(argv[3] + strlen("buffer="), 0, 10), startup = strtoull(argv[4] + strlen("startup="), 0, 10);
    if (!file || fseek(file, 0, SEEK_END)) return 3;
    size_t len = (size_t)ftell(file);
    rewind(file);
    char *text = malloc(len);
    len = fread(text, 1, len, file);
    uint64_t total = 0, used = 0, *sizes = malloc(sizeof(uint64_t) * (len / 2 + 1));
    size_t count = read_trace(text, len, sizes, &total), slots = count + startup;
    uint64_t *low = malloc(sizeof(uint64_t) * slots), *up = malloc(sizeof(uint64_t) * slots);
    for (size_t slot = 0; slot < slots; slot++) {
        up[slot] = used + buffer < total ? used + buffer : total;
        if (slot >= startup) used += sizes[slot - startup];
        low[slot] = used;
    }
    printf("smooth 1\nslots %zu\nbytes %" PRIu64 "\n", slots, total);
    chain lower = {malloc(sizeof(point) * slots), 0, 0}, upper = {malloc(sizeof(point) * slots), 0, 0};
    for (size_t slot = 0; slot < slots; slot++) {
        point l = {(int64_t)slot + 1, (int64_t)low[slot]}, u = {(int64_t)slot + 1, (int64_t)up[slot]};
        while (lower.tail > lower.head && is_flat_as(before_last(&lower), lower.points[lower.tail - 1], l)) lower.tail--;
        lower.points[lower.tail++] = l;
        while (upper.tail > upper.head && !is_flat_as(apex, l, upper.points[upper.head])) bend_at(upper.points[upper.head++], stdout);
        while (upper.tail > upper.head && is_flat_as(before_last(&upper), u, upper.points[upper.tail - 1])) upper.tail--;
        upper.points[upper.tail++] = u;
        while (lower.tail > lower.head && !is_flat_as(apex, lower.points[lower.head], u)) bend_at(lower.points[lower.head++], stdout);
    }
    bend_at((point){(int64_t)slots, (int64_t)up[slots - 1]}, stdout);
    puts("end");
    return 0;
}
