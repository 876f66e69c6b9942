/* A plain C program that answers as `vodserve plan trace=NAME buffer=BYTES startup=SLOTS` does on a good trace: it reads the trace
 * whole, makes the curves, runs the funnel over arrays in 64 bits and prints the certificate. Nothing of it is proved; it is there
 * to be measured beside the proved program. `cc -O2 plan.c`. The words come in this order, and none may be left out. */
#include <inttypes.h>
#include <stdio.h>
#include <stdlib.h>
#include <string.h>

/* Place k is the end of slot k - 1, place 0 the start. */
typedef struct {
    uint64_t place, height;
} point;

/* The points of a chain from `head` up to `tail`. */
typedef struct {
    point *points;
    size_t head, tail;
} chain;

typedef struct {
    uint64_t slots, bytes;
} segment;

static point apex;
static segment *segments;
static size_t count;

/* By how much the middle point stands above the line from the first to the last, times the places between these. */
static inline int64_t above(point first, point middle, point last) {
    return (int64_t)(middle.height - first.height) * (int64_t)(last.place - first.place) -
           (int64_t)(last.height - first.height) * (int64_t)(middle.place - first.place);
}

static inline point before_last(const chain *c) { return c->tail - c->head > 1 ? c->points[c->tail - 2] : apex; }

static void bend_at(point corner) {
    segments[count].slots = corner.place - apex.place;
    segments[count++].bytes = corner.height - apex.height;
    apex = corner;
}

static inline int is_blank(char byte) { return byte == ' ' || byte == '\t' || byte == '\r' || byte == '\n'; }

/* The sizes of a trace of that many bytes; exits where it is none. */
static uint64_t *read_trace(const char *text, size_t len, size_t *sizes_count, uint64_t *total) {
    uint64_t *sizes = malloc(sizeof(uint64_t) * (len / 2 + 1));
    size_t sizes_read = 0, at = 0;
    for (;;) {
        while (at < len && is_blank(text[at])) at++;
        if (at == len) break;
        uint64_t size = 0;
        while (at < len && !is_blank(text[at])) {
            unsigned digit = (unsigned)(text[at++] - '0');
            if (digit > 9 || (size = size * 10 + digit) > (uint64_t)1 << 32) exit(3);
        }
        sizes[sizes_read++] = size;
        *total += size;
    }
    if (sizes_read == 0 || sizes_read > 1000000 || *total > (uint64_t)1 << 40) exit(3);
    *sizes_count = sizes_read;
    return sizes;
}

static char *put(char *text, uint64_t number) {
    char digits[20];
    int at = 20;
    do digits[--at] = (char)('0' + number % 10);
    while (number /= 10);
    memcpy(text, digits + at, (size_t)(20 - at));
    return text + (20 - at);
}

static void print_certificate(size_t slots, uint64_t total) {
    char *text = malloc(64 * (count + 4)), *end = text;
    end += sprintf(end, "smooth 1\nslots %zu\nbytes %" PRIu64 "\n", slots, total);
    for (size_t i = 0; i < count; i++) {
        memcpy(end, "segment ", 8);
        end = put(end + 8, segments[i].slots);
        *end++ = ' ';
        end = put(end, segments[i].bytes);
        *end++ = '\n';
    }
    memcpy(end, "end\n", 4);
    fwrite(text, 1, (size_t)(end + 4 - text), stdout);
}

int main(int argc, char **argv) {
    if (argc != 5) return 2;
    const char *name = argv[2] + strlen("trace=");
    uint64_t buffer = strtoull(argv[3] + strlen("buffer="), 0, 10), startup = strtoull(argv[4] + strlen("startup="), 0, 10);
    FILE *file = fopen(name, "rb");
    if (!file || fseek(file, 0, SEEK_END)) return 3;
    long size = ftell(file);
    rewind(file);
    char *text = malloc((size_t)size);
    size_t len = fread(text, 1, (size_t)size, file), sizes_count;
    uint64_t total = 0, used = 0, *sizes = read_trace(text, len, &sizes_count, &total);
    free(text);
    size_t slots = sizes_count + startup;
    if (slots > 1000000) return 3;
    uint64_t *low = malloc(sizeof(uint64_t) * slots), *up = malloc(sizeof(uint64_t) * slots);
    for (size_t slot = 0; slot < slots; slot++) {
        up[slot] = used + buffer < total ? used + buffer : total;
        if (slot >= startup) {
            if (sizes[slot - startup] > buffer) return 3;
            used += sizes[slot - startup];
        }
        low[slot] = used;
    }
    chain lower = {malloc(sizeof(point) * slots), 0, 0}, upper = {malloc(sizeof(point) * slots), 0, 0};
    segments = malloc(sizeof(segment) * (slots + 1));
    for (size_t slot = 0; slot < slots; slot++) {
        point l = {slot + 1, low[slot]}, u = {slot + 1, up[slot]};
        while (lower.tail > lower.head && above(before_last(&lower), lower.points[lower.tail - 1], l) <= 0) lower.tail--;
        lower.points[lower.tail++] = l;
        while (upper.tail > upper.head && above(apex, upper.points[upper.head], l) < 0) bend_at(upper.points[upper.head++]);
        while (upper.tail > upper.head && above(before_last(&upper), upper.points[upper.tail - 1], u) >= 0) upper.tail--;
        upper.points[upper.tail++] = u;
        while (lower.tail > lower.head && above(apex, lower.points[lower.head], u) > 0) bend_at(lower.points[lower.head++]);
    }
    bend_at((point){slots, up[slots - 1]});
    print_certificate(slots, total);
    return 0;
}
