/* Times or counts each access of each side: two numbers of rounds, the difference being the access without its set-up. */
#include "measure.h"

#include <inttypes.h>
#include <stdio.h>
#include <stdlib.h>
#include <string.h>
#include <time.h>

#ifdef WITH_CALLGRIND
#include <valgrind/callgrind.h>
#else
#define CALLGRIND_DUMP_STATS_AT(label) (void)(label)
#endif

enum { MAX_REPEATS = 64, MAX_SIDES = 8, LEAST_ROUNDS = 6 };

/* Processor time: what other programs take of a shared machine is not in it. */
static double now(void)
{
    struct timespec t;
    clock_gettime(CLOCK_PROCESS_CPUTIME_ID, &t);
    return (double)t.tv_sec * 1e9 + (double)t.tv_nsec;
}

static void run(const struct side *s, const struct access *a, int writing, uint64_t rounds)
{
    (writing ? s->write : s->read)(a, rounds);
}

static double timed(const struct side *s, const struct access *a, int writing, uint64_t rounds)
{
    double begin = now();
    run(s, a, writing, rounds);
    return now() - begin;
}

static void refill(const struct access *a)
{
    fill_bytes(a->file, a->file_bytes, 1);
    fill_bytes(a->buf, a->buf_bytes, 2);
}

/* One access on fresh bytes, so that every page is present, and the checksum of what it wrote into. */
static uint64_t result_of(const struct side *s, const struct access *a, int writing)
{
    refill(a);
    run(s, a, writing, 1);
    if (s->dense && memcmp(a->file, a->buf, a->buf_bytes) != 0) {
        fprintf(stderr, "%s did not copy the payload\n", s->name);
        exit(1);
    }
    return writing ? checksum(a->file, a->file_bytes) : checksum(a->buf, a->buf_bytes);
}

/* How many rounds take about so many nanoseconds; at least enough that the difference is of several accesses. */
static uint64_t rounds_for(const struct side *s, const struct access *a, int writing, double nanoseconds)
{
    uint64_t rounds = 1;
    double t = timed(s, a, writing, rounds);
    while (t < nanoseconds / 8) {
        rounds *= 4;
        t = timed(s, a, writing, rounds);
    }
    uint64_t wanted = (uint64_t)((double)rounds * nanoseconds / t);
    return wanted < LEAST_ROUNDS ? LEAST_ROUNDS : wanted;
}

static void print_cell(const char *payload, const struct side *s, const struct access *a, int writing, uint64_t sum)
{
    printf("%s %s %s %" PRIu64 " %s%" PRIx64, payload, writing ? "write" : "read", s->name, a->count, s->dense ? "-" : "", sum);
}

static void time_sides(const char *payload, const struct side *sides, int side_count, const struct access *a, int writing, double nanoseconds, int repeats)
{
    static double per_access[MAX_SIDES][MAX_REPEATS];
    uint64_t many[MAX_SIDES], sum[MAX_SIDES];
    for (int s = 0; s < side_count; s++) {
        sum[s] = result_of(&sides[s], a, writing);
        many[s] = rounds_for(&sides[s], a, writing, nanoseconds);
    }
    for (int k = 0; k < repeats; k++)
        for (int s = 0; s < side_count; s++) {
            uint64_t few = many[s] / 8 + 1;
            double low = timed(&sides[s], a, writing, few);
            double high = timed(&sides[s], a, writing, many[s]);
            per_access[s][k] = (high - low) / (double)(many[s] - few);
        }
    for (int s = 0; s < side_count; s++) {
        print_cell(payload, &sides[s], a, writing, sum[s]);
        for (int k = 0; k < repeats; k++)
            printf(" %.3f", per_access[s][k]);
        printf("\n");
    }
}

/* Marks callgrind's counts before and after two runs; compare takes the difference. */
static void count_sides(const char *payload, const struct side *sides, int side_count, const struct access *a, int writing)
{
    const uint64_t rounds[2] = {1, a->whole ? 2 : 101};
    for (int s = 0; s < side_count; s++) {
        uint64_t sum = result_of(&sides[s], a, writing);
        for (int k = 0; k < 2; k++) {
            char label[128];
            snprintf(label, sizeof label, "%s %s %s %" PRIu64, payload, writing ? "write" : "read", sides[s].name, rounds[k]);
            CALLGRIND_DUMP_STATS_AT("between");
            run(&sides[s], a, writing, rounds[k]);
            CALLGRIND_DUMP_STATS_AT(label);
        }
        print_cell(payload, &sides[s], a, writing, sum);
        printf("\n");
    }
}

/* The access of so many payload bytes: whole tiles, or one etype for "etype". */
static struct access access_of(const struct plain_view *v, const char *payload)
{
    uint64_t bytes = strtoull(payload, NULL, 10), tiles = bytes / (v->S * v->K);
    struct access a = {.view = v, .whole = bytes != 0, .count = bytes ? tiles * v->K : 1};
    uint64_t reach = 0;
    for (uint64_t e = 0; e < v->n; e++)
        if (v->displacements[e] + v->widths[e] > reach)
            reach = v->displacements[e] + v->widths[e];
    a.buf_bytes = a.count * v->S;
    a.file_bytes = v->D + (bytes ? tiles : 1) * v->F + v->origins[v->K - 1] + reach;
    if (a.file_bytes < a.buf_bytes)
        a.file_bytes = a.buf_bytes;
    a.file = malloc(a.file_bytes);
    a.buf = malloc(a.buf_bytes);
    if (!a.file || !a.buf) {
        fprintf(stderr, "no memory for a file of %zu bytes\n", a.file_bytes);
        exit(1);
    }
    return a;
}

int measure(int argc, char **argv, const struct side *sides, int side_count)
{
    struct plain_view v;
    int timing = argc > 1 && strcmp(argv[1], "time") == 0;
    int first = timing ? 4 : 2, slash = first;
    while (slash < argc && strcmp(argv[slash], "/") != 0)
        slash++;
    if (slash >= argc || side_count > MAX_SIDES || !view_from_text(&v, argc - slash - 1, argv + slash + 1)) {
        fprintf(stderr, "usage: %s time NANOSECONDS REPEATS PAYLOADS.. / VIEW.. | count PAYLOADS.. / VIEW..\n", argv[0]);
        return 2;
    }
    int repeats = timing ? atoi(argv[3]) : 0;
    for (int p = first; p < slash; p++) {
        struct access a = access_of(&v, argv[p]);
        for (int writing = 0; writing < 2; writing++)
            if (timing)
                time_sides(argv[p], sides, side_count, &a, writing, atof(argv[2]), repeats < MAX_REPEATS ? repeats : MAX_REPEATS);
            else
                count_sides(argv[p], sides, side_count, &a, writing);
        free(a.file);
        free(a.buf);
    }
    return 0;
}
