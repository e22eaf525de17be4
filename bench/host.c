/* The host of this library's side, of the hand-written loops and of memcpy. */
#include "measure.h"

#include <stdio.h>
#include <stdlib.h>

/* crates/bench_rounds: a slice is a pointer and a length. */
uint64_t glyphbirch_read_rounds(const uint8_t *view, size_t view_bytes, const uint8_t *file, size_t file_bytes, uint64_t size,
                                int64_t offset, uint64_t count, uint64_t rounds, uint8_t *buf, size_t buf_bytes);
uint64_t glyphbirch_write_rounds(const uint8_t *view, size_t view_bytes, uint8_t *file, size_t file_bytes, uint64_t size,
                                 int64_t offset, uint64_t count, uint64_t rounds, const uint8_t *buf, size_t buf_bytes);

enum { MAX_BODY = 8 * (8 + 2 * MAX_ENTRIES + 2 * MAX_ENTRIES * MAX_INSTANCES) + 6 };

static uint8_t *put(uint8_t *to, uint64_t number)
{
    for (int b = 0; b < 8; b++)
        *to++ = (uint8_t)(number >> 8 * b);
    return to;
}

/* The view as the body of a record of tag 36 (docs/conformance.md). Returns its length. */
static size_t body_of(const struct plain_view *v, uint8_t *body)
{
    const uint64_t head[8] = {0, v->D, v->E, v->F, v->n, v->n, v->n * v->K, v->n * v->K};
    uint8_t *end = body;
    for (int i = 0; i < 8; i++)
        end = put(end, head[i]);
    for (uint64_t e = 0; e < v->n; e++)
        end = put(end, v->widths[e]);
    for (uint64_t e = 0; e < v->n; e++)
        end = put(end, v->displacements[e]);
    for (uint64_t i = 0; i < v->K; i++)
        for (uint64_t e = 0; e < v->n; e++)
            end = put(end, v->widths[e]);
    for (uint64_t i = 0; i < v->K; i++)
        for (uint64_t e = 0; e < v->n; e++)
            end = put(end, v->origins[i] + v->displacements[e]);
    for (const char *c = "native"; *c; c++)
        *end++ = (uint8_t)*c;
    return (size_t)(end - body);
}

static void granted(uint64_t refusal)
{
    if (refusal == 0)
        return;
    fprintf(stderr, "refused with %llu\n", (unsigned long long)refusal);
    exit(1);
}

static void ours_read(const struct access *a, uint64_t rounds)
{
    uint8_t body[MAX_BODY];
    size_t bytes = body_of(a->view, body);
    granted(glyphbirch_read_rounds(body, bytes, a->file, a->file_bytes, a->file_bytes, 0, a->count, rounds, a->buf, a->buf_bytes));
}

static void ours_write(const struct access *a, uint64_t rounds)
{
    uint8_t body[MAX_BODY];
    size_t bytes = body_of(a->view, body);
    granted(glyphbirch_write_rounds(body, bytes, a->file, a->file_bytes, a->file_bytes, 0, a->count, rounds, a->buf, a->buf_bytes));
}

static void bytes_read(const struct access *a, uint64_t rounds)
{
    for (uint64_t r = 0; r < rounds; r++)
        gather_bytes(a->view, a->file, a->count, a->buf);
}

static void bytes_write(const struct access *a, uint64_t rounds)
{
    for (uint64_t r = 0; r < rounds; r++)
        scatter_bytes(a->view, a->file, a->count, a->buf);
}

static void entries_read(const struct access *a, uint64_t rounds)
{
    for (uint64_t r = 0; r < rounds; r++)
        gather_memcpy(a->view, a->file, a->count, a->buf);
}

static void entries_write(const struct access *a, uint64_t rounds)
{
    for (uint64_t r = 0; r < rounds; r++)
        scatter_memcpy(a->view, a->file, a->count, a->buf);
}

static void dense_read(const struct access *a, uint64_t rounds)
{
    for (uint64_t r = 0; r < rounds; r++)
        copy_payload(a->buf, a->file, a->buf_bytes);
}

static void dense_write(const struct access *a, uint64_t rounds)
{
    for (uint64_t r = 0; r < rounds; r++)
        copy_payload(a->file, a->buf, a->buf_bytes);
}

int main(int argc, char **argv)
{
    static const struct side sides[] = {
        {"ours", ours_read, ours_write, 0},
        {"bytes", bytes_read, bytes_write, 0},
        {"entries", entries_read, entries_write, 0},
        {"dense", dense_read, dense_write, 1},
    };
    return measure(argc, argv, sides, sizeof sides / sizeof sides[0]);
}
