/* The hand-written loops, in a translation unit of their own: the compiler sees no view when it compiles them. */
#include "loops.h"

#include <stdlib.h>
#include <string.h>

static int list_from_text(uint64_t *list, uint64_t length, uint64_t most, int *at, int numbers, char **text)
{
    if (length > most || *at + (int)length > numbers)
        return 0;
    for (uint64_t i = 0; i < length; i++)
        list[i] = strtoull(text[(*at)++], NULL, 10);
    return 1;
}

int view_from_text(struct plain_view *v, int numbers, char **text)
{
    uint64_t last[2];
    int at = 0;
    if (!list_from_text(&v->n, 1, 1, &at, numbers, text) || !list_from_text(v->widths, v->n, MAX_ENTRIES, &at, numbers, text) ||
        !list_from_text(v->displacements, v->n, MAX_ENTRIES, &at, numbers, text) ||
        !list_from_text(&v->E, 1, 1, &at, numbers, text) || !list_from_text(&v->K, 1, 1, &at, numbers, text) ||
        !list_from_text(v->origins, v->K, MAX_INSTANCES, &at, numbers, text) || !list_from_text(last, 2, 2, &at, numbers, text))
        return 0;
    v->F = last[0];
    v->D = last[1];
    v->S = 0;
    for (uint64_t e = 0; e < v->n; e++)
        v->S += v->widths[e];
    return at == numbers;
}

void gather_bytes(const struct plain_view *v, const uint8_t *file, uint64_t count, uint8_t *buf)
{
    const uint64_t n = v->n, K = v->K, F = v->F;
    const uint8_t *tile = file + v->D;
    for (uint64_t moved = 0; moved < count; tile += F)
        for (uint64_t i = 0; i < K && moved < count; i++, moved++)
            for (uint64_t e = 0; e < n; e++) {
                const uint8_t *from = tile + v->origins[i] + v->displacements[e];
                const uint64_t width = v->widths[e];
                for (uint64_t b = 0; b < width; b++)
                    buf[b] = from[b];
                buf += width;
            }
}

void gather_memcpy(const struct plain_view *v, const uint8_t *file, uint64_t count, uint8_t *buf)
{
    const uint64_t n = v->n, K = v->K, F = v->F;
    const uint8_t *tile = file + v->D;
    for (uint64_t moved = 0; moved < count; tile += F)
        for (uint64_t i = 0; i < K && moved < count; i++, moved++)
            for (uint64_t e = 0; e < n; e++) {
                const uint64_t width = v->widths[e];
                memcpy(buf, tile + v->origins[i] + v->displacements[e], width);
                buf += width;
            }
}

void scatter_bytes(const struct plain_view *v, uint8_t *file, uint64_t count, const uint8_t *buf)
{
    const uint64_t n = v->n, K = v->K, F = v->F;
    uint8_t *tile = file + v->D;
    for (uint64_t moved = 0; moved < count; tile += F)
        for (uint64_t i = 0; i < K && moved < count; i++, moved++)
            for (uint64_t e = 0; e < n; e++) {
                uint8_t *to = tile + v->origins[i] + v->displacements[e];
                const uint64_t width = v->widths[e];
                for (uint64_t b = 0; b < width; b++)
                    to[b] = buf[b];
                buf += width;
            }
}

void scatter_memcpy(const struct plain_view *v, uint8_t *file, uint64_t count, const uint8_t *buf)
{
    const uint64_t n = v->n, K = v->K, F = v->F;
    uint8_t *tile = file + v->D;
    for (uint64_t moved = 0; moved < count; tile += F)
        for (uint64_t i = 0; i < K && moved < count; i++, moved++)
            for (uint64_t e = 0; e < n; e++) {
                const uint64_t width = v->widths[e];
                memcpy(tile + v->origins[i] + v->displacements[e], buf, width);
                buf += width;
            }
}

void copy_payload(uint8_t *to, const uint8_t *from, size_t bytes)
{
    memcpy(to, from, bytes);
}

void fill_bytes(uint8_t *run, size_t bytes, uint64_t seed)
{
    for (size_t i = 0; i < bytes; i++)
        run[i] = (uint8_t)(seed + 7 * i + i / 256);
}

uint64_t checksum(const uint8_t *run, size_t bytes)
{
    uint64_t sum = 0xcbf29ce484222325u;
    for (size_t i = 0; i < bytes; i++)
        sum = (sum ^ run[i]) * 0x100000001b3u;
    return sum;
}
