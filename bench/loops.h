/* A view as plain arrays, and the loops that a programmer would write by hand for it. */
#ifndef LOOPS_H
#define LOOPS_H

#include <stddef.h>
#include <stdint.h>

enum { MAX_ENTRIES = 8, MAX_INSTANCES = 64 };

struct plain_view {
    uint64_t n; /* entries of the etype */
    uint64_t widths[MAX_ENTRIES];
    uint64_t displacements[MAX_ENTRIES];
    uint64_t E; /* extent of the etype, which no loop needs */
    uint64_t K; /* instances in the filetype */
    uint64_t origins[MAX_INSTANCES];
    uint64_t F; /* extent of the filetype */
    uint64_t D; /* view displacement */
    uint64_t S; /* data bytes of an etype */
};

/* A view's numbers, n widths displacements E K origins F D, as text. Returns 0 if they are not all there. */
int view_from_text(struct plain_view *v, int numbers, char **text);

/* The first `count` etypes of the view, from the file into the packed buffer, and back. Nothing is tested. */
void gather_bytes(const struct plain_view *v, const uint8_t *file, uint64_t count, uint8_t *buf);
void gather_memcpy(const struct plain_view *v, const uint8_t *file, uint64_t count, uint8_t *buf);
void scatter_bytes(const struct plain_view *v, uint8_t *file, uint64_t count, const uint8_t *buf);
void scatter_memcpy(const struct plain_view *v, uint8_t *file, uint64_t count, const uint8_t *buf);

/* The payload as one run. */
void copy_payload(uint8_t *to, const uint8_t *from, size_t bytes);

/* Bytes that are the same in every host, and a checksum (FNV-1a). */
void fill_bytes(uint8_t *run, size_t bytes, uint64_t seed);
uint64_t checksum(const uint8_t *run, size_t bytes);

#endif
