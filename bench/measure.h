/* What every host does with the sides that it has: each makes the same access R times. */
#ifndef MEASURE_H
#define MEASURE_H

#include "loops.h"

struct access {
    const struct plain_view *view;
    uint8_t *file;
    size_t file_bytes;
    uint8_t *buf;
    size_t buf_bytes; /* count times S */
    uint64_t count;
    int whole; /* the count is a number of whole tiles; else it is one etype */
};

struct side {
    const char *name;
    void (*read)(const struct access *a, uint64_t rounds);
    void (*write)(const struct access *a, uint64_t rounds);
    int dense; /* it moves the payload as one run, not through the view */
};

/* argv: time NANOSECONDS REPEATS PAYLOADS.. / VIEW..  or  count PAYLOADS.. / VIEW..
   Prints a line for each cell: payload, access, side, etypes, checksum of what it left, then nanoseconds an access for each repeat. */
int measure(int argc, char **argv, const struct side *sides, int side_count);

#endif
