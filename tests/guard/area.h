/*
 * Memory between two pages that may not be touched, to lend to a call: any
 * access outside kills the process.
 */
#ifndef AREA_H
#define AREA_H

#include <stddef.h>
#include <stdint.h>

/* Where in the area a buffer lies: its end, or its start, is that of the area. */
enum flush { FLUSH_WITH_END, FLUSH_WITH_START };

struct area {
    uint8_t *data; /* behind a forbidden page, and a forbidden page behind it */
    size_t size;   /* whole pages */
};

/* At least `least` bytes; ends the process if there is no memory. */
struct area area_new(size_t least);

/* The place of a buffer of `length` bytes, which must fit. */
uint8_t *area_place(struct area area, size_t length, enum flush flush);

/* From now on the area may be read only, or written again. */
void area_read_only(struct area area);
void area_writable(struct area area);

#endif
