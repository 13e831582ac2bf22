/* Lent memory. A slice ends where a page begins that may not be touched, so that an access past its end stops the run. Built with -DEXACT each slice is a
   block of its own size instead, for AddressSanitizer and valgrind. */
#ifndef SLICES_H
#define SLICES_H

#include <stddef.h>
#include <stdint.h>

typedef struct {
    uint8_t *at;
    size_t size; /* in bytes */
    size_t room; /* of the reserved memory, in bytes; 0 where nothing is reserved */
    uint8_t *reserved;
    uint64_t seed; /* of the bytes that it was filled with */
} Slice;

/* Makes the slice this long. Its content is free; what it held before is lost. */
void lend(Slice *slice, size_t size);

/* Makes the slice this long, filled with bytes that follow from the seed. */
void lend_filled(Slice *slice, size_t size, uint64_t seed);

/* Whether each byte from `start` on is as lend_filled left it. */
int kept(const Slice *slice, size_t start);

/* Until unlocked, a write to the slice stops the run (not where built with -DEXACT). */
void lock(const Slice *slice);
void unlock(const Slice *slice);

#endif
