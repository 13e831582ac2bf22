/* Whether a table is what a verdict leaves. */
#ifndef SHAPE_H
#define SHAPE_H

#include <stddef.h>
#include <stdint.h>

/* NULL if entries 0 and 1 are the constants and all that the roots reach is ordered, reduced and without duplicates; else what is wrong. */
const char *misshapen(const uint8_t *level, const uint32_t *low, const uint32_t *high, size_t length, const uint64_t *roots, size_t count);

#endif
