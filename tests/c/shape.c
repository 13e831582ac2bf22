#include "shape.h"
#include "limits.h"
#include <stdlib.h>
#include <string.h>

typedef struct { uint32_t low, high; uint8_t level; } Node;

static uint8_t reached[LONGEST];
static uint32_t open[LONGEST];
static Node nodes[LONGEST];

static int by_content(const void *a, const void *b) {
    const Node *x = a, *y = b;
    if (x->level != y->level) return x->level < y->level ? -1 : 1;
    if (x->low != y->low) return x->low < y->low ? -1 : 1;
    return x->high < y->high ? -1 : x->high > y->high;
}

static size_t visit(uint32_t entry, size_t waiting) {
    if (entry < 2 || reached[entry]) return waiting;
    reached[entry] = 1;
    open[waiting] = entry;
    return waiting + 1;
}

static int constant(const uint8_t *level, const uint32_t *low, const uint32_t *high, uint32_t entry) {
    return level[entry] == 255 && low[entry] == entry && high[entry] == entry;
}

const char *misshapen(const uint8_t *level, const uint32_t *low, const uint32_t *high, size_t length, const uint64_t *roots, size_t count) {
    size_t waiting = 0, found = 0;
    if (!constant(level, low, high, 0) || !constant(level, low, high, 1)) return "entries 0 and 1 are not the constants";
    memset(reached, 0, length);
    for (size_t k = 0; k < count; k++) {
        if (roots[k] >= length) return "a root is outside the table";
        waiting = visit((uint32_t)roots[k], waiting);
    }
    while (waiting > 0) {
        uint32_t at = open[--waiting], a = low[at], b = high[at];
        if (level[at] > LAST_LEVEL) return "a node's level is above the last";
        if (a >= length || b >= length) return "a child is outside the table";
        if (a == b) return "the table is not reduced";
        if (level[a] <= level[at] || level[b] <= level[at]) return "the table is not ordered";
        nodes[found++] = (Node){a, b, level[at]};
        waiting = visit(b, visit(a, waiting));
    }
    qsort(nodes, found, sizeof *nodes, by_content);
    for (size_t k = 1; k < found; k++)
        if (by_content(&nodes[k - 1], &nodes[k]) == 0) return "the table has duplicates";
    return NULL;
}
