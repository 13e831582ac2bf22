#include "slices.h"
#include <stdio.h>
#include <stdlib.h>
#include <string.h>
#include <sys/mman.h>

enum { PAGE = 4096 };

static void out_of_memory(void) {
    fprintf(stderr, "runner: out of memory\n");
    exit(2);
}

#ifdef EXACT

void lend(Slice *slice, size_t size) {
    free(slice->at);
    slice->at = malloc(size);
    slice->size = size;
    if (!slice->at && size) out_of_memory();
}

void lock(const Slice *slice) { (void)slice; }
void unlock(const Slice *slice) { (void)slice; }

#else

/* Reserves room for the size with a page after it that may not be touched. */
static void reserve(Slice *slice, size_t size) {
    size_t room = (size / PAGE + 1) * PAGE;
    if (slice->reserved) munmap(slice->reserved, slice->room + PAGE);
    slice->reserved = mmap(NULL, room + PAGE, PROT_READ | PROT_WRITE, MAP_PRIVATE | MAP_ANONYMOUS, -1, 0);
    if (slice->reserved == MAP_FAILED || mprotect(slice->reserved + room, PAGE, PROT_NONE)) out_of_memory();
    slice->room = room;
}

void lend(Slice *slice, size_t size) {
    if (slice->room < size || !slice->reserved) reserve(slice, size);
    slice->at = slice->reserved + slice->room - size;
    slice->size = size;
}

static void protect(const Slice *slice, int how) {
    size_t before = (size_t)(slice->at - slice->reserved) / PAGE * PAGE;
    if (mprotect(slice->reserved + before, slice->room - before, how)) out_of_memory();
}

void lock(const Slice *slice) {
    if (slice->size) protect(slice, PROT_READ);
}

void unlock(const Slice *slice) {
    if (slice->size) protect(slice, PROT_READ | PROT_WRITE);
}

#endif

/* The eight bytes at a place (splitmix64). */
static uint64_t word(uint64_t seed, size_t place) {
    uint64_t z = seed + (place + 1) * 0x9E3779B97F4A7C15u;
    z = (z ^ z >> 30) * 0xBF58476D1CE4E5B9u;
    return z ^ z >> 27;
}

void lend_filled(Slice *slice, size_t size, uint64_t seed) {
    lend(slice, size);
    slice->seed = seed;
    for (size_t at = 0; at < size; at += 8) {
        uint64_t bytes = word(seed, at / 8);
        memcpy(slice->at + at, &bytes, size - at < 8 ? size - at : 8);
    }
}

int kept(const Slice *slice, size_t start) {
    for (size_t at = start / 8 * 8; at < slice->size; at += 8) {
        uint64_t bytes = word(slice->seed, at / 8);
        size_t from = at < start ? start - at : 0, to = slice->size - at < 8 ? slice->size - at : 8;
        if (memcmp(slice->at + at + from, (uint8_t *)&bytes + from, to - from)) return 0;
    }
    return 1;
}
