#include "records.h"
#include <stdio.h>
#include <stdlib.h>

static void get(void *to, size_t size) {
    if (fread(to, 1, size, stdin) == size) return;
    printf("the stream of cases broke off\n");
    exit(1);
}

uint64_t number(void) {
    uint8_t b[8];
    uint64_t value = 0;
    get(b, sizeof b);
    for (int k = 8; k-- > 0;) value = value << 8 | b[k];
    return value;
}

void numbers(uint64_t *to, size_t count) {
    for (size_t k = 0; k < count; k++) to[k] = number();
}

void bytes(Slice *slice) {
    lend(slice, number());
    get(slice->at, slice->size);
}
