/* Reads the records that `oracle stream` writes to standard input. */
#ifndef RECORDS_H
#define RECORDS_H

#include "slices.h"

enum { TEXT = 1, PAIR, CALL, SHOWN, TABLE, ASK, END };

/* The next number; a stream that breaks off ends the run with a failure. */
uint64_t number(void);

void numbers(uint64_t *to, size_t count);

/* The next bytes, which follow their number. */
void bytes(Slice *slice);

#endif
