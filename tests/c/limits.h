/* The limits of document 01 as document 02's point 1 left them, and the numbers of an answer as points 2 and 6 did. */
#ifndef LIMITS_H
#define LIMITS_H

/* Bits of a line's process, and what follows from them: state codes are below CODES, and a node's level is at most LAST_LEVEL. */
enum { MAX_BITS = 24, CODES = 1 << MAX_BITS, LAST_LEVEL = 5 + 6 * MAX_BITS };

/* What MAX_BITS was before point 1, for faults that keep to it. */
enum { FORMER_BITS = 20, FORMER_CODES = 1 << FORMER_BITS, FORMER_LAST_LEVEL = 5 + 6 * FORMER_BITS };

/* Entries of the longest table; lines and bytes of the longest text. */
enum { LONGEST = 1 << 20, MAX_LINES = 64, LONGEST_TEXT = 32704 };

/* What a call returns, and a verdict's values. */
enum { ANSWERED = 0, REFUSED = 2, SHORT = 3 };
enum { EQUAL = 0, DIFFERENT = 1, UNDECIDED = 9 };

/* Words of a comparison's answer: two roots, for each mode a verdict, its rounds and its iterate's root, then the nodes of the whole list, up to the
   relations and up to the weak answers, which stand with 8 too; and of what is told of a model. */
enum { LEFT_ROOT = 0, RIGHT_ROOT = 1, STRONG = 2, WEAK = 5, ROUNDS = 1, ROOT = 2, NODES = 8, RELATIONS = 9, ANSWERS = 10, NUMBERS = 3, WORDS = 12 };
enum { MODEL_WORDS = 6 };

#endif
